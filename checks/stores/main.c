/*
 * The machine code's stores, watched one by one.
 *
 *     stores [right | pair | halves | order | missing]
 *
 * docs/DECISIONS.md ('The order of stores', 'A cut of a running call is that call given k') assumes that the compiler
 * makes the stores that the code makes: each a word, whole, in that order, and no other. This trial looks. A child
 * makes calls of every sort on an image in memory that it shares with its parent. The parent stops it after every
 * machine instruction and compares the image with the one before: an instruction may change one word and no more, and
 * the image must then be the one that the same call leaves of a copy when it is cut after its next store. So wherever
 * these calls are cut, the image is one of those that docs/CLAIMS.md speaks of. The words are full of junk at first,
 * so that a store in two halves shows. A store of what is there already does not show, and does no harm.
 *
 * It looks at the archive that is linked, and at the calls that script.c makes. It says nothing of what the processor
 * makes of an instruction, of other calls, or of the program board, which is compiled by itself.
 *
 * With a word, one submit is made by a stand-in (stand_in.h) in place of the library: the right one passes, and those
 * with a flaw must fail.
 *
 * Exits with 0 if all is as it should be; 1 at the first difference, with the call, the instruction's address (as in
 * objdump -d of this program) and the words; 2 if the trial itself is wrong; 77 if the system does not allow ptrace.
 */
#include "script.h"
#include "watch.h"

#include <inttypes.h>
#include <string.h>

static enum flaw flaw_named(const char *name)
{
    static const char *const names[] = {[RIGHT] = "right", "pair", "halves", "order", "missing"};
    for (enum flaw flaw = RIGHT; flaw <= MISSING; flaw++) {
        if (strcmp(name, names[flaw]) == 0) {
            return flaw;
        }
    }
    return NO_STAND_IN;
}

int main(int argc, char **argv)
{
    const enum flaw flaw = argc == 2 ? flaw_named(argv[1]) : NO_STAND_IN;
    if (argc > 2 || (argc == 2 && flaw == NO_STAND_IN)) {
        fprintf(stderr, "usage: stores [right | pair | halves | order | missing]\n");
        return 2;
    }
    if (!watch_start(flaw)) {
        fprintf(stderr, "stores: not run: this system does not allow ptrace\n");
        return 77;
    }
    if (flaw == NO_STAND_IN) {
        play();
    } else {
        play_submit();
    }
    const struct watched all = watch_end();
    printf("stores: %" PRIu64 " calls, %" PRIu64 " instructions, %" PRIu64 " stores made, %" PRIu64 " of them seen\n",
           all.calls, all.instructions, all.made, all.seen);
    return 0;
}
