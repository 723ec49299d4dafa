/*
 * A timetable: how many turns tickets need, from each of their steps on and after a power cut.
 *
 *     turns
 *
 * A line for each step has the turns from there to the end, that step included: one number, or the fewest and the most
 * where a skip lies ahead, since which way it goes is known only when it is made. Then the steps that are gone through
 * are known, and their turns. At last the power goes after so many turns of the ticket: what is left is asked after the
 * recovery, and the turns that bring the ticket to its end are counted.
 *
 * Turns in which a desk waits for a bay come on top. Here there is one desk, so none waits.
 *
 *     cc -std=c99 turns.c $(pkg-config --cflags --libs zilpanud) -o turns
 */
#include <zilpanud.h>

#include <inttypes.h>
#include <stdio.h>
#include <stdlib.h>

#define WORDS ZILPANUD_IMAGE_WORDS(1)
#define DO ZILPANUD_INSTRUCTION

struct ticket {
    const uint64_t *words;
    const char *const *said;    /* each step, in the planners' words */
    size_t steps;
    uint64_t args[ZILPANUD_ARGS];
};

/* ---- two tickets */

static const uint64_t set_words[] = {
    DO(ZILPANUD_ACQUIRE, 3, 0, 0), DO(ZILPANUD_SET, 24, 0, 5), DO(ZILPANUD_RELEASE, 3, 0, 0),
    DO(ZILPANUD_FINISH, 0, 0, 0),
};
static const char *const set_said[] = {"take 3", "word 24 := 5", "drop 3", "end"};

/* Moves word 512 boxes from bay 3 to bay 5, if there are so many. Word 519 is 0, so step 4 always skips; but the
 * timetable does not look at words, and counts both ways of it. */
static const uint64_t move_words[] = {
    DO(ZILPANUD_ACQUIRE, 3, 0, 0), DO(ZILPANUD_ACQUIRE, 5, 0, 0), DO(ZILPANUD_LESS, 514, 24, 512),
    DO(ZILPANUD_JUMP, 514, 5, 0), DO(ZILPANUD_JUMP, 519, 7, 0), DO(ZILPANUD_SUBTRACT, 24, 24, 512),
    DO(ZILPANUD_ADD, 40, 40, 512), DO(ZILPANUD_RELEASE, 5, 0, 0), DO(ZILPANUD_RELEASE, 3, 0, 0),
    DO(ZILPANUD_FINISH, 0, 0, 0),
};
static const char *const move_said[] = {
    "take 3", "take 5", "word 514 := 1 if there are too few", "enough: skip to step 5", "too few: skip to step 7",
    "word 24 := word 24 - word 512", "word 40 := word 40 + word 512", "drop 5", "drop 3", "end",
};
static const uint64_t enough[] = {0, 1, 2, 3, 5, 6, 7, 8, 9};
static const uint64_t too_few[] = {0, 1, 2, 3, 4, 7, 8, 9};

/* ---- what is asked */

/* Ends the program where a call was refused. */
static void must(uint64_t answer, const char *call)
{
    if (answer != ZILPANUD_DONE) {
        fprintf(stderr, "turns: %s: refused with %" PRIu64 ": %s\n", call, answer, zilpanud_text(answer));
        exit(1);
    }
}

static void print_needs(uint64_t fewest, uint64_t most)
{
    printf("%" PRIu64, fewest);
    if (most != fewest) {
        printf(" to %" PRIu64, most);
    }
}

/* What a ticket needs from each step on. */
static void timetable(const struct ticket *ticket)
{
    for (size_t i = 0; i < ticket->steps; i++) {
        uint64_t fewest, most, detail;
        must(zilpanud_turns_from(ticket->words, ticket->steps, i, &fewest, &most, &detail), "turns from a step");
        printf("  step %zu  %-36s", i, ticket->said[i]);
        print_needs(fewest, most);
        printf("\n");
    }
}

/* What it takes if these are the steps that it goes through. */
static void along(const struct ticket *ticket, const char *which, const uint64_t *path, size_t count)
{
    uint64_t turns, detail;
    must(zilpanud_turns_of_path(ticket->words, ticket->steps, path, count, &turns, &detail), "turns of a path");
    printf("  %s: %" PRIu64 "\n", which, turns);
}

/* What is left of it if the power goes after so many turns, and what it then takes. */
static void cut_after(const struct ticket *ticket, int turns_made)
{
    static uint64_t image[WORDS];    /* the board: here goes memory that a battery keeps */
    uint8_t step[ZILPANUD_WORKERS], turn[ZILPANUD_WORKERS];
    uint64_t held, detail, fewest, most, tally[ZILPANUD_TALLY_WORDS];
    must(zilpanud_format(image, WORDS, 1, step, turn, &held, ZILPANUD_ALL), "format");
    must(zilpanud_submit(image, WORDS, step, turn, &held, 0, 1, ticket->args, ticket->words, ticket->steps,
                         ZILPANUD_ALL, &detail), "submit");
    for (int i = 0; i < turns_made; i++) {
        zilpanud_turn(image, WORDS, step, turn, &held, 0, ZILPANUD_ALL, &detail);
    }
    /* the power goes: step, turn and held are lost, and the recovery makes them anew */
    must(zilpanud_recover(image, WORDS, step, turn, &held, ZILPANUD_ALL, &detail), "recover");
    must(zilpanud_turns_left(image, WORDS, 0, &fewest, &most), "turns left");
    must(zilpanud_run(image, WORDS, step, turn, &held, 384, tally, ZILPANUD_ALL, &detail), "run");
    printf("  power goes after %d turns: ", turns_made);
    print_needs(fewest, most);
    printf(" left, and it takes %" PRIu64 "\n", tally[ZILPANUD_TALLY_TURNS] - tally[ZILPANUD_TALLY_WAITS]);
}

int main(void)
{
    const struct ticket set = {set_words, set_said, sizeof set_words / sizeof *set_words, {0}};
    const struct ticket move = {move_words, move_said, sizeof move_words / sizeof *move_words, {7}};
    /* header and archive may be of different installs; only the patch may differ */
    if (zilpanud_version() / 1000 != ZILPANUD_VERSION / 1000) {
        fprintf(stderr, "turns: built for version %d, linked with %" PRIu64 "\n", ZILPANUD_VERSION, zilpanud_version());
        return 1;
    }
    printf("the ticket of the papers, turns to the end:\n");
    timetable(&set);
    cut_after(&set, 4);     /* not begun: withdrawn */
    cut_after(&set, 5);
    cut_after(&set, 15);
    printf("a move of 7 boxes, if there are so many, turns to the end:\n");
    timetable(&move);
    along(&move, "with enough boxes", enough, sizeof enough / sizeof *enough);
    along(&move, "with too few", too_few, sizeof too_few / sizeof *too_few);
    cut_after(&move, 16);    /* the board is empty: too few */
    cut_after(&move, 24);
    return 0;
}
