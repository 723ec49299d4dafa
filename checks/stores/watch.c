#define _GNU_SOURCE

#include "watch.h"

#include <errno.h>
#include <inttypes.h>
#include <signal.h>
#include <stdlib.h>
#include <string.h>
#include <sys/mman.h>
#include <sys/ptrace.h>
#include <sys/user.h>
#include <sys/wait.h>
#include <unistd.h>

#define NOT_ALLOWED 77

/* Shared with the child, which is stopped whenever the parent reads or writes it. */
struct shared {
    struct call call;
    struct world world;
    volatile int done;
};

static struct shared *shared;
static pid_t child;
static struct watched so_far;

static void give_up(const char *what)
{
    fprintf(stderr, "stores: %s: %s\n", what, strerror(errno));
    exit(2);
}

/* ---- the child */

static void serve(enum flaw flaw)
{
    for (;;) {
        raise(SIGSTOP);
        if (flaw != NO_STAND_IN && shared->call.name == SUBMIT) {
            stand_in(&shared->call, &shared->world, flaw);
        } else {
            perform(&shared->call, &shared->world);
        }
        shared->done = 1;
    }
}

/* Waits until the child stops: 1 if by this signal, 0 if it ended since it may not be watched. */
static int stopped_by(int signal)
{
    int status;
    if (waitpid(child, &status, 0) != child) {
        give_up("waitpid");
    }
    if (WIFSTOPPED(status) && WSTOPSIG(status) == signal) {
        return 1;
    }
    if (WIFEXITED(status) && WEXITSTATUS(status) == NOT_ALLOWED) {
        return 0;
    }
    fprintf(stderr, "stores: the child was ended or stopped by something else (status %#x)\n", (unsigned)status);
    exit(2);
}

struct watched watch_end(void)
{
    kill(child, SIGKILL);
    waitpid(child, NULL, 0);
    return so_far;
}

int watch_start(enum flaw flaw)
{
    shared = mmap(NULL, sizeof *shared, PROT_READ | PROT_WRITE, MAP_SHARED | MAP_ANONYMOUS, -1, 0);
    if (shared == MAP_FAILED) {
        give_up("mmap");
    }
    child = fork();
    if (child < 0) {
        give_up("fork");
    }
    if (child == 0) {
        setpgid(0, 0);    /* no signals from the terminal */
        if (ptrace(PTRACE_TRACEME, 0, NULL, NULL) != 0) {
            _exit(NOT_ALLOWED);
        }
        serve(flaw);
    }
    if (!stopped_by(SIGSTOP)) {
        return 0;
    }
    /* when the parent goes, the child goes too; and one step is tried */
    if (ptrace(PTRACE_SETOPTIONS, child, NULL, (void *)PTRACE_O_EXITKILL) != 0 ||
        ptrace(PTRACE_SINGLESTEP, child, NULL, NULL) != 0) {
        watch_end();
        return 0;
    }
    return stopped_by(SIGTRAP);
}

/* ---- what the image should be after each store */

/* The images that a call, cut after more and more of its stores, leaves; of equal ones in a row, one. */
struct cuts {
    const struct call *call;
    const struct world *start;
    uint64_t stores;    /* of the uncut call */
    uint64_t cut;       /* the last cut tried */
    struct memory now;
};

static struct world uncut(const struct call *call, const struct world *start)
{
    struct world world = *start;
    perform(call, &world);
    return world;
}

/* Goes on to the next image that differs from the last one; 0 if there is none. */
static int next_cut(struct cuts *cuts)
{
    while (cuts->cut < cuts->stores) {
        struct world world = *cuts->start;
        cuts->cut++;
        world.left = cuts->cut;
        perform(cuts->call, &world);
        if (memcmp(&world.memory, &cuts->now, sizeof cuts->now) != 0) {
            cuts->now = world.memory;
            return 1;
        }
    }
    return 0;
}

/* ---- differences */

static const uint64_t *words_of(const struct memory *memory)
{
    return memory->before;
}

/* The words that were changed, or should have been: by their index in the image. */
static void tell_words(const struct memory *was, const struct memory *is, const struct memory *should)
{
    for (size_t i = 0; i < sizeof *was / sizeof(uint64_t); i++) {
        uint64_t a = words_of(was)[i];
        uint64_t b = words_of(is)[i];
        uint64_t c = words_of(should)[i];
        if (a != b || b != c) {
            fprintf(stderr, "  word %ld: was %016" PRIx64 ", is %016" PRIx64 ", should be %016" PRIx64 "\n",
                    (long)i - AROUND, a, b, c);
        }
    }
}

static void tell_call(const struct call *call)
{
    fprintf(stderr, "stores: call %" PRIu64 ", ", so_far.calls + 1);
    describe(stderr, call);
}

static size_t changed_words(const struct memory *was, const struct memory *is)
{
    size_t changed = 0;
    for (size_t i = 0; i < sizeof *was / sizeof(uint64_t); i++) {
        changed += words_of(was)[i] != words_of(is)[i];
    }
    return changed;
}

/* ---- stepping */

/* One machine instruction of the child; its address. */
static uint64_t step_once(void)
{
    errno = 0;
    long address = ptrace(PTRACE_PEEKUSER, child, (void *)offsetof(struct user, regs.rip), NULL);
    if (errno != 0) {
        give_up("the child's registers");
    }
    if (ptrace(PTRACE_SINGLESTEP, child, NULL, NULL) != 0) {
        give_up("a single step of the child");
    }
    if (!stopped_by(SIGTRAP)) {
        give_up("the child ended");
    }
    so_far.instructions++;
    return (uint64_t)address;
}

/* An instruction changed the image: it must be by one word, to the image after the next store. */
static void judge(struct cuts *cuts, uint64_t address, const struct memory *was, const struct memory *is)
{
    size_t changed = changed_words(was, is);
    int more = next_cut(cuts);
    if (changed == 1 && more && memcmp(is, &cuts->now, sizeof *is) == 0) {
        return;
    }
    tell_call(cuts->call);
    fprintf(stderr, ", instruction at %#" PRIx64 ": it changed %zu word%s, ", address, changed,
            changed == 1 ? "" : "s");
    if (more) {
        fprintf(stderr, "and the image is not that after store %" PRIu64 " of %" PRIu64 "\n", cuts->cut, cuts->stores);
    } else {
        fprintf(stderr, "and all %" PRIu64 " stores were made\n", cuts->stores);
    }
    tell_words(was, is, &cuts->now);
    exit(1);
}

/* The call is over: nothing may be missing, and all that it lent and answered is as in the parent's own call. */
static void judge_end(struct cuts *cuts, const struct world *should)
{
    const struct world *is = &shared->world;
    struct memory last = is->memory;
    if (next_cut(cuts)) {
        tell_call(cuts->call);
        fprintf(stderr, ": store %" PRIu64 " of %" PRIu64 " was not made\n", cuts->cut, cuts->stores);
        tell_words(&last, &last, &cuts->now);
        exit(1);
    }
    if (memcmp(is, should, sizeof *is) != 0) {
        tell_call(cuts->call);
        fprintf(stderr, ": its answer, cursors, tally, sets, turns, sums or stores left are not those of the same call "
                        "unwatched\n");
        exit(1);
    }
}

void watch(const struct call *call, struct world *world)
{
    world->left = UINT64_MAX;
    const struct world start = *world;
    const struct world should = uncut(call, &start);
    struct cuts cuts = {call, &start, UINT64_MAX - should.left, 0, start.memory};
    struct memory was = start.memory;
    shared->call = *call;
    shared->world = start;
    shared->done = 0;
    while (!shared->done) {
        uint64_t address = step_once();
        if (memcmp(&was, &shared->world.memory, sizeof was) != 0) {
            judge(&cuts, address, &was, &shared->world.memory);
            was = shared->world.memory;
            so_far.seen++;
        }
    }
    judge_end(&cuts, &should);
    so_far.calls++;
    so_far.made += cuts.stores;
    *world = should;
    /* on to where it waits for the next call */
    if (ptrace(PTRACE_CONT, child, NULL, NULL) != 0 || !stopped_by(SIGSTOP)) {
        give_up("the child");
    }
}
