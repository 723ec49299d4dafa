/*
 * The header, as C99 and as C++17: every macro and every call of it is used, and what it says of the archive is tried
 * (the turns that a section takes in header_turns.c, recorded days in header_day.c). Exits with 1 at the first thing
 * that is not so.
 */
#include "header_again.h"

#include <stdio.h>
#include <stdlib.h>
#include <string.h>
#include <zilpanud.h>

/* ---- what must hold when this is compiled, in constant expressions */

#define HOLDS(name, condition) typedef char name[(condition) ? 1 : -1]

HOLDS(sizes, ZILPANUD_WORKERS == 8 && ZILPANUD_CELLS == 512 && ZILPANUD_LOCKS == 64 && ZILPANUD_ARGS == 8);
HOLDS(steps, ZILPANUD_STEPS_MIN == 3 && ZILPANUD_STEPS_MAX == 64 && ZILPANUD_IDLE == 255);
HOLDS(least_image, ZILPANUD_IMAGE_WORDS(1) == 666);
HOLDS(largest_image, ZILPANUD_IMAGE_WORDS(ZILPANUD_WORKERS) == 1240);
HOLDS(cells, ZILPANUD_CELL_INDEX(0) == 8 && ZILPANUD_CELL_INDEX(511) == 519);
HOLDS(owners, ZILPANUD_OWNER_INDEX(0) == 520 && ZILPANUD_OWNER_INDEX(63) == 583);
HOLDS(own_words, ZILPANUD_OWN(0) == 512 && ZILPANUD_OWN(7) == 519);
HOLDS(packed, ZILPANUD_INSTRUCTION(0x1234, 0x5678, 0x9abc, 0xdef0) == UINT64_C(0x123456789abcdef0));
HOLDS(kinds, ZILPANUD_INSTRUCTION(ZILPANUD_SUBTRACT, 1, 2, 3) == UINT64_C(0x0005000100020003));
HOLDS(passings, ZILPANUD_PASSED_JUMP == 0 && ZILPANUD_PASSED_ALREADY_FREE == 1 && ZILPANUD_PASSED_OTHERS == 2);
HOLDS(counts, ZILPANUD_TALLY_TURNS == 0 && ZILPANUD_TALLY_WAITS == 1 && ZILPANUD_TALLY_STORES == 2);
HOLDS(reports, ZILPANUD_TALLY_ALREADY_FREE == 3 && ZILPANUD_TALLY_OTHERS == 4 && ZILPANUD_TALLY_WORDS == 5);

enum { WORKERS = 2, WORDS = ZILPANUD_IMAGE_WORDS(WORKERS) };

/* Every kind once: 20 and 7 are the first two arguments. The jump goes on, since 7 < 20. */
static const uint64_t section[] = {
    ZILPANUD_INSTRUCTION(ZILPANUD_ACQUIRE, 3, 0, 0),
    ZILPANUD_INSTRUCTION(ZILPANUD_SET, 24, 1, 5),
    ZILPANUD_INSTRUCTION(ZILPANUD_ADD, 25, ZILPANUD_OWN(0), ZILPANUD_OWN(1)),
    ZILPANUD_INSTRUCTION(ZILPANUD_SUBTRACT, 26, ZILPANUD_OWN(0), ZILPANUD_OWN(1)),
    ZILPANUD_INSTRUCTION(ZILPANUD_LESS, 27, ZILPANUD_OWN(1), ZILPANUD_OWN(0)),
    ZILPANUD_INSTRUCTION(ZILPANUD_JUMP, 27, 6, 0),
    ZILPANUD_INSTRUCTION(ZILPANUD_RELEASE, 3, 0, 0),
    ZILPANUD_INSTRUCTION(ZILPANUD_FINISH, 0, 0, 0),
};

enum { STEPS = sizeof section / sizeof section[0] };

static const uint64_t args[ZILPANUD_ARGS] = {20, 7, 0, 0, 0, 0, 0, 0};

static uint64_t image[WORDS];
static uint8_t step[ZILPANUD_WORKERS];
static uint8_t turn[ZILPANUD_WORKERS];
static uint64_t held;
static uint64_t tally[ZILPANUD_TALLY_WORDS];
static uint64_t detail;

/* the words that the held sets go to, with some on either side that no call may change */
enum { AROUND = 4 };
static uint64_t around[AROUND + ZILPANUD_STEPS_MAX + AROUND];
static uint64_t *const sets = around + AROUND;

void ensure(int holds, const char *what)
{
    if (!holds) {
        fprintf(stderr, "header: not so: %s\n", what);
        exit(1);
    }
}

/* ---- texts and version */

static void texts_differ(void)
{
    static const uint64_t known[] = {
        ZILPANUD_DONE, ZILPANUD_NO_WORKER, ZILPANUD_BUSY, ZILPANUD_NUMBER,
        ZILPANUD_LENGTH, ZILPANUD_MALFORMED, ZILPANUD_UNBRACKETED, ZILPANUD_UNORDERED,
        ZILPANUD_UNGUARDED, ZILPANUD_UNLEVEL, ZILPANUD_IMAGE, ZILPANUD_CURSOR,
        ZILPANUD_RECORD, ZILPANUD_LOCK, ZILPANUD_LINE, ZILPANUD_STORED,
        ZILPANUD_PASSED, ZILPANUD_WAITING, ZILPANUD_IDLE_WORKER, ZILPANUD_SPENT,
    };
    const size_t count = sizeof known / sizeof known[0];
    const char *const unknown = zilpanud_text(UINT64_MAX);
    ensure(strlen(unknown) > 0 && strcmp(zilpanud_text(15), unknown) == 0, "unknown answers have a text");
    for (size_t i = 0; i < count; i++) {
        const char *const text = zilpanud_text(known[i]);
        ensure(strlen(text) > 0 && strcspn(text, "\n") == strlen(text), "an answer has a text of one line");
        ensure(strcmp(text, unknown) != 0, "an answer is known");
        ensure(known[i] == (i < 15 ? i : i - 15 + ZILPANUD_OTHER_ANSWERS), "answers are 0 to 14 and 32 to 36");
        for (size_t j = 0; j < i; j++) {
            ensure(strcmp(text, zilpanud_text(known[j])) != 0, "no two answers have one text");
        }
    }
}

static void versions_agree(void)
{
    char text[64];
    const int number = ZILPANUD_VERSION;
    snprintf(text, sizeof text, "%d.%d.%d", number / 1000000, number / 1000 % 1000, number % 1000);
    ensure(strcmp(text, ZILPANUD_VERSION_TEXT) == 0, "the version's number and text agree");
    ensure(zilpanud_version() == ZILPANUD_VERSION, "the archive is of the header's version");
}

/* ---- calls */

static uint64_t submit(size_t worker, uint64_t number, size_t steps_given)
{
    return zilpanud_submit(image, WORDS, step, turn, &held, worker, number, args, section, steps_given, ZILPANUD_ALL,
                           &detail);
}

static uint64_t one_turn(size_t worker)
{
    return zilpanud_turn(image, WORDS, step, turn, &held, worker, ZILPANUD_ALL, &detail);
}

static uint64_t run(uint16_t rounds)
{
    return zilpanud_run(image, WORDS, step, turn, &held, rounds, tally, ZILPANUD_ALL, &detail);
}

static uint64_t recover(void)
{
    return zilpanud_recover(image, WORDS, step, turn, &held, ZILPANUD_ALL, &detail);
}

static uint64_t standing(uint64_t number)
{
    uint64_t stands;
    ensure(zilpanud_standing(image, WORDS, 0, number, &stands) == ZILPANUD_DONE, "standing is told");
    return stands;
}

/* lock 3 alone is held, or none */
static int holds_lock_3(int holds)
{
    return held == (holds ? UINT64_C(1) << 3 : 0) && zilpanud_locks_held(held) == (holds ? 1 : 0);
}

static uint64_t format(size_t words, uint64_t *left)
{
    return zilpanud_format(image, words, WORKERS, step, turn, &held, left);
}

static void formatted(void)
{
    held = UINT64_MAX;
    ensure(format(WORDS - 1, ZILPANUD_ALL) == ZILPANUD_IMAGE && held == 0, "10 for a length, and no lock held");
    held = UINT64_MAX;
    ensure(format(WORDS, ZILPANUD_ALL) == ZILPANUD_DONE && held == 0, "formatted, and no lock held");
    ensure(image[0] == 1 && image[1] == WORKERS && turn[0] == ZILPANUD_IDLE, "an image of idle workers");
}

static void locks_counted(void)
{
    ensure(zilpanud_locks_held(0) == 0 && zilpanud_locks_held(UINT64_MAX) == ZILPANUD_LOCKS, "none and all");
    ensure(zilpanud_locks_held(UINT64_C(0x8000000100000070)) == 5, "locks 4, 5, 6, 32 and 63");
}

/* ---- held sets, worked out by hand: bits 3, 5 and 63 are 8, 0x20 and the highest */

static int all_are(uint64_t word, const uint64_t *words, size_t count)
{
    for (size_t i = 0; i < count; i++) {
        if (words[i] != word) {
            return 0;
        }
    }
    return 1;
}

static int no_sets(void)
{
    return all_are(0, sets, ZILPANUD_STEPS_MAX);
}

static uint64_t held_sets(const uint64_t *words, size_t steps_given)
{
    for (size_t i = 0; i < sizeof around / sizeof around[0]; i++) {
        around[i] = UINT64_MAX;
    }
    detail = UINT64_MAX;
    const uint64_t answer = zilpanud_held_sets(words, steps_given, sets, &detail);
    ensure(all_are(UINT64_MAX, around, AROUND), "no word before the sets is touched");
    ensure(all_are(UINT64_MAX, sets + ZILPANUD_STEPS_MAX, AROUND), "no word behind the sets is touched");
    return answer;
}

static void sets_are(const uint64_t *words, size_t steps_given, const uint64_t *expected)
{
    ensure(held_sets(words, steps_given) == ZILPANUD_DONE && detail == 0, "sets are given, with a detail of 0");
    ensure(memcmp(sets, expected, steps_given * sizeof *sets) == 0, "the sets before each step");
    ensure(all_are(0, sets + steps_given, ZILPANUD_STEPS_MAX - steps_given), "0 from the number of steps up");
}

static void sets_given(void)
{
    static const uint64_t jump_too_far[] = {
        ZILPANUD_INSTRUCTION(ZILPANUD_ACQUIRE, 3, 0, 0), ZILPANUD_INSTRUCTION(ZILPANUD_JUMP, 24, 3, 0),
        ZILPANUD_INSTRUCTION(ZILPANUD_ACQUIRE, 5, 0, 0), ZILPANUD_INSTRUCTION(ZILPANUD_RELEASE, 5, 0, 0),
        ZILPANUD_INSTRUCTION(ZILPANUD_RELEASE, 3, 0, 0), ZILPANUD_INSTRUCTION(ZILPANUD_FINISH, 0, 0, 0),
    };
    static const uint64_t still_held[] = {
        ZILPANUD_INSTRUCTION(ZILPANUD_ACQUIRE, 63, 0, 0),
        ZILPANUD_INSTRUCTION(ZILPANUD_RELEASE, 3, 0, 0),
        ZILPANUD_INSTRUCTION(ZILPANUD_FINISH, 0, 0, 0),
    };
    static const uint64_t of_section[] = {0, 8, 8, 8, 8, 8, 8, 0};
    static const uint64_t of_jump[] = {0, 8, 8, 0x28, 8, 0};
    static const uint64_t of_held[] = {0, UINT64_C(1) << 63, UINT64_C(1) << 63};
    sets_are(section, STEPS, of_section);
    ensure(zilpanud_check(jump_too_far, 6, &detail) == ZILPANUD_UNLEVEL && detail == 1, "9 at the jump");
    sets_are(jump_too_far, 6, of_jump);
    ensure(zilpanud_check(still_held, 3, &detail) == ZILPANUD_UNORDERED && detail == 1, "7 at the release");
    sets_are(still_held, 3, of_held);
}

static void sets_refused(void)
{
    uint64_t words[ZILPANUD_STEPS_MAX + 1];
    for (size_t i = 0; i <= ZILPANUD_STEPS_MAX; i++) {
        words[i] = ZILPANUD_INSTRUCTION(ZILPANUD_ACQUIRE, 3, 0, 0);
    }
    ensure(held_sets(words, 2) == ZILPANUD_LENGTH && detail == 0, "4 for 2 steps");
    ensure(no_sets(), "4 leaves no set");
    ensure(held_sets(words, ZILPANUD_STEPS_MAX + 1) == ZILPANUD_LENGTH && detail == 0, "4 for 65 steps");
    ensure(no_sets(), "4 leaves no set");
    ensure(held_sets(words, ZILPANUD_STEPS_MAX) == ZILPANUD_MALFORMED, "5, since the last step is no finish");
    ensure(detail == ZILPANUD_STEPS_MAX - 1 && no_sets(), "5 says the step, and leaves no set");
    words[40] = 0;
    words[7] = 0;
    ensure(held_sets(words, ZILPANUD_STEPS_MAX) == ZILPANUD_MALFORMED && detail == 7, "5 at the lowest step");
    ensure(no_sets(), "5 leaves no set");
}

/* A length of 0, with a pointer that may not be read. */
static void nothing_given(void)
{
    uint64_t told;
    uint64_t *const end = image + WORDS;
    ensure(zilpanud_check(end, 0, &detail) == ZILPANUD_LENGTH, "4 for no steps");
    ensure(held_sets(end, 0) == ZILPANUD_LENGTH && no_sets(), "4 for no steps");
    ensure(zilpanud_format(end, 0, 1, step, turn, &held, ZILPANUD_ALL) == ZILPANUD_IMAGE, "10 for no words");
    held = UINT64_MAX;
    ensure(zilpanud_recover(end, 0, step, turn, &held, ZILPANUD_ALL, &detail) == ZILPANUD_IMAGE, "10 for no words");
    ensure(held == 0, "a refused recovery holds no lock");
    ensure(zilpanud_finished(end, 0, 0, &told) == ZILPANUD_IMAGE && told == 0, "10 for no words");
}

static void turns_made(void)
{
    uint64_t told;
    ensure(zilpanud_check(section, STEPS, &detail) == ZILPANUD_DONE, "the section passes");
    ensure(submit(0, 0, STEPS) == ZILPANUD_NUMBER && submit(WORKERS, 1, STEPS) == ZILPANUD_NO_WORKER, "3 and 1");
    ensure(submit(0, 1, 2) == ZILPANUD_LENGTH && submit(0, 1, STEPS - 1) == ZILPANUD_MALFORMED, "4 and 5");
    ensure(detail == STEPS - 2, "the step that fails");
    ensure(zilpanud_check(section, STEPS - 1, &detail) == ZILPANUD_MALFORMED && detail == STEPS - 2, "5 alone");
    ensure(zilpanud_check(section, 2, &detail) == ZILPANUD_LENGTH && detail == 0, "4 alone");
    ensure(submit(0, 0, 2) == ZILPANUD_NUMBER && submit(WORKERS, 0, 2) == ZILPANUD_NO_WORKER, "3 and 1 before 4");
    ensure(submit(0, 1, STEPS) == ZILPANUD_DONE && submit(0, 2, STEPS) == ZILPANUD_BUSY, "taken, and then busy");
    ensure(submit(0, 2, 2) == ZILPANUD_BUSY && submit(0, 2, STEPS - 1) == ZILPANUD_BUSY, "2 before 4 and 5");
    ensure(submit(1, 1, STEPS) == ZILPANUD_DONE, "worker 1 is given the same");
    ensure(one_turn(0) == ZILPANUD_STORED && holds_lock_3(0), "a turn stores the intent, and no lock is held");
    ensure(one_turn(0) == ZILPANUD_STORED && holds_lock_3(1), "the next stores the owner word, and lock 3 is held");
    ensure(detail == ZILPANUD_OWNER_INDEX(3) && image[detail] == 1, "worker 0 has lock 3");
    ensure(one_turn(1) == ZILPANUD_STORED && one_turn(1) == ZILPANUD_WAITING && detail == 3, "worker 1 waits for it");
    ensure(zilpanud_is_idle(image, WORDS, step, turn, 0, &told) == ZILPANUD_DONE && told == 0, "not idle");
    ensure(standing(1) == ZILPANUD_NOT_BEGUN, "not begun");
    ensure(one_turn(0) == ZILPANUD_STORED && one_turn(0) == ZILPANUD_STORED && one_turn(0) == ZILPANUD_STORED, "three");
    ensure(standing(1) == ZILPANUD_BEGUN, "begun with the fifth store");
}

static int counted(uint64_t turns, uint64_t stores, uint64_t already_free, uint64_t others)
{
    return tally[ZILPANUD_TALLY_TURNS] == turns && tally[ZILPANUD_TALLY_WAITS] == 0 &&
           tally[ZILPANUD_TALLY_STORES] == stores && tally[ZILPANUD_TALLY_ALREADY_FREE] == already_free &&
           tally[ZILPANUD_TALLY_OTHERS] == others;
}

static void cut_and_run(void)
{
    uint64_t told;
    held = 0;
    ensure(recover() == ZILPANUD_DONE && holds_lock_3(1), "recovered, and lock 3 is held again");
    ensure(one_turn(1) == ZILPANUD_IDLE_WORKER, "worker 1's section was not begun and is withdrawn");
    ensure(run(1) == ZILPANUD_SPENT, "one round");
    ensure(run(384 * WORKERS) == ZILPANUD_DONE && holds_lock_3(0), "all, and no lock is held");
    ensure(counted(26, 25, 0, 0), "the jump is the one turn that stores nothing");
    ensure(standing(1) == ZILPANUD_FINISHED && standing(2) == ZILPANUD_NOT_BEGUN, "finished");
    ensure(zilpanud_finished(image, WORDS, 0, &told) == ZILPANUD_DONE && told == 1, "number 1 is the last finished");
    ensure(image[ZILPANUD_CELL_INDEX(24)] == 65541 && image[ZILPANUD_CELL_INDEX(25)] == 27, "set and sum");
    ensure(image[ZILPANUD_CELL_INDEX(26)] == 13 && image[ZILPANUD_CELL_INDEX(27)] == 1, "difference and comparison");
}

static void stored(size_t worker, int turns)
{
    for (int i = 0; i < turns; i++) {
        ensure(one_turn(worker) == ZILPANUD_STORED, "a turn stores");
    }
}

/* Worker 1's section is never begun, so each recovery withdraws it and frees lock 3. */
static void worker_1_acquires(void)
{
    ensure(recover() == ZILPANUD_DONE && submit(1, 1, STEPS) == ZILPANUD_DONE, "worker 1 is given the section again");
    stored(1, 2);
    ensure(image[ZILPANUD_OWNER_INDEX(3)] == 2 && holds_lock_3(1), "worker 1 has lock 3");
}

/* Worker 0's release frees its lock and is cut behind that, again and again. */
static void turns_passed(void)
{
    ensure(submit(0, 2, STEPS) == ZILPANUD_DONE, "taken");
    stored(0, 6 + 4 * 4);
    ensure(one_turn(0) == ZILPANUD_PASSED && detail == ZILPANUD_PASSED_JUMP, "the jump passes");
    stored(0, 4);
    ensure(holds_lock_3(1), "lock 3 is held until the release frees it");
    stored(0, 1);
    ensure(detail == ZILPANUD_OWNER_INDEX(3) && image[detail] == 0 && holds_lock_3(0), "the release frees lock 3");
    ensure(recover() == ZILPANUD_DONE, "recovered");
    stored(0, 1);
    ensure(one_turn(0) == ZILPANUD_PASSED && detail == ZILPANUD_PASSED_ALREADY_FREE, "it finds lock 3 free");
    worker_1_acquires();
    stored(0, 1);
    ensure(one_turn(0) == ZILPANUD_PASSED && detail == ZILPANUD_PASSED_OTHERS, "it finds lock 3 worker 1's");
    ensure(image[ZILPANUD_OWNER_INDEX(3)] == 2 && holds_lock_3(1), "worker 1 keeps lock 3");
    worker_1_acquires();
    ensure(run(2) == ZILPANUD_SPENT && counted(4, 3, 0, 1), "a run counts another's");
    ensure(recover() == ZILPANUD_DONE, "recovered");
    ensure(run(6) == ZILPANUD_DONE && counted(6, 5, 1, 0), "a run counts already free");
}

static void stores_left(void)
{
    uint64_t left = 1;
    uint64_t *const all = ZILPANUD_ALL;
    ensure(*all == UINT64_MAX && left_elsewhere() == UINT64_MAX, "enough stores");
    ensure(format(WORDS, &left) == ZILPANUD_DONE && left == 0, "cut after one");
    ensure(image[0] == 0, "its first store is 0 in word 0");
    ensure(format(WORDS, all) == ZILPANUD_DONE, "formatted again");
    ensure(*all == UINT64_MAX - WORDS - 1 && *ZILPANUD_ALL == UINT64_MAX, "each use has enough");
}

/* ---- totals stop at the ends, worked out by hand; and a board at rest changes over as it is */

static void totals_stop(void)
{
    static const uint64_t totals[] = {
        ZILPANUD_INSTRUCTION(ZILPANUD_ACQUIRE, 3, 0, 0),
        ZILPANUD_INSTRUCTION(ZILPANUD_ADD, 24, ZILPANUD_OWN(0), ZILPANUD_OWN(1)),         /* 2^64 - 2 and 3 */
        ZILPANUD_INSTRUCTION(ZILPANUD_SUBTRACT, 25, ZILPANUD_OWN(1), ZILPANUD_OWN(0)),    /* 3 less 2^64 - 2 */
        ZILPANUD_INSTRUCTION(ZILPANUD_SUBTRACT, 26, 24, ZILPANUD_OWN(1)),
        ZILPANUD_INSTRUCTION(ZILPANUD_ADD, 27, 25, ZILPANUD_OWN(1)),
        ZILPANUD_INSTRUCTION(ZILPANUD_RELEASE, 3, 0, 0),
        ZILPANUD_INSTRUCTION(ZILPANUD_FINISH, 0, 0, 0),
    };
    static const uint64_t near_the_top[ZILPANUD_ARGS] = {UINT64_MAX - 1, 3, 0, 0, 0, 0, 0, 0};
    uint64_t before[WORDS];
    ensure(zilpanud_submit(image, WORDS, step, turn, &held, 0, 1, near_the_top, totals, sizeof totals / sizeof *totals,
                           ZILPANUD_ALL, &detail) == ZILPANUD_DONE, "taken");
    ensure(run(384 * WORKERS) == ZILPANUD_DONE, "all idle");
    ensure(image[ZILPANUD_CELL_INDEX(24)] == UINT64_MAX, "a sum stops at 2^64 - 1");
    ensure(image[ZILPANUD_CELL_INDEX(25)] == 0, "a difference stops at 0");
    ensure(image[ZILPANUD_CELL_INDEX(26)] == UINT64_MAX - 3 && image[ZILPANUD_CELL_INDEX(27)] == 3,
           "that they have stopped is kept nowhere");
    memcpy(before, image, sizeof image);
    held = UINT64_MAX;
    ensure(recover() == ZILPANUD_DONE && held == 0 && turn[0] == ZILPANUD_IDLE && turn[1] == ZILPANUD_IDLE,
           "a recovery of a board at rest finds all workers idle");
    ensure(memcmp(before, image, sizeof image) == 0, "and changes no word");
    ensure(submit(0, 1, STEPS) == ZILPANUD_NUMBER && submit(0, 2, STEPS) == ZILPANUD_DONE, "its numbers go on");
}

int main(void)
{
    texts_differ();
    versions_agree();
    locks_counted();
    sets_given();
    sets_refused();
    turns_counted();
    days_summed();
    formatted();
    nothing_given();
    formatted();
    turns_made();
    cut_and_run();
    turns_passed();
    stores_left();
    totals_stop();
    return 0;
}
