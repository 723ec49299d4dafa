#include "script.h"

#include "trial.h"

#include <inttypes.h>
#include <stdio.h>
#include <stdlib.h>

#define ACQUIRE(lock) ZILPANUD_INSTRUCTION(ZILPANUD_ACQUIRE, lock, 0, 0)
#define RELEASE(lock) ZILPANUD_INSTRUCTION(ZILPANUD_RELEASE, lock, 0, 0)
#define SET(word, b, c) ZILPANUD_INSTRUCTION(ZILPANUD_SET, word, b, c)
#define ADD(word, b, c) ZILPANUD_INSTRUCTION(ZILPANUD_ADD, word, b, c)
#define SUBTRACT(word, b, c) ZILPANUD_INSTRUCTION(ZILPANUD_SUBTRACT, word, b, c)
#define LESS(word, b, c) ZILPANUD_INSTRUCTION(ZILPANUD_LESS, word, b, c)
#define JUMP(word, step) ZILPANUD_INSTRUCTION(ZILPANUD_JUMP, word, step, 0)
#define FINISH ZILPANUD_INSTRUCTION(ZILPANUD_FINISH, 0, 0, 0)
#define OWN(i) ZILPANUD_OWN(i)

/* a section and its steps, as two arguments */
#define GIVE(section) section, sizeof(section) / sizeof((section)[0])

/* Every kind, on cells and on own words, with a jump that goes on and one that jumps. */
static const uint64_t every[] = {
    /* 0 */ ACQUIRE(3),
    /* 1 */ ACQUIRE(40),
    /* 2 */ SET(24, 0x9c5d, 0x7be1),
    /* 3 */ ADD(25, OWN(0), OWN(1)),
    /* 4 */ SUBTRACT(OWN(2), OWN(3), 25),
    /* 5 */ LESS(320, OWN(4), OWN(5)),       /* 1, as the arguments are given */
    /* 6 */ JUMP(320, 8),
    /* 7 */ SET(OWN(6), 0xa1b2, 0xc3d4),
    /* 8 */ LESS(OWN(7), OWN(5), OWN(4)),    /* 0 */
    /* 9 */ JUMP(OWN(7), 11),
    /* 10 */ SET(24, 1, 1),
    /* 11 */ SUBTRACT(26, 27, OWN(0)),
    /* 12 */ RELEASE(3),
    /* 13 */ ADD(321, 321, OWN(2)),
    /* 14 */ RELEASE(40),
    /* 15 */ FINISH,
};

static const uint64_t shortest[] = {ACQUIRE(3), RELEASE(3), FINISH};

/* Differences and sums that stop, and such that do not. Of own words 4 and 5 the first is the lower one, and no word of
 * junk has 0 in its highest byte, so that one doubled eight times is past 2^64 - 1. */
static const uint64_t ends[] = {
    ACQUIRE(3),
    SUBTRACT(24, OWN(4), OWN(5)),    /* it stops at 0 */
    SUBTRACT(25, OWN(5), OWN(4)),
    ADD(26, 24, OWN(5)),
    ADD(26, 26, 26), ADD(26, 26, 26), ADD(26, 26, 26), ADD(26, 26, 26),
    ADD(26, 26, 26), ADD(26, 26, 26), ADD(26, 26, 26), ADD(26, 26, 26),    /* it has stopped at 2^64 - 1 */
    RELEASE(3),
    FINISH,
};

/* ---- formatting, and words that are no image */

static void formats(void)
{
    for (size_t workers = 1; workers <= ZILPANUD_WORKERS; workers++) {
        fill_with_junk();
        format(workers, ZILPANUD_DONE);
        locks_held(0);
    }
    fill_with_junk();
    format(0, ZILPANUD_IMAGE);
    format(9, ZILPANUD_IMAGE);
    set_workers(2);
    run(1, ZILPANUD_IMAGE);
    recover(ZILPANUD_IMAGE);
    turn(0, ZILPANUD_IMAGE);
    submit(0, 1, GIVE(every), ZILPANUD_IMAGE);
    questions(0, ZILPANUD_IMAGE);
}

/* ---- sections handed in */

static void refused_sections(void)
{
    static const uint64_t malformed[] = {ACQUIRE(64), RELEASE(3), FINISH};
    static const uint64_t unbracketed[] = {ACQUIRE(3), SET(24, 0, 5), FINISH};
    static const uint64_t unordered[] = {ACQUIRE(3), ACQUIRE(3), RELEASE(3), FINISH};
    static const uint64_t unguarded[] = {ACQUIRE(3), SET(32, 0, 5), RELEASE(3), FINISH};
    static const uint64_t unlevel[] = {ACQUIRE(3), JUMP(24, 3), RELEASE(3), FINISH};
    static const struct {
        const uint64_t *section;
        size_t steps;
        uint64_t cause;
    } rows[] = {
        {shortest, 2, ZILPANUD_LENGTH},
        {GIVE(malformed), ZILPANUD_MALFORMED},
        {GIVE(unbracketed), ZILPANUD_UNBRACKETED},
        {GIVE(unordered), ZILPANUD_UNORDERED},
        {GIVE(unguarded), ZILPANUD_UNGUARDED},
        {GIVE(unlevel), ZILPANUD_UNLEVEL},
    };
    for (size_t i = 0; i < sizeof rows / sizeof rows[0]; i++) {
        const uint64_t cause = rows[i].cause;
        check(rows[i].section, rows[i].steps, cause);
        held_sets(rows[i].section, rows[i].steps, cause > ZILPANUD_MALFORMED ? ZILPANUD_DONE : cause);
        turns_from(rows[i].section, rows[i].steps, 0, cause);
        submit(0, 1, rows[i].section, rows[i].steps, cause);
    }
}

static void submits(void)
{
    fresh(2);
    refused_sections();
    check(GIVE(every), ZILPANUD_DONE);
    held_sets(GIVE(every), ZILPANUD_DONE);
    turns_of_path(GIVE(every), 6, ZILPANUD_DONE);
    turns_of_path(GIVE(every), 16, ZILPANUD_MALFORMED);
    turns_from(GIVE(every), 0, ZILPANUD_DONE);
    turns_from(GIVE(every), 16, ZILPANUD_MALFORMED);
    submit(2, 1, GIVE(every), ZILPANUD_NO_WORKER);
    submit(0, 0, GIVE(every), ZILPANUD_NUMBER);
    submit(0, 1, GIVE(every), ZILPANUD_DONE);
    submit(0, 2, GIVE(every), ZILPANUD_BUSY);
    submit(1, 1, GIVE(shortest), ZILPANUD_DONE);
    questions(0, ZILPANUD_DONE);
    questions(2, ZILPANUD_NO_WORKER);
}

/* Sums under so many locks from `lock` on. */
static void sums(uint64_t *section, size_t steps, size_t lock, size_t locks)
{
    for (size_t i = 0; i < steps; i++) {
        const size_t cell = 8 * lock;
        section[i] = ADD(cell + i % 8, cell + (i + 3) % 8, OWN(i % 8));
    }
    for (size_t i = 0; i < locks; i++) {
        section[i] = ACQUIRE(lock + i);
        section[steps - 2 - i] = RELEASE(lock + i);
    }
    section[steps - 1] = FINISH;
}

/* Sections of many lengths: a row of words may be stored in another way from some length on. */
static void lengths(void)
{
    static const size_t lengths_tried[] = {3, 4, 5, 6, 7, 8, 9, 10, 11, 12, 15, 16, 17, 31, 32, 33, 63, 64};
    uint64_t section[ZILPANUD_STEPS_MAX];
    for (size_t i = 0; i < sizeof lengths_tried / sizeof lengths_tried[0]; i++) {
        fresh(1);
        sums(section, lengths_tried[i], 3, 1);
        submit(0, 1, section, lengths_tried[i], ZILPANUD_DONE);
    }
}

/* ---- turns */

/* Every turn of every kind, with worker 1 waiting for a lock of worker 0's at first. */
static void turns(void)
{
    fresh(2);
    submit(0, 1, GIVE(every), ZILPANUD_DONE);
    submit(1, 1, GIVE(shortest), ZILPANUD_DONE);
    turn(0, ZILPANUD_STORED);
    turn(0, ZILPANUD_STORED);
    turn(1, ZILPANUD_STORED);
    turn(1, ZILPANUD_WAITING);
    locks_held(1);
    turns_until_idle(0);
    turns_until_idle(1);
    locks_held(0);
    turn(0, ZILPANUD_IDLE_WORKER);
    turn(2, ZILPANUD_NO_WORKER);
    /* a cursor on no turn, met by a run after a turn of worker 0 */
    submit(0, 1, GIVE(every), ZILPANUD_DONE);
    set_cursor(1, 0, 3);
    turn(1, ZILPANUD_CURSOR);
    run(9, ZILPANUD_CURSOR);
}

static void cell_is(size_t cell, uint64_t word)
{
    const struct world kept = keep();
    const uint64_t is = kept.memory.image[ZILPANUD_CELL_INDEX(cell)];
    if (is != word) {
        fprintf(stderr, "stores: cell %zu is %#" PRIx64 ", and by the script %#" PRIx64 "\n", cell, is, word);
        exit(2);
    }
}

/* Totals that stop at an end, turn by turn. */
static void totals(void)
{
    fresh(2);
    submit(1, 1, GIVE(ends), ZILPANUD_DONE);
    turns_until_idle(1);
    cell_is(24, 0);
    cell_is(26, UINT64_MAX);
}

/* A release whose lock is free already, or worker 1's by then, in turns and in a run: cut between the store of the lock
 * and that of the intent, and recovered. */
static void passes(void)
{
    fresh(2);
    submit(0, 1, GIVE(shortest), ZILPANUD_DONE);
    for (int i = 0; i < 11; i++) {
        turn(0, ZILPANUD_STORED);
    }
    recover(ZILPANUD_DONE);
    const struct world already_free = keep();
    run(6, ZILPANUD_DONE);
    go_back(&already_free);
    turn(0, ZILPANUD_STORED);
    passing_turn(0, ZILPANUD_PASSED_ALREADY_FREE);
    turns_until_idle(0);
    go_back(&already_free);
    submit(1, 1, GIVE(shortest), ZILPANUD_DONE);
    turn(1, ZILPANUD_STORED);
    turn(1, ZILPANUD_STORED);
    const struct world others = keep();
    run(13, ZILPANUD_DONE);
    go_back(&others);
    turn(0, ZILPANUD_STORED);
    passing_turn(0, ZILPANUD_PASSED_OTHERS);
    turns_until_idle(0);
    turns_until_idle(1);
}

/* ---- runs and recoveries of several workers */

/* Even workers go hand over hand from lock 3 to lock 40, in each other's way; odd ones have locks of their own. */
static void crowd(size_t workers)
{
    fresh(workers);
    for (size_t d = 0; d < workers; d++) {
        const size_t low = d % 2 == 0 ? 3 : 8 + d;
        const size_t high = d % 2 == 0 ? 40 : 48 + d;
        const uint64_t section[] = {
            ACQUIRE(low),
            ADD(8 * low, 8 * low, OWN(0)),
            LESS(OWN(6), OWN(5), OWN(4)),
            JUMP(OWN(6), 4),
            ACQUIRE(high),
            SUBTRACT(8 * high, 8 * high, OWN(1)),
            RELEASE(low),
            SET(8 * high + 1, 7, 9),
            RELEASE(high),
            FINISH,
        };
        give(d, 1, GIVE(section));
    }
}

static void runs(void)
{
    crowd(8);
    run(0, ZILPANUD_SPENT);
    run(30, ZILPANUD_SPENT);
    run(3072, ZILPANUD_DONE);
    run(3072, ZILPANUD_DONE);
}

/* Recoveries of what a run leaves when it is cut, and of what such a recovery leaves when it is cut. */
static void recoveries(void)
{
    crowd(8);
    const struct world start = keep();
    const uint64_t stores = stores_of_run();
    int again = 0;
    for (uint64_t cut = 0; cut <= stores; cut += 23) {
        go_back(&start);
        cut_run(cut);
        const struct world torn = keep();
        recover(ZILPANUD_DONE);
        questions(1, ZILPANUD_DONE);
        if (again) {
            go_back(&torn);
            cut_recovery(cut / 23 + 1);
            recover(ZILPANUD_DONE);
        }
        again = !again;
    }
}

/* Eight workers at their longest sections, 56 locks held. */
static void large_recovery(void)
{
    uint64_t section[ZILPANUD_STEPS_MAX];
    fresh(8);
    for (size_t d = 0; d < 8; d++) {
        sums(section, ZILPANUD_STEPS_MAX, 8 * d, 7);
        give(d, 1, GIVE(section));
    }
    cut_run(8 * 7 * 6 + 8 * 20);
    recover(ZILPANUD_DONE);
    locks_held(56);
}

static void refused_recoveries(void)
{
    crowd(3);
    cut_run(40);
    const struct world torn = keep();
    set_word(ZILPANUD_IMAGE_WORDS(1) + 8, 0);    /* worker 1's section number */
    turns_left(1, ZILPANUD_RECORD);
    turns_left(0, ZILPANUD_DONE);
    recover(ZILPANUD_RECORD);
    go_back(&torn);
    set_word(ZILPANUD_OWNER_INDEX(63), 1);
    recover(ZILPANUD_LOCK);
    locks_held(0);
}

/* ---- recorded days: their board is the call's own, and the image under trial stays as it is */

#define NONE "0000000000000000"
#define TICKET(worker)                                                                           \
    "01" worker "0000000000000001" NONE NONE NONE NONE NONE NONE NONE NONE                       \
    "0001000300000000" "0002000300000000" "0008000000000000\n"

/* Worker 0 takes lock 3 in round 2 and frees it in round 11, before worker 1's turn, which waits in rounds 2 to 10. */
static void days(void)
{
    fresh(2);
    day_sums("", 0, ZILPANUD_DONE);
    day_sums("09\n", 0, ZILPANUD_IMAGE);
    day_sums("02\n" TICKET("00") TICKET("01") "04000a\n02010000\n03\n", 9, ZILPANUD_DONE);
    day_sums("02\n" TICKET("00") TICKET("01") "02000002\n02010004\n0g\n0201ffff\n", 3, ZILPANUD_LINE);
}

void play(void)
{
    formats();
    submits();
    lengths();
    turns();
    totals();
    passes();
    runs();
    recoveries();
    large_recovery();
    refused_recoveries();
    days();
    all_met();
}

void play_submit(void)
{
    fresh(1);
    submit(0, 1, GIVE(every), ZILPANUD_DONE);
}
