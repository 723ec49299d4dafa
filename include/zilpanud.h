/*
 * Zilpanud: sections of instructions that survive a cut, over an image of 64-bit words that the caller lends.
 *
 * For C99, C++17 and later. Link libzilpanud.a (-lzilpanud), which `make library` writes. It allocates
 * nothing and calls nothing but memcpy and memset. docs/MANUAL.md has the image, the kinds of instructions, the
 * causes and the frame lines of the program board; examples/board.c is a program to copy from.
 *
 * Words: a worker is a desk of the board, a section its ticket, an instruction a step of it, a lock a bay, a cell a
 * board word; to submit is to hand in, to acquire and to release are to take and to drop, a cursor is a working place.
 *
 * What the caller owes, since C cannot say it: a pointer and its length name that many words, or bytes; step and turn
 * name 8 bytes, held a word, args, waited and moved 8 words, tally 5 words, sets and locks 64 words; no two of a call's
 * pointers name the same memory (only args, words and path, which are read alone, may), and none is null; a pointer to
 * words is aligned to 8. With a length of 0 the pointer is not read, and any pointer that is not null and is aligned to
 * 8, which one to bytes need not be, will do.
 *
 * Threads: the library keeps nothing between calls; all it knows is the image, the cursors (step, turn and held) and
 * the numbers that a call is lent. So calls on different images, each with its cursors, may be made from different
 * threads at once. On one image and its cursors it is one call at a time, by one process: two at once lose moves or
 * hang. Threads that share an image hold a lock of their own around each call, the questions too. One thread may make
 * the turns of all workers.
 *
 * Cuts: a call stores one word after the other, in a fixed order, and flushes nothing. So the image belongs in memory
 * that keeps every store made, in that order, when the power goes: battery-kept, and its caches with it.
 */
#ifndef ZILPANUD_H
#define ZILPANUD_H

#include <stddef.h>
#include <stdint.h>

/* ---- version: 1,000,000 x major + 1,000 x minor + patch
 *
 * The macros say which header this is, zilpanud_version() which archive was linked, since the two may come from
 * different installs. A program compares them when it starts; examples/board.c does.
 *
 * Before 6000 sums and differences were modulo 2^64; now they stop at the ends. An image that was kept by an earlier
 * version is taken over with all workers idle, and no earlier: its layout is the same, and a recovery cannot see by
 * which rule it was kept. The manual has the steps: 'What do I do on the day of the change?'.
 *
 * 7000 answers and stores as 6000 did. Its submit is proved to be its tests of 10, 1, 2 and 3 and then the check.
 *
 * 8000 answers and stores as 7000 did, and adds zilpanud_day_sums. Its program board plays frame lines of kind 04,
 * which that of 7000 called malformed.
 *
 * 9000 stores as 8000 did. The answers of turns and runs that are no causes are 32 to 36; they were 16 to 20, among
 * numbers that the papers have for causes.
 */

#define ZILPANUD_VERSION 9000
#define ZILPANUD_VERSION_TEXT "0.9.0"

/* ---- sizes */

#define ZILPANUD_WORKERS 8    /* an image has 1 to 8 workers */
#define ZILPANUD_CELLS 512
#define ZILPANUD_LOCKS 64     /* lock l guards cells 8l to 8l + 7 */
#define ZILPANUD_ARGS 8
#define ZILPANUD_STEPS_MIN 3
#define ZILPANUD_STEPS_MAX 64
#define ZILPANUD_IDLE 255     /* turn[d] of an idle worker d */

/* a conversion that neither language warns of */
#ifdef __cplusplus
#define ZILPANUD_AS(type, value) (static_cast<type>(value))
#else
#define ZILPANUD_AS(type, value) ((type)(value))
#endif

/* the words of an image of so many workers */
#define ZILPANUD_IMAGE_WORDS(workers) (ZILPANUD_AS(size_t, 584) + 82 * ZILPANUD_AS(size_t, workers))

/* where the image has a cell, 0 to 511, and the owner word of a lock, 0 to 63: 0 if free, d + 1 if worker d has it */
#define ZILPANUD_CELL_INDEX(cell) (ZILPANUD_AS(size_t, 8) + ZILPANUD_AS(size_t, cell))
#define ZILPANUD_OWNER_INDEX(lock) (ZILPANUD_AS(size_t, 520) + ZILPANUD_AS(size_t, lock))

/* ---- instructions
 *
 * An instruction is one word: a kind and fields a, b, c, of 16 bits each. A 'word' below is a word number: 0 to 511 is
 * a cell, whose lock must be held; 512 to 519 is an own word of the worker. A section starts with its arguments as own
 * words. Words are unsigned, in comparisons too. A sum stops at 2^64 - 1 and a difference at 0; that one has stopped is
 * kept nowhere. A field that a kind does not name must be 0.
 *
 * A section starts with an acquire, and a finish is its last step and no other. Locks are acquired in rising order;
 * something is held before each step but the first and the finish, and nothing before those. Steps count from 0.
 */

#define ZILPANUD_ACQUIRE 1    /* lock a, above all held; waits while another has it. 6 turns */
#define ZILPANUD_RELEASE 2    /* lock a, which is held. 6 turns */
#define ZILPANUD_SET 3        /* word a := 65,536 x b + c, b and c being numbers up to 65,535. 4 turns */
#define ZILPANUD_ADD 4        /* word a := word b + word c, 2^64 - 1 where that is more. 4 turns */
#define ZILPANUD_SUBTRACT 5   /* word a := word b - word c, 0 where word b is less. 4 turns */
#define ZILPANUD_LESS 6       /* word a := 1 if word b < word c, else 0. 4 turns */
#define ZILPANUD_JUMP 7       /* if word a is 0, on at step b: a later one with the same locks held before it. 1 turn */
#define ZILPANUD_FINISH 8     /* the last step, and no other. 3 turns */

/* An instruction word, in constant expressions too. Each part is 0 to 65,535; a larger one spills into the next. */
#define ZILPANUD_INSTRUCTION(kind, a, b, c)                                          \
    (ZILPANUD_AS(uint64_t, kind) << 48 | ZILPANUD_AS(uint64_t, a) << 32 |            \
     ZILPANUD_AS(uint64_t, b) << 16 | ZILPANUD_AS(uint64_t, c))

/* the word number of own word i, 0 to 7 */
#define ZILPANUD_OWN(i) (512 + (i))

/* ---- what a call returns: done, the cause of a refusal, or another answer; zilpanud_text() has a line for each
 *
 * A cause is below ZILPANUD_OTHER_ANSWERS, and every other answer but 0 is not. zilpanud_turn and zilpanud_run alone
 * have such answers: a turn returns one or a cause, a run 0, spent or a cause. All other calls return 0 or a cause.
 */

#define ZILPANUD_DONE 0            /* formatted, passed the check, sets or turns given, taken, recovered, all idle; a
                                      question answered; a day read to its end */

#define ZILPANUD_NO_WORKER 1       /* the worker is not below the image's number of workers */
#define ZILPANUD_BUSY 2            /* submit: the worker is not idle, or its record's count or pc is not 0 */
#define ZILPANUD_NUMBER 3          /* submit: the section's number is not above the last finished one */
#define ZILPANUD_LENGTH 4          /* the number of steps is not 3 to 64 */
#define ZILPANUD_MALFORMED 5       /* a step of unknown kind, or a field outside its range or position; turns_of_path,
                                      turns_from: also a number that is no step's. detail, of 5 to 9: the step */
#define ZILPANUD_UNBRACKETED 6     /* the first step does not acquire, a later one but a finish has nothing held, or a
                                      finish has something held */
#define ZILPANUD_UNORDERED 7       /* an acquire not above all held, or a release of a lock not held */
#define ZILPANUD_UNGUARDED 8       /* a cell whose lock is not held */
#define ZILPANUD_UNLEVEL 9         /* a jump to a step with another held set */
#define ZILPANUD_IMAGE 10          /* the image's length, its words 0 to 7, or the number of workers is wrong; day_sums:
                                      that of the first line is */
#define ZILPANUD_CURSOR 11         /* turn, run: a worker that is not idle has a count not 3 to 64, or a cursor past
                                      the count, on a step that fails 5 or on a turn that its kind lacks.
                                      detail: the worker */
#define ZILPANUD_RECORD 12         /* recover: a record is not sound. detail: the worker. turns_left: the record of the
                                      worker asked after is not */
#define ZILPANUD_LOCK 13           /* recover: two workers are owed the lock, or its owner word names no worker that
                                      intends it. detail: the lock */
#define ZILPANUD_LINE 14           /* day_sums: a frame line is malformed. detail: which, from 1. The program board
                                      prints it for such a line */

#define ZILPANUD_OTHER_ANSWERS 32
#define ZILPANUD_STORED 32         /* turn: one word was stored. detail: its index */
#define ZILPANUD_PASSED 33         /* turn: there was nothing to store. detail: why, as below */
#define ZILPANUD_WAITING 34        /* turn: the lock's owner word is not 0. detail: the lock */
#define ZILPANUD_IDLE_WORKER 35    /* turn: the worker is idle */
#define ZILPANUD_SPENT 36          /* run: the rounds are over and a worker is not idle */

/* Why a turn passed: the detail of 33. Where only this library changes the image, a release passes only where a
 * recovery resumed it: its lock was freed before that or by it, and another worker may have it by now. */
#define ZILPANUD_PASSED_JUMP 0            /* a jump, which never stores */
#define ZILPANUD_PASSED_ALREADY_FREE 1    /* a release that found its lock's owner word 0 */
#define ZILPANUD_PASSED_OTHERS 2          /* a release that found it neither 0 nor its own worker + 1 */

/* what zilpanud_run writes to tally, by index */
#define ZILPANUD_TALLY_WORDS 5
#define ZILPANUD_TALLY_TURNS 0           /* the turns of workers that were not idle; those below are among them */
#define ZILPANUD_TALLY_WAITS 1           /* the turns that waited */
#define ZILPANUD_TALLY_STORES 2          /* the turns that stored */
#define ZILPANUD_TALLY_ALREADY_FREE 3    /* the releases' turns that passed: the lock was already free */
#define ZILPANUD_TALLY_OTHERS 4          /* the releases' turns that passed: the lock was another's */

/* what zilpanud_standing writes */
#define ZILPANUD_NOT_BEGUN 0
#define ZILPANUD_BEGUN 1
#define ZILPANUD_FINISHED 2

/* One line that says what an answer means, for a log or a screen; it is never null. */
static inline const char *zilpanud_text(uint64_t answer)
{
    switch (answer) {
    case ZILPANUD_DONE: return "done";
    case ZILPANUD_NO_WORKER: return "the image has no such worker";
    case ZILPANUD_BUSY: return "the worker is not idle, or its record still has a section";
    case ZILPANUD_NUMBER: return "the section's number is not above the last one that the worker finished";
    case ZILPANUD_LENGTH: return "a section has 3 to 64 steps";
    case ZILPANUD_MALFORMED:
        return "the step is not there, is of unknown kind, or has a field outside its range or position";
    case ZILPANUD_UNBRACKETED: return "the step stands where no lock is held, or finishes with a lock held";
    case ZILPANUD_UNORDERED: return "the step acquires a lock not above all held, or releases one that is not held";
    case ZILPANUD_UNGUARDED: return "the step names a cell whose lock is not held";
    case ZILPANUD_UNLEVEL: return "the step jumps to one with other locks held";
    case ZILPANUD_IMAGE: return "this is no image: its length, its first eight words or the number of workers is wrong";
    case ZILPANUD_CURSOR: return "the worker's cursor is on no turn of its section";
    case ZILPANUD_RECORD: return "the worker's record is not sound";
    case ZILPANUD_LOCK: return "two workers are owed the lock, or its owner does not intend it";
    case ZILPANUD_LINE: return "the frame line is malformed";
    case ZILPANUD_STORED: return "one word was stored";
    case ZILPANUD_PASSED: return "the turn had nothing to store";
    case ZILPANUD_WAITING: return "the worker waits for a lock that is not free";
    case ZILPANUD_IDLE_WORKER: return "the worker is idle";
    case ZILPANUD_SPENT: return "the rounds are over and a worker is not idle";
    default: return "no answer of this version";
    }
}

/* ---- the stores left of a call that is not to be cut: a pointer to a number that is enough for any call
 *
 *     zilpanud_turn(image, words, step, turn, &held, 0, ZILPANUD_ALL, &detail)
 *
 * The number is a new one at each use (in C++ the thread has one, and each use fills it again). A caller's own, lower
 * number is for tests alone: a call that ran out of stores was cut, and a recovery is due.
 */
#ifdef __cplusplus
inline uint64_t *zilpanud_all()
{
    static thread_local uint64_t left;
    left = UINT64_MAX;
    return &left;
}
#define ZILPANUD_ALL (zilpanud_all())
#else
#define ZILPANUD_ALL (&(uint64_t){UINT64_MAX})
#endif

#ifdef __cplusplus
extern "C" {
#endif

/* the archive's own version, as ZILPANUD_VERSION */
uint64_t zilpanud_version(void);

/* ---- the calls
 *
 * step[d] and turn[d] are worker d's cursor, kept by the caller beside the image and lost in a cut.
 * *held is kept and lost with them: a mask, in which bit b is set while lock b is held, by whichever worker. An
 * acquire's store of its lock's owner word sets the bit, and a release's store of 0 there clears it; no other turn and
 * no submit touches it, and nothing but the count of zilpanud_locks_held goes by it.
 * *left is the number of stores that the call may still make: each store takes one off, and with none left it changes
 * nothing. A call given k is that call cut after its k-th store; its answer and the cursors then count for nothing.
 * *detail is always written: with what the comment at the answer says, else 0 (of zilpanud_day_sums the lines read).
 * A refused call leaves image, cursors and *left as they were, but for: format and recover, which leave all workers
 * idle and *held 0; run, which keeps its earlier turns and their tally.
 */

/* 0, or 10. All workers are idle and *held is 0 after it, also where it is refused; step, turn and *held are only
 * written. It is for a new image: one that a recovery refuses is kept for those who can mend it, since formatting would
 * lose it. */
uint64_t zilpanud_format(uint64_t *image, size_t image_words, uint64_t workers, uint8_t *step, uint8_t *turn,
                         uint64_t *held, uint64_t *left);

/* The two operations on a section that is to be worked: its check alone, and its submit, which does that check.
 *
 *                 zilpanud_check                             zilpanud_submit
 *   needs         the words; no image, and no free worker    image, cursors, worker, number, arguments, the words
 *   tests first                                              10, 1, 2, 3, in this order
 *   tests then    4; 5 over all steps; 6, 7, 8, 9 by step    the same check: the same cause and the same detail
 *   returns 0     the section passes                         the section is taken
 *   leaves then   all as it was                              number, args (as own words), words and count stored, in
 *                                                            this order; the worker at step 0, its first turn
 *   refused       all as it was                              all as it was
 */

/* The check of a section alone: 0, or the first of 4 to 9 that it fails. Any words will do, however many, and nothing
 * but *detail is written. It goes by the words alone, so that the verdict stays: a section that passes is taken by an
 * idle worker under a number above its last finished one, and no other section is. */
uint64_t zilpanud_check(const uint64_t *words, size_t words_len, uint64_t *detail);

/* Submits a section for a worker: 0, or 10, 1, 2, 3, 4 to 9, tested in this order. What is refused with 4 to 9 has the
 * same answer and detail from zilpanud_check. */
uint64_t zilpanud_submit(uint64_t *image, size_t image_words, uint8_t *step, uint8_t *turn, uint64_t *held,
                         size_t worker, uint64_t number, const uint64_t *args, const uint64_t *words, size_t words_len,
                         uint64_t *left, uint64_t *detail);

/* Which locks are held before each step of a section: 0, or 4, 5. Causes 6 to 9 are not asked, so that one sees the
 * sets of a section that the check refuses with them. It is one pass. In its sets a recovery looks up the step that a pc
 * names, and the check the one that a jump names, unless it finds before that no jump goes past an acquire or a release.
 * sets: only written, and always. Word i is the held set before step i: a mask, in which bit b is set if lock b is held
 * there. It goes by the order of the steps, as if no jump were made: before step 0 none is held, an acquire sets its
 * lock's bit, and a release clears it. Words from the number of steps up are 0; where the call is refused, all are. */
uint64_t zilpanud_held_sets(const uint64_t *words, size_t words_len, uint64_t *sets, uint64_t *detail);

/* How many turns the steps of a path take: 0, or 5. path is the numbers of steps, in any order, and *turns the sum of
 * their turns: 6 for an acquire or a release, 4 for kinds 3 to 6, 1 for a jump, 3 for a finish. A number that stands
 * there twice counts twice, and no number at all takes 0. The first one that is not below words_len, or whose step is
 * malformed there, is refused, and detail is that number. No other step is looked at, and cause 4 is not asked: any
 * number of words will do (but a jump's b is at most 63). *turns is always written: where the call is refused, with 0.
 *
 * A section with no cut and no recovery between its submit and the last turn of its finish takes exactly so many turns,
 * those that wait not counted, where path is the steps that the reference machine (the manual's plain machine) goes
 * through for it. Those that a jump goes past are not among them. */
uint64_t zilpanud_turns_of_path(const uint64_t *words, size_t words_len, const uint64_t *path, size_t path_len,
                                uint64_t *turns, uint64_t *detail);

/* How many turns a section needs from a step on, that one included, up to the last of its finish: 0, or 4 to 9 by the
 * check, and then 5 with detail step, where the section has no such step. Which way a jump goes is not known before it
 * is made, so *fewest and *most are the least and the largest number over both ways of each; where no jump lies ahead,
 * they are the same. Both are always written: where the call is refused, with 0. Turns that wait come on top.
 *
 * From step 0 on it is what an uncut section needs; zilpanud_turns_left says it of one that a recovery resumes. */
uint64_t zilpanud_turns_from(const uint64_t *words, size_t words_len, uint64_t step, uint64_t *fewest, uint64_t *most,
                             uint64_t *detail);

/* One turn of a worker, with at most one store: 32 to 35, or 10, 1, 11. A release that frees its lock answers 32; one
 * that finds it already free or another's leaves it so and answers 33, and detail says which. */
uint64_t zilpanud_turn(uint64_t *image, size_t image_words, uint8_t *step, uint8_t *turn, uint64_t *held,
                       size_t worker, uint64_t *left, uint64_t *detail);

/* Rounds of turns until all workers are idle: 0, 36, or 10, 11. tally: what this run counts, by ZILPANUD_TALLY_TURNS to
 * ZILPANUD_TALLY_OTHERS. 384 rounds for each worker leave all idle on an image that these calls alone have changed since
 * one formatting, with a recovery after each cut; more cost nothing, since a run stops where all are idle. */
uint64_t zilpanud_run(uint64_t *image, size_t image_words, uint8_t *step, uint8_t *turn, uint64_t *held,
                      uint16_t rounds, uint64_t *tally, uint64_t *left, uint64_t *detail);

/* After a cut: 0, or 10, 12, 13. step, turn and *held are only written: begun sections go on, with the locks that they
 * are owed held again, and all other workers are idle. */
uint64_t zilpanud_recover(uint64_t *image, size_t image_words, uint8_t *step, uint8_t *turn, uint64_t *held,
                          uint64_t *left, uint64_t *detail);

/* How many locks are held, 0 to 64: the number of ones of *held, as the last call left it. A screen can show it after
 * each turn without a look at the image. In a list of submits, turns, runs and recoveries from one formatting on, each
 * given the image and the cursors that the last one left, and a recovery next after each cut, bit b is set after every
 * uncut call exactly if lock b's owner word is not 0. */
uint64_t zilpanud_locks_held(uint64_t held);

/* ---- questions: 0, or 10, 1 (zilpanud_turns_left: then 12), and where they are refused, 0 is written */

/* 1: the worker is idle; 0: it is not */
uint64_t zilpanud_is_idle(const uint64_t *image, size_t image_words, const uint8_t *step, const uint8_t *turn,
                          size_t worker, uint64_t *answer);

/* the number of the last section that the worker finished; 0: none yet */
uint64_t zilpanud_finished(const uint64_t *image, size_t image_words, size_t worker, uint64_t *number);

/* how the worker stands to the section of this number; 0: not begun, 1: begun, 2: finished
 *
 * For the one caller that submits to this worker, numbers its sections one by one, each one above the last finished,
 * with the worker idle, and after a cut does not know what became of the last one: recover, then ask, before any other
 * is submitted. Not begun: submit the same section again, under the same number. Begun: turns or a run will bring it to
 * its end. Finished: it is done, and the next number is due. No section is then left out, and none is carried out
 * twice. (Two callers that take the same number for different sections cannot tell whose was carried out.)
 */
uint64_t zilpanud_standing(const uint64_t *image, size_t image_words, size_t worker, uint64_t number,
                           uint64_t *answer);

/* how many turns the worker's begun section needs after a recovery; 0 and 0: it has none begun, since its pc is 0
 *
 * 3 if the pc names a release, else 1, and then what zilpanud_turns_from says of the step behind the named one. It is
 * refused with 12 where this worker's record is not sound, by the recovery's test of it; other records and the locks
 * are not asked. The answer is the same right before and right after a recovery. With no later cut or recovery the
 * section takes after it exactly those 3 or 1 turns and the turns of the steps that it goes through behind the named
 * one; turns that wait come on top. Asked at another moment, it says what the next recovery would leave to be done, and
 * not what is left without one.
 */
uint64_t zilpanud_turns_left(const uint64_t *image, size_t image_words, size_t worker, uint64_t *fewest,
                             uint64_t *most);

/* ---- a recorded day */

/* How long workers waited for locks in a day of frame lines, the whole of it in memory: 0 where all lines were read, 14
 * where one is malformed, 10 where the first is two digits and no image has so many workers. Any bytes will do. The day
 * is played from its first line on as the program board plays it, on an image of the call's own, and nothing is
 * printed; the same bytes have the same numbers. All that is lent is always written, whatever the bytes are.
 *
 * locks[b]: the turns that answered waiting on lock b. waited[d]: worker d's turns that waited. moved[d]: its turns
 * that did not, which stored or passed. They are the turns of all 02 and 04 lines, also across a 03. Every turn of a
 * worker that is not idle is in just one of waited and moved: an 02 line of 65,535 turns of a worker that waits is
 * 65,535 waits. Turns of idle workers and refused turns are in none, and a worker that the day has not is 0. A number
 * that would pass 2^64 - 1 stays there, each by itself; while none has, the 64 of locks add up to the 8 of waited.
 *
 * *detail: how many lines were read, the one that stopped it included. A byte 10 ends a line, and no line follows one
 * that ends the bytes. Where reading stops early, the sums are those up to there: all 0 where the first line stops it,
 * or where there are no bytes at all. The call takes some 16 KB of stack, by its image. */
uint64_t zilpanud_day_sums(const uint8_t *bytes, size_t length, uint64_t *locks, uint64_t *waited, uint64_t *moved,
                           uint64_t *detail);

#ifdef __cplusplus
}
#endif

#endif
