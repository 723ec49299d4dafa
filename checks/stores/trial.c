#include "trial.h"

#include "junk.h"
#include "watch.h"

#include <inttypes.h>
#include <stdlib.h>
#include <string.h>

/* offsets in a worker's record */
enum { NUMBER = 8, LAST = 9, OWN = 10, STEPS = 18, RECORD = 82 };

static struct world now;
static size_t workers;    /* of the image, as the calls are told */

static uint64_t *record(size_t worker)
{
    return now.memory.image + ZILPANUD_IMAGE_WORDS(worker);
}

/* ---- what was met */

#define BIT(n) (UINT64_C(1) << (n))
#define BITS(low, high) (BIT((high) + 1) - BIT(low))

static uint64_t answered[NAMES];    /* bit a: the call answered a */
static uint64_t turned[9];          /* bit t of a kind: its turn t was made */
static uint64_t passed[9];          /* bit d of a kind: a turn of it passed with detail d */

static void missing(const char *what, size_t which, uint64_t wanted, uint64_t had)
{
    if ((wanted & ~had) != 0) {
        fprintf(stderr, "stores: %s %zu: bits %#" PRIx64 " were not met\n", what, which, wanted & ~had);
        exit(2);
    }
}

void all_met(void)
{
    const uint64_t asked = BIT(0) | BIT(1) | BIT(10);
    const uint64_t answers[NAMES] = {
        [FORMAT] = BIT(0) | BIT(10),
        [CHECK] = BIT(0) | BITS(4, 9),
        [HELD_SETS] = BIT(0) | BITS(4, 5),
        [TURNS_OF_PATH] = BIT(0) | BIT(5),
        [TURNS_FROM] = BIT(0) | BITS(4, 9),
        [SUBMIT] = BITS(0, 10),
        [TURN] = BIT(1) | BITS(10, 11) | BITS(ZILPANUD_STORED, ZILPANUD_IDLE_WORKER),
        [RUN] = BIT(0) | BITS(10, 11) | BIT(ZILPANUD_SPENT),
        [RECOVER] = BIT(0) | BIT(10) | BITS(12, 13),
        [LOCKS_HELD] = BIT(0),
        [IS_IDLE] = asked,
        [FINISHED] = asked,
        [STANDING] = asked,
        [TURNS_LEFT] = asked | BIT(12),
        [DAY_SUMS] = BIT(0) | BIT(10) | BIT(14),
    };
    static const unsigned turns[9] = {0, 6, 6, 4, 4, 4, 4, 1, 3};
    for (size_t name = 0; name < NAMES; name++) {
        missing("answers of call", name, answers[name], answered[name]);
    }
    for (size_t kind = 1; kind < 9; kind++) {
        missing("turns of kind", kind, BIT(turns[kind]) - 1, turned[kind]);
    }
    missing("details of passed turns of kind", ZILPANUD_JUMP, BIT(ZILPANUD_PASSED_JUMP), passed[ZILPANUD_JUMP]);
    missing("details of passed turns of kind", ZILPANUD_RELEASE,
            BIT(ZILPANUD_PASSED_ALREADY_FREE) | BIT(ZILPANUD_PASSED_OTHERS), passed[ZILPANUD_RELEASE]);
}

/* ---- junk */

void fill_with_junk(void)
{
    put_junk(now.memory.before, AROUND);
    put_junk(now.memory.image, LARGEST);
    put_junk(now.memory.behind, AROUND);
    put_junk(&now.held, 1);
    put_junk(now.sets, ZILPANUD_STEPS_MAX);
    put_junk(now.locks, ZILPANUD_LOCKS);
    put_junk(now.waited, ZILPANUD_WORKERS);
    put_junk(now.moved, ZILPANUD_WORKERS);
}

/* ---- calls */

static struct call call_of(enum name name, size_t worker)
{
    /* nine workers are told with the largest image that there is */
    const size_t words = workers > ZILPANUD_WORKERS ? LARGEST : ZILPANUD_IMAGE_WORDS(workers);
    struct call call = {.name = name, .words = words, .worker = worker};
    return call;
}

static struct call formatting(size_t count)
{
    workers = count;
    struct call call = call_of(FORMAT, 0);
    call.workers = count;
    return call;
}

static void put_section(struct call *call, const uint64_t *section, size_t steps)
{
    memcpy(call->section, section, steps * sizeof *section);
    call->steps = steps;
}

static struct call submitting(size_t worker, uint64_t above, const uint64_t *section, size_t steps)
{
    struct call call = call_of(SUBMIT, worker);
    put_section(&call, section, steps);
    call.number = above;
    if (worker < workers) {
        call.number += record(worker)[LAST];
    }
    put_junk(call.args, ZILPANUD_ARGS);
    /* the fifth is the lower one, for a section that compares them */
    if (call.args[4] > call.args[5]) {
        const uint64_t higher = call.args[4];
        call.args[4] = call.args[5];
        call.args[5] = higher;
    }
    return call;
}

/* ---- watched calls */

static uint64_t make(const struct call *call)
{
    watch(call, &now);
    answered[call->name] |= BIT(now.answer);
    return now.answer;
}

static void wrong_answer(const struct call *call)
{
    fprintf(stderr, "stores: ");
    describe(stderr, call);
    fprintf(stderr, " answered %" PRIu64 ", which the script does not expect\n", now.answer);
    exit(2);
}

static void by_script(const char *what, uint64_t is, uint64_t wanted)
{
    if (is != wanted) {
        fprintf(stderr, "stores: %s: %" PRIu64 ", and by the script %" PRIu64 "\n", what, is, wanted);
        exit(2);
    }
}

static void expect(const struct call *call, uint64_t answer)
{
    if (make(call) != answer) {
        wrong_answer(call);
    }
}

void format(size_t count, uint64_t answer)
{
    const struct call call = formatting(count);
    expect(&call, answer);
}

void check(const uint64_t *section, size_t steps, uint64_t answer)
{
    struct call call = call_of(CHECK, 0);
    put_section(&call, section, steps);
    expect(&call, answer);
}

void held_sets(const uint64_t *section, size_t steps, uint64_t answer)
{
    struct call call = call_of(HELD_SETS, 0);
    put_section(&call, section, steps);
    expect(&call, answer);
}

/* A call about a section and a step of it. */
static struct call about(enum name name, const uint64_t *section, size_t steps, uint64_t step)
{
    struct call call = call_of(name, 0);
    put_section(&call, section, steps);
    for (size_t i = 0; i < steps; i++) {
        call.path[i] = i;
    }
    call.path[steps] = step;
    call.number = step;
    return call;
}

void turns_of_path(const uint64_t *section, size_t steps, uint64_t step, uint64_t answer)
{
    const struct call call = about(TURNS_OF_PATH, section, steps, step);
    expect(&call, answer);
}

void turns_from(const uint64_t *section, size_t steps, uint64_t step, uint64_t answer)
{
    const struct call call = about(TURNS_FROM, section, steps, step);
    expect(&call, answer);
}

void submit(size_t worker, uint64_t above, const uint64_t *section, size_t steps, uint64_t answer)
{
    const struct call call = submitting(worker, above, section, steps);
    expect(&call, answer);
}

/* A turn, with note of the kind and the turn that the worker's cursor was on. */
static void one_turn(const struct call *call)
{
    const size_t d = call->worker;
    size_t kind = 0;
    unsigned turn_number = 0;
    if (d < workers && now.turn[d] != ZILPANUD_IDLE) {
        kind = (size_t)(record(d)[STEPS + now.step[d]] >> 48);
        turn_number = now.turn[d];
    }
    make(call);
    if (kind != 0 && now.answer >= ZILPANUD_STORED) {
        turned[kind] |= BIT(turn_number);
    }
    if (kind != 0 && now.answer == ZILPANUD_PASSED) {
        passed[kind] |= BIT(now.detail);
    }
}

void turn(size_t worker, uint64_t answer)
{
    const struct call call = call_of(TURN, worker);
    one_turn(&call);
    if (now.answer != answer) {
        wrong_answer(&call);
    }
}

void passing_turn(size_t worker, uint64_t detail)
{
    turn(worker, ZILPANUD_PASSED);
    by_script("the detail of a turn that passed", now.detail, detail);
}

void turns_until_idle(size_t worker)
{
    const struct call call = call_of(TURN, worker);
    do {
        one_turn(&call);
    } while (now.answer == ZILPANUD_STORED || now.answer == ZILPANUD_PASSED);
    if (now.answer != ZILPANUD_IDLE_WORKER) {
        wrong_answer(&call);
    }
}

void run(uint16_t rounds, uint64_t answer)
{
    struct call call = call_of(RUN, 0);
    call.rounds = rounds;
    expect(&call, answer);
}

void recover(uint64_t answer)
{
    const struct call call = call_of(RECOVER, 0);
    expect(&call, answer);
}

void locks_held(uint64_t count)
{
    const struct call call = call_of(LOCKS_HELD, 0);
    expect(&call, ZILPANUD_DONE);
    by_script("locks held", now.told, count);
}

void questions(size_t worker, uint64_t answer)
{
    static const enum name names[] = {IS_IDLE, FINISHED, STANDING};
    for (size_t i = 0; i < 3; i++) {
        struct call call = call_of(names[i], worker);
        call.number = worker < workers ? record(worker)[NUMBER] : 1;
        expect(&call, answer);
    }
    turns_left(worker, answer);
}

void turns_left(size_t worker, uint64_t answer)
{
    const struct call call = call_of(TURNS_LEFT, worker);
    expect(&call, answer);
}

void day_sums(const char *day, uint64_t waits, uint64_t answer)
{
    struct call call = call_of(DAY_SUMS, 0);
    call.bytes = strlen(day);
    memcpy(call.day, day, call.bytes);
    expect(&call, answer);
    by_script("waits for lock 3", now.locks[3], waits);
}

/* ---- calls that are not watched, and damage */

static uint64_t unwatched(const struct call *call, uint64_t left)
{
    now.left = left;
    perform(call, &now);
    return left - now.left;
}

void fresh(size_t count)
{
    fill_with_junk();
    const struct call call = formatting(count);
    unwatched(&call, UINT64_MAX);
    put_junk(now.memory.image + ZILPANUD_CELL_INDEX(0), ZILPANUD_CELLS);
    for (size_t d = 0; d < count; d++) {
        put_junk(record(d) + 2, 4);    /* the log's entries */
        put_junk(record(d) + NUMBER, RECORD - NUMBER);
        record(d)[LAST] &= UINT64_MAX >> 1;    /* with room for numbers above it */
    }
}

void give(size_t worker, uint64_t above, const uint64_t *section, size_t steps)
{
    const struct call call = submitting(worker, above, section, steps);
    unwatched(&call, UINT64_MAX);
}

static struct call whole_run(void)
{
    struct call call = call_of(RUN, 0);
    call.rounds = 384 * ZILPANUD_WORKERS;
    return call;
}

uint64_t stores_of_run(void)
{
    const struct call call = whole_run();
    const struct world kept = now;
    const uint64_t stores = unwatched(&call, UINT64_MAX);
    now = kept;
    return stores;
}

void cut_run(uint64_t stores)
{
    const struct call call = whole_run();
    unwatched(&call, stores);
}

void cut_recovery(uint64_t stores)
{
    const struct call call = call_of(RECOVER, 0);
    unwatched(&call, stores);
}

void set_workers(size_t count)
{
    workers = count;
}

void set_cursor(size_t worker, uint8_t step, uint8_t turn_number)
{
    now.step[worker] = step;
    now.turn[worker] = turn_number;
}

void set_word(size_t index, uint64_t word)
{
    now.memory.image[index] = word;
}

struct world keep(void)
{
    return now;
}

void go_back(const struct world *kept)
{
    now = *kept;
}
