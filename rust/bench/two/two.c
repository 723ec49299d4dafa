/* Two builds of the library in one process, timed by turns: what a change costs, where two processes would differ by more
 * than the change. See two.sh, which renames their functions to old_ and new_. For each work: the median of new over old,
 * and the lowest time of each, in nanoseconds. */

#define _POSIX_C_SOURCE 199309L
#include <inttypes.h>
#include <stdio.h>
#include <stdlib.h>
#include <string.h>
#include <time.h>

#define HEAD 584
#define RECORD 82
#define STEPS 64

#define LIBRARY(build)                                                                                                   \
    uint64_t build##_zilpanud_format(uint64_t *, size_t, uint64_t, uint8_t *, uint8_t *, uint64_t *, uint64_t *);        \
    uint64_t build##_zilpanud_submit(uint64_t *, size_t, uint8_t *, uint8_t *, uint64_t *, size_t, uint64_t,             \
                                     const uint64_t *, const uint64_t *, size_t, uint64_t *, uint64_t *);                \
    uint64_t build##_zilpanud_run(uint64_t *, size_t, uint8_t *, uint8_t *, uint64_t *, uint16_t, uint64_t *,            \
                                  uint64_t *, uint64_t *);                                                               \
    uint64_t build##_zilpanud_recover(uint64_t *, size_t, uint8_t *, uint8_t *, uint64_t *, uint64_t *, uint64_t *);     \
    uint64_t build##_zilpanud_turns_left(const uint64_t *, size_t, size_t, uint64_t *, uint64_t *);

LIBRARY(old)
LIBRARY(new)

/* What both builds have. */
struct library {
    uint64_t (*format)(uint64_t *, size_t, uint64_t, uint8_t *, uint8_t *, uint64_t *, uint64_t *);
    uint64_t (*submit)(uint64_t *, size_t, uint8_t *, uint8_t *, uint64_t *, size_t, uint64_t, const uint64_t *,
                       const uint64_t *, size_t, uint64_t *, uint64_t *);
    uint64_t (*run)(uint64_t *, size_t, uint8_t *, uint8_t *, uint64_t *, uint16_t, uint64_t *, uint64_t *, uint64_t *);
    uint64_t (*recover)(uint64_t *, size_t, uint8_t *, uint8_t *, uint64_t *, uint64_t *, uint64_t *);
    uint64_t (*turns_left)(const uint64_t *, size_t, size_t, uint64_t *, uint64_t *);
};

#define BUILD(build)                                                                                                     \
    {build##_zilpanud_format, build##_zilpanud_submit, build##_zilpanud_run, build##_zilpanud_recover,                   \
     build##_zilpanud_turns_left}

static const struct library builds[2] = {BUILD(old), BUILD(new)};

enum kind { RUN, TURNS_LEFT, RECOVERY };

/* Sections for the first workers, and what is done with them again and again. */
struct work {
    const char *name;
    enum kind kind;
    size_t workers, sections;
    uint64_t words[8][STEPS];
    size_t steps[8];
};

/* An image with its working record. */
struct side {
    uint64_t image[HEAD + 8 * RECORD], held;
    uint8_t step[8], turn[8];
    size_t words;
};

static uint64_t instruction(uint64_t kind, uint64_t a, uint64_t b, uint64_t c)
{
    return kind << 48 | a << 32 | b << 16 | c;
}

/* The sections of rust/bench/src/sections.rs. */
static size_t sums(uint64_t *words, uint64_t lock, size_t steps)
{
    size_t at = 0;
    words[at++] = instruction(1, lock, 0, 0);
    for (uint64_t i = 0; i + 3 < steps; i++) {
        uint64_t x = 8 * lock + i % 8, y = 512 + i % 8;
        words[at++] = i % 4 == 0   ? instruction(3, x, i, i)
                      : i % 4 == 1 ? instruction(4, x, x, y)
                      : i % 4 == 2 ? instruction(5, y, x, y)
                                   : instruction(6, y, y, x);
    }
    words[at++] = instruction(2, lock, 0, 0);
    words[at++] = instruction(8, 0, 0, 0);
    return at;
}

static size_t locks(uint64_t *words)
{
    size_t at = 0;
    for (uint64_t lock = 0; lock < 31; lock++)
        words[at++] = instruction(1, lock, 0, 0);
    words[at++] = instruction(4, 0, 8, 512);
    for (uint64_t lock = 0; lock < 31; lock++)
        words[at++] = instruction(2, lock, 0, 0);
    words[at++] = instruction(8, 0, 0, 0);
    return at;
}

static size_t hand_over_hand(uint64_t *words)
{
    size_t at = 0;
    words[at++] = instruction(1, 0, 0, 0);
    for (uint64_t b = 0; b < 11; b++) {
        for (uint64_t k = 0; k < 3; k++)
            words[at++] = instruction(4, 8 * b + k, 8 * b + k, 512 + k);
        words[at++] = instruction(1, b + 1, 0, 0);
        words[at++] = instruction(2, b, 0, 0);
    }
    while (at < 62)
        words[at++] = instruction(4, 88, 88, 512);
    words[at++] = instruction(2, 11, 0, 0);
    words[at++] = instruction(8, 0, 0, 0);
    return at;
}

static void set_up(const struct library *build, const struct work *work, struct side *side)
{
    uint64_t left = UINT64_MAX, detail, tally[5], args[8] = {0};
    memset(side, 0, sizeof *side);
    side->words = HEAD + RECORD * work->workers;
    build->format(side->image, side->words, work->workers, side->step, side->turn, &side->held, &left);
    for (size_t d = 0; d < work->sections; d++) {
        uint64_t answer = build->submit(side->image, side->words, side->step, side->turn, &side->held, d, 1, args,
                                        work->words[d], work->steps[d], &left, &detail);
        if (answer != 0) {
            fprintf(stderr, "%s: worker %zu's section is refused with %" PRIu64 "\n", work->name, d, answer);
            exit(1);
        }
    }
    if (work->kind != RUN)
        build->run(side->image, side->words, side->step, side->turn, &side->held, 60, tally, &left, &detail);
}

static void once(const struct library *build, const struct work *work, struct side *side)
{
    uint64_t left = UINT64_MAX, detail, fewest, most, tally[5], held = side->held;
    uint8_t step[8], turn[8];
    switch (work->kind) {
    case TURNS_LEFT:
        build->turns_left(side->image, side->words, 0, &fewest, &most);
        return;
    case RECOVERY:
        build->recover(side->image, side->words, step, turn, &held, &left, &detail);
        return;
    case RUN:
        for (size_t d = 0; d < work->sections; d++)
            side->image[HEAD + RECORD * d] = work->steps[d]; /* so that it can be gone through again */
        memcpy(step, side->step, sizeof step);
        memcpy(turn, side->turn, sizeof turn);
        build->run(side->image, side->words, step, turn, &held, UINT16_MAX, tally, &left, &detail);
    }
}

static double batch(const struct library *build, const struct work *work, struct side *side, long times)
{
    struct timespec start, end;
    clock_gettime(CLOCK_MONOTONIC, &start);
    for (long i = 0; i < times; i++)
        once(build, work, side);
    clock_gettime(CLOCK_MONOTONIC, &end);
    return ((double)(end.tv_sec - start.tv_sec) * 1e9 + (double)(end.tv_nsec - start.tv_nsec)) / (double)times;
}

static int by_size(const void *a, const void *b)
{
    double x = *(const double *)a, y = *(const double *)b;
    return (x > y) - (x < y);
}

static void measure(const struct work *work, int rounds)
{
    static struct side sides[2];
    double ratios[1001], lowest[2] = {1e18, 1e18};
    long times = 1;
    for (int side = 0; side < 2; side++)
        set_up(&builds[side], work, &sides[side]);
    while (batch(&builds[0], work, &sides[0], times) * (double)times < 3e5)
        times *= 2;
    for (int round = 0; round < rounds; round++) {
        double taken[2];
        for (int turn = 0; turn < 2; turn++) {
            int side = (turn + round) % 2;
            taken[side] = batch(&builds[side], work, &sides[side], times);
            if (taken[side] < lowest[side])
                lowest[side] = taken[side];
        }
        ratios[round] = taken[1] / taken[0];
    }
    if (memcmp(sides[0].image, sides[1].image, sizeof sides[0].image) != 0)
        fprintf(stderr, "%s: the images differ\n", work->name);
    qsort(ratios, (size_t)rounds, sizeof *ratios, by_size);
    printf("%s|%.4f|%.2f|%.2f\n", work->name, ratios[rounds / 2], lowest[0], lowest[1]);
}

/* Works with one section for each worker: of so many steps, under its own lock or under one. */
static struct work of_sums(const char *name, enum kind kind, size_t workers, size_t sections, size_t steps, int one_lock)
{
    struct work work = {.name = name, .kind = kind, .workers = workers, .sections = sections};
    for (size_t d = 0; d < sections; d++)
        work.steps[d] = sums(work.words[d], one_lock ? 3 : d, steps);
    return work;
}

int main(int count, char **arguments)
{
    int rounds = count > 1 ? atoi(arguments[1]) : 41;
    if (rounds < 1 || rounds > 1001) {
        fprintf(stderr, "usage: two [rounds, 1 to 1001]\n");
        return 2;
    }
    struct work work[] = {
        of_sums("run, 1 worker, sums", RUN, 1, 1, 64, 1),
        {.name = "run, 1 worker, acquires and releases", .workers = 1, .sections = 1},
        of_sums("run, section of 8 steps", RUN, 1, 1, 8, 1),
        of_sums("run, section of 16 steps", RUN, 1, 1, 16, 1),
        of_sums("run, section of 32 steps", RUN, 1, 1, 32, 1),
        of_sums("run, 8 workers, one with a section", RUN, 8, 1, 64, 1),
        of_sums("run, a lock each, workers: 2", RUN, 2, 2, 64, 0),
        of_sums("run, a lock each, workers: 4", RUN, 4, 4, 64, 0),
        of_sums("run, a lock each, workers: 8", RUN, 8, 8, 64, 0),
        {.name = "run, 8 workers contending, hand over hand", .workers = 8, .sections = 8},
        of_sums("run, 8 workers contending for one lock", RUN, 8, 8, 64, 1),
        of_sums("run, 8 workers, one of 64 steps and seven of 8", RUN, 8, 8, 8, 0),
        of_sums("turns left, 48 sums ahead", TURNS_LEFT, 8, 8, 64, 0),
        of_sums("turns left, idle worker", TURNS_LEFT, 8, 0, 64, 0),
        of_sums("recovery, 8 workers at 64 steps", RECOVERY, 8, 8, 64, 0),
    };
    work[1].steps[0] = locks(work[1].words[0]);
    for (size_t d = 0; d < 8; d++)
        work[9].steps[d] = hand_over_hand(work[9].words[d]);
    work[11].steps[0] = sums(work[11].words[0], 0, 64);
    for (size_t i = 0; i < sizeof work / sizeof *work; i++)
        measure(&work[i], rounds);
    return 0;
}
