/*
 * A call of the library as data: the watched child makes it, and its parent makes it again on copies, cut after each of
 * its stores.
 */
#ifndef STORES_CALL_H
#define STORES_CALL_H

#include <stddef.h>
#include <stdint.h>
#include <stdio.h>
#include <zilpanud.h>

#define LARGEST 1240    /* the words of an image of 8 workers */
#define AROUND 8        /* words watched before and behind it, which no call may change */
#define DAY 1000        /* bytes of a recorded day, at most */

enum name {
    FORMAT, CHECK, HELD_SETS, TURNS_OF_PATH, TURNS_FROM, SUBMIT, TURN, RUN, RECOVER, LOCKS_HELD, IS_IDLE, FINISHED,
    STANDING, TURNS_LEFT, DAY_SUMS, NAMES
};

/* what a call is given by value or only reads */
struct call {
    enum name name;
    size_t words;    /* the image's length that the call is told */
    uint64_t workers;
    size_t worker;
    uint64_t number;
    uint16_t rounds;
    uint64_t args[ZILPANUD_ARGS];
    size_t steps;
    uint64_t section[ZILPANUD_STEPS_MAX + 1];
    uint64_t path[ZILPANUD_STEPS_MAX + 1];    /* each step of the section, and one number more */
    size_t bytes;
    uint8_t day[DAY];
};

/* the words that are watched */
struct memory {
    uint64_t before[AROUND];
    uint64_t image[LARGEST];
    uint64_t behind[AROUND];
};

/* what a call is lent, and its answer. There is no room between the members, so that two of them compare by bytes. */
struct world {
    struct memory memory;
    uint8_t step[ZILPANUD_WORKERS];
    uint8_t turn[ZILPANUD_WORKERS];
    uint64_t held;
    uint64_t left;
    uint64_t detail;
    uint64_t tally[ZILPANUD_TALLY_WORDS];
    uint64_t sets[ZILPANUD_STEPS_MAX];
    uint64_t locks[ZILPANUD_LOCKS];    /* these three: the sums of a day */
    uint64_t waited[ZILPANUD_WORKERS];
    uint64_t moved[ZILPANUD_WORKERS];
    uint64_t told;    /* what a question writes, or the locks held; the turns of a path, or the fewest */
    uint64_t most;    /* turns */
    uint64_t answer;
};

void perform(const struct call *call, struct world *world);

/* the call in a few words, for a message */
void describe(FILE *to, const struct call *call);

#endif
