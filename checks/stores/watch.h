/* A child that makes calls while its parent looks at the image after every machine instruction. */
#ifndef STORES_WATCH_H
#define STORES_WATCH_H

#include "call.h"
#include "stand_in.h"

/* what was watched so far */
struct watched {
    uint64_t calls;
    uint64_t instructions;
    uint64_t made;    /* stores that the calls took off the stores left */
    uint64_t seen;    /* those of them that changed a word */
};

/* Starts the child, whose submits are made by the stand-in if there is one. Returns 0 where the system does not allow
 * it to be watched. */
int watch_start(enum flaw flaw);

/* Has the child make the call on a world, which is then what the call left. Ends the program with 1 where a store is
 * not as it should be. */
void watch(const struct call *call, struct world *world);

struct watched watch_end(void);

#endif
