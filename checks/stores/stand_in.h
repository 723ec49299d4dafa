/* A submit made by hand, right or with a flaw, in place of the library's: it shows that the trial can fail. */
#ifndef STORES_STAND_IN_H
#define STORES_STAND_IN_H

#include "call.h"

enum flaw {
    NO_STAND_IN,
    RIGHT,     /* no flaw: the trial passes */
    PAIR,      /* two words by one store of 16 bytes */
    HALVES,    /* a word by two stores of 4 bytes */
    ORDER,     /* two stores in the wrong order */
    MISSING    /* the last store left out */
};

void stand_in(const struct call *call, struct world *world, enum flaw flaw);

#endif
