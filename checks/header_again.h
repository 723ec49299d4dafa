/* What the files of the header's check have of each other. */
#ifndef HEADER_AGAIN_H
#define HEADER_AGAIN_H

#include <stdint.h>

/* from a second file that includes the header */
uint64_t left_elsewhere(void);

/* how many turns a section takes */
void turns_counted(void);

/* the waits of a recorded day */
void days_summed(void);

/* Ends the program with 1 where this is not so. */
void ensure(int holds, const char *what);

#endif
