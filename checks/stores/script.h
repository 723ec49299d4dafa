/* The calls that are watched. */
#ifndef STORES_SCRIPT_H
#define STORES_SCRIPT_H

/* Calls of every sort, with every answer they have. Ends the program with 2 where one answers something else, or where
 * an answer, or a turn of a kind, was not met. */
void play(void);

/* one submit, for the stand-ins */
void play_submit(void);

#endif
