/* The image under trial, and the calls on it by name, each with the answer that it must give. */
#ifndef STORES_TRIAL_H
#define STORES_TRIAL_H

#include "call.h"

/* ---- watched calls. A wrong answer ends the program with 2. */

void format(size_t workers, uint64_t answer);
void check(const uint64_t *section, size_t steps, uint64_t answer);
void held_sets(const uint64_t *section, size_t steps, uint64_t answer);

/* The turns of all steps of a section, with one of them, or another number, once more; and from that one on. */
void turns_of_path(const uint64_t *section, size_t steps, uint64_t step, uint64_t answer);
void turns_from(const uint64_t *section, size_t steps, uint64_t step, uint64_t answer);

/* The section gets the worker's last finished number plus `above`, and arguments of junk. */
void submit(size_t worker, uint64_t above, const uint64_t *section, size_t steps, uint64_t answer);
void turn(size_t worker, uint64_t answer);

/* A turn that passes, with this detail. */
void passing_turn(size_t worker, uint64_t detail);
void turns_until_idle(size_t worker);
void run(uint16_t rounds, uint64_t answer);
void recover(uint64_t answer);

/* So many locks are held. */
void locks_held(uint64_t count);

/* All that are asked about a worker; its turns left also by themselves. */
void questions(size_t worker, uint64_t answer);
void turns_left(size_t worker, uint64_t answer);

/* A recorded day, in which lock 3 was waited for so many times. */
void day_sums(const char *day, uint64_t waits, uint64_t answer);

/* ---- calls that are not watched, and damage */

/* Words, a mask of locks held, held sets and sums of a day, whose eight bytes are different and none of them 0, so that
 * a half of a word, or a word that is stored before its time, shows. */
void fill_with_junk(void);

/* A formatted image of so many workers with junk in all words that an image at rest may have it in. */
void fresh(size_t workers);
void give(size_t worker, uint64_t above, const uint64_t *section, size_t steps);

/* A run, or a recovery, that is cut after so many stores. */
void cut_run(uint64_t stores);
void cut_recovery(uint64_t stores);
uint64_t stores_of_run(void);

void set_workers(size_t workers);
void set_cursor(size_t worker, uint8_t step, uint8_t turn);
void set_word(size_t index, uint64_t word);
struct world keep(void);
void go_back(const struct world *kept);

/* Ends the program with 2 unless every answer of every call, every turn of every kind, and every reason for which a
 * turn passes, was met. */
void all_met(void);

#endif
