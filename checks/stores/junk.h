/* Words of junk. */
#ifndef STORES_JUNK_H
#define STORES_JUNK_H

#include <stddef.h>
#include <stdint.h>

/* Words whose eight bytes are different and none of them 0. */
void put_junk(uint64_t *words, size_t count);

#endif
