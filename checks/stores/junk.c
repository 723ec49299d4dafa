#include "junk.h"

static uint64_t random_word(void)
{
    static uint64_t state = 20261116;
    state ^= state << 13;
    state ^= state >> 7;
    state ^= state << 17;
    return state;
}

static uint64_t junk(void)
{
    for (;;) {
        const uint64_t word = random_word();
        uint64_t bytes[4] = {1};    /* a bit for each byte met; 0 counts as met */
        int i = 0;
        for (; i < 64; i += 8) {
            const unsigned byte = word >> i & 255;
            if ((bytes[byte / 64] & UINT64_C(1) << byte % 64) != 0) {
                break;
            }
            bytes[byte / 64] |= UINT64_C(1) << byte % 64;
        }
        if (i == 64) {
            return word;
        }
    }
}

void put_junk(uint64_t *words, size_t count)
{
    for (size_t i = 0; i < count; i++) {
        words[i] = junk();
    }
}
