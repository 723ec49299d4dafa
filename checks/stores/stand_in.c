#include "stand_in.h"

#include <emmintrin.h>

/* volatile: each assignment is one store, in its place */
typedef volatile uint64_t word;
typedef volatile uint32_t half __attribute__((may_alias));

static void store_args(uint64_t *own, const uint64_t *args, enum flaw flaw)
{
    word *to = own;
    half *low = (half *)own;
    size_t i = 0;
    if (flaw == PAIR) {
        _mm_storeu_si128((__m128i *)own, _mm_set_epi64x((long long)args[1], (long long)args[0]));
        i = 2;
    } else if (flaw == HALVES) {
        low[0] = (uint32_t)args[0];
        low[1] = (uint32_t)(args[0] >> 32);
        i = 1;
    } else if (flaw == ORDER) {
        to[1] = args[1];
        to[0] = args[0];
        i = 2;
    }
    for (; i < ZILPANUD_ARGS; i++) {
        to[i] = args[i];
    }
}

void stand_in(const struct call *call, struct world *world, enum flaw flaw)
{
    uint64_t *record = world->memory.image + ZILPANUD_IMAGE_WORDS(call->worker);
    word *to = record;
    to[8] = call->number;
    store_args(record + 10, call->args, flaw);
    for (size_t i = 0; i < call->steps; i++) {
        to[18 + i] = call->section[i];
    }
    if (flaw != MISSING) {
        to[0] = call->steps;
    }
    world->step[call->worker] = 0;
    world->turn[call->worker] = 0;
    world->left -= 10 + call->steps;
    world->detail = 0;
    world->answer = ZILPANUD_DONE;
}
