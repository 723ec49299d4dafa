#include "call.h"

#include <inttypes.h>

static uint64_t changing(const struct call *call, struct world *w)
{
    uint64_t *image = w->memory.image;
    switch (call->name) {
    case FORMAT: return zilpanud_format(image, call->words, call->workers, w->step, w->turn, &w->held, &w->left);
    case SUBMIT:
        return zilpanud_submit(image, call->words, w->step, w->turn, &w->held, call->worker, call->number, call->args,
                               call->section, call->steps, &w->left, &w->detail);
    case TURN:
        return zilpanud_turn(image, call->words, w->step, w->turn, &w->held, call->worker, &w->left, &w->detail);
    case RUN:
        return zilpanud_run(image, call->words, w->step, w->turn, &w->held, call->rounds, w->tally, &w->left,
                            &w->detail);
    default: return zilpanud_recover(image, call->words, w->step, w->turn, &w->held, &w->left, &w->detail);
    }
}

/* a call that is lent no image */
static uint64_t imageless(const struct call *call, struct world *w)
{
    switch (call->name) {
    case CHECK: return zilpanud_check(call->section, call->steps, &w->detail);
    case HELD_SETS: return zilpanud_held_sets(call->section, call->steps, w->sets, &w->detail);
    case TURNS_OF_PATH:
        return zilpanud_turns_of_path(call->section, call->steps, call->path, call->steps + 1, &w->told, &w->detail);
    case TURNS_FROM:
        return zilpanud_turns_from(call->section, call->steps, call->number, &w->told, &w->most, &w->detail);
    case DAY_SUMS: return zilpanud_day_sums(call->day, call->bytes, w->locks, w->waited, w->moved, &w->detail);
    default:
        w->told = zilpanud_locks_held(w->held);
        return ZILPANUD_DONE;
    }
}

void perform(const struct call *call, struct world *w)
{
    const uint64_t *image = w->memory.image;
    switch (call->name) {
    case CHECK:
    case HELD_SETS:
    case TURNS_OF_PATH:
    case TURNS_FROM:
    case DAY_SUMS:
    case LOCKS_HELD: w->answer = imageless(call, w); break;
    case IS_IDLE:
        w->answer = zilpanud_is_idle(image, call->words, w->step, w->turn, call->worker, &w->told);
        break;
    case FINISHED: w->answer = zilpanud_finished(image, call->words, call->worker, &w->told); break;
    case STANDING:
        w->answer = zilpanud_standing(image, call->words, call->worker, call->number, &w->told);
        break;
    case TURNS_LEFT:
        w->answer = zilpanud_turns_left(image, call->words, call->worker, &w->told, &w->most);
        break;
    default: w->answer = changing(call, w);
    }
}

void describe(FILE *to, const struct call *call)
{
    static const char *const names[NAMES] = {
        "format", "check", "held_sets", "turns_of_path", "turns_from", "submit", "turn",
        "run", "recover", "locks_held", "is_idle", "finished", "standing", "turns_left", "day_sums",
    };
    fprintf(to, "%s of %zu words", names[call->name], call->words);
    switch (call->name) {
    case FORMAT: fprintf(to, ", workers %" PRIu64, call->workers); break;
    case CHECK:
    case HELD_SETS:
    case TURNS_OF_PATH:
    case TURNS_FROM: fprintf(to, ", steps %zu", call->steps); break;
    case SUBMIT:
        fprintf(to, ", worker %zu, number %" PRIu64 ", steps %zu", call->worker, call->number, call->steps);
        break;
    case RUN: fprintf(to, ", rounds %d", call->rounds); break;
    case DAY_SUMS: fprintf(to, ", bytes %zu", call->bytes); break;
    case RECOVER:
    case LOCKS_HELD: break;
    default: fprintf(to, ", worker %zu", call->worker);
    }
}
