/* The calls that say how many turns a section takes, on sections and cuts whose turns are worked out by hand: an
 * acquire and a release have 6, kinds 3 to 6 have 4, a jump 1, a finish 3. */
#include "header_again.h"

#include <zilpanud.h>

#define ACQUIRE ZILPANUD_INSTRUCTION(ZILPANUD_ACQUIRE, 3, 0, 0)
#define SET ZILPANUD_INSTRUCTION(ZILPANUD_SET, 24, 0, 5)
#define RELEASE ZILPANUD_INSTRUCTION(ZILPANUD_RELEASE, 3, 0, 0)
#define FINISH ZILPANUD_INSTRUCTION(ZILPANUD_FINISH, 0, 0, 0)

/* 6 + 4 + 6 + 3 */
static const uint64_t ticket[] = {ACQUIRE, SET, RELEASE, FINISH};

/* The first jump goes past the second, to two assignments; the second goes past those. */
static const uint64_t crossed[] = {
    ACQUIRE,
    ZILPANUD_INSTRUCTION(ZILPANUD_JUMP, ZILPANUD_OWN(0), 3, 0),
    ZILPANUD_INSTRUCTION(ZILPANUD_JUMP, ZILPANUD_OWN(1), 5, 0),
    SET,
    SET,
    RELEASE,
    FINISH,
};

static uint64_t turns, fewest, most, detail;

static uint64_t of_path(const uint64_t *words, size_t count, const uint64_t *path, size_t path_len)
{
    turns = detail = UINT64_MAX;
    return zilpanud_turns_of_path(words, count, path, path_len, &turns, &detail);
}

static uint64_t from(const uint64_t *words, size_t count, uint64_t step)
{
    fewest = most = detail = UINT64_MAX;
    return zilpanud_turns_from(words, count, step, &fewest, &most, &detail);
}

static int needs(uint64_t least, uint64_t largest)
{
    return fewest == least && most == largest;
}

static void paths(void)
{
    static const uint64_t all[] = {0, 1, 2, 3, 4, 5, 6};
    static const uint64_t by_first[] = {0, 1, 3, 4, 5, 6};
    static const uint64_t by_second[] = {0, 1, 2, 5, 6};
    static const uint64_t again[] = {3, 3, 0};
    static const uint64_t past_end[] = {0, 1, 4, 9};
    ensure(of_path(ticket, 4, all, 4) == ZILPANUD_DONE && turns == 19 && detail == 0, "the ticket takes 19 turns");
    ensure(of_path(crossed, 7, all, 7) == ZILPANUD_DONE && turns == 25, "25 turns with no jump made");
    ensure(of_path(crossed, 7, by_first, 6) == ZILPANUD_DONE && turns == 24, "24 by the first jump");
    ensure(of_path(crossed, 7, by_second, 5) == ZILPANUD_DONE && turns == 17, "17 by the second");
    ensure(of_path(ticket, 4, again, 3) == ZILPANUD_DONE && turns == 12, "a step may stand in a path again");
    ensure(of_path(ticket, 4, ticket + 4, 0) == ZILPANUD_DONE && turns == 0, "no step takes no turn");
    ensure(of_path(ticket, 4, past_end, 4) == ZILPANUD_MALFORMED && detail == 4, "5 with the first that is not there");
    ensure(turns == 0, "a refused path has no turns");
    ensure(of_path(ticket, 2, all, 2) == ZILPANUD_MALFORMED && detail == 1, "the last step is no finish");
    ensure(of_path(ticket, 3, all, 2) == ZILPANUD_DONE && turns == 10, "no other step is looked at");
    ensure(of_path(ticket + 4, 0, all, 1) == ZILPANUD_MALFORMED && detail == 0, "no words have no step");
    ensure(of_path(ticket, 4, ticket, 4) == ZILPANUD_MALFORMED && detail == ticket[0], "one memory for both");
}

static void steps(void)
{
    ensure(from(ticket, 4, 0) == ZILPANUD_DONE && needs(19, 19) && detail == 0, "the ticket needs 19 turns");
    ensure(from(ticket, 4, 2) == ZILPANUD_DONE && needs(9, 9), "9 from its release on");
    ensure(from(crossed, 7, 0) == ZILPANUD_DONE && needs(17, 25), "17 to 25");
    ensure(from(crossed, 7, 2) == ZILPANUD_DONE && needs(10, 18), "10 to 18 from the second jump on");
    ensure(from(crossed, 7, 6) == ZILPANUD_DONE && needs(3, 3), "3 from the finish on");
    ensure(from(crossed, 7, 7) == ZILPANUD_MALFORMED && needs(0, 0) && detail == 7, "5 for a step that is not there");
    ensure(from(ticket, 2, 9) == ZILPANUD_LENGTH && needs(0, 0) && detail == 0, "4 comes before");
    ensure(from(ticket, 3, 9) == ZILPANUD_MALFORMED && needs(0, 0) && detail == 2, "and 5 by the check");
    ensure(from(crossed, 6, 9) == ZILPANUD_MALFORMED && needs(0, 0) && detail == 5, "at its last step");
    ensure(from(crossed + 1, 6, 9) == ZILPANUD_UNBRACKETED && needs(0, 0) && detail == 0, "and 6");
    ensure(from(ticket + 4, 0, 0) == ZILPANUD_LENGTH && needs(0, 0), "4 for no steps");
}

/* ---- what is left of the ticket: 14 turns after 5, 6 after 15, and none where it is not begun */

enum { WORDS = ZILPANUD_IMAGE_WORDS(1), COUNT = 584 };

static uint64_t image[WORDS];
static uint8_t step[ZILPANUD_WORKERS];
static uint8_t turn[ZILPANUD_WORKERS];
static uint64_t held;

static uint64_t left(size_t words, size_t worker)
{
    fewest = most = UINT64_MAX;
    return zilpanud_turns_left(image, words, worker, &fewest, &most);
}

static int is_left(uint64_t count)
{
    return left(WORDS, 0) == ZILPANUD_DONE && needs(count, count);
}

static void stored(int count)
{
    for (int i = 0; i < count; i++) {
        ensure(zilpanud_turn(image, WORDS, step, turn, &held, 0, ZILPANUD_ALL, &detail) == ZILPANUD_STORED, "a store");
    }
}

static void recovered(void)
{
    ensure(zilpanud_recover(image, WORDS, step, turn, &held, ZILPANUD_ALL, &detail) == ZILPANUD_DONE, "recovered");
}

static void after_cuts(void)
{
    static const uint64_t args[ZILPANUD_ARGS] = {0};
    uint64_t tally[ZILPANUD_TALLY_WORDS];
    ensure(zilpanud_format(image, WORDS, 1, step, turn, &held, ZILPANUD_ALL) == ZILPANUD_DONE, "formatted");
    ensure(zilpanud_submit(image, WORDS, step, turn, &held, 0, 1, args, ticket, 4, ZILPANUD_ALL, &detail) ==
               ZILPANUD_DONE, "taken");
    stored(4);
    ensure(is_left(0), "nothing is left of a section that is not begun");
    stored(1);
    ensure(is_left(14), "14 turns are left before a recovery");
    recovered();
    ensure(is_left(14), "and after it");
    stored(10);
    ensure(is_left(6), "6 from the release on");
    recovered();
    ensure(is_left(6), "and after a second recovery");
    ensure(zilpanud_run(image, WORDS, step, turn, &held, 6, tally, ZILPANUD_ALL, &detail) == ZILPANUD_DONE, "idle");
    ensure(tally[ZILPANUD_TALLY_TURNS] == 6 && is_left(0), "and it takes 6");
}

static void left_refused(void)
{
    image[COUNT] = 65;
    ensure(left(WORDS - 1, 1) == ZILPANUD_IMAGE && needs(0, 0), "10 comes first");
    ensure(left(0, 0) == ZILPANUD_IMAGE && needs(0, 0), "10 for no words");
    ensure(left(WORDS, 1) == ZILPANUD_NO_WORKER && needs(0, 0), "then 1");
    ensure(left(WORDS, 0) == ZILPANUD_RECORD && needs(0, 0), "then 12");
}

void turns_counted(void)
{
    paths();
    steps();
    after_cuts();
    left_refused();
}
