/* The sums of a recorded day, on days whose turns are worked out by hand. Their ticket is document 01's: acquire lock
 * 3; cell 24 := 5; release lock 3; finish. Its turns are 6 + 4 + 6 + 3 = 19; the second takes the lock, the fifteenth
 * frees it. */
#include "header_again.h"

#include <string.h>
#include <zilpanud.h>

#define NONE "0000000000000000"
#define TICKET(worker)                                                                           \
    "01" worker "0000000000000001" NONE NONE NONE NONE NONE NONE NONE NONE                       \
    "0001000300000000" "0003001800000005" "0002000300000000" "0008000000000000\n"
#define TWO_TICKETS "02\n" TICKET("00") TICKET("01")

/* the words that the sums go to, with some on either side that no call may change */
enum { AROUND = 4, EACH = AROUND + ZILPANUD_LOCKS + AROUND };
static uint64_t around[3][EACH];
static uint64_t *const locks = around[0] + AROUND;
static uint64_t *const waited = around[1] + AROUND;
static uint64_t *const moved = around[2] + AROUND;
static uint64_t detail;

static int all_are(uint64_t word, const uint64_t *words, size_t count)
{
    for (size_t i = 0; i < count; i++) {
        if (words[i] != word) {
            return 0;
        }
    }
    return 1;
}

static uint64_t sums_of(const char *bytes, size_t length)
{
    static const size_t counts[3] = {ZILPANUD_LOCKS, ZILPANUD_WORKERS, ZILPANUD_WORKERS};
    memset(around, 255, sizeof around);
    detail = UINT64_MAX;
    const uint64_t answer =
        zilpanud_day_sums(ZILPANUD_AS(const uint8_t *, ZILPANUD_AS(const void *, bytes)), length, locks, waited, moved,
                          &detail);
    for (size_t i = 0; i < 3; i++) {
        const size_t behind = AROUND + counts[i];
        ensure(all_are(UINT64_MAX, around[i], AROUND), "no word before the sums is touched");
        ensure(all_are(UINT64_MAX, around[i] + behind, EACH - behind), "no word behind the sums is touched");
    }
    return answer;
}

/* a text that ends with a byte 0, which is not given */
static uint64_t sums(const char *day)
{
    return sums_of(day, strlen(day));
}

/* Lock 3 alone was waited for, by worker 1 alone, so often; workers 0 and 1 alone moved, so often. */
static int are(uint64_t waits, uint64_t first, uint64_t second)
{
    const int others = all_are(0, locks, 3) && all_are(0, locks + 4, ZILPANUD_LOCKS - 4) && waited[0] == 0 &&
                       all_are(0, waited + 2, ZILPANUD_WORKERS - 2) && all_are(0, moved + 2, ZILPANUD_WORKERS - 2);
    return others && locks[3] == waits && waited[1] == waits && moved[0] == first && moved[1] == second;
}

/* In rounds worker 0 is first: it takes the lock in round 2 and frees it in round 15, before worker 1's turn of that
 * round, which waits in rounds 2 to 14. In 02 lines worker 1's first turn stores its intent. */
static void whole_days(void)
{
    ensure(sums(TWO_TICKETS) == ZILPANUD_DONE && are(0, 0, 0) && detail == 3, "a submit is no turn");
    ensure(sums(TWO_TICKETS "040000\n") == ZILPANUD_DONE && are(0, 0, 0) && detail == 4, "nor are no rounds");
    ensure(sums(TWO_TICKETS "04000e\n") == ZILPANUD_DONE && are(13, 14, 1), "14 rounds");
    ensure(sums(TWO_TICKETS "04000f\n") == ZILPANUD_DONE && are(13, 15, 2), "15 rounds");
    ensure(sums(TWO_TICKETS "04ffff") == ZILPANUD_DONE && are(13, 19, 19) && detail == 4, "rounds to the end");
    ensure(sums(TWO_TICKETS "02000002\n0201ffff\n0201ffff\n") == ZILPANUD_DONE && are(131069, 2, 1),
           "65,534 waits and 65,535");
    ensure(sums(TWO_TICKETS "02000005\n02010003\n03\n02010009\n0200ffff\n") == ZILPANUD_DONE && are(2, 19, 1),
           "the sums go on across a cut; worker 1 is idle behind it");
    ensure(detail == 8, "eight lines");
}

static void early_ends(void)
{
    ensure(sums_of(TWO_TICKETS, 0) == ZILPANUD_DONE && are(0, 0, 0) && detail == 0, "no bytes");
    ensure(sums("00\n03\n") == ZILPANUD_IMAGE && are(0, 0, 0) && detail == 1, "10 for no workers");
    ensure(sums("09") == ZILPANUD_IMAGE && are(0, 0, 0) && detail == 1, "10 for nine workers");
    ensure(sums("\n01\n") == ZILPANUD_LINE && are(0, 0, 0) && detail == 1, "14 for an empty first line");
    ensure(sums(TWO_TICKETS "04000e\n\n040001\n") == ZILPANUD_LINE && are(13, 14, 1) && detail == 5, "14 at line 5");
    ensure(sums(TWO_TICKETS "04000e\n04000") == ZILPANUD_LINE && are(13, 14, 1) && detail == 5, "14 for a length");
    ensure(sums_of(TWO_TICKETS "04000e\n", sizeof TWO_TICKETS "04000e\n") == ZILPANUD_LINE && are(13, 14, 1),
           "14 for a line of a byte 0");
}

void days_summed(void)
{
    whole_days();
    early_ends();
}
