/*
 * Which bays a ticket holds before each of its steps, and what the check says of it.
 *
 *     held_sets [WORD ...]
 *     printf '%04x%04x%04x%04x ' 1 3 0 0  7 24 3 0  1 5 0 0  2 5 0 0  2 3 0 0  8 0 0 0 | held_sets
 *
 * The words are the ticket's steps, of 16 hexadecimal digits each (lower case, as in a frame line): as arguments or, if
 * there are none, on standard input, with blanks or line ends between them. A line is printed for each step. The bays
 * go by the list from the top to the bottom, as if no skip were made. The last line is the check's verdict; for cause 9
 * it has the bays held at the skip and at the step that it goes to, and the lines above say what makes the difference.
 *
 * Ends with 0 if the bays were shown, whatever the verdict is; with 1 if the ticket has none to show, since it has not
 * 3 to 64 steps (4) or a step is malformed (5); with 2 if something given is no word, or there are too many.
 *
 *     cc -std=c99 held_sets.c $(pkg-config --cflags --libs zilpanud) -o held_sets
 */
#include <zilpanud.h>

#include <inttypes.h>
#include <stdio.h>
#include <stdlib.h>
#include <string.h>

#define ROOM 256    /* words: more than a ticket may have, so that the library says what is wrong with 65 */
#define TEXT 80     /* characters of a step in words */

struct ticket {
    uint64_t words[ROOM];
    size_t steps;
    uint64_t sets[ZILPANUD_STEPS_MAX];    /* the bays held before each step, as masks */
};

static void add(struct ticket *ticket, const char *text)
{
    if (strlen(text) != 16 || strspn(text, "0123456789abcdef") != 16) {
        fprintf(stderr, "held_sets: '%s' is not 16 hexadecimal digits (0 to 9, a to f)\n", text);
        exit(2);
    }
    if (ticket->steps == ROOM) {
        fprintf(stderr, "held_sets: there are more than %d words\n", ROOM);
        exit(2);
    }
    ticket->words[ticket->steps++] = (uint64_t)strtoumax(text, NULL, 16);
}

static void read_words(struct ticket *ticket)
{
    char text[18];    /* room for a digit too many, so that it is seen */
    while (scanf("%17s", text) == 1) {
        add(ticket, text);
    }
    if (ferror(stdin)) {
        perror("held_sets: standard input");
        exit(2);
    }
}

static unsigned field(uint64_t word, int shift)
{
    return (unsigned)(word >> shift & 0xffff);
}

/* A step in the planners' words. */
static void say(char *text, uint64_t word)
{
    const unsigned a = field(word, 32), b = field(word, 16), c = field(word, 0);
    switch (field(word, 48)) {
    case ZILPANUD_ACQUIRE: snprintf(text, TEXT, "take %u", a); break;
    case ZILPANUD_RELEASE: snprintf(text, TEXT, "drop %u", a); break;
    case ZILPANUD_SET: snprintf(text, TEXT, "word %u := %" PRIu64, a, word & UINT32_MAX); break;
    case ZILPANUD_ADD: snprintf(text, TEXT, "word %u := word %u + word %u", a, b, c); break;
    case ZILPANUD_SUBTRACT: snprintf(text, TEXT, "word %u := word %u - word %u", a, b, c); break;
    case ZILPANUD_LESS: snprintf(text, TEXT, "word %u := 1 if word %u < word %u, else 0", a, b, c); break;
    case ZILPANUD_JUMP: snprintf(text, TEXT, "skip to step %u if word %u is 0", b, a); break;
    default: snprintf(text, TEXT, "end");
    }
}

static void print_bays(uint64_t set, const char *behind)
{
    const char *gap = "";
    for (unsigned bay = 0; bay < ZILPANUD_LOCKS; bay++) {
        if ((set >> bay & 1) != 0) {
            printf("%s%u", gap, bay);
            gap = " ";
        }
    }
    printf("%s%s", set == 0 ? "none" : "", behind);
}

static void print_steps(const struct ticket *ticket)
{
    char text[TEXT];
    size_t width = 16;
    for (size_t i = 0; i < ticket->steps; i++) {
        say(text, ticket->words[i]);
        width = strlen(text) > width ? strlen(text) : width;
    }
    for (size_t i = 0; i < ticket->steps; i++) {
        say(text, ticket->words[i]);
        printf("step %-2zu %-*s  held: ", i, (int)width, text);
        print_bays(ticket->sets[i], "\n");
    }
}

static void print_verdict(const struct ticket *ticket)
{
    uint64_t step;
    const uint64_t answer = zilpanud_check(ticket->words, ticket->steps, &step);
    if (answer == ZILPANUD_DONE) {
        printf("the check: passes\n");
    } else if (answer != ZILPANUD_UNLEVEL) {
        printf("the check: %" PRIu64 " at step %" PRIu64 ": %s\n", answer, step, zilpanud_text(answer));
    } else {
        const unsigned to = field(ticket->words[step], 16);
        const int several = zilpanud_locks_held(ticket->sets[to]) > 1;
        printf("the check: 9 at step %" PRIu64 ": a skip goes to step %u, where ", step, to);
        print_bays(ticket->sets[to], several ? " are held, and not " : " is held, and not ");
        print_bays(ticket->sets[step], "\n");
    }
}

int main(int argc, char **argv)
{
    /* header and archive may be of different installs; only the patch may differ */
    if (zilpanud_version() / 1000 != ZILPANUD_VERSION / 1000) {
        fprintf(stderr, "held_sets: built for version %d, linked with %" PRIu64 "\n", ZILPANUD_VERSION,
                zilpanud_version());
        return 1;
    }
    struct ticket ticket = {.steps = 0};
    for (int i = 1; i < argc; i++) {
        add(&ticket, argv[i]);
    }
    if (argc < 2) {
        read_words(&ticket);
    }
    uint64_t step;
    const uint64_t answer = zilpanud_held_sets(ticket.words, ticket.steps, ticket.sets, &step);
    if (answer == ZILPANUD_DONE) {
        print_steps(&ticket);
        print_verdict(&ticket);
    } else if (answer == ZILPANUD_MALFORMED) {
        fprintf(stderr, "held_sets: refused with 5 at step %" PRIu64 ": %s\n", step, zilpanud_text(answer));
    } else {
        fprintf(stderr, "held_sets: refused with %" PRIu64 ": %s\n", answer, zilpanud_text(answer));
    }
    return answer == ZILPANUD_DONE ? 0 : 1;
}
