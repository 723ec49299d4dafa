/*
 * A board in a file, and moves that are carried out exactly once, whatever is cut.
 *
 *     board FILE [BOXES [NUMBER]]
 *
 * Moves BOXES boxes (3 if not said) from bay 2 to bay 5 of the board in FILE, if there are so many, and counts the
 * move. A board that is not there is made, with 20 boxes in bay 2. NUMBER is the move's number; if not said, it is the
 * next one, so that each start is a new move.
 *
 * How it comes that a move is made exactly once:
 *
 * - A worker's sections (a desk's tickets) are numbered one by one: each has the number one above the last finished.
 *   Whoever wants a move writes down the move and its number, and then starts this program with them. (Number 1 stows
 *   the first boxes; the moves come after it.)
 * - The section is submitted under its number, and a run carries it out.
 * - If this program dies, or the power goes, at any moment of that, it is started again with the same number. It
 *   recovers the board, on which a section may have been cut off in its midst, and asks how the worker stands to the
 *   number. Not begun: no word of the board has changed by it, and it is submitted again, under the same number. Begun:
 *   a run brings it to its end. Finished: there is nothing to do.
 *
 * What the memory owes: a file that is mapped shared keeps every store when the program dies. When the power goes, it
 * keeps them only if the memory mapped is battery-kept, caches included. A file on a disk does not: the system writes
 * its pages back in an order of its own.
 *
 *     cc -std=c99 board.c $(pkg-config --cflags --libs zilpanud) -o board
 */
#define _XOPEN_SOURCE 700

#include <zilpanud.h>

#include <errno.h>
#include <fcntl.h>
#include <inttypes.h>
#include <stdio.h>
#include <stdlib.h>
#include <string.h>
#include <sys/file.h>
#include <sys/mman.h>
#include <sys/stat.h>
#include <unistd.h>

/* The board's plan. A lock is a bay, and guards the cells 8 x lock to 8 x lock + 7. */
enum {
    FROM = 2,                  /* lock */
    TO = 5,                    /* lock; a section acquires its locks in rising order */
    FROM_BOXES = 8 * FROM,     /* cells */
    TO_BOXES = 8 * TO,
    MOVES = 8 * TO + 1,        /* how many moves were made */
    MADE = 8 * TO + 2,         /* 1 if the last one was made, 0 if there were too few boxes */
    FIRST_BOXES = 20,
    WORKER = 0                 /* the desk that moves boxes */
};

#define WORKERS 1
#define WORDS ZILPANUD_IMAGE_WORDS(WORKERS)
#define BYTES (WORDS * sizeof(uint64_t))

/* The first section: boxes are stowed. */
static const uint64_t stow[] = {
    ZILPANUD_INSTRUCTION(ZILPANUD_ACQUIRE, FROM, 0, 0),
    ZILPANUD_INSTRUCTION(ZILPANUD_SET, FROM_BOXES, 0, FIRST_BOXES),
    ZILPANUD_INSTRUCTION(ZILPANUD_RELEASE, FROM, 0, 0),
    ZILPANUD_INSTRUCTION(ZILPANUD_FINISH, 0, 0, 0),
};

/* A move. Its arguments, with which its own words start: the number of boxes, and 1. */
#define AMOUNT ZILPANUD_OWN(0)
#define ONE ZILPANUD_OWN(1)
#define SHORT ZILPANUD_OWN(2)

static const uint64_t move[] = {
    /* 0 */ ZILPANUD_INSTRUCTION(ZILPANUD_ACQUIRE, FROM, 0, 0),
    /* 1 */ ZILPANUD_INSTRUCTION(ZILPANUD_ACQUIRE, TO, 0, 0),
    /* 2 */ ZILPANUD_INSTRUCTION(ZILPANUD_LESS, SHORT, FROM_BOXES, AMOUNT),       /* 1 if there are too few */
    /* 3 */ ZILPANUD_INSTRUCTION(ZILPANUD_SUBTRACT, MADE, ONE, SHORT),            /* 1 if there are enough */
    /* 4 */ ZILPANUD_INSTRUCTION(ZILPANUD_JUMP, MADE, 8, 0),                      /* too few: on at step 8 */
    /* 5 */ ZILPANUD_INSTRUCTION(ZILPANUD_SUBTRACT, FROM_BOXES, FROM_BOXES, AMOUNT),
    /* 6 */ ZILPANUD_INSTRUCTION(ZILPANUD_ADD, TO_BOXES, TO_BOXES, AMOUNT),
    /* 7 */ ZILPANUD_INSTRUCTION(ZILPANUD_ADD, MOVES, MOVES, ONE),
    /* 8 */ ZILPANUD_INSTRUCTION(ZILPANUD_RELEASE, TO, 0, 0),                     /* both locks held, as at 4 */
    /* 9 */ ZILPANUD_INSTRUCTION(ZILPANUD_RELEASE, FROM, 0, 0),
    /* 10 */ ZILPANUD_INSTRUCTION(ZILPANUD_FINISH, 0, 0, 0),
};

#define STEPS(section) (sizeof(section) / sizeof((section)[0]))

/* The image is in the file; the cursors are not, and every start of the program gets new ones from a recovery. */
struct board {
    uint64_t *image;
    uint8_t step[ZILPANUD_WORKERS];
    uint8_t turn[ZILPANUD_WORKERS];
    uint64_t held;    /* the bays held, as a mask */
};

static void fail(const char *what)
{
    fprintf(stderr, "board: %s: %s\n", what, strerror(errno));
    exit(1);
}

static void refused(const char *call, uint64_t answer, uint64_t detail)
{
    fprintf(stderr, "board: %s was refused with %" PRIu64 " (detail %" PRIu64 "): %s\n", call, answer, detail,
            zilpanud_text(answer));
    exit(1);
}

/* ---- the file */

static uint64_t *map(int file, const char *path)
{
    void *image = mmap(NULL, BYTES, PROT_READ | PROT_WRITE, MAP_SHARED, file, 0);
    if (image == MAP_FAILED) {
        fail(path);
    }
    return image;
}

/* Formats a new file and has it written out, so that its name can be given to it. */
static void format(int file, const char *path)
{
    uint8_t step[ZILPANUD_WORKERS];
    uint8_t turn[ZILPANUD_WORKERS];
    uint64_t held;
    /* all of its room now: a store into a mapped file could not say that the disk is full */
    errno = posix_fallocate(file, 0, (off_t)BYTES);
    if (errno != 0) {
        fail(path);
    }
    uint64_t *image = map(file, path);
    uint64_t answer = zilpanud_format(image, WORDS, WORKERS, step, turn, &held, ZILPANUD_ALL);
    if (answer != ZILPANUD_DONE) {
        refused("formatting", answer, 0);
    }
    if (msync(image, BYTES, MS_SYNC) != 0 || munmap(image, BYTES) != 0) {
        fail(path);
    }
}

/* Makes a new board. It is formatted under another name and then linked to its own, so that a file under its own name
 * always is a finished formatting, and an older one is never written over. A program that dies in between leaves the
 * other file behind, which nobody needs. */
static void make(const char *path)
{
    size_t size = strlen(path) + sizeof(".XXXXXX");
    char *unfinished = malloc(size);
    if (unfinished == NULL) {
        fail(path);
    }
    snprintf(unfinished, size, "%s.XXXXXX", path);
    int file = mkstemp(unfinished);
    if (file < 0) {
        fail(unfinished);
    }
    format(file, unfinished);
    /* if another program made the board in the meantime, that one is taken */
    if (link(unfinished, path) != 0 && errno != EEXIST) {
        fail(path);
    }
    if (unlink(unfinished) != 0 || close(file) != 0) {
        fail(unfinished);
    }
    free(unfinished);
}

/* Opens a board, for this program alone: two at once on one image would lose moves. The lock goes with the program. */
static uint64_t *open_board(const char *path)
{
    int file = open(path, O_RDWR);
    if (file < 0 && errno == ENOENT) {
        make(path);
        file = open(path, O_RDWR);
    }
    if (file < 0 || flock(file, LOCK_EX) != 0) {
        fail(path);
    }
    struct stat found;
    if (fstat(file, &found) != 0) {
        fail(path);
    }
    if (found.st_size != (off_t)BYTES) {
        fprintf(stderr, "board: %s has not the length of a board of %d worker(s)\n", path, WORKERS);
        exit(1);
    }
    return map(file, path);
}

/* ---- the calls */

/* Nobody can tell whether the last program came to its end, so every start recovers; a board at rest stays as it is.
 * A board that is refused is damaged. It is left alone: formatting it anew would lose what it has. */
static void recover(struct board *board)
{
    uint64_t detail;
    uint64_t answer = zilpanud_recover(board->image, WORDS, board->step, board->turn, &board->held, ZILPANUD_ALL,
                                       &detail);
    if (answer != ZILPANUD_DONE) {
        refused("the recovery", answer, detail);
    }
}

static void run(struct board *board)
{
    uint64_t tally[ZILPANUD_TALLY_WORDS];
    uint64_t detail;
    uint64_t answer = zilpanud_run(board->image, WORDS, board->step, board->turn, &board->held, 384 * WORKERS, tally,
                                   ZILPANUD_ALL, &detail);
    if (answer != ZILPANUD_DONE) {
        refused("the run", answer, detail);
    }
}

static uint64_t finished(const struct board *board)
{
    uint64_t number;
    uint64_t answer = zilpanud_finished(board->image, WORDS, WORKER, &number);
    if (answer != ZILPANUD_DONE) {
        refused("a question", answer, 0);
    }
    return number;
}

static uint64_t standing(const struct board *board, uint64_t number)
{
    uint64_t stands;
    uint64_t answer = zilpanud_standing(board->image, WORDS, WORKER, number, &stands);
    if (answer != ZILPANUD_DONE) {
        refused("a question", answer, 0);
    }
    return stands;
}

static void submit(struct board *board, uint64_t number, const uint64_t *args, const uint64_t *section, size_t steps)
{
    uint64_t detail;
    uint64_t answer = zilpanud_submit(board->image, WORDS, board->step, board->turn, &board->held, WORKER, number,
                                      args, section, steps, ZILPANUD_ALL, &detail);
    if (answer != ZILPANUD_DONE) {
        refused("the section", answer, detail);
    }
}

/* Has the section of this number carried out. 1: it was; 0: it had been before. */
static int carry_out(struct board *board, uint64_t number, const uint64_t *args, const uint64_t *section, size_t steps)
{
    int now = 0;
    uint64_t stands;
    while ((stands = standing(board, number)) != ZILPANUD_FINISHED) {
        if (stands == ZILPANUD_NOT_BEGUN) {
            submit(board, number, args, section, steps);
        }
        run(board);
        now = 1;
    }
    return now;
}

/* ---- the program */

static uint64_t cell(const struct board *board, int number)
{
    return board->image[ZILPANUD_CELL_INDEX(number)];
}

static uint64_t parsed(const char *text)
{
    char *end;
    errno = 0;
    uintmax_t number = strtoumax(text, &end, 10);
    if (text[0] < '0' || text[0] > '9' || *end != '\0' || errno != 0 || number > UINT64_MAX) {
        fprintf(stderr, "board: %s is no number\n", text);
        exit(2);
    }
    return (uint64_t)number;
}

static void move_boxes(struct board *board, uint64_t number, uint64_t boxes)
{
    const uint64_t args[ZILPANUD_ARGS] = {boxes, 1};
    if (number > finished(board) + 1) {
        fprintf(stderr, "board: number %" PRIu64 " is due first\n", finished(board) + 1);
        exit(1);
    }
    if (!carry_out(board, number, args, move, STEPS(move))) {
        printf("number %" PRIu64 ": done before\n", number);
    } else if (cell(board, MADE) == 1) {
        printf("number %" PRIu64 ": %" PRIu64 " boxes moved\n", number, boxes);
    } else {
        printf("number %" PRIu64 ": bay %d has too few boxes, nothing moved\n", number, FROM);
    }
}

int main(int argc, char **argv)
{
    if (argc < 2 || argc > 4) {
        fprintf(stderr, "usage: board FILE [BOXES [NUMBER]]\n");
        return 2;
    }
    /* header and archive may be of different installs; only the patch may differ */
    if (zilpanud_version() / 1000 != ZILPANUD_VERSION / 1000) {
        fprintf(stderr, "board: built for version %d, linked with %" PRIu64 "\n", ZILPANUD_VERSION,
                zilpanud_version());
        return 1;
    }
    uint64_t boxes = argc > 2 ? parsed(argv[2]) : 3;
    struct board board = {.image = open_board(argv[1])};
    recover(&board);
    /* what was begun before the cut has its bays again, and comes to its end first */
    if (board.held != 0) {
        printf("bays held since a cut: %" PRIu64 "\n", zilpanud_locks_held(board.held));
    }
    run(&board);
    if (carry_out(&board, 1, (const uint64_t[ZILPANUD_ARGS]){0}, stow, STEPS(stow))) {
        printf("number 1: %d boxes stowed in bay %d\n", FIRST_BOXES, FROM);
    }
    move_boxes(&board, argc > 3 ? parsed(argv[3]) : finished(&board) + 1, boxes);
    printf("bay %d: %" PRIu64 " boxes; bay %d: %" PRIu64 " boxes; moves made: %" PRIu64 "\n", FROM,
           cell(&board, FROM_BOXES), TO, cell(&board, TO_BOXES), cell(&board, MOVES));
    return 0;
}
