/*
 * A move of examples/board.c that is cut: `example_cut FILE STORES` hands in the next move of 3 boxes, lets it make so
 * many stores, those of the submit first, and ends. Exits with 0; 3 if the move had fewer stores.
 */
int example_main(int argc, char **argv);

#define main example_main
#include "../examples/board.c"
#undef main

int main(int argc, char **argv)
{
    if (argc != 3) {
        return 2;
    }
    const uint64_t args[ZILPANUD_ARGS] = {3, 1};
    uint64_t left = parsed(argv[2]);
    uint64_t tally[ZILPANUD_TALLY_WORDS];
    uint64_t detail;
    struct board board = {.image = open_board(argv[1])};
    recover(&board);
    zilpanud_submit(board.image, WORDS, board.step, board.turn, &board.held, WORKER, finished(&board) + 1, args, move,
                    STEPS(move), &left, &detail);
    if (left != 0) {
        zilpanud_run(board.image, WORDS, board.step, board.turn, &board.held, 384 * WORKERS, tally, &left, &detail);
    }
    return left == 0 ? 0 : 3;
}
