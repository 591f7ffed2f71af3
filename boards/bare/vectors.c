/* Runs vectors on a bare board. */
#include "board.h"
#include "runner.h"

static uint8_t memory[RUNNER_CAPACITY];

int next_byte(void)
{
    return board_read();
}

int main(void)
{
    board_exit(run_vectors(memory, sizeof memory));
    return 0;
}
