/* Runs the stream of random calls on a bare board. */
#include "board.h"
#include "stream.h"

int main(void)
{
    board_exit(run_stream(STREAM_SEED, STREAM_CALLS));
    return 0;
}
