/* The conformity runner and the stream of random calls as exports of a WebAssembly module; bytes come and go by two imports. */
#include "runner.h"
#include "stream.h"

static uint8_t memory[RUNNER_CAPACITY];

int vectors(void);
int stream(uint64_t seed, uint64_t calls);

int vectors(void)
{
    return run_vectors(memory, sizeof memory);
}

int stream(uint64_t seed, uint64_t calls)
{
    return run_stream(seed, calls);
}
