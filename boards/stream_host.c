/* The stream of random calls on a system with files. Usage: stream SEED CALLS */
#include "put.h"
#include "stream.h"
#include <stdio.h>
#include <stdlib.h>

void put_byte(int byte)
{
    putchar(byte);
}

int main(int count, char **arguments)
{
    if (count != 3) {
        fprintf(stderr, "usage: %s SEED CALLS\n", arguments[0]);
        return 2;
    }
    return run_stream(strtoull(arguments[1], 0, 10), strtoull(arguments[2], 0, 10));
}
