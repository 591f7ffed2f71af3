/*
 * `read` as a file gives it that is read in pieces or cannot be read to its end; loaded before the C library (LD_PRELOAD). Each call takes the next character
 * of the environment's READS: a digit is the most bytes that this call gives, x makes it fail. Past the last character calls are as they are.
 */
#define _GNU_SOURCE
#include <errno.h>
#include <stdlib.h>
#include <sys/syscall.h>
#include <unistd.h>

ssize_t read(int file, void *area, size_t count)
{
    static const char *next;
    if (next == NULL) {
        next = getenv("READS") != NULL ? getenv("READS") : "";
    }
    if (*next == 'x') {
        next++;
        errno = EIO;
        return -1;
    }
    if (*next != '\0') {
        size_t most = (size_t)(*next - '0');
        next++;
        count = count < most ? count : most;
    }
    return syscall(SYS_read, file, area, count);
}
