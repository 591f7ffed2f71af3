/* What a bare board offers here: a file to read, bytes to write, and an end with a status, all by the emulator's semihosting. */
#ifndef BOARD_H
#define BOARD_H

/* The next byte of the file that BOARD_FILE names, or -1 at its end. */
int board_read(void);

/* Ends the run; what was written by put_byte is handed over before. */
void board_exit(int status);

/* A fault of the processor ends the run with status 3. */
void board_fault(void);

#endif
