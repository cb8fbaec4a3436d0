/* For a program without a library: what tests/c/calls.c takes of this header. See bare.c. */
#ifndef BOARD_STDIO_H
#define BOARD_STDIO_H

/* Knows %s and %d. */
int printf(const char *format, ...);

#endif
