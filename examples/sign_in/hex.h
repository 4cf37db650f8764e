/* Bytes as lines of hex digits, on standard input and output. */
#ifndef HEX_H
#define HEX_H

#include <stddef.h>
#include <stdint.h>

/* Writes 'WORD HEX' as a line. Answers 1, or 0 where not all of it was written. */
int hex_write(const char *word, const uint8_t *bytes, size_t len);

/* The status of a program: 0 where what it found is written; else 1, and a line on standard error that says so. */
int hex_told(int is_written);

/* Reads a line. Answers how many bytes it has, or one of these: it is never cut. */
enum {
    HEX_NONE = -1,    /* there is no whole line of hex */
    HEX_NO_ROOM = -2  /* it doesn't fit */
};
long hex_read(uint8_t *out, size_t room);

#endif
