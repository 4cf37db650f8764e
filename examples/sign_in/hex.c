#include "hex.h"

#include <stdio.h>

int hex_write(const char *word, const uint8_t *bytes, size_t len)
{
    int written = printf("%s ", word) > 0;
    size_t i;

    for (i = 0; i < len && written; i++) written = printf("%02x", bytes[i]) > 0;
    return written && putchar('\n') != EOF && fflush(stdout) == 0;
}

int hex_told(int is_written)
{
    if (!is_written) fputs("what was found can't be told: standard output takes no more\n", stderr);
    return !is_written;
}

static int digit(int c)
{
    if (c >= '0' && c <= '9') return c - '0';
    return c >= 'a' && c <= 'f' ? c - 'a' + 10 : -1;
}

long hex_read(uint8_t *out, size_t room)
{
    size_t len = 0;
    int c, high, low;

    while ((c = getchar()) != '\n') {
        high = digit(c);
        low = high < 0 ? -1 : digit(getchar());
        if (low < 0) return HEX_NONE;
        if (len == room) return HEX_NO_ROOM;
        out[len++] = (uint8_t)(high << 4 | low);
    }
    return (long)len;
}
