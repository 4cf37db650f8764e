#include "names.h"

/* The next character of UTF-8 text, which goes past it; -1 where there is none (RFC 3629). */
static long next_character(const unsigned char **text)
{
    static const long least[4] = {0, 0x80, 0x800, 0x10000};
    const unsigned char *p = *text;
    int more = *p < 0x80 ? 0 : *p < 0xC0 ? -1 : *p < 0xE0 ? 1 : *p < 0xF0 ? 2 : *p < 0xF8 ? 3 : -1;
    long c;
    int i;

    if (more < 0) return -1;
    c = more == 0 ? *p : *p & (0x3F >> more);
    for (i = 1; i <= more; i++) {
        if ((p[i] & 0xC0) != 0x80) return -1;
        c = c << 6 | (p[i] & 0x3F);
    }
    *text = p + more + 1;
    return c < least[more] || c > 0x10FFFF || (c >= 0xD800 && c < 0xE000) ? -1 : c;
}

static void put16(uint8_t *out, long unit)
{
    out[0] = (uint8_t)unit;
    out[1] = (uint8_t)(unit >> 8);
}

long name_encode(const char *text, int unicode, uint8_t *out, size_t room)
{
    const unsigned char *p = (const unsigned char *)text;
    size_t at = 0, size;
    long c;

    while (*p != 0) {
        c = next_character(&p);
        size = !unicode ? 1 : c < 0x10000 ? 2 : 4;
        if (c < 0 || (!unicode && c >= 0x80) || size > room - at) return -1;
        if (size == 1) {
            out[at] = (uint8_t)c;
        } else if (size == 2) {
            put16(out + at, c);
        } else {
            put16(out + at, 0xD800 + ((c - 0x10000) >> 10));
            put16(out + at + 2, 0xDC00 + ((c - 0x10000) & 0x3FF));
        }
        at += size;
    }
    return (long)at;
}
