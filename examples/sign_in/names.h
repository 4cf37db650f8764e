/* The names of the box's settings, from UTF-8 to what goes on the wire. A name is written whole or not at all. */
#ifndef NAMES_H
#define NAMES_H

#include <stddef.h>
#include <stdint.h>

/* UTF-16LE where unicode is not 0, else bytes, which here are ASCII alone: an OEM server's page of characters is not
 * told by its messages. Answers the length, or -1 where the text is not UTF-8, has a character that can't be sent, or
 * doesn't fit. */
long name_encode(const char *text, int unicode, uint8_t *out, size_t room);

#endif
