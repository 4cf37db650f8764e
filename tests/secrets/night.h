/*
 * Which bytes of a night's buffer are secret, as DifferInListedSecrets of crates/demands/specs/Batch.antt has it: those
 * inside "the secrets that count, or a MIC that is there, of listed AUTHENTICATE messages, and in no byte that any
 * listed message has as a name, in its first 64 bytes or in a challenge".
 */
#ifndef NIGHT_H
#define NIGHT_H

#include "held.h"

#define ENTRIES 16 /* at most so many in a list */

/* Where an entry's message is, as far as the buffer reaches. */
static struct stretch message_of(const struct dialtable_entry *entry, uint64_t size)
{
    struct stretch message;

    message.start = entry->start < size ? entry->start : size;
    message.end = entry->length < size - message.start ? message.start + entry->length : size;
    return message;
}

static void unmark_names(const uint8_t *msg, uint64_t len, uint32_t kind)
{
    unsigned i, count = kind == DIALTABLE_NEGOTIATE ? 2 : 3;
    struct stretch name;

    for (i = 0; i < count; i++) {
        if (kind == DIALTABLE_NEGOTIATE && (u32_at(msg + 12) & DIALTABLE_FLAG_DOMAIN_SUPPLIED << i) == 0)
            continue;
        name = stretch_of(kind == DIALTABLE_NEGOTIATE ? msg + 16 + 8 * i : head_of(msg, 3 + i));
        if (name.end > len)
            name.end = len;
        if (name.start < name.end)
            unmark(msg + name.start, name.end - name.start);
    }
}

/* The bytes of a listed message that are no secret, whatever else lies there. One that passes the buffer's end has
 * none. */
static void unmark_entry(const uint8_t *buffer, uint64_t size, const struct dialtable_entry *entry)
{
    struct stretch message = message_of(entry, size);
    const uint8_t *msg = buffer + message.start;
    uint64_t len = message.end - message.start;

    if (entry->start > size || entry->length > size - entry->start)
        return;
    unmark(msg, len < 64 || entry->mark == DIALTABLE_CHALLENGE ? len : 64);
    if ((entry->mark == DIALTABLE_NEGOTIATE && len >= 32) || (entry->mark == DIALTABLE_AUTHENTICATE && len >= 64))
        unmark_names(msg, len, entry->mark);
}

/* All heads are looked at before anything is marked, since a message may lie over another's secrets. */
static void mark_night(const uint8_t *buffer, uint64_t size, const struct dialtable_entry *entries, unsigned count)
{
    static struct stretch secret[ENTRIES][STRETCHES];
    struct stretch message;
    unsigned i, j;

    for (i = 0; i < count; i++) {
        message = message_of(&entries[i], size);
        secrets_of(buffer + message.start,
                   entries[i].mark == DIALTABLE_AUTHENTICATE ? message.end - message.start : 0, secret[i]);
    }
    for (i = 0; i < count; i++)
        for (j = 0; j < STRETCHES; j++)
            mark(buffer + message_of(&entries[i], size).start + secret[i][j].start,
                 secret[i][j].end - secret[i][j].start);
    for (i = 0; i < count; i++)
        unmark_entry(buffer, size, &entries[i]);
}

#endif
