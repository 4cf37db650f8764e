/*
 * Which bytes of an AUTHENTICATE are secret, as crates/demands/specs/Secret.antt has it. Document 01: "a field's bytes
 * go by its head, in a refused message too: those from its offset on, Len of them, as far as the message reaches, and
 * none if it doesn't count. A MIC that is there is bytes 72 to 87, as far as the message reaches. A message under 64
 * bytes has neither." Demand 3 lets no byte of the first 64 differ, so that a head which points there makes none of
 * them secret. A name that lies over a secret gets the message refused by its heads alone: those bytes are secret like
 * the others.
 */
#ifndef SECRET_H
#define SECRET_H

#include <stdint.h>

#include "dialtable.h"

struct stretch {
    uint64_t start, end;
};
#define STRETCHES 4 /* LM response, NT response, session key, MIC */

static unsigned u16_at(const uint8_t *at)
{
    return at[0] | (unsigned)at[1] << 8;
}
static uint32_t u32_at(const uint8_t *at)
{
    return u16_at(at) | (uint32_t)u16_at(at + 2) << 16;
}
/* The head of an AUTHENTICATE's field, 1 to 6. */
static const uint8_t *head_of(const uint8_t *msg, unsigned field)
{
    return msg + 4 + 8 * field;
}
static int is_nonempty(const uint8_t *msg, unsigned field)
{
    return u16_at(head_of(msg, field)) > 0 && (field != 6 || (u32_at(msg + 60) & DIALTABLE_FLAG_KEY_EXCH) != 0);
}
static struct stretch stretch_of(const uint8_t *head)
{
    struct stretch field;

    field.start = u32_at(head + 4);
    field.end = field.start + u16_at(head);
    return field;
}
/* MicThere of Message.antt. */
static int is_mic_there(const uint8_t *msg, uint64_t len)
{
    uint64_t lowest = UINT64_MAX;
    unsigned field;

    for (field = 1; field <= 6; field++)
        if (is_nonempty(msg, field) && u32_at(head_of(msg, field) + 4) < lowest)
            lowest = u32_at(head_of(msg, field) + 4);
    return (lowest == UINT64_MAX ? len : lowest) >= 88;
}
/* The secrets of a message, in the order above. One that isn't there is empty. */
static void secrets_of(const uint8_t *msg, uint64_t len, struct stretch secret[STRETCHES])
{
    static const unsigned field[3] = {1, 2, 6};
    const struct stretch none = {0, 0}, mic = {DIALTABLE_MIC_AT, DIALTABLE_MIC_AT + 16};
    unsigned i;

    for (i = 0; i < STRETCHES; i++) {
        secret[i] = none;
        if (len < 64)
            continue;
        if (i < 3 && is_nonempty(msg, field[i]))
            secret[i] = stretch_of(head_of(msg, field[i]));
        if (i == 3 && is_mic_there(msg, len))
            secret[i] = mic;
        if (secret[i].start < 64)
            secret[i].start = 64;
        if (secret[i].end > len)
            secret[i].end = len;
        if (secret[i].start >= secret[i].end)
            secret[i] = none;
    }
}

#endif
