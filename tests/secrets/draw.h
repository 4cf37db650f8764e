/*
 * Drawn messages: real ones with something changed, so that each refusal of an AUTHENTICATE is reached, and messages of
 * every shape are taken. The changes take turns; all else is drawn.
 */
#ifndef DRAW_H
#define DRAW_H

#include "inputs.h"
#include "secret.h"

static uint64_t state;
static uint32_t draw(uint32_t below)
{
    state ^= state << 13;
    state ^= state >> 7;
    state ^= state << 17;
    return (uint32_t)(state >> 16) % below;
}

/* The message that is tried. */
#define MOST 70000
static uint8_t msg[MOST];
static uint64_t len;

static void put_u16(uint8_t *at, unsigned n)
{
    at[0] = (uint8_t)n;
    at[1] = (uint8_t)(n >> 8);
}
static void put_u32(uint8_t *at, uint32_t n)
{
    put_u16(at, n & 0xffff);
    put_u16(at + 2, n >> 16);
}
static void put_head(unsigned field, unsigned length, unsigned max_len, uint32_t offset)
{
    uint8_t *head = msg + 4 + 8 * field;

    put_u16(head, length);
    put_u16(head + 2, max_len);
    put_u32(head + 4, offset);
}
static void take(const struct message *message)
{
    memcpy(msg, message->bytes, message->len);
    len = message->len;
}

/* A field gets so many bytes more at its end, or fewer, and every head behind it is put right. */
static void resize(unsigned field, int by)
{
    uint8_t *head = msg + 4 + 8 * field;
    struct stretch old = stretch_of(head);
    unsigned other;

    if (old.end > len || (int)u16_at(head) + by < 0)
        return;
    memmove(msg + old.end + by, msg + old.end, len - old.end);
    for (other = 0; (int)other < by; other++)
        msg[old.end + other] = (uint8_t)draw(256);
    len = (uint64_t)((int64_t)len + by);
    put_u16(head, (unsigned)((int)u16_at(head) + by));
    for (other = 1; other <= 6; other++) {
        uint8_t *at = msg + 4 + 8 * other + 4;

        if (other != field && u32_at(at) >= old.end)
            put_u32(at, (uint32_t)((int64_t)u32_at(at) + by));
    }
}

enum {
    AS_IT_IS, RESIZED, NAME_RESIZED, SHARED, OVER_SECRET, LENGTH, OFFSET, EARLY, PAST_END, ODD, MAX_LEN, FLAGS,
    NO_CHARSET, KEY_COUNTS, CUT, SHORT, LENGTHENED, SIGNATURE, TYPE, EMPTY, ALL_EMPTY, OTHER_BYTE, CHANGES
};

/* Heads that say something else. */
static void change_head(unsigned change)
{
    unsigned field = 1 + draw(6), secret = 1 + draw(2), name = 3 + draw(3);

    switch (change) {
    case SHARED: memcpy(msg + 4 + 8 * (3 - secret), msg + 4 + 8 * secret, 8); break;
    case OVER_SECRET: put_head(name, 2 + 2 * draw(4), 8, u32_at(head_of(msg, secret) + 4) & ~1u); break;
    case LENGTH: put_u16(msg + 4 + 8 * field, draw(3) ? draw(64) : draw(65536)); break;
    case OFFSET: put_u32(msg + 8 + 8 * field, 60 + draw((uint32_t)len)); break;
    case EARLY: put_head(field, 1 + draw(40), draw(40), draw(100)); break;
    case PAST_END: put_head(field, 1 + draw(40), 0, draw(3) ? (uint32_t)len - draw(4) : 0xffffffffu); break;
    case ODD: put_head(name, 1 + draw(4), 0, u32_at(head_of(msg, name) + 4) | 1u); break;
    case MAX_LEN: put_u16(msg + 6 + 8 * field, draw(65536)); break;
    case EMPTY: put_head(field, 0, draw(3), draw(65536)); break;
    }
}

static void change(unsigned which)
{
    static const uint32_t bits[] = {
        DIALTABLE_FLAG_UNICODE, DIALTABLE_FLAG_OEM, DIALTABLE_FLAG_KEY_EXCH, DIALTABLE_FLAG_VERSION};
    unsigned i, at = draw((uint32_t)len);

    switch (which) {
    case RESIZED: resize(draw(2) ? 2 : draw(2) ? 1 : 6, (int)draw(80) - 40); break;
    case NAME_RESIZED: resize(3 + draw(3), 2 * (int)draw(30) - 20); break;
    case FLAGS: put_u32(msg + 60, u32_at(msg + 60) ^ (draw(4) ? bits[draw(4)] : 1u << draw(32))); break;
    case NO_CHARSET: put_u32(msg + 60, u32_at(msg + 60) & ~3u); break;
    case KEY_COUNTS:
        put_u32(msg + 60, u32_at(msg + 60) | DIALTABLE_FLAG_KEY_EXCH);
        put_head(6, draw(3) ? 16 : draw(40), 16, (uint32_t)len - draw(48));
        break;
    case CUT: len = at; break;
    case SHORT: len = draw(64); break;
    case LENGTHENED: for (i = 1 + draw(60); i > 0; i--) msg[len++] = (uint8_t)draw(256); break;
    case SIGNATURE: msg[draw(8)] ^= (uint8_t)(1u << draw(8)); break;
    case TYPE: msg[8 + draw(4)] ^= (uint8_t)(4u << draw(6)); break;
    case ALL_EMPTY: for (i = 1; i <= 6; i++) put_head(i, 0, 0, draw(200)); len = draw(3) ? len : 64 + draw(40); break;
    case OTHER_BYTE: if (at >= 64) msg[at] = (uint8_t)draw(256); break;
    default: change_head(which);
    }
}

/* Some AUTHENTICATE, or now and then any message, with the change whose turn it is and perhaps others. Gives a sign-in
 * to try it in: its own, where it has one. */
static inline struct sign_in *draw_message(unsigned turn)
{
    struct sign_in *sign_in = &sign_ins[draw(sign_in_count)];
    unsigned more;

    take(draw(3) ? &sign_in->authenticate : &messages[draw(message_count)]);
    if (len < 88)
        take(&sign_in->authenticate);
    change(turn % CHANGES);
    for (more = draw(2) ? 0 : draw(3); more > 0 && len >= 88; more--)
        change(draw(CHANGES));
    return sign_in;
}

#endif
