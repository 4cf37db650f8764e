/*
 * Every held call on one message (msg, len), with the secrets marked. What is marked for a call is what the statements
 * of demand 3, in crates/demands/specs, let differ:
 *     reading, lines, explain, canonical    the secrets by the message's heads (SecretRead, SecretPrinted,
 *                                           SecretExplained, CanonicalSecret), where it is read as AUTHENTICATE
 *     check_messages                        the listed messages' secrets (SecretBatch)
 *     respond, its thin calls, writing      LM response, NT response, key and MIC as they are given (SecretAnswered)
 *     mic, check_mic                        the session key, and all of the AUTHENTICATE after its first 64 bytes
 *                                           (MicSecret)
 *     field_bytes, export_header            the whole message, of which neither looks at a byte
 */
#ifndef TRY_H
#define TRY_H

#include "draw.h"
#include "night.h"

#define USUAL 2048 /* the room that is lent, mostly: almost all that is written fits */
static uint8_t out[90000], copy[MOST], mic[16];
static uint64_t room, numbers[DIALTABLE_AUTHENTICATE_NUMBERS];

/* ---- The message read, printed and tidied. */

#define LINE(name) \
    do { \
        unmark(out, room); \
        CALL(name, msg, len, out, room); \
        is_public(out, room); \
    } while (0)

static void try_lines(void)
{
    uint32_t type = len < 12 ? 0 : u32_at(msg + 8), first = len < 4 ? 2 : u32_at(msg);

    LINE(authenticate_line);
    if (type != 1 && type != 2) {
        LINE(ntlm_line);
        LINE(ntlm_program_line);
        LINE(explain);
    }
    /* Another kind's: the type of an NL_AUTH is its first number. */
    if (type != 2) LINE(challenge_line);
    if (type != 1) LINE(negotiate_line);
    if (first > 1) LINE(nl_auth_line);
    if (first > 1) LINE(nl_auth_program_line);
}

/* Shapes of messages that are taken. */
#define SHAPES(X) \
    X(with_a_mic) X(without) X(with_a_key) X(unicode) X(oem) X(responses_that_share_bytes) X(a_secret_before_byte_88) \
    X(kind_none) X(kind_v1) X(kind_odd) X(kind_v2)
#define SHAPE_NUMBER(name) SHAPE_##name,
enum { SHAPES(SHAPE_NUMBER) SHAPE_COUNT };
static unsigned long shapes[SHAPE_COUNT];

static void note_shape(const struct dialtable_authenticate *read)
{
    struct dialtable_field lm = read->lm, nt = read->nt;
    unsigned n = nt.length;

    shapes[read->mic_present ? SHAPE_with_a_mic : SHAPE_without]++;
    shapes[SHAPE_with_a_key] += read->key.length > 0;
    shapes[(read->flags & DIALTABLE_FLAG_UNICODE) != 0 ? SHAPE_unicode : SHAPE_oem]++;
    shapes[SHAPE_responses_that_share_bytes] +=
        lm.length > 0 && n > 0 && lm.offset < nt.offset + n && nt.offset < lm.offset + lm.length;
    shapes[SHAPE_a_secret_before_byte_88] += (n > 0 && nt.offset < 88) || (lm.length > 0 && lm.offset < 88);
    shapes[n == 0 ? SHAPE_kind_none : n == 24 ? SHAPE_kind_v1 : n < 44 ? SHAPE_kind_odd : SHAPE_kind_v2]++;
}

/* The MIC's bytes are the message's where it has one; else they are zeros, or as they were. */
static void try_read(void)
{
    struct dialtable_authenticate read;
    uint64_t places = draw(8) ? DIALTABLE_COUNT(numbers) : draw(DIALTABLE_AUTHENTICATE_NUMBERS);

    unmark(numbers, sizeof numbers);
    unmark(mic, sizeof mic);
    CALL(read_authenticate, msg, len, numbers, places, mic, 16);
    is_public(numbers, sizeof numbers);
    if (DIALTABLE_IS_REFUSED(answer) || numbers[DIALTABLE_AUTHENTICATE_MIC_PRESENT] == 0)
        is_public(mic, sizeof mic);
    unmark(mic, sizeof mic);
    memset(&read, 0, sizeof read);
    CALL(read_authenticate_struct, msg, len, &read, mic, 16);
    is_public(&read, sizeof read);
    if (DIALTABLE_IS_REFUSED(answer) || !read.mic_present)
        is_public(mic, sizeof mic);
    if (!DIALTABLE_IS_REFUSED(answer))
        note_shape(&read);
}

static void try_canonical(void)
{
    unmark(out, room);
    CALL(canonical_authenticate, out, room, msg, len);
    is_public_but_secrets(out, room);
}

/* ---- The message copied and carried. */

static void try_field(void)
{
    struct stretch field;
    uint64_t size;

    if (len < 64)
        return;
    field = stretch_of(head_of(msg, draw(3) ? 2 : draw(2) ? 1 : 6));
    size = field.end - field.start;
    mark(msg, len);
    unmark(out, room);
    CALL(field_bytes, msg, len, (uint32_t)field.start, (uint16_t)size, out, room);
    if (!DIALTABLE_IS_REFUSED(answer))
        unmark(out, size < room ? size : room);
    is_public(out, room);
    unmark(msg, len);
}

/* The text that was exported, marked but for its word, now and then with a character changed. */
static void try_import(uint64_t text_len)
{
    if (draw(8) == 0)
        out[draw((uint32_t)text_len)] = '*';
    unmark(out, 5);
    mark(out + 5, text_len - 5);
    unmark(copy, sizeof copy);
    CALL(import_header, copy, draw(8) ? sizeof copy : draw(40), out, text_len);
    unmark(out, text_len);
}

/* An exported text's word and padding are no secret. */
static void try_header(void)
{
    uint64_t space = draw(8) ? sizeof out : draw(100), padding = (3 - len % 3) % 3, text_len;

    mark(msg, len);
    unmark(out, sizeof out);
    CALL(export_header, out, space, msg, len);
    unmark(msg, len);
    if (DIALTABLE_IS_REFUSED(answer)) {
        is_public(out, sizeof out);
        return;
    }
    text_len = answer < sizeof out ? answer : sizeof out;
    is_public(out, 5);
    is_public(out + text_len - padding, sizeof out - text_len + padding);
    try_import(text_len);
}

/* ---- The MIC. */

static unsigned long mics[2]; /* that were checked: wrong ones, right ones */

static void try_mic(const struct sign_in *sign_in)
{
    static uint8_t key[32];
    uint64_t key_len = draw(8) ? 16 : draw(33), mic_len = draw(8) ? 16 : draw(16), open = len < 64 ? len : 64;
    const struct message *negotiate = draw(8) ? &sign_in->negotiate : &messages[draw(message_count)];
    const struct message *challenge = draw(8) ? &sign_in->challenge : &messages[draw(message_count)];

#define SIGN_IN key, key_len, negotiate->bytes, negotiate->len, challenge->bytes, challenge->len
    memcpy(key, sign_in->key.bytes, 16);
    mark(key, sizeof key);
    mark(msg + open, len - open);
    unmark(mic, sizeof mic);
    CALL(mic, SIGN_IN, msg, len, mic, mic_len);
    if (!DIALTABLE_IS_REFUSED(answer))
        unmark(mic, sizeof mic);
    is_public(mic, sizeof mic);
    CALL(check_mic, SIGN_IN, msg, len);
    if (!DIALTABLE_IS_REFUSED(answer))
        mics[answer & 1]++;
    memcpy(copy, msg, len);
    CALL(write_mic, SIGN_IN, copy, len);
    is_public(copy, open);
    unmark(copy, len);
    unmark(msg, len);
    unmark(key, sizeof key);
}

/* ---- A CHALLENGE answered, and an AUTHENTICATE written from its parts. */

static void draw_parts(struct dialtable_parts *parts, unsigned turn)
{
    static const uint8_t version[8] = {10, 0, 0x61, 0x4A, 0, 0, 0, 15}, names[] = "DEPOT box31 PIT.example";
    static uint8_t lm[64], nt[MOST], key[64], given_mic[16];

    parts->version = version;
    parts->mic = given_mic;
    parts->lm = dialtable_part(lm, draw(3) ? 24 : draw(64));
    parts->nt = dialtable_part(nt, turn % 32 == 0 ? 65500 : draw(3) ? 44 + draw(300) : draw(44));
    parts->key = dialtable_part(key, draw(6) ? 16 : draw(40));
    parts->domain = dialtable_part(names, draw(2) ? 0 : draw(8) & ~1u);
    parts->user = dialtable_part(names + 4, draw(8) ? 8 : draw(12));
    parts->workstation = dialtable_part(names + 8, draw(12) & (draw(8) ? ~1u : ~0u));
    mark(lm, sizeof lm);
    mark(nt, sizeof nt);
    mark(key, sizeof key);
    mark(given_mic, sizeof given_mic);
}

/* A CHALLENGE with the change whose turn it is: another flag, cut, another bit, a shorter list, no 128-bit, no list,
 * another type, none. */
static struct message draw_challenge(unsigned turn)
{
    static uint8_t bytes[8192];
    struct message drawn = challenges[draw(challenge_count)];
    uint32_t at = draw((uint32_t)drawn.len), flags;

    memcpy(bytes, drawn.bytes, drawn.len);
    drawn.bytes = bytes;
    flags = u32_at(bytes + 20);
    switch (turn % 8) {
    case 0: put_u32(bytes + 20, flags ^ 1u << draw(32)); break;
    case 1: drawn.len = at; break;
    case 2: bytes[at] ^= (uint8_t)(1u << draw(8)); break;
    case 3: put_u16(bytes + 40, u16_at(bytes + 40) - draw(9)); break;
    case 4: put_u32(bytes + 20, flags & ~DIALTABLE_FLAG_128); break;
    case 5: put_u32(bytes + 20, (flags & ~DIALTABLE_FLAG_TARGET_INFO) | DIALTABLE_FLAG_128); break;
    case 6: bytes[9] ^= draw(2) ? 1 : 0; break;
    }
    return drawn;
}

#define PARTS \
    p.version, p.mic, p.lm.bytes, p.lm.length, p.nt.bytes, p.nt.length, p.domain.bytes, p.domain.length, p.user.bytes, \
    p.user.length, p.workstation.bytes, p.workstation.length, p.key.bytes, p.key.length
#define RESPOND(name, ...) \
    do { \
        unmark(out, room); \
        unmark(numbers, sizeof numbers); \
        CALL(name, out, room, challenge.bytes, challenge.len, __VA_ARGS__, PARTS, numbers, places); \
        is_public_but_secrets(out, room); \
        is_public(numbers, sizeof numbers); \
    } while (0)

static void try_respond(unsigned turn)
{
    struct message challenge = draw_challenge(turn);
    struct dialtable_parts p;
    struct dialtable_response done;
    uint32_t settings = draw(2) ? DIALTABLE_DEFAULTS | draw(16) : draw(16);
    uint64_t clock = draw(65536), places = draw(8) ? DIALTABLE_RESPONSE_NUMBERS : draw(2);

    draw_parts(&p, turn);
    RESPOND(respond, settings, clock);
    RESPOND(respond_for_bench, clock, draw(2));
    RESPOND(respond_to_old_server, clock);
    RESPOND(respond_for_relay, clock);
    unmark(out, room);
    memset(&done, 0, sizeof done);
    CALL(respond_struct, out, room, settings, challenge.bytes, challenge.len, clock, &p, &done);
    is_public_but_secrets(out, room);
    is_public(&done, sizeof done);
}

static void try_write(unsigned turn)
{
    uint32_t flags = draw(4) ? DIALTABLE_FLAGS_WANTED : 1u << draw(32);
    struct dialtable_parts p;

    draw_parts(&p, turn);
    unmark(out, room);
    CALL(write_authenticate, out, room, flags, PARTS);
    is_public_but_secrets(out, room);
    unmark(out, room);
    CALL(write_authenticate_struct, out, room, flags, &p);
    is_public_but_secrets(out, room);
}

/* ---- A night: the message, another and a CHALLENGE, listed by all marks. */

static unsigned long entry_answers[256]; /* by number, 0 for a message that is taken */

static void check_night(const uint8_t *buffer, uint64_t size, struct dialtable_entry *entries, unsigned count)
{
    unsigned i;

    mark_night(buffer, size, entries, count);
    CALL(check_messages, buffer, size, entries, count);
    is_public(entries, count * sizeof *entries);
    unmark(buffer, size);
    for (i = 0; i < count; i++)
        entry_answers[entries[i].number & 0xff]++;
}

static void try_night(unsigned turn)
{
    static uint8_t buffer[MOST + 16384];
    struct dialtable_entry entries[6];
    struct message three[3];
    uint64_t size = 0, start[3];
    unsigned i, k;

    three[0].bytes = msg, three[0].len = len;
    three[1] = messages[draw(message_count)];
    three[2] = draw_challenge(turn + 2);
    for (i = 0; i < 3; i++) {
        start[i] = size;
        memcpy(buffer + size, three[i].bytes, three[i].len);
        size += three[i].len;
    }
    memset(entries, 0, sizeof entries);
    for (i = 0; i < 6; i++) {
        k = i < 3 ? i : draw(3);
        entries[i].start = start[k] + (draw(8) ? 0 : draw(80));
        entries[i].length = draw(8) ? three[k].len : draw((uint32_t)three[k].len + 1);
        entries[i].length += draw(16) ? 0 : draw(2000);
        entries[i].mark = k == 2 && draw(2) ? DIALTABLE_CHALLENGE : draw(5);
        if (k == 0 || draw(4) == 0)
            entries[i].mark = DIALTABLE_AUTHENTICATE;
    }
    check_night(buffer, size, entries, 6);
}

/* ---- All of it. */

static void begin(const char *path, uint64_t seed)
{
    if (!RUNNING_ON_VALGRIND)
        stop("this program", "it sees nothing by itself: run it under valgrind, as tools/test-secrets does");
    read_inputs(path);
    state = seed * 2 + 88172645463325253u;
}

static void try_message(const struct sign_in *sign_in, unsigned turn)
{
    room = len > 4096 ? sizeof out : draw(8) ? USUAL : draw(300);
    mark_secrets(msg, len);
    try_read();
    try_lines();
    try_canonical();
    unmark(msg, len);
    try_field();
    try_header();
    try_mic(sign_in);
    try_respond(turn);
    try_write(turn);
    try_night(turn);
}

#endif
