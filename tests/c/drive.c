/*
 * Every call of dialtable.h on CASES drawn messages, which are those of messages/ with a few bytes changed. It prints
 * one number, over all answers and all memory: two builds of the library that print the same line have answered alike.
 * How often each refusal was given stands behind it. The draws are the same on every machine, also on one with 16 KB of
 * memory. With LONG one field makes most messages some 65,535 bytes long, which is the most that is taken. messages.h
 * is made from messages/ by tools/drive.
 */
#include <stdio.h>
#include <string.h>

#include "dialtable.h"
#include "messages.h"

#ifdef LONG
#define MSG 65600u
#define OUT 87392u  /* room for the longest message as a header line */
#define PART 20000u /* most of a part to write: five of them may pass 65,535 bytes, or not */
#define TEXT 65536u /* what is drawn for a header line is shorter */
#else
#define MSG 1200u
#define OUT 1024u
#define PART 30u
#define TEXT 50u
#endif

/* xorshift64. Two draws never stand in one expression, since a compiler may choose which of them comes first. */
static uint64_t state = 88172645463325252u;
static uint32_t draw(uint32_t below)
{
    state ^= state << 13;
    state ^= state >> 7;
    state ^= state << 17;
    return (uint32_t)(state >> 16) % below;
}
static uint32_t draw_32(void)
{
    uint32_t high = draw(65536);
    return high << 16 | draw(65536);
}

/* What is lent to be written: an output, numbers, structs, and the bytes of a MIC or of a server challenge, filled
 * before each call; and the entries of a night. */
static uint8_t out[OUT], bytes[24];
#define NUMBERS 24
static uint64_t numbers[NUMBERS];
static struct {
    struct dialtable_authenticate auth;
    struct dialtable_challenge challenge;
    struct dialtable_timestamp timestamp;
    struct dialtable_server_names server_names;
    struct dialtable_negotiate negotiate;
    struct dialtable_nl_auth nl_auth;
    struct dialtable_found found;
    struct dialtable_next next;
    struct dialtable_decision decision;
    struct dialtable_response response;
} got;
static struct dialtable_entry entries[5];
static uint64_t all = 1469598103934665603u;
static unsigned long calls, refusals[256];

/* The message, where its long part begins, and a MIC or key. */
static uint8_t msg[MSG], mic[16];
static unsigned len, tail;

/* All sizes are multiples of 8, and all targets have the lowest byte first. */
static void mix(const void *from, unsigned size)
{
    const uint8_t *at = (const uint8_t *)from;
    uint64_t word;

    for (; size >= 8; size -= 8, at += 8) {
        memcpy(&word, at, 8);
        all = (all ^ word) * 1099511628211u;
        all ^= all >> 29;
    }
}

static void fill(void)
{
    memset(out, 0xEE, sizeof out);
    memset(bytes, 0xEE, sizeof bytes);
    memset(numbers, 0xEE, sizeof numbers);
    memset(&got, 0xEE, sizeof got);
}

static void take(uint64_t answer)
{
    calls++;
#ifdef WRONG
    /* A planted fault: after call WRONG_CALL one bit is another, of the answer or of what else WRONG names. */
    if (calls == WRONG_CALL)
        ((uint8_t *)&WRONG)[sizeof WRONG - 1] ^= 1;
#endif
    if (DIALTABLE_IS_REFUSED(answer))
        refusals[DIALTABLE_NUMBER(answer)]++;
    mix(&answer, sizeof answer);
    mix(out, sizeof out);
    mix(bytes, sizeof bytes);
    mix(numbers, sizeof numbers);
    mix(entries, sizeof entries);
}
#define CALL(call) do { fill(); take(call); } while (0)

/* A call over structs: the members stand for the numbers. Bytes between members are nobody's. */
#define STRUCT_CALL(call, ...) \
    do { \
        uint64_t answer; \
        fill(); \
        answer = call; \
        { \
            const uint64_t members[] = {__VA_ARGS__}; \
            memcpy(numbers, members, sizeof members); \
        } \
        take(answer); \
    } while (0)
#define NUMBER(member) (uint64_t)(member)
#define FIELD(field) field.offset, field.length, field.max_len
#define STRING(string) string.offset, string.length, string.jumps

#ifdef LONG
static void put_16(unsigned at, uint32_t number)
{
    msg[at] = (uint8_t)number;
    msg[at + 1] = (uint8_t)(number >> 8);
}

/* Pairs from tail on, small and large ones, and the end pair; where that ends, at most at whole. */
static unsigned put_pairs(unsigned whole)
{
    unsigned at = tail, size, most;

    while (whole - at > 8) {
        most = (whole - at - 8) & ~1u;
        size = draw(3) ? draw(64) & ~1u : most;
        size = size < most ? size : most;
        put_16(at, 1 + draw(5));
        put_16(at + 2, size);
        at += 4 + size;
    }
    memset(msg + at, 0, 4);
    return at + 4;
}

/* One field of the message, or the first string of an NL_AUTH, becomes so long that the message has 65,535 bytes, some
 * more or less, or far less. */
static void lengthen(void)
{
    static const uint8_t heads[3][6] = {{16, 24, 16, 24, 16, 24}, {12, 40, 40, 12, 40, 40}, {12, 20, 28, 36, 44, 52}};
    unsigned whole = draw(4) ? 65526 + draw(12) : draw(65536), head = draw(6), letter = draw(2) ? 0 : 'b', kind, i;

    len = (len + 1) & ~1u;
    kind = msg[0] == 'N' && len >= 12 && msg[8] >= 1 && msg[8] <= 3 ? msg[8] : 0;
    tail = kind == 0 ? 8 : len;
    if (len < 8 || whole <= len + 8)
        return;
    if (kind == 0) {
        memmove(msg + 8 + (whole - len), msg + 8, len - 8);
        letter = 'b';
    }
    for (i = tail; i < tail + (whole - len); i++)
        msg[i] = (uint8_t)(i % 2 ? letter : 'a' + i % 26);
    len = whole;
    if (kind == 0)
        return;
    head = heads[kind - 1][head];
    if (kind == 2 && head == 40)
        len = put_pairs(whole);
    put_16(head, len - tail);
    put_16(head + 2, len - tail);
    put_16(head + 4, tail);
    put_16(head + 6, 0);
}
#endif

/* A message of messages/ with up to three bytes changed, mostly in its head, and sometimes cut or lengthened. */
static void draw_message(void)
{
    unsigned which = draw(sizeof messages / sizeof *messages), changes = draw(4), at, small;

    len = messages[which].len < 1100 ? messages[which].len : 1100;
    memset(msg, 0, sizeof msg);
    memcpy(msg, messages[which].bytes, len);
    while (changes-- > 0) {
        at = draw(len < 96 || draw(3) == 0 ? len : 96);
        small = draw(2) ? 60 : 0;
        small += draw(5);
        msg[at] = (uint8_t)(draw(3) == 0 ? draw(256) : small);
    }
    if (draw(4) == 0)
        len -= draw(len < 40 ? len : 40);
    else if (draw(8) == 0)
        len += draw(40);
#ifdef LONG
    lengthen();
#endif
}

static void reads(unsigned room, unsigned places, unsigned bytes_room)
{
    uint32_t offset = draw(400), which = draw(7);
    uint16_t size = (uint16_t)draw(100);

    CALL(dialtable_read_authenticate(msg, len, numbers, places, bytes, bytes_room));
    CALL(dialtable_read_challenge(msg, len, numbers, places, bytes, bytes_room));
    CALL(dialtable_read_timestamp(msg, len, numbers, places));
    CALL(dialtable_read_server_names(msg, len, numbers, places));
    CALL(dialtable_read_negotiate(msg, len, numbers, places));
    CALL(dialtable_read_nl_auth(msg, len, numbers, places));
    CALL(dialtable_nl_auth_name(msg, len, which, out, room));
    CALL(dialtable_field_bytes(msg, len, offset, size, out, room));
}

static void walks(unsigned places)
{
    /* The list is what stands behind the fixed part; sometimes that of a whole TargetInfo. */
    unsigned start = len <= 48 ? 0 : draw(3) == 0 ? 70 : 48;
    const uint8_t *list;
    uint16_t id = (uint16_t)draw(12);
    dialtable_len list_len, at = draw(200), far = (uint64_t)draw_32() << 31;

    if (start > len)
        start = 48;
    if (tail > 0 && tail <= len && draw(2))
        start = tail;
    list = msg + start;
    list_len = len - start;
    CALL(dialtable_check_pairs(list, list_len));
    CALL(dialtable_count_pairs(list, list_len, numbers, places));
    CALL(dialtable_find_pair(list, list_len, id, numbers, places));
    CALL(dialtable_next_pair(list, list_len, 0, numbers, places));
    CALL(dialtable_next_pair(list, list_len, at, numbers, places));
    CALL(dialtable_next_pair(list, list_len, far, numbers, places));
}

static void prints(unsigned room)
{
    CALL(dialtable_authenticate_line(msg, len, out, room));
    CALL(dialtable_challenge_line(msg, len, out, room));
    CALL(dialtable_negotiate_line(msg, len, out, room));
    CALL(dialtable_nl_auth_line(msg, len, out, room));
    CALL(dialtable_ntlm_line(msg, len, out, room));
    CALL(dialtable_ntlm_program_line(msg, len, out, room));
    CALL(dialtable_nl_auth_program_line(msg, len, out, room));
    CALL(dialtable_explain(msg, len, out, room));
}

/* Places in the message as if it were a night's buffer: whole, a part, or past its end; the last entry is not lent. */
static void nights(void)
{
    unsigned i, listed = draw(5);

    memset(entries, 0xEE, sizeof entries);
    for (i = 0; i < listed; i++) {
        uint32_t start = draw(3) ? 0 : draw(len + 2), rest = start < len ? len - start : 0;

        entries[i].start = draw(16) ? start : ~(uint64_t)0 - start;
        entries[i].length = draw(3) ? rest : draw(len + 2);
        entries[i].mark = draw(8) ? draw(3) + 1 : draw_32();
    }
    CALL(dialtable_check_messages(msg, len, entries, listed));
    for (i = 0; i < listed; i++)
        if (entries[i].number > 0 && entries[i].number < 256)
            refusals[entries[i].number]++;
}

static const uint8_t version[8] = {6, 1, 0xB1, 0x1D, 0, 0, 0, 15};
/* Names with labels of 1 to 3 bytes, then one of 70. */
static const uint8_t text[] =
    "dc1.a.bc.dc1.a.bc.dc1.a.bc.dc1.a.bc.dc1.a.bc.dc1.a.bc.dc1.a.bc.dc1.a.bc.dc1.a.bc.dc1.a.bc.dc1.a.bc.dc1.a.bc."
    "dc1.a.bc.dc1.a.bc.dc1.a.bc.dc1.a.bc.dc1.a.bc.dc1.a.bc.dc1.a.bc.dc1.a.bc.dc1.a.bc.dc1.a.bc.dc1.a.bc.dc1.a.bc."
    "dc1.a.bc.dc1.a.bc.dc1.a.bc.dc1.a.bc.dc1.a.bc."
    "0123456789012345678901234567890123456789012345678901234567890123456789";

/* The text of a short part of the message, with up to two characters changed. */
static void imports(unsigned room)
{
    static const uint8_t others[] = "NTLMntlm =AZaz09+/-_\t\r\n";
    static uint8_t header[(DIALTABLE_HEADER_LEN(TEXT) + 7) / 8 * 8];
    unsigned size = draw(TEXT), changes = draw(3), at, other;
    uint64_t header_len = dialtable_export_header(header, sizeof header, msg, size);

    while (changes-- > 0) {
        at = draw((uint32_t)header_len);
        other = draw(sizeof others);
        header[at] = others[other];
    }
    header_len -= draw(6) ? 0 : draw((uint32_t)header_len);
    CALL(dialtable_import_header(out, room < 64 ? room % 40 : room, header, header_len));
    mix(header, sizeof header);
}

static void writes(unsigned room)
{
    uint32_t flags = draw(2) ? 0xE28A8215u : draw_32(), bits = draw(64), unverified = draw(3);
    unsigned a = draw(PART), b = draw(PART), c = draw(PART), key_len = 16 * draw(2), name_len = draw(4) ? b & ~1u : b;
    unsigned text_len = draw(3) ? draw(12) : draw(sizeof text);

    CALL(dialtable_write_authenticate(out, room, flags, version, mic, msg, a, msg + 1, b, msg + 3, c, msg + 7, a & ~1u,
                                      msg + 9, b & ~1u, mic, key_len));
    CALL(dialtable_write_negotiate(out, room, flags, version, msg, a, msg + 5, b));
    CALL(dialtable_write_nl_auth_request(out, room, bits, msg + tail, tail > 0 ? a : a % 4, msg + 9, b % 3, msg + 13,
                                         c % 4, text, text_len, msg + 2, a % 3));
    CALL(dialtable_write_nl_auth_response(out, room));
    CALL(dialtable_write_response_pairs(out, room, msg, len, msg + 11, name_len, unverified, mic));
    CALL(dialtable_canonical_authenticate(out, room, msg, len));
    CALL(dialtable_export_header(out, room, msg, len));
    imports(room);
}

static void answers(unsigned room, unsigned places)
{
    uint32_t settings = draw(16);
    uint64_t clock = (uint64_t)draw_32() << 24;
    unsigned a = draw(PART), b = draw(PART), own = draw(2) ? draw(PART) & ~1u : 0, key_len = 16 * draw(2);

    CALL(dialtable_decide(settings, msg, len, numbers, places));
    CALL(dialtable_domain_to_send(msg, own % 5, msg, len, out, room));
    CALL(dialtable_respond(out, room, msg, len, settings, clock, version, mic, msg + 2, a, msg + 1, b, msg + 4, own,
                           msg + 6, a & ~1u, msg + 8, b & ~1u, mic, key_len, numbers, places));
#define PARTS version, mic, msg + 2, a, msg + 1, b, msg + 4, own, msg + 6, 8, msg + 8, 4, mic, 16, numbers, places
    CALL(dialtable_respond_for_bench(out, room, msg, len, clock, settings % 3, PARTS));
    CALL(dialtable_respond_to_old_server(out, room, msg, len, clock, PARTS));
    CALL(dialtable_respond_for_relay(out, room, msg, len, clock, PARTS));
}

static void struct_reads(unsigned bytes_room)
{
    STRUCT_CALL(dialtable_read_authenticate_struct(msg, len, &got.auth, bytes, bytes_room), got.auth.flags,
                NUMBER(got.auth.mic_present), FIELD(got.auth.lm), FIELD(got.auth.nt), FIELD(got.auth.domain),
                FIELD(got.auth.user), FIELD(got.auth.workstation), FIELD(got.auth.key));
    STRUCT_CALL(dialtable_read_challenge_struct(msg, len, &got.challenge, bytes, bytes_room), got.challenge.flags,
                FIELD(got.challenge.target_name), FIELD(got.challenge.target_info));
    STRUCT_CALL(dialtable_read_timestamp_struct(msg, len, &got.timestamp), NUMBER(got.timestamp.there),
                got.timestamp.time);
    STRUCT_CALL(dialtable_read_server_names_struct(msg, len, &got.server_names), NUMBER(got.server_names.nb_computer),
                NUMBER(got.server_names.nb_domain));
    STRUCT_CALL(dialtable_read_negotiate_struct(msg, len, &got.negotiate), got.negotiate.flags,
                FIELD(got.negotiate.domain), FIELD(got.negotiate.workstation));
    STRUCT_CALL(dialtable_read_nl_auth_struct(msg, len, &got.nl_auth), got.nl_auth.type, got.nl_auth.flags,
                STRING(got.nl_auth.a), STRING(got.nl_auth.b), STRING(got.nl_auth.c), STRING(got.nl_auth.d),
                STRING(got.nl_auth.e));
}

/* A list's pairs one by one, as far as five. */
static void struct_walks(void)
{
    unsigned start = tail > 0 && tail <= len ? tail : len <= 48 ? 0 : 48, turns = 0;
    const uint8_t *list = msg + start;
    uint64_t at = 0;
    uint16_t id = (uint16_t)draw(12);

    STRUCT_CALL(dialtable_find_pair_struct(list, len - start, id, &got.found), NUMBER(got.found.there), got.found.place,
                got.found.length);
    do {
        STRUCT_CALL(dialtable_next_pair_struct(list, len - start, at, &got.next), NUMBER(got.next.there), got.next.id,
                    got.next.place, got.next.length, got.next.at);
        at = got.next.at;
    } while (got.next.there == 1 && ++turns < 5);
}

/* The answer to a challenge; and an AUTHENTICATE of the same parts, or of those of the message where it is one. */
static void struct_writes(unsigned room)
{
    uint32_t settings = draw(16), flags = draw(2) ? 0xE28A8215u : draw_32();
    uint64_t clock = (uint64_t)draw_32() << 24;
    unsigned a = draw(PART), b = draw(PART);
    struct dialtable_parts parts;

    parts.version = draw(4) ? version : NULL, parts.mic = draw(4) ? mic : NULL;
    parts.lm = dialtable_part(msg + 2, a), parts.nt = dialtable_part(msg + 1, b);
    parts.domain = dialtable_part(msg + 4, b & ~1u), parts.user = dialtable_part(msg + 6, a & ~1u);
    parts.workstation = dialtable_part(NULL, 0), parts.key = dialtable_part(mic, 16 * draw(2));
    STRUCT_CALL(dialtable_decide_struct(settings, msg, len, clock, &got.decision), got.decision.flags,
                NUMBER(got.decision.timestamp_there), got.decision.timestamp, got.decision.time);
    STRUCT_CALL(dialtable_respond_struct(out, room, settings, msg, len, clock, &parts, &got.response),
                got.response.time, NUMBER(got.response.mic_due));
    fill();
    if (!DIALTABLE_IS_REFUSED(dialtable_read_authenticate_struct(msg, len, &got.auth, bytes, 16))) {
        flags = got.auth.flags;
        parts.lm = dialtable_field_part(msg, got.auth.lm), parts.nt = dialtable_field_part(msg, got.auth.nt);
        parts.domain = dialtable_field_part(msg, got.auth.domain);
        parts.user = dialtable_field_part(msg, got.auth.user);
        parts.workstation = dialtable_field_part(msg, got.auth.workstation);
        parts.key = dialtable_field_part(msg, got.auth.key);
    }
    CALL(dialtable_write_authenticate_struct(out, room, flags, &parts));
}

/* A message of messages/ as it is, with this type. */
static unsigned pick(uint8_t type)
{
    unsigned which = draw(sizeof messages / sizeof *messages);

    while (messages[which].len < 12 || messages[which].bytes[8] != type)
        which = (which + 1) % (sizeof messages / sizeof *messages);
    return which;
}

/* Sign-ins of which the drawn message is one. */
static void mics(unsigned bytes_room)
{
    uint8_t type = len < 12 || msg[8] > 2 || msg[8] == 0 ? 3 : msg[8];
    const uint8_t *three[3];
    dialtable_len lens[3], key_len = draw(8) ? 16 : draw(17);
    uint8_t found[16];
    unsigned i, which;

    for (i = 0; i < 3; i++) {
        which = pick((uint8_t)(i + 1));
        three[i] = i + 1 == type ? msg : messages[which].bytes;
        lens[i] = i + 1 == type ? len : messages[which].len;
    }
#define SIGN_IN mic, key_len, three[0], lens[0], three[1], lens[1], three[2], lens[2]
    CALL(dialtable_mic(SIGN_IN, bytes, bytes_room));
    memcpy(found, bytes, sizeof found);
    if (type == 3 && draw(8))
        CALL(dialtable_write_mic(mic, key_len, three[0], lens[0], three[1], lens[1], msg, len));
    STRUCT_CALL(dialtable_check_mic(SIGN_IN), NUMBER(dialtable_mic_is_right(answer)));
    if (type == 3 && len >= 88) {
        memcpy(msg + DIALTABLE_MIC_AT, found, sizeof found);
        CALL(dialtable_check_mic(SIGN_IN));
    }
}

/* The words of every refusal, in eights. */
static void texts(void)
{
    unsigned number;
    const char *text;
    char words[88];

    for (number = 0; number < 258; number++) {
        text = dialtable_refusal_text(number);
        memset(words, 0, sizeof words);
        strncpy(words, text, sizeof words - 1);
        mix(words, sizeof words);
    }
}

int main(void)
{
    unsigned long cases;
    unsigned i, room, places, bytes_room;

    for (cases = 0; cases < CASES; cases++) {
        draw_message();
        for (i = 0; i < sizeof mic; i++)
            mic[i] = (uint8_t)draw(256);
        room = draw(3) ? sizeof out : draw(sizeof out / 3);
        places = draw(6) ? NUMBERS : draw(NUMBERS);
        bytes_room = draw(6) ? sizeof bytes : draw(20);
        reads(room, places, bytes_room);
        walks(places);
        prints(room);
        nights();
        writes(room);
        answers(room, places);
        struct_reads(bytes_room);
        struct_walks();
        struct_writes(room);
        mics(bytes_room);
        mix(msg, sizeof msg);
        mix(mic, sizeof mic);
    }
    texts();
    printf("%08lX%08lX over %lu messages and %lu calls, refused", (unsigned long)(all >> 32),
           (unsigned long)(all & 0xFFFFFFFFu), cases, calls);
    for (i = 0; i < 256; i++)
        if (refusals[i] > 0)
            printf(" %u:%lu", i, refusals[i]);
    puts("");
    return 0;
}
