/*
 * The C interface as a C programmer uses it: every call of the library, and every named place of its arrays.
 * dialtable_test P1 CHALLENGE NO_TIMESTAMP, three message files. The last line is 'N passed, M failed'.
 */
#include <stdio.h>
#include <stdlib.h>
#include <string.h>

#include "check.h"
#include "dialtable.h"

/* A number that isn't the one that was expected is printed. */
#define EQUAL(got, expected) equal((uint64_t)(got), (uint64_t)(expected), __LINE__, #got)

static void equal(uint64_t got, uint64_t expected, int line, const char *what)
{
    check(got == expected, __FILE__, line, what);
    if (got != expected)
        printf("    got %08lx%08lx, expected %08lx%08lx\n", (unsigned long)(got >> 32),
               (unsigned long)(got & 0xFFFFFFFFu), (unsigned long)(expected >> 32),
               (unsigned long)(expected & 0xFFFFFFFFu));
}

static int refused_at(uint64_t answer, unsigned number, unsigned field, uint64_t place)
{
    return DIALTABLE_IS_REFUSED(answer) && DIALTABLE_NUMBER(answer) == number && DIALTABLE_FIELD(answer) == field &&
           DIALTABLE_PLACE(answer) == place;
}

static int refused(uint64_t answer, unsigned number, unsigned field)
{
    return refused_at(answer, number, field, 0);
}

/* Whether all of these bytes are the byte that every output is filled with first. */
#define FILL 0xEE
static int untouched(const uint8_t *bytes, dialtable_len len)
{
    while (len > 0)
        if (bytes[--len] != FILL)
            return 0;
    return 1;
}

typedef struct {
    uint8_t bytes[1024];
    dialtable_len len;
} message_t;

static void read_file(const char *path, message_t *message)
{
    FILE *file = fopen(path, "rb");
    if (file == NULL) {
        printf("%s can't be opened: give the path of a message\n0 passed, 1 failed\n", path);
        exit(1);
    }
    message->len = fread(message->bytes, 1, sizeof message->bytes, file);
    fclose(file);
}

static const char p1_line[] =
    "auth flags=00000201 set=U domain= user=box7 work= lm=0 nt=24 key=0 mic=1 kind=v1 max=000000\n";
static const uint8_t box7[] = {'b', 0, 'o', 0, 'x', 0, '7', 0};
static const uint8_t p12[] = {0, 0, 0, 0, 1, 0, 0, 0, 'L', 'I', 'N', 'E', 0};
/* UNICODE and both names, of odd length: domain at 40, workstation at 47. The string's own zero byte is left out. */
static const uint8_t nego[] = "NTLMSSP\0" "\1\0\0\0" "\x07\xB2\x08\xA2" "\7\0\7\0" "\x28\0\0\0" "\5\0\5\0" "\x2F\0\0\0"
                              "\x0A\0\x61\x4A\0\0\0\x0F" "LINE 31" "box\\\xFC";
#define NEGO_LEN (sizeof nego - 1)

/* Every string of an NL_AUTH: D jumps to the last label of C, and E to D. The C string's own zero byte is left out. */
static const uint8_t five[] = "\0\0\0\0\x1F\0\0\0" "a\0" "b.\0" "\3c.c" "\3com\0" "\1d\xC0\x09" "\xC0\x0E";
#define FIVE_LEN (sizeof five - 1)

#define CHALLENGE_TIME 0x01DD750F3F7F2C5Cu
#define CLOCK 0x0123456789ABCDEFu

/* P1 is read, and every number of it has its place. */
static void reads_authenticate(const message_t *p1)
{
    uint64_t numbers[DIALTABLE_AUTHENTICATE_NUMBERS + 1];
    uint8_t mic[17], zeros[16] = {0}, name[9];

    numbers[DIALTABLE_AUTHENTICATE_NUMBERS] = 77;
    memset(mic, FILL, sizeof mic);
    EQUAL(p1->len, 120);
    EQUAL(dialtable_read_authenticate(p1->bytes, p1->len, numbers, DIALTABLE_AUTHENTICATE_NUMBERS, mic, 16), 0);
    EQUAL(DIALTABLE_AUTHENTICATE_NUMBERS, 20);
    EQUAL(numbers[DIALTABLE_AUTHENTICATE_FLAGS], 0x201);
    EQUAL(numbers[DIALTABLE_AUTHENTICATE_MIC_PRESENT], 1);
    EQUAL(numbers[DIALTABLE_AUTHENTICATE_LM_OFFSET], 0);
    EQUAL(numbers[DIALTABLE_AUTHENTICATE_LM_LEN], 0);
    EQUAL(numbers[DIALTABLE_AUTHENTICATE_NT_OFFSET], 96);
    EQUAL(numbers[DIALTABLE_AUTHENTICATE_NT_LEN], 24);
    EQUAL(numbers[DIALTABLE_AUTHENTICATE_DOMAIN_OFFSET], 0);
    EQUAL(numbers[DIALTABLE_AUTHENTICATE_DOMAIN_LEN], 0);
    EQUAL(numbers[DIALTABLE_AUTHENTICATE_USER_OFFSET], 88);
    EQUAL(numbers[DIALTABLE_AUTHENTICATE_USER_LEN], 8);
    EQUAL(numbers[DIALTABLE_AUTHENTICATE_WORKSTATION_OFFSET], 0);
    EQUAL(numbers[DIALTABLE_AUTHENTICATE_WORKSTATION_LEN], 0);
    EQUAL(numbers[DIALTABLE_AUTHENTICATE_KEY_OFFSET], 0);
    EQUAL(numbers[DIALTABLE_AUTHENTICATE_KEY_LEN], 0);
    EQUAL(numbers[DIALTABLE_AUTHENTICATE_LM_MAX_LEN], 0);
    EQUAL(numbers[DIALTABLE_AUTHENTICATE_NT_MAX_LEN], 24);
    EQUAL(numbers[DIALTABLE_AUTHENTICATE_DOMAIN_MAX_LEN], 0);
    EQUAL(numbers[DIALTABLE_AUTHENTICATE_USER_MAX_LEN], 8);
    EQUAL(numbers[DIALTABLE_AUTHENTICATE_WORKSTATION_MAX_LEN], 0);
    EQUAL(numbers[DIALTABLE_AUTHENTICATE_KEY_MAX_LEN], 0);
    EQUAL(numbers[DIALTABLE_AUTHENTICATE_NUMBERS], 77);
    CHECK(memcmp(mic, zeros, 16) == 0);
    EQUAL(mic[16], FILL);

    memset(name, FILL, sizeof name);
    EQUAL(dialtable_field_bytes(p1->bytes, p1->len, (uint32_t)numbers[DIALTABLE_AUTHENTICATE_USER_OFFSET],
                                (uint16_t)numbers[DIALTABLE_AUTHENTICATE_USER_LEN], name, sizeof name), 8);
    CHECK(memcmp(name, box7, 8) == 0);
    EQUAL(name[8], FILL);
    CHECK(refused(dialtable_field_bytes(p1->bytes, p1->len, 88, 8, name, 7), 33, 0));
    /* Nothing to copy, whatever the offset. */
    EQUAL(dialtable_field_bytes(p1->bytes, p1->len, 0, 0, NULL, 0), 0);
    EQUAL(dialtable_field_bytes(p1->bytes, p1->len, (uint32_t)p1->len, 0, NULL, 0), 0);
    EQUAL(dialtable_field_bytes(p1->bytes, p1->len, (uint32_t)p1->len + 1, 0, NULL, 0), 0);
    EQUAL(dialtable_field_bytes(p1->bytes, p1->len, 0xFFFFFFFFu, 0, NULL, 0), 0);
    EQUAL(dialtable_field_bytes(p1->bytes, p1->len, (uint32_t)p1->len + 1, 0, name, sizeof name), 0);
    EQUAL(dialtable_field_bytes(p1->bytes, p1->len, (uint32_t)p1->len - 1, 1, &name[8], 1), 1);
    EQUAL(name[8], p1->bytes[p1->len - 1]);
    /* A nonempty field that ends past this message is no empty one; 6 comes before 33. */
    memset(name, FILL, sizeof name);
    CHECK(refused(dialtable_field_bytes(p1->bytes, p1->len, (uint32_t)p1->len - 1, 2, name, sizeof name), 6, 0));
    CHECK(refused(dialtable_field_bytes(p1->bytes, p1->len, (uint32_t)p1->len, 1, name, 0), 6, 0));
    CHECK(refused(dialtable_field_bytes(p1->bytes, p1->len, (uint32_t)p1->len + 1, 1, name, sizeof name), 6, 0));
    CHECK(refused(dialtable_field_bytes(p1->bytes, 95, 88, 8, name, 7), 6, 0));
    CHECK(refused(dialtable_field_bytes(p1->bytes, p1->len, 0xFFFFFFFFu, 2, NULL, 0), 6, 0));
    CHECK(refused(dialtable_field_bytes(p1->bytes, p1->len, 0xFFFFFFFFu, 0xFFFF, name, sizeof name), 6, 0));
    CHECK(refused(dialtable_field_bytes(NULL, 0, 0, 1, NULL, 0), 6, 0));
    CHECK(untouched(name, sizeof name));
}

/* Refusals, and arrays that are too short: nothing changes. */
static void refuses(const message_t *p1)
{
    uint64_t numbers[DIALTABLE_AUTHENTICATE_NUMBERS] = {7};
    uint8_t mic[16];
    message_t other = *p1;

    memset(mic, FILL, sizeof mic);
    CHECK(refused(dialtable_read_authenticate(NULL, 0, numbers, 20, mic, 16), 2, 0));
    CHECK(refused(dialtable_read_authenticate(NULL, 0, numbers, 19, mic, 16), 33, 0));
    CHECK(refused(dialtable_read_authenticate(p1->bytes, p1->len, numbers, 20, mic, 15), 33, 0));
    CHECK(refused(dialtable_read_authenticate(p1->bytes, p1->len, NULL, 0, NULL, 0), 33, 0));
    other.bytes[40] = 113;
    CHECK(refused(dialtable_read_authenticate(other.bytes, other.len, numbers, 20, mic, 16), 6, 4));
    other.bytes[40] = 112;
    CHECK(refused(dialtable_read_authenticate(other.bytes, other.len, numbers, 20, mic, 16), 9, 4));
    EQUAL(numbers[0], 7);
    CHECK(untouched(mic, sizeof mic));
}

static void reads_challenge(const message_t *challenge)
{
    static const uint8_t expected[8] = {0x04, 0xDF, 0xF4, 0x36, 0x3C, 0xBB, 0x53, 0x2E};
    uint64_t numbers[DIALTABLE_CHALLENGE_NUMBERS];
    uint8_t server_challenge[9];

    memset(server_challenge, FILL, sizeof server_challenge);
    EQUAL(dialtable_read_challenge(challenge->bytes, challenge->len, numbers, DIALTABLE_CHALLENGE_NUMBERS,
                                   server_challenge, 8), 0);
    EQUAL(DIALTABLE_CHALLENGE_NUMBERS, 7);
    EQUAL(numbers[DIALTABLE_CHALLENGE_FLAGS], 0x628A8215u);
    EQUAL(numbers[DIALTABLE_CHALLENGE_TARGET_NAME_OFFSET], 56);
    EQUAL(numbers[DIALTABLE_CHALLENGE_TARGET_NAME_LEN], 14);
    EQUAL(numbers[DIALTABLE_CHALLENGE_TARGET_INFO_OFFSET], 70);
    EQUAL(numbers[DIALTABLE_CHALLENGE_TARGET_INFO_LEN], 64);
    EQUAL(numbers[DIALTABLE_CHALLENGE_TARGET_NAME_MAX_LEN], 14);
    EQUAL(numbers[DIALTABLE_CHALLENGE_TARGET_INFO_MAX_LEN], 64);
    CHECK(memcmp(server_challenge, expected, 8) == 0);
    EQUAL(server_challenge[8], FILL);

    EQUAL(dialtable_read_timestamp(challenge->bytes, challenge->len, numbers, DIALTABLE_TIMESTAMP_NUMBERS), 0);
    EQUAL(DIALTABLE_TIMESTAMP_NUMBERS, 2);
    EQUAL(numbers[DIALTABLE_TIMESTAMP_THERE], 1);
    EQUAL(numbers[DIALTABLE_TIMESTAMP_TIME], CHALLENGE_TIME);

    EQUAL(dialtable_read_server_names(challenge->bytes, challenge->len, numbers, DIALTABLE_SERVER_NAMES_NUMBERS), 0);
    EQUAL(DIALTABLE_SERVER_NAMES_NUMBERS, 2);
    EQUAL(numbers[DIALTABLE_SERVER_NAMES_NB_COMPUTER], 1);
    EQUAL(numbers[DIALTABLE_SERVER_NAMES_NB_DOMAIN], 1);
    /* Pair 1 becomes an unknown one. */
    {
        message_t other = *challenge;
        other.bytes[88] = 0x7F;
        EQUAL(dialtable_read_server_names(other.bytes, other.len, numbers, DIALTABLE_SERVER_NAMES_NUMBERS), 0);
        EQUAL(numbers[DIALTABLE_SERVER_NAMES_NB_COMPUTER], 0);
        EQUAL(numbers[DIALTABLE_SERVER_NAMES_NB_DOMAIN], 1);
    }
}

static void reads_negotiate(void)
{
    uint64_t numbers[DIALTABLE_NEGOTIATE_NUMBERS + 1];
    uint8_t other[NEGO_LEN];

    numbers[DIALTABLE_NEGOTIATE_NUMBERS] = 77;
    EQUAL(NEGO_LEN, 52);
    EQUAL(dialtable_read_negotiate(nego, NEGO_LEN, numbers, DIALTABLE_NEGOTIATE_NUMBERS), 0);
    EQUAL(DIALTABLE_NEGOTIATE_NUMBERS, 7);
    EQUAL(numbers[DIALTABLE_NEGOTIATE_FLAGS], 0xA208B207u);
    EQUAL(numbers[DIALTABLE_NEGOTIATE_DOMAIN_OFFSET], 40);
    EQUAL(numbers[DIALTABLE_NEGOTIATE_DOMAIN_LEN], 7);
    EQUAL(numbers[DIALTABLE_NEGOTIATE_WORKSTATION_OFFSET], 47);
    EQUAL(numbers[DIALTABLE_NEGOTIATE_WORKSTATION_LEN], 5);
    EQUAL(numbers[DIALTABLE_NEGOTIATE_DOMAIN_MAX_LEN], 7);
    EQUAL(numbers[DIALTABLE_NEGOTIATE_WORKSTATION_MAX_LEN], 5);
    EQUAL(numbers[DIALTABLE_NEGOTIATE_NUMBERS], 77);

    /* Without its bit a domain doesn't count; an empty workstation's offset is ignored. */
    memcpy(other, nego, sizeof other);
    other[13] &= 0xEF;
    other[24] = 0;
    EQUAL(dialtable_read_negotiate(other, sizeof other, numbers, DIALTABLE_NEGOTIATE_NUMBERS), 0);
    EQUAL(numbers[DIALTABLE_NEGOTIATE_FLAGS], 0xA208A207u);
    EQUAL(numbers[DIALTABLE_NEGOTIATE_DOMAIN_OFFSET], 0);
    EQUAL(numbers[DIALTABLE_NEGOTIATE_DOMAIN_LEN], 0);
    EQUAL(numbers[DIALTABLE_NEGOTIATE_WORKSTATION_OFFSET], 0);
    EQUAL(numbers[DIALTABLE_NEGOTIATE_WORKSTATION_LEN], 0);
    EQUAL(numbers[DIALTABLE_NEGOTIATE_DOMAIN_MAX_LEN], 0);
    EQUAL(numbers[DIALTABLE_NEGOTIATE_WORKSTATION_MAX_LEN], 5);

    /* Refused: nothing changes, and an array that is too short comes before the message. */
    numbers[0] = 7;
    CHECK(refused(dialtable_read_negotiate(nego, NEGO_LEN - 1, numbers, 7), 6, 2));
    CHECK(refused(dialtable_read_negotiate(nego, 31, numbers, 7), 2, 0));
    CHECK(refused(dialtable_read_negotiate(NULL, 0, numbers, 7), 2, 0));
    CHECK(refused(dialtable_read_negotiate(NULL, 0, numbers, 6), 33, 0));
    CHECK(refused(dialtable_read_negotiate(nego, NEGO_LEN, NULL, 0), 33, 0));
    memcpy(other, nego, sizeof other);
    other[20] = 31;
    CHECK(refused(dialtable_read_negotiate(other, sizeof other, numbers, 7), 7, 1));
    EQUAL(numbers[0], 7);
}

/* Where the heads of a kind of message stand, and where its array has the first MaxLen. */
static const struct {
    unsigned fields, heads[6];
    int max_len;
} kinds[] = {{2, {16, 24, 0, 0, 0, 0}, DIALTABLE_NEGOTIATE_DOMAIN_MAX_LEN},
             {2, {12, 40, 0, 0, 0, 0}, DIALTABLE_CHALLENGE_TARGET_NAME_MAX_LEN},
             {6, {12, 20, 28, 36, 44, 52}, DIALTABLE_AUTHENTICATE_LM_MAX_LEN}};

/* MaxLen unlike Len in one head: its number and its digit tell it, and nothing else changes. */
static void keeps_max_len(const uint8_t *msg, dialtable_len msg_len)
{
    unsigned kind = msg[8] - 1u, i, field;
    uint64_t before[DIALTABLE_AUTHENTICATE_NUMBERS], numbers[DIALTABLE_AUTHENTICATE_NUMBERS];
    uint8_t line[256], out[256], bytes[16];
    uint64_t len = dialtable_ntlm_line(msg, msg_len, line, sizeof line);

#define READ(msg_, numbers_) \
    (kind == 0   ? dialtable_read_negotiate(msg_, msg_len, numbers_, DIALTABLE_AUTHENTICATE_NUMBERS) \
     : kind == 1 ? dialtable_read_challenge(msg_, msg_len, numbers_, DIALTABLE_AUTHENTICATE_NUMBERS, bytes, 8) \
                 : dialtable_read_authenticate(msg_, msg_len, numbers_, DIALTABLE_AUTHENTICATE_NUMBERS, bytes, 16))
    memset(before, FILL, sizeof before);
    EQUAL(READ(msg, before), 0);
    for (field = 0; field < kinds[kind].fields; field++) {
        message_t other;
        uint8_t *head = other.bytes + kinds[kind].heads[field];
        /* The session key of P1 doesn't count. */
        int counts = !(kind == 2 && field == 5);

        memcpy(other.bytes, msg, msg_len);
        head[2] ^= 0x05;
        head[3] ^= 0x80;
        memset(numbers, FILL, sizeof numbers);
        EQUAL(READ(other.bytes, numbers), 0);
        for (i = 0; i < DIALTABLE_AUTHENTICATE_NUMBERS; i++)
            EQUAL(numbers[i], before[i] ^ (i == kinds[kind].max_len + field && counts ? 0x8005u : 0u));
        EQUAL(dialtable_ntlm_line(other.bytes, msg_len, out, sizeof out), len);
        out[len - 1 - kinds[kind].fields + field] ^= (uint8_t)counts;
        CHECK(memcmp(out, line, len) == 0);
    }
}

static void reads_nl_auth(void)
{
    static const uint8_t response[] = {1, 0, 0, 0, 0xFF, 0, 0, 0, 0};
    uint64_t numbers[DIALTABLE_NL_AUTH_NUMBERS + 1];

    numbers[DIALTABLE_NL_AUTH_NUMBERS] = 77;
    EQUAL(dialtable_read_nl_auth(five, FIVE_LEN, numbers, DIALTABLE_NL_AUTH_NUMBERS), 0);
    EQUAL(DIALTABLE_NL_AUTH_NUMBERS, 15);
    EQUAL(numbers[DIALTABLE_NL_AUTH_TYPE], 0);
    EQUAL(numbers[DIALTABLE_NL_AUTH_FLAGS], 0x1F);
    EQUAL(numbers[DIALTABLE_NL_AUTH_A_OFFSET], 8);
    EQUAL(numbers[DIALTABLE_NL_AUTH_A_LEN], 1);
    EQUAL(numbers[DIALTABLE_NL_AUTH_B_OFFSET], 10);
    EQUAL(numbers[DIALTABLE_NL_AUTH_B_LEN], 2);
    EQUAL(numbers[DIALTABLE_NL_AUTH_C_OFFSET], 13);
    EQUAL(numbers[DIALTABLE_NL_AUTH_C_LEN], 9);
    EQUAL(numbers[DIALTABLE_NL_AUTH_D_OFFSET], 22);
    EQUAL(numbers[DIALTABLE_NL_AUTH_D_LEN], 4);
    EQUAL(numbers[DIALTABLE_NL_AUTH_E_OFFSET], 26);
    EQUAL(numbers[DIALTABLE_NL_AUTH_E_LEN], 2);
    EQUAL(numbers[DIALTABLE_NL_AUTH_C_JUMPS], 0);
    EQUAL(numbers[DIALTABLE_NL_AUTH_D_JUMPS], 1);
    EQUAL(numbers[DIALTABLE_NL_AUTH_E_JUMPS], 2);
    EQUAL(numbers[DIALTABLE_NL_AUTH_NUMBERS], 77);
    EQUAL(dialtable_read_nl_auth(response, sizeof response, numbers, DIALTABLE_NL_AUTH_NUMBERS), 0);
    EQUAL(numbers[DIALTABLE_NL_AUTH_TYPE], 1);
    EQUAL(numbers[DIALTABLE_NL_AUTH_FLAGS], 0);
    EQUAL(numbers[DIALTABLE_NL_AUTH_E_LEN], 0);
    EQUAL(numbers[DIALTABLE_NL_AUTH_E_JUMPS], 0);
    CHECK(refused(dialtable_read_nl_auth(p12, sizeof p12 - 1, numbers, DIALTABLE_NL_AUTH_NUMBERS), 15, 1));
    CHECK(refused(dialtable_read_nl_auth(five, FIVE_LEN, numbers, 14), 33, 0));
}

/* Whether five with another byte at a place is refused so. */
static int refused_with(unsigned at, uint8_t byte, unsigned number, unsigned field)
{
    uint8_t other[FIVE_LEN], out[8];

    memcpy(other, five, sizeof other);
    other[at] = byte;
    memset(out, FILL, sizeof out);
    return refused(dialtable_nl_auth_name(other, sizeof other, 3, out, sizeof out), number, field) &&
           untouched(out, sizeof out);
}

static void reads_nl_auth_names(void)
{
    static const char *const texts[] = {"", "a", "b.", "c\\x2Ec.com", "d.com", "d.com", ""};
    static const uint8_t response[] = {1, 0, 0, 0, 0xFF, 0, 0, 0, 0};
    /* At 8 a label of 63 bytes, which holds a zero byte and then jumps, each to what stands before it. */
    uint8_t jumps[8 + 65 + 2] = {0, 0, 0, 0, DIALTABLE_NL_AUTH_BIT_C | DIALTABLE_NL_AUTH_BIT_D, 0, 0, 0, 63, 0};
    uint64_t numbers[DIALTABLE_NL_AUTH_NUMBERS];
    uint8_t out[16];
    uint32_t which, i;
    size_t len;

    for (which = 0; which < sizeof texts / sizeof *texts; which++) {
        len = strlen(texts[which]);
        memset(out, FILL, sizeof out);
        EQUAL(dialtable_nl_auth_name(five, FIVE_LEN, which, out, len), len);
        CHECK(memcmp(out, texts[which], len) == 0);
        CHECK(untouched(out + len, sizeof out - len));
        memset(out, FILL, sizeof out);
        if (len > 0)
            CHECK(refused(dialtable_nl_auth_name(five, FIVE_LEN, which, out, len - 1), 33, 0));
        CHECK(untouched(out, sizeof out));
    }
    EQUAL(dialtable_nl_auth_name(five, FIVE_LEN, 0x103, NULL, 0), 0);
    EQUAL(dialtable_nl_auth_name(p12, sizeof p12, 2, NULL, 0), 0);
    EQUAL(dialtable_nl_auth_name(response, sizeof response, 1, NULL, 0), 0);

    CHECK(refused_with(25, 14, 51, 4)); /* D's jump to its own label */
    CHECK(refused_with(27, 18, 51, 5)); /* E's to itself */
    CHECK(refused_with(13, 0x80, 50, 3));
    CHECK(refused_with(13, 0x3F, 15, 3));
    CHECK(refused(dialtable_nl_auth_name(five, FIVE_LEN - 1, 1, out, sizeof out), 15, 5));
    CHECK(refused(dialtable_nl_auth_name(NULL, 0, 1, NULL, 0), 2, 0));

    for (i = 10; i < 72; i += 2) {
        jumps[i] = 0xC0;
        jumps[i + 1] = (uint8_t)(i == 10 ? 1 : i - 10);
    }
    jumps[8 + 65] = 0xC0;
    jumps[8 + 66] = 30;
    EQUAL(dialtable_read_nl_auth(jumps, sizeof jumps, numbers, DIALTABLE_NL_AUTH_NUMBERS), 0);
    EQUAL(numbers[DIALTABLE_NL_AUTH_D_JUMPS], 16);
    jumps[8 + 66] = 32;
    CHECK(refused(dialtable_read_nl_auth(jumps, sizeof jumps, numbers, DIALTABLE_NL_AUTH_NUMBERS), 52, 4));
}

/* The longest name reads back, with the longest text that is known; one byte more is 53. */
static void writes_the_longest_name(void)
{
    static uint8_t text[255], out[300], shown[DIALTABLE_NL_AUTH_NAME_ROOM];

    memset(text, 0xFF, sizeof text);
    text[63] = text[127] = text[191] = '.';
    EQUAL(dialtable_write_nl_auth_request(out, sizeof out, 16, NULL, 0, NULL, 0, NULL, 0, NULL, 0, text, 253), 8 + 255);
    EQUAL(dialtable_nl_auth_name(out, 8 + 255, 5, shown, sizeof shown), 1003);
    CHECK(memcmp(shown, "\\xFF\\xFF", 8) == 0 && shown[4 * 63] == '.');
    memset(out, FILL, sizeof out);
    CHECK(refused(dialtable_write_nl_auth_request(out, sizeof out, 16, NULL, 0, NULL, 0, NULL, 0, NULL, 0, text, 254),
                  53, 5));
    text[128] = 'x';
    text[127] = 'x';
    CHECK(refused(dialtable_write_nl_auth_request(out, sizeof out, 8, NULL, 0, NULL, 0, NULL, 0, text, 253, NULL, 0),
                  50, 4));
    CHECK(untouched(out, sizeof out));
}

/* TargetInfo stands at 70 of the challenge and has five pairs. */
static void reads_pairs(const message_t *challenge)
{
    static const uint8_t cut[] = {0, 0, 0}, past[] = {1, 0, 6, 0, 0x41, 0}, after[] = {0, 0, 0, 0, 0},
                         size[] = {6, 0, 2, 0, 0, 0, 0, 0, 0, 0};
    static const unsigned ids[] = {2, 1, 4, 3, 7};
    const uint8_t *list = challenge->bytes + 70;
    uint64_t numbers[DIALTABLE_NEXT_NUMBERS];
    dialtable_len at = 0, pair;

    EQUAL(dialtable_check_pairs(list, 64), 0);
    EQUAL(dialtable_check_pairs(NULL, 0), 0);
    CHECK(refused(dialtable_check_pairs(cut, sizeof cut), 11, 2));
    CHECK(refused(dialtable_check_pairs(past, sizeof past), 10, 2));
    CHECK(refused(dialtable_check_pairs(after, sizeof after), 12, 2));
    CHECK(refused(dialtable_check_pairs(size, sizeof size), 13, 2));
    EQUAL(dialtable_count_pairs(list, 64, numbers, 1), 0);
    EQUAL(numbers[0], 5);

    EQUAL(dialtable_find_pair(list, 64, 7, numbers, DIALTABLE_FOUND_NUMBERS), 0);
    EQUAL(DIALTABLE_FOUND_NUMBERS, 3);
    EQUAL(numbers[DIALTABLE_FOUND_THERE], 1);
    EQUAL(numbers[DIALTABLE_FOUND_PLACE], 52);
    EQUAL(numbers[DIALTABLE_FOUND_LEN], 8);
    EQUAL(dialtable_find_pair(list, 64, 9, numbers, DIALTABLE_FOUND_NUMBERS), 0);
    EQUAL(numbers[DIALTABLE_FOUND_THERE], 0);
    EQUAL(numbers[DIALTABLE_FOUND_PLACE], 0);
    EQUAL(numbers[DIALTABLE_FOUND_LEN], 0);

    EQUAL(DIALTABLE_NEXT_NUMBERS, 5);
    for (pair = 0; pair < 5; pair++) {
        EQUAL(dialtable_next_pair(list, 64, at, numbers, DIALTABLE_NEXT_NUMBERS), 0);
        EQUAL(numbers[DIALTABLE_NEXT_THERE], 1);
        EQUAL(numbers[DIALTABLE_NEXT_ID], ids[pair]);
        EQUAL(numbers[DIALTABLE_NEXT_PLACE], at + 4);
        EQUAL(numbers[DIALTABLE_NEXT_AT], at + 4 + numbers[DIALTABLE_NEXT_LEN]);
        at = numbers[DIALTABLE_NEXT_AT];
    }
    EQUAL(numbers[DIALTABLE_NEXT_LEN], 8);
    EQUAL(at, 60);
    EQUAL(dialtable_next_pair(list, 64, at, numbers, DIALTABLE_NEXT_NUMBERS), 0);
    EQUAL(numbers[DIALTABLE_NEXT_THERE], 0);
    EQUAL(numbers[DIALTABLE_NEXT_ID], 0);
    EQUAL(numbers[DIALTABLE_NEXT_PLACE], 0);
    EQUAL(numbers[DIALTABLE_NEXT_LEN], 0);
    EQUAL(numbers[DIALTABLE_NEXT_AT], 60);
    CHECK(refused_at(dialtable_next_pair(list, 64, 61, numbers, DIALTABLE_NEXT_NUMBERS), 11, 2, 61));
}

/* TargetInfo's pairs begin at 70, 88, 106, 110 and 118 of the challenge, its end pair at 130. */
static void says_where(const message_t *challenge)
{
    static const struct {
        unsigned at, number, place; /* the byte that is changed, and the refusal that follows */
        uint8_t byte;
    } faults[] = {{72, 13, 70, 13}, {72, 10, 70, 100}, {90, 13, 88, 15}, {108, 10, 106, 100}, {120, 13, 118, 4},
                  {118, 12, 118, 0}, {130, 13, 130, 7}, {132, 12, 130, 1}, {40, 11, 130, 60}, {40, 11, 130, 63},
                  {40, 11, 118, 49}, {40, 10, 118, 52}};
    uint64_t numbers[DIALTABLE_NEXT_NUMBERS];
    uint8_t out[300], bytes[16];
    unsigned i;

    memset(out, FILL, sizeof out);
    memset(bytes, 0, sizeof bytes);
    for (i = 0; i < sizeof faults / sizeof *faults; i++) {
        message_t bad = *challenge;
        unsigned number = faults[i].number, place = faults[i].place;
        const uint8_t *list = bad.bytes + 70;
        char line[64];
        unsigned at = 0;

        bad.bytes[faults[i].at] = faults[i].byte;
        /* From the start of the message, whatever reads it. */
#define WHERE(call) CHECK(refused_at(call, number, 2, place))
        WHERE(dialtable_read_challenge(bad.bytes, bad.len, numbers, DIALTABLE_CHALLENGE_NUMBERS, bytes, 8));
        WHERE(dialtable_read_timestamp(bad.bytes, bad.len, numbers, DIALTABLE_TIMESTAMP_NUMBERS));
        WHERE(dialtable_read_server_names(bad.bytes, bad.len, numbers, DIALTABLE_SERVER_NAMES_NUMBERS));
        WHERE(dialtable_decide(DIALTABLE_DEFAULTS, bad.bytes, bad.len, numbers, DIALTABLE_DECISION_NUMBERS));
        WHERE(dialtable_write_response_pairs(out, sizeof out, bad.bytes, bad.len, NULL, 0, 0, bytes));
        WHERE(dialtable_respond(out, sizeof out, bad.bytes, bad.len, DIALTABLE_DEFAULTS, CLOCK, bytes, bytes, NULL, 0,
                                NULL, 0, NULL, 0, NULL, 0, NULL, 0, NULL, 0, numbers, DIALTABLE_RESPONSE_NUMBERS));
        CHECK(untouched(out, sizeof out));
        sprintf(line, "refused %u field=2 at=%u\n", number, place);
        EQUAL(dialtable_ntlm_line(bad.bytes, bad.len, out, sizeof out), strlen(line));
        CHECK(memcmp(out, line, strlen(line)) == 0);
        memset(out, FILL, sizeof out);
        /* From the start of the list, where it is lent alone. */
        place -= 70;
        WHERE(dialtable_check_pairs(list, bad.bytes[40]));
        WHERE(dialtable_count_pairs(list, bad.bytes[40], numbers, 1));
        WHERE(dialtable_find_pair(list, bad.bytes[40], 2, numbers, DIALTABLE_FOUND_NUMBERS));
        while (at < place && !DIALTABLE_IS_REFUSED(dialtable_next_pair(list, bad.bytes[40], at, numbers, 5)))
            at = (unsigned)numbers[DIALTABLE_NEXT_AT];
        WHERE(dialtable_next_pair(list, bad.bytes[40], at, numbers, DIALTABLE_NEXT_NUMBERS));
    }
}

/* A place has 47 bits; what lies farther is shown as the farthest, and number and field stay. */
static void shows_far_places(const message_t *challenge)
{
    static const uint64_t farthest = 0x7FFFFFFFFFFFu;
    const uint8_t *list = challenge->bytes + 70;
    uint64_t numbers[DIALTABLE_NEXT_NUMBERS];
    uint64_t asked[6], shown[6];
    unsigned i;

    asked[0] = shown[0] = 64;
    asked[1] = shown[1] = 0x123456789ABCu;
    asked[2] = shown[2] = farthest - 1;
    asked[3] = shown[3] = farthest;
    asked[4] = farthest + 1;
    asked[5] = UINT64_MAX;
    shown[4] = shown[5] = farthest;
    for (i = 0; i < 6; i++) {
        uint64_t answer = dialtable_next_pair(list, 64, asked[i], numbers, DIALTABLE_NEXT_NUMBERS);
        CHECK(refused_at(answer, 11, 2, shown[i]));
        EQUAL(answer, ((uint64_t)1 << 63) + (shown[i] * 65536 + 11 * 256 + 2));
    }
}

typedef uint64_t line_call(const uint8_t *msg, dialtable_len msg_len, uint8_t *out, dialtable_len out_len);

/* The line at exactly its room, with bytes after it, and with one byte less. */
static void has_line(line_call *call, const uint8_t *msg, dialtable_len msg_len, const char *expected)
{
    uint8_t out[512];
    size_t len = strlen(expected);

    memset(out, FILL, sizeof out);
    EQUAL(call(msg, msg_len, out, len), len);
    CHECK(memcmp(out, expected, len) == 0);
    CHECK(untouched(out + len, sizeof out - len));
    memset(out, FILL, sizeof out);
    CHECK(refused(call(msg, msg_len, out, len - 1), 33, 0) || memcmp(out, "refused 33 field=0 at=0\n", 24) == 0);
    CHECK(untouched(out + len - 1, sizeof out - len + 1));
}

static void prints_lines(const message_t *p1, const message_t *challenge)
{
    static const char chal[] = "chal flags=628A8215 set=U target=PEERSRV pairs=5 time=01DD750F3F7F2C5C max=00\n";
    static const char opening[] = "nego flags=A208B207 domain=LINE\\x2031 work=box\\x5C\\xFC max=00\n";
    static const char nl[] = "nl type=0 flags=00000001 a=LINE\n";
    uint8_t out[256];

    has_line(dialtable_authenticate_line, p1->bytes, p1->len, p1_line);
    has_line(dialtable_ntlm_line, p1->bytes, p1->len, p1_line);
    has_line(dialtable_ntlm_program_line, p1->bytes, p1->len, p1_line);
    has_line(dialtable_challenge_line, challenge->bytes, challenge->len, chal);
    has_line(dialtable_ntlm_line, challenge->bytes, challenge->len, chal);
    has_line(dialtable_negotiate_line, nego, NEGO_LEN, opening);
    has_line(dialtable_ntlm_line, nego, NEGO_LEN, opening);
    has_line(dialtable_ntlm_program_line, nego, NEGO_LEN, opening);
    has_line(dialtable_nl_auth_line, five, FIVE_LEN,
             "nl type=0 flags=0000001F a=a b=b. c=c\\x2Ec.com d=d.com e=d.com\n");
    has_line(dialtable_nl_auth_line, p12, sizeof p12, nl);
    has_line(dialtable_nl_auth_program_line, p12, sizeof p12, nl);
    has_line(dialtable_authenticate_line, NULL, 0, "refused 2 field=0 at=0\n");
    has_line(dialtable_challenge_line, p1->bytes, p1->len, "refused 4 field=0 at=0\n");
    has_line(dialtable_negotiate_line, p1->bytes, p1->len, "refused 4 field=0 at=0\n");
    has_line(dialtable_ntlm_line, nego, NEGO_LEN - 1, "refused 6 field=2 at=0\n");
    EQUAL(dialtable_ntlm_program_line(p1->bytes, p1->len, out, 24), 24);
    CHECK(memcmp(out, "refused 33 field=0 at=0\n", 24) == 0);
    CHECK(refused(dialtable_ntlm_program_line(p1->bytes, p1->len, out, 23), 33, 0));

    /* The main job: what a log would have. */
    EQUAL(dialtable_ntlm_line(p1->bytes, p1->len, out, sizeof out), strlen(p1_line));
    fwrite(out, 1, strlen(p1_line), stdout);
}

#define HELD_5 "check 1 held\ncheck 2 held\ncheck 3 held\ncheck 4 held\ncheck 5 held\n"
#define HELD_8 HELD_5 "check 6 held\ncheck 7 held\ncheck 8 held\n"

/* The checks of each kind of message, held, failed and not reached. */
static void explains(const message_t *p1, const message_t *challenge)
{
    message_t other = *p1;

    has_line(dialtable_explain, p1->bytes, p1->len, HELD_8 "check 9 held\n");
    has_line(dialtable_explain, nego, NEGO_LEN, HELD_5 "check 6 held\ncheck 7 held\n");
    has_line(dialtable_explain, challenge->bytes, challenge->len,
             HELD_8 "check 11 held\ncheck 12 held\ncheck 10 held\ncheck 13 held\n");
    has_line(dialtable_explain, NULL, 0,
             "check 1 held\ncheck 2 failed field=0 offset=0 length=0 message=0\ncheck 3 not reached\n"
             "check 4 not reached\ncheck 5 not reached\ncheck 6 not reached\ncheck 7 not reached\n"
             "check 8 not reached\ncheck 9 not reached\n");
    other.bytes[40] = 113;
    has_line(dialtable_explain, other.bytes, other.len,
             HELD_5 "check 6 failed field=4 offset=113 length=8 message=120\ncheck 7 not reached\n"
                    "check 8 not reached\ncheck 9 not reached\n");
    other.bytes[40] = 112;
    has_line(dialtable_explain, other.bytes, other.len,
             HELD_8 "check 9 failed field=4 offset=112 length=8 message=120\n");
    has_line(dialtable_explain, nego, NEGO_LEN - 1,
             HELD_5 "check 6 failed field=2 offset=47 length=5 message=51\ncheck 7 not reached\n");
    /* The pairs of TargetInfo: at 118 the timestamp, at 130 the end pair. */
    other = *challenge;
    other.bytes[120] = 4;
    has_line(dialtable_explain, other.bytes, other.len,
             HELD_8 "check 11 held\ncheck 12 held\ncheck 10 held\n"
                    "check 13 failed field=2 offset=70 length=64 message=134 at=118 id=7 size=4\n");
    other.bytes[120] = 200;
    has_line(dialtable_explain, other.bytes, other.len,
             HELD_8 "check 11 held\ncheck 12 held\n"
                    "check 10 failed field=2 offset=70 length=64 message=134 at=118 id=7 size=200\n"
                    "check 13 not reached\n");
    other = *challenge;
    other.bytes[132] = 9;
    has_line(dialtable_explain, other.bytes, other.len,
             HELD_8 "check 11 held\n"
                    "check 12 failed field=2 offset=70 length=64 message=134 at=130 id=0 size=9\n"
                    "check 10 not reached\ncheck 13 not reached\n");
    other.bytes[40] = 63;
    has_line(dialtable_explain, other.bytes, other.len,
             HELD_8 "check 11 failed field=2 offset=70 length=63 message=134 at=130 id=0 size=0\n"
                    "check 12 not reached\ncheck 10 not reached\ncheck 13 not reached\n");
}

/* The longest print that is known is that of a CHALLENGE which is too long. */
static void explains_the_longest(void)
{
    static uint8_t message[65537];
    uint8_t out[DIALTABLE_EXPLAIN_ROOM];
    unsigned type;

    for (type = 1; type <= 3; type++) {
        static const unsigned lens[] = {175, 279, 215};
        message[8] = (uint8_t)type;
        EQUAL(dialtable_explain(message, sizeof message, out, sizeof out), lens[type - 1]);
        CHECK(memcmp(out, "check 1 failed field=0 offset=0 length=0 message=65536\ncheck 2 not reached\n", 75) == 0);
    }
}

/* P1 at 0, a NEGOTIATE at 120 and a CHALLENGE whose timestamp is too short at 172, 306 bytes: an entry for each, then
 * places that overlap, repeat, end at the buffer's end or pass it, and marks that aren't the message's type, or none. */
static const struct dialtable_entry night[] = {
    {0, 120, DIALTABLE_AUTHENTICATE, 0, 0, 0}, {120, 52, DIALTABLE_NEGOTIATE, 0, 0, 0},
    {172, 134, DIALTABLE_CHALLENGE, 13, 2, 118}, {0, 120, DIALTABLE_NEGOTIATE, 4, 0, 0},
    {0, 119, DIALTABLE_AUTHENTICATE, 6, 2, 0}, {120, 51, DIALTABLE_NEGOTIATE, 6, 2, 0},
    {120, 186, DIALTABLE_NEGOTIATE, 0, 0, 0}, {60, 120, DIALTABLE_AUTHENTICATE, 3, 0, 0},
    {0, 120, DIALTABLE_AUTHENTICATE, 0, 0, 0}, {172, 133, DIALTABLE_CHALLENGE, 6, 2, 0},
    {306, 0, DIALTABLE_CHALLENGE, 2, 0, 0}, {306, 1, DIALTABLE_CHALLENGE, 54, 0, 0},
    {307, 0, DIALTABLE_NEGOTIATE, 54, 0, 0}, {0, 307, DIALTABLE_AUTHENTICATE, 54, 0, 0},
    {UINT64_MAX, 1, DIALTABLE_AUTHENTICATE, 54, 0, 0}, {UINT64_MAX, 121, DIALTABLE_AUTHENTICATE, 54, 0, 0},
    {1, UINT64_MAX, DIALTABLE_CHALLENGE, 54, 0, 0}, {UINT64_MAX, UINT64_MAX, DIALTABLE_NEGOTIATE, 54, 0, 0},
    {0x100000000u, 120, DIALTABLE_AUTHENTICATE, 54, 0, 0}, {0, 0x100000078u, DIALTABLE_AUTHENTICATE, 54, 0, 0},
    {0, 120, 0, 4, 0, 0}, {0, 120, 4, 4, 0, 0}, {0, 120, 0x103, 4, 0, 0}, {0, 120, 0x80000003u, 4, 0, 0},
    {0, 0, 0, 4, 0, 0}, {307, 0, 4, 54, 0, 0}, {0, 120, DIALTABLE_AUTHENTICATE, 0, 0, 0}};
#define NIGHT (sizeof night / sizeof *night)

/* The entries with an answer of their own before the call, one more before them and one after. */
static void lay_out(struct dialtable_entry *entries)
{
    size_t i;

    memset(entries, FILL, (NIGHT + 2) * sizeof *entries);
    for (i = 0; i < NIGHT; i++) {
        entries[i + 1].start = night[i].start;
        entries[i + 1].length = night[i].length;
        entries[i + 1].mark = night[i].mark;
    }
}

static void checks_a_night(const message_t *p1, const message_t *challenge)
{
    static struct dialtable_entry entries[NIGHT + 2], before[NIGHT + 2];
    static uint8_t buffer[65536];
    size_t i, listed;

    EQUAL(sizeof(struct dialtable_entry), 32);
    memcpy(buffer, p1->bytes, 120);
    memcpy(buffer + 120, nego, NEGO_LEN);
    memcpy(buffer + 172, challenge->bytes, 134);
    buffer[172 + 120] = 4; /* the length of the timestamp */
    lay_out(before);
    for (listed = 0; listed <= NIGHT; listed++) {
        lay_out(entries);
        EQUAL(dialtable_check_messages(buffer, 306, entries + 1, listed), 0);
        CHECK(memcmp(entries + 1, night, listed * sizeof *entries) == 0);
        CHECK(memcmp(entries, before, sizeof *entries) == 0);
        CHECK(memcmp(entries + 1 + listed, before + 1 + listed, (NIGHT + 1 - listed) * sizeof *entries) == 0);
    }
    for (i = 0; i < NIGHT; i++) {
        EQUAL(entries[i + 1].number, night[i].number);
        EQUAL(entries[i + 1].field, night[i].field);
        EQUAL(entries[i + 1].place, night[i].place);
    }

    /* The longest buffer, and one that is too long: no entry changes, and an empty list is no way round it. */
    lay_out(entries);
    EQUAL(dialtable_check_messages(buffer, 65535, entries + 1, NIGHT), 0);
    EQUAL(entries[1].number, 0);
    EQUAL(entries[12].number, 2); /* the byte at 306, as a CHALLENGE */
    lay_out(entries);
    CHECK(refused(dialtable_check_messages(buffer, 65536, entries + 1, NIGHT), 1, 0));
    CHECK(memcmp(entries, before, sizeof entries) == 0);
    CHECK(refused(dialtable_check_messages(buffer, 65536, NULL, 0), 1, 0));
    /* Nothing at all. */
    EQUAL(dialtable_check_messages(NULL, 0, NULL, 0), 0);
    EQUAL(dialtable_check_messages(buffer, 306, NULL, 0), 0);
    entries[0].start = entries[0].length = 0;
    entries[0].mark = DIALTABLE_AUTHENTICATE;
    EQUAL(dialtable_check_messages(NULL, 0, entries, 1), 0);
    EQUAL(entries[0].number, 2);
}

static const uint8_t version[8] = {10, 0, 0x61, 0x4A, 0, 0, 0, 15};
static const uint8_t mic[16] = {1, 2, 3, 4, 5, 6, 7, 8, 9, 10, 11, 12, 13, 14, 15, 16};
static const uint8_t lm[24] = {0x11, 0x12};
static const uint8_t nt[40] = {0x21, 0x22};
static const uint8_t work[6] = {'P', 0, 'I', 0, 'T', 0};
static const uint8_t key[16] = {0x61, 0x62};
#define FLAGS (DIALTABLE_FLAG_KEY_EXCH | DIALTABLE_FLAG_VERSION | DIALTABLE_FLAG_UNICODE)

/* Whether a field that was read has these bytes. */
static int is_field(const uint8_t *msg, const uint64_t *numbers, int place, const uint8_t *bytes, dialtable_len len)
{
    return numbers[place + 1] == len && (len == 0 || memcmp(msg + numbers[place], bytes, len) == 0);
}

static void writes_and_reads_back(void)
{
    uint64_t numbers[DIALTABLE_AUTHENTICATE_NUMBERS];
    uint8_t out[256], read_mic[16];
    size_t len = 88 + sizeof box7 + sizeof work + sizeof lm + sizeof nt + sizeof key;

    memset(out, FILL, sizeof out);
    EQUAL(dialtable_write_authenticate(out, sizeof out, FLAGS, version, mic, lm, sizeof lm, nt, sizeof nt, NULL, 0,
                                       box7, sizeof box7, work, sizeof work, key, sizeof key), len);
    CHECK(untouched(out + len, sizeof out - len));
    CHECK(memcmp(out + 64, version, 8) == 0);
    EQUAL(dialtable_read_authenticate(out, len, numbers, DIALTABLE_AUTHENTICATE_NUMBERS, read_mic, 16), 0);
    EQUAL(numbers[DIALTABLE_AUTHENTICATE_FLAGS], FLAGS);
    EQUAL(numbers[DIALTABLE_AUTHENTICATE_MIC_PRESENT], 1);
    CHECK(memcmp(read_mic, mic, 16) == 0);
    CHECK(is_field(out, numbers, DIALTABLE_AUTHENTICATE_LM_OFFSET, lm, sizeof lm));
    CHECK(is_field(out, numbers, DIALTABLE_AUTHENTICATE_NT_OFFSET, nt, sizeof nt));
    CHECK(is_field(out, numbers, DIALTABLE_AUTHENTICATE_DOMAIN_OFFSET, NULL, 0));
    CHECK(is_field(out, numbers, DIALTABLE_AUTHENTICATE_USER_OFFSET, box7, sizeof box7));
    CHECK(is_field(out, numbers, DIALTABLE_AUTHENTICATE_WORKSTATION_OFFSET, work, sizeof work));
    CHECK(is_field(out, numbers, DIALTABLE_AUTHENTICATE_KEY_OFFSET, key, sizeof key));

    memset(out, FILL, sizeof out);
    CHECK(refused(dialtable_write_authenticate(out, len - 1, FLAGS, version, mic, lm, sizeof lm, nt, sizeof nt, NULL,
                                               0, box7, sizeof box7, work, sizeof work, key, sizeof key), 33, 0));
    CHECK(refused(dialtable_write_authenticate(out, sizeof out, FLAGS, version, mic, lm, sizeof lm, nt, sizeof nt,
                                               NULL, 0, box7, 7, work, sizeof work, key, sizeof key), 31, 4));
    CHECK(untouched(out, sizeof out));
}

static void writes_negotiate(void)
{
    const uint8_t *domain = nego + 40, *workstation = nego + 47;
    uint64_t numbers[DIALTABLE_NEGOTIATE_NUMBERS];
    uint8_t out[64], zeros[8] = {0};

    /* The names set their bits, and the Version is the caller's. */
    memset(out, FILL, sizeof out);
    EQUAL(dialtable_write_negotiate(out, sizeof out, 0xA2088207u, version, domain, 7, workstation, 5), NEGO_LEN);
    CHECK(memcmp(out, nego, NEGO_LEN) == 0);
    CHECK(untouched(out + NEGO_LEN, sizeof out - NEGO_LEN));

    /* An empty name clears its bit and stands where it would; no VERSION, no Version. */
    EQUAL(dialtable_write_negotiate(out, 45, 0x3002, version, NULL, 0, workstation, 5), 45);
    EQUAL(out[28], 40);
    CHECK(memcmp(out + 32, zeros, 8) == 0);
    EQUAL(dialtable_read_negotiate(out, 45, numbers, DIALTABLE_NEGOTIATE_NUMBERS), 0);
    EQUAL(numbers[DIALTABLE_NEGOTIATE_FLAGS], 0x2002);
    CHECK(is_field(out, numbers, DIALTABLE_NEGOTIATE_DOMAIN_OFFSET, NULL, 0));
    CHECK(is_field(out, numbers, DIALTABLE_NEGOTIATE_WORKSTATION_OFFSET, workstation, 5));
    EQUAL(dialtable_write_negotiate(out, 40, 0x3001, version, NULL, 0, NULL, 0), 40);
    EQUAL(dialtable_read_negotiate(out, 40, numbers, DIALTABLE_NEGOTIATE_NUMBERS), 0);
    EQUAL(numbers[DIALTABLE_NEGOTIATE_FLAGS], 1);

    memset(out, FILL, sizeof out);
    CHECK(refused(dialtable_write_negotiate(out, NEGO_LEN - 1, 1, version, domain, 7, workstation, 5), 33, 0));
    CHECK(refused(dialtable_write_negotiate(out, 39, 1, version, NULL, 0, NULL, 0), 33, 0));
    CHECK(refused(dialtable_write_negotiate(out, 0, 0, version, domain, 7, workstation, 5), 5, 0));
    CHECK(untouched(out, sizeof out));
}

/* A message of 65,535 bytes is written and read, and one more is refused. */
static void writes_the_longest_negotiate(void)
{
    static uint8_t name[65496], out[65536];
    uint64_t numbers[DIALTABLE_NEGOTIATE_NUMBERS];

    EQUAL(dialtable_write_negotiate(out, sizeof out, 2, version, name, 65495, NULL, 0), 65535);
    EQUAL(dialtable_read_negotiate(out, 65535, numbers, DIALTABLE_NEGOTIATE_NUMBERS), 0);
    EQUAL(numbers[DIALTABLE_NEGOTIATE_DOMAIN_LEN], 65495);
    CHECK(refused(dialtable_read_negotiate(out, 65536, numbers, DIALTABLE_NEGOTIATE_NUMBERS), 1, 0));
    EQUAL(dialtable_write_negotiate(out, sizeof out, 2, version, name, 65494, name, 1), 65535);
    memset(out, FILL, sizeof out);
    CHECK(refused(dialtable_write_negotiate(out, sizeof out, 2, version, name, 65496, NULL, 0), 30, 0));
    CHECK(refused(dialtable_write_negotiate(out, 0, 2, version, name, 65495, name, 1), 30, 0));
    CHECK(untouched(out, sizeof out));
}

static void writes_nl_auth(void)
{
    static const uint8_t name[] = {'L', 'I', 'N', 'E'}, zero[] = {0}, dotted[] = {'x', '.', 'y'};
    static const uint8_t names[] = "\0\0\0\0\x1E\0\0\0" "x.y\0" "\1x\1y\0" "\0" "\4LINE\0";
    static const uint8_t response[] = {1, 0, 0, 0, 0, 0, 0, 0, 0};
    uint8_t out[32];

    memset(out, FILL, sizeof out);
    /* Bit 0x20 is dropped, and string B is passed over. */
    EQUAL(dialtable_write_nl_auth_request(out, sizeof out, 0x21, name, 4, zero, 1, NULL, 0, NULL, 0, NULL, 0),
          sizeof p12);
    CHECK(memcmp(out, p12, sizeof p12) == 0);
    CHECK(untouched(out + sizeof p12, sizeof out - sizeof p12));
    CHECK(refused(dialtable_write_nl_auth_request(out, sizeof out, 3, name, 4, zero, 1, NULL, 0, NULL, 0, NULL, 0),
                  34, 2));
    /* C, D and E are text, split at full stops; empty text is a zero byte. */
    memset(out, FILL, sizeof out);
    EQUAL(dialtable_write_nl_auth_request(out, sizeof names - 1, 0x1E, NULL, 0, dotted, 3, dotted, 3, NULL, 0, name, 4),
          sizeof names - 1);
    CHECK(memcmp(out, names, sizeof names - 1) == 0);
    CHECK(untouched(out + sizeof names - 1, sizeof out - (sizeof names - 1)));
    memset(out, FILL, sizeof out);
    CHECK(refused(dialtable_write_nl_auth_request(out, sizeof names - 2, 0x1E, NULL, 0, dotted, 3, dotted, 3, NULL, 0,
                                                  name, 4), 33, 0));
    CHECK(refused(dialtable_write_nl_auth_request(out, 0, 0x1E, NULL, 0, NULL, 0, dotted, 3, dotted, 2, zero, 1), 34,
                  5));
    CHECK(refused(dialtable_write_nl_auth_request(out, 0, 0x1E, NULL, 0, NULL, 0, dotted, 3, dotted, 2, dotted, 2), 50,
                  4));
    CHECK(refused(dialtable_write_nl_auth_request(out, 0, 4, NULL, 0, NULL, 0, dotted + 1, 2, NULL, 0, NULL, 0), 50,
                  3));
    CHECK(refused(dialtable_write_nl_auth_request(out, 0, 16, NULL, 0, NULL, 0, NULL, 0, NULL, 0, dotted + 1, 1), 50,
                  5));
    CHECK(untouched(out, sizeof out));
    EQUAL(dialtable_write_nl_auth_response(out, sizeof out), sizeof response);
    CHECK(memcmp(out, response, sizeof response) == 0);
    CHECK(refused(dialtable_write_nl_auth_response(out, 8), 33, 0));
}

/* A CHALLENGE after MS-NLMP 4.2.4, not held against the page: the name at 56, and from 68 on pairs 2 and 1 and the end
 * pair. The string's own zero byte is left out. */
static const uint8_t ms_nlmp[] = "NTLMSSP\0" "\2\0\0\0" "\x0C\0\x0C\0" "\x38\0\0\0" "\x33\x82\x8A\xE2"
                                 "\x01\x23\x45\x67\x89\xAB\xCD\xEF" "\0\0\0\0\0\0\0\0" "\x24\0\x24\0" "\x44\0\0\0"
                                 "\6\0\x70\x17\0\0\0\x0F" "S\0e\0r\0v\0e\0r\0"
                                 "\2\0\x0C\0" "D\0o\0m\0a\0i\0n\0" "\1\0\x0C\0" "S\0e\0r\0v\0e\0r\0" "\0\0\0\0";
#define MS_NLMP_LEN (sizeof ms_nlmp - 1)

static void writes_response_pairs(const message_t *challenge)
{
    static const uint8_t name[] = {'b', 0, 'o', 0};
    static const uint8_t flags[] = {6, 0, 4, 0, 4, 0, 0, 0}, ten[] = {10, 0, 16, 0}, end[4] = {0};
    static const uint8_t nine[] = {9, 0, 4, 0, 'b', 0, 'o', 0};
    uint64_t numbers[DIALTABLE_FOUND_NUMBERS];
    uint8_t bindings[16], none[16] = {0}, out[512], short_one[48];
    uint64_t len;

    memset(bindings, 0xB1, sizeof bindings);
    /* No timestamp: pairs 2 and 1, pair 10 of zeros, pair 9 without a value; a mark without a name changes nothing. */
    memset(out, FILL, sizeof out);
    EQUAL(dialtable_write_response_pairs(out, sizeof out, ms_nlmp, MS_NLMP_LEN, NULL, 0, 1, none), 60);
    CHECK(memcmp(out, ms_nlmp + 68, 32) == 0);
    CHECK(memcmp(out + 32, ten, 4) == 0 && memcmp(out + 36, none, 16) == 0);
    CHECK(memcmp(out + 52, "\x09\0\0\0\0\0\0\0", 8) == 0);
    CHECK(untouched(out + 60, sizeof out - 60));
    /* An unverified name: a flags pair is added before pair 10. */
    EQUAL(dialtable_write_response_pairs(out, 72, ms_nlmp, MS_NLMP_LEN, name, 4, 7, bindings), 72);
    CHECK(memcmp(out + 32, flags, 8) == 0 && memcmp(out + 40, ten, 4) == 0 && memcmp(out + 44, bindings, 16) == 0);
    CHECK(memcmp(out + 60, nine, 8) == 0 && memcmp(out + 68, end, 4) == 0);
    EQUAL(dialtable_write_response_pairs(out, 64, ms_nlmp, MS_NLMP_LEN, name, 4, 0, bindings), 64);

    /* With a timestamp its bit is set, and what was written is a list that passes checks 10 to 13. */
    len = dialtable_write_response_pairs(out, sizeof out, challenge->bytes, challenge->len, name, 4, 1, bindings);
    CHECK(!DIALTABLE_IS_REFUSED(len));
    EQUAL(dialtable_check_pairs(out, len), 0);
    EQUAL(dialtable_find_pair(out, len, DIALTABLE_PAIR_FLAGS, numbers, DIALTABLE_FOUND_NUMBERS), 0);
    EQUAL(numbers[DIALTABLE_FOUND_THERE], 1);
    EQUAL(out[numbers[DIALTABLE_FOUND_PLACE]] & (DIALTABLE_PAIR_FLAG_MIC | DIALTABLE_PAIR_FLAG_UNVERIFIED), 6);
    EQUAL(dialtable_find_pair(out, len, DIALTABLE_PAIR_CHANNEL_BINDINGS, numbers, DIALTABLE_FOUND_NUMBERS), 0);
    CHECK(memcmp(out + numbers[DIALTABLE_FOUND_PLACE], bindings, 16) == 0);

    /* TargetInfo doesn't count: the end pair alone. */
    memcpy(short_one, ms_nlmp, 48);
    short_one[20] = 1;
    short_one[22] = 0;
    memset(out, FILL, sizeof out);
    EQUAL(dialtable_write_response_pairs(out, 4, short_one, 48, name, 4, 1, bindings), 4);
    CHECK(memcmp(out, end, 4) == 0 && untouched(out + 4, sizeof out - 4));

    memset(out, FILL, sizeof out);
    CHECK(refused(dialtable_write_response_pairs(out, 3, ms_nlmp, MS_NLMP_LEN, name, 3, 1, bindings), 31, 2));
    CHECK(refused(dialtable_write_response_pairs(out, 3, short_one, 48, name, 3, 1, bindings), 31, 2));
    CHECK(refused(dialtable_write_response_pairs(out, 71, ms_nlmp, MS_NLMP_LEN, name, 4, 1, bindings), 33, 0));
    CHECK(refused(dialtable_write_response_pairs(out, 3, ms_nlmp, 47, name, 3, 1, bindings), 2, 0));
    CHECK(untouched(out, sizeof out));
}

/* The pairs of this challenge have even lengths: a list of 65,534 bytes is written, and one of 65,536 refused. */
static void writes_the_longest_pairs(void)
{
    static uint8_t name[65476], out[65536];
    static const uint8_t bindings[16] = {0};

    EQUAL(dialtable_write_response_pairs(out, sizeof out, ms_nlmp, MS_NLMP_LEN, name, 65474, 0, bindings), 65534);
    EQUAL(dialtable_check_pairs(out, 65534), 0);
    memset(out, FILL, sizeof out);
    CHECK(refused(dialtable_write_response_pairs(out, 0, ms_nlmp, MS_NLMP_LEN, name, 65476, 0, bindings), 30, 0));
    CHECK(untouched(out, sizeof out));
}

static void decides(const message_t *challenge, const message_t *no_timestamp)
{
    uint64_t numbers[DIALTABLE_DECISION_NUMBERS];
    message_t other = *challenge;

    EQUAL(dialtable_decide(DIALTABLE_DEFAULTS, challenge->bytes, challenge->len, numbers, DIALTABLE_DECISION_NUMBERS),
          0);
    EQUAL(DIALTABLE_DECISION_NUMBERS, 3);
    EQUAL(numbers[DIALTABLE_DECISION_FLAGS], 0x628A8215u);
    EQUAL(numbers[DIALTABLE_DECISION_TIMESTAMP_THERE], 1);
    EQUAL(numbers[DIALTABLE_DECISION_TIMESTAMP], CHALLENGE_TIME);
    EQUAL(dialtable_decide(DIALTABLE_DEFAULTS, no_timestamp->bytes, no_timestamp->len, numbers,
                           DIALTABLE_DECISION_NUMBERS), 0);
    EQUAL(numbers[DIALTABLE_DECISION_TIMESTAMP_THERE], 0);
    EQUAL(numbers[DIALTABLE_DECISION_TIMESTAMP], 0);

    other.bytes[23] &= 0xDF; /* the 128-bit flag */
    CHECK(refused(dialtable_decide(DIALTABLE_DEMAND_128, other.bytes, other.len, numbers, 3), 20, 0));
    CHECK(refused(dialtable_decide(DIALTABLE_DEFAULTS, other.bytes, other.len, numbers, 3), 20, 0));
    EQUAL(dialtable_decide(DIALTABLE_DEFAULTS & ~DIALTABLE_DEMAND_128, other.bytes, other.len, numbers, 3), 0);
    EQUAL(dialtable_decide(0, other.bytes, other.len, numbers, 3), 0);
    other.bytes[22] &= 0x7F; /* TARGET_INFO */
    CHECK(refused(dialtable_decide(DIALTABLE_NTLMV2 | DIALTABLE_INTEGRITY, other.bytes, other.len, numbers, 3), 21,
                  0));
    CHECK(refused(dialtable_decide(DIALTABLE_NTLMV2 | DIALTABLE_CONFIDENTIALITY, other.bytes, other.len, numbers, 3),
                  21, 0));
    EQUAL(dialtable_decide(DIALTABLE_INTEGRITY | DIALTABLE_CONFIDENTIALITY, other.bytes, other.len, numbers, 3), 0);
}

static void finds_domain(const message_t *challenge)
{
    static const uint8_t peersrv[] = {'P', 0, 'E', 0, 'E', 0, 'R', 0, 'S', 0, 'R', 0, 'V', 0};
    uint8_t out[16];

    EQUAL(dialtable_domain_to_send(NULL, 0, challenge->bytes, challenge->len, out, sizeof out), sizeof peersrv);
    CHECK(memcmp(out, peersrv, sizeof peersrv) == 0);
    EQUAL(dialtable_domain_to_send(box7, sizeof box7, challenge->bytes, challenge->len, out, sizeof out), sizeof box7);
    CHECK(memcmp(out, box7, sizeof box7) == 0);
    CHECK(refused(dialtable_domain_to_send(box7, sizeof box7, NULL, 0, out, 7), 33, 0));
    EQUAL(dialtable_domain_to_send(NULL, 0, NULL, 0, NULL, 0), 0);
}

enum thin { BENCH_NO, BENCH_YES, OLD_SERVER, RELAY };

static uint64_t respond_thinly(enum thin how, uint8_t *out, dialtable_len out_len, const message_t *challenge,
                               uint64_t *numbers)
{
#define PARTS version, mic, lm, 2, nt, sizeof nt, NULL, 0, box7, sizeof box7, work, sizeof work, key, sizeof key, \
              numbers, DIALTABLE_RESPONSE_NUMBERS
    switch (how) {
    case BENCH_NO: return dialtable_respond_for_bench(out, out_len, challenge->bytes, challenge->len, CLOCK, 0, PARTS);
    case BENCH_YES:
        return dialtable_respond_for_bench(out, out_len, challenge->bytes, challenge->len, CLOCK, 0x80000000u, PARTS);
    case OLD_SERVER:
        return dialtable_respond_to_old_server(out, out_len, challenge->bytes, challenge->len, CLOCK, PARTS);
    default: return dialtable_respond_for_relay(out, out_len, challenge->bytes, challenge->len, CLOCK, PARTS);
    }
}

/* The thin calls write what the full one wrote, of that length. Where 128-bit is not in the flags, the relay's refuses,
 * and the bench's where it is demanded. */
static void answers_thinly(const message_t *challenge, const uint8_t *full, size_t len)
{
    static const enum thin calls[] = {BENCH_NO, BENCH_YES, OLD_SERVER, RELAY};
    uint64_t numbers[DIALTABLE_RESPONSE_NUMBERS];
    uint8_t out[256];
    message_t weak = *challenge;
    size_t i;

    weak.bytes[23] &= 0xDF; /* the 128-bit flag */
    for (i = 0; i < sizeof calls / sizeof *calls; i++) {
        memset(out, FILL, sizeof out);
        memset(numbers, 0, sizeof numbers);
        EQUAL(respond_thinly(calls[i], out, sizeof out, challenge, numbers), len);
        CHECK(memcmp(out, full, len) == 0 && untouched(out + len, sizeof out - len));
        EQUAL(numbers[DIALTABLE_RESPONSE_TIME], CHALLENGE_TIME);
        EQUAL(numbers[DIALTABLE_RESPONSE_MIC_DUE], 1);

        memset(out, FILL, sizeof out);
        if (calls[i] == BENCH_NO || calls[i] == OLD_SERVER) {
            EQUAL(respond_thinly(calls[i], out, sizeof out, &weak, numbers), len);
        } else {
            CHECK(refused(respond_thinly(calls[i], out, sizeof out, &weak, numbers), 20, 0));
            CHECK(untouched(out, sizeof out));
        }
    }
}

/* The challenge has SIGN, KEY_EXCH, VERSION and a timestamp: its own domain is sent, and 24 zero bytes for the LM. */
static void answers(const message_t *challenge, const message_t *no_timestamp)
{
    uint64_t numbers[DIALTABLE_RESPONSE_NUMBERS], read[DIALTABLE_AUTHENTICATE_NUMBERS];
    uint8_t out[256], read_mic[16], zeros[24] = {0};
    size_t len = 88 + 14 + sizeof box7 + sizeof work + 24 + sizeof nt + sizeof key;

    EQUAL(dialtable_respond(out, len, challenge->bytes, challenge->len, DIALTABLE_DEFAULTS, CLOCK, version, mic, lm, 2,
                            nt, sizeof nt, NULL, 0, box7, sizeof box7, work, sizeof work, key, sizeof key, numbers,
                            DIALTABLE_RESPONSE_NUMBERS), len);
    EQUAL(DIALTABLE_RESPONSE_NUMBERS, 2);
    EQUAL(numbers[DIALTABLE_RESPONSE_TIME], CHALLENGE_TIME);
    EQUAL(numbers[DIALTABLE_RESPONSE_MIC_DUE], 1);
    EQUAL(dialtable_read_authenticate(out, len, read, DIALTABLE_AUTHENTICATE_NUMBERS, read_mic, 16), 0);
    EQUAL(read[DIALTABLE_AUTHENTICATE_FLAGS], 0x628A8215u);
    CHECK(memcmp(read_mic, mic, 16) == 0);
    CHECK(is_field(out, read, DIALTABLE_AUTHENTICATE_LM_OFFSET, zeros, 24));
    CHECK(is_field(out, read, DIALTABLE_AUTHENTICATE_NT_OFFSET, nt, sizeof nt));
    CHECK(is_field(out, read, DIALTABLE_AUTHENTICATE_DOMAIN_OFFSET, challenge->bytes + 74, 14));
    CHECK(is_field(out, read, DIALTABLE_AUTHENTICATE_USER_OFFSET, box7, sizeof box7));
    CHECK(is_field(out, read, DIALTABLE_AUTHENTICATE_WORKSTATION_OFFSET, work, sizeof work));
    CHECK(is_field(out, read, DIALTABLE_AUTHENTICATE_KEY_OFFSET, key, sizeof key));

    answers_thinly(challenge, out, len);

    /* No timestamp: the clock, the caller's LM response, and no MIC. */
    EQUAL(dialtable_respond(out, sizeof out, no_timestamp->bytes, no_timestamp->len, DIALTABLE_DEFAULTS, CLOCK,
                            version, mic, lm, sizeof lm, nt, sizeof nt, box7, sizeof box7, NULL, 0, NULL, 0, NULL, 0,
                            numbers, DIALTABLE_RESPONSE_NUMBERS), 88 + sizeof box7 + sizeof lm + sizeof nt);
    EQUAL(numbers[DIALTABLE_RESPONSE_TIME], CLOCK);
    EQUAL(numbers[DIALTABLE_RESPONSE_MIC_DUE], 0);
    CHECK(memcmp(out + 72, zeros, 16) == 0);
    EQUAL(dialtable_read_authenticate(out, 88 + 8 + 24 + 40, read, DIALTABLE_AUTHENTICATE_NUMBERS, read_mic, 16), 0);
    CHECK(is_field(out, read, DIALTABLE_AUTHENTICATE_LM_OFFSET, lm, sizeof lm));

    /* Refused: nothing changes, and an array that is too short comes before the challenge. */
    memset(out, FILL, sizeof out);
    numbers[0] = 7;
    CHECK(refused(dialtable_respond(out, len - 1, challenge->bytes, challenge->len, DIALTABLE_DEFAULTS, CLOCK, version,
                                    mic, lm, 2, nt, sizeof nt, NULL, 0, box7, sizeof box7, work, sizeof work, key,
                                    sizeof key, numbers, 2), 33, 0));
    CHECK(refused(dialtable_respond_for_relay(out, sizeof out, NULL, 0, CLOCK, version, mic, lm, 2, nt, sizeof nt,
                                              NULL, 0, NULL, 0, NULL, 0, NULL, 0, numbers, 2), 2, 0));
    CHECK(refused(dialtable_respond_for_relay(out, sizeof out, NULL, 0, CLOCK, version, mic, lm, 2, nt, sizeof nt,
                                              NULL, 0, NULL, 0, NULL, 0, NULL, 0, numbers, 1), 33, 0));
    EQUAL(numbers[0], 7);
    CHECK(untouched(out, sizeof out));
}

/* The word kind of a line, by the NT response's length. */
static void tells_the_kind(void)
{
    static const struct {
        unsigned len;
        const char *kind;
    } kinds[] = {{0, "none"}, {1, "odd"}, {23, "odd"}, {24, "v1"}, {25, "odd"}, {43, "odd"}, {44, "v2"}, {45, "v2"}};
    uint8_t out[256], response[45] = {0}, line[160];
    uint64_t len, line_len;
    char expected[160];
    unsigned i;

    for (i = 0; i < sizeof kinds / sizeof *kinds; i++) {
        len = dialtable_write_authenticate(out, sizeof out, DIALTABLE_FLAG_UNICODE, version, mic, NULL, 0, response,
                                           kinds[i].len, NULL, 0, NULL, 0, NULL, 0, NULL, 0);
        EQUAL(len, 88 + kinds[i].len);
        line_len = dialtable_authenticate_line(out, len, line, sizeof line);
        sprintf(expected, "auth flags=00000001 set=U domain= user= work= lm=0 nt=%u key=0 mic=1 kind=%s max=000000\n",
                kinds[i].len, kinds[i].kind);
        EQUAL(line_len, strlen(expected));
        CHECK(memcmp(line, expected, strlen(expected)) == 0);
    }
}

/* P1 with its fields in another order, a Version, MaxLen and bytes that no field covers comes out as P1 does. */
static void writes_one_way(const message_t *p1)
{
    static const uint8_t nt_at_90[8] = {24, 0, 0, 0, 90, 0, 0, 0}, user_at_114[8] = {8, 0, 9, 9, 114, 0, 0, 0};
    uint8_t one[120], two[121], again[120];
    message_t other = *p1, no_mic = *p1, keyed = *p1;

    memset(one, FILL, sizeof one);
    EQUAL(dialtable_canonical_authenticate(one, sizeof one, p1->bytes, p1->len), 120);
    EQUAL(dialtable_canonical_authenticate(again, sizeof again, one, sizeof one), 120);
    CHECK(memcmp(one, again, sizeof one) == 0);
    other.len = 130;
    memset(other.bytes + 64, 0x5A, 8);
    memset(other.bytes + 88, 0x5A, 42);
    memcpy(other.bytes + 20, nt_at_90, 8);
    memcpy(other.bytes + 36, user_at_114, 8);
    memcpy(other.bytes + 90, p1->bytes + 96, 24);
    memcpy(other.bytes + 114, p1->bytes + 88, 8);
    memset(two, FILL, sizeof two);
    EQUAL(dialtable_canonical_authenticate(two, sizeof two, other.bytes, other.len), 120);
    CHECK(memcmp(one, two, sizeof one) == 0 && two[120] == FILL);

    /* No MIC is sixteen zeros; a key that doesn't count is empty. */
    no_mic.bytes[40] = 64;
    memcpy(no_mic.bytes + 64, p1->bytes + 88, 8);
    memset(no_mic.bytes + 72, 0x5A, 16);
    no_mic.bytes[52] = 16;
    EQUAL(dialtable_canonical_authenticate(two, sizeof two, no_mic.bytes, no_mic.len), 120);
    CHECK(memcmp(one, two, sizeof one) == 0);
    /* Another MIC is another meaning. */
    other.bytes[87] ^= 1;
    EQUAL(dialtable_canonical_authenticate(two, sizeof two, other.bytes, other.len), 120);
    CHECK(memcmp(one, two, sizeof one) != 0 && two[87] == 1);

    /* Refused: the reading's, 32, 33; nothing changes. */
    memset(two, FILL, sizeof two);
    CHECK(refused(dialtable_canonical_authenticate(two, 119, p1->bytes, p1->len), 33, 0));
    keyed.bytes[63] = 0x40;
    keyed.bytes[52] = 15;
    keyed.bytes[56] = 96;
    CHECK(refused(dialtable_canonical_authenticate(two, 0, keyed.bytes, keyed.len), 32, 6));
    keyed.bytes[52] = 16;
    CHECK(refused(dialtable_canonical_authenticate(two, sizeof two, keyed.bytes, keyed.len), 33, 0)); /* 136 bytes */
    keyed.bytes[40] = 112;
    CHECK(refused(dialtable_canonical_authenticate(two, sizeof two, keyed.bytes, keyed.len), 9, 4));
    CHECK(refused(dialtable_canonical_authenticate(NULL, 0, NULL, 0), 2, 0));
    CHECK(untouched(two, sizeof two));
}

/* Secrets that share bytes are written twice, which can be too long: 30. */
static void writes_shared_secrets_twice(void)
{
    static uint8_t msg[33000], out[65600];
    uint64_t len;

    len = dialtable_write_authenticate(msg, sizeof msg, DIALTABLE_FLAG_OEM, version, mic, msg, 0, out, 32724, NULL, 0,
                                       NULL, 0, NULL, 0, NULL, 0);
    EQUAL(len, 32812);
    memcpy(msg + 12, msg + 20, 8);
    msg[12]--; /* 88 + 32723 + 32724 */
    EQUAL(dialtable_canonical_authenticate(out, sizeof out, msg, len), 65535);
    msg[12]++;
    memset(out, FILL, sizeof out);
    CHECK(refused(dialtable_canonical_authenticate(out, sizeof out, msg, len), 30, 0));
    CHECK(refused(dialtable_canonical_authenticate(NULL, 0, msg, len), 30, 0));
    CHECK(untouched(out, sizeof out));
}

/* RFC 4648, section 10, and P1 both ways. */
static void carries_messages(const message_t *p1)
{
    static const char *const vectors[][2] = {
        {"", "NTLM "}, {"f", "NTLM Zg=="}, {"fo", "NTLM Zm8="}, {"foo", "NTLM Zm9v"}, {"foob", "NTLM Zm9vYg=="},
        {"fooba", "NTLM Zm9vYmE="}, {"foobar", "NTLM Zm9vYmFy"}};
    uint8_t text[200], msg[200];
    uint64_t text_len;
    size_t plain_len, coded_len;
    unsigned i;

    for (i = 0; i < sizeof vectors / sizeof *vectors; i++) {
        plain_len = strlen(vectors[i][0]);
        coded_len = strlen(vectors[i][1]);
        EQUAL(DIALTABLE_HEADER_LEN(plain_len), coded_len);
        memset(text, FILL, sizeof text);
        EQUAL(dialtable_export_header(text, coded_len, (const uint8_t *)vectors[i][0], plain_len), coded_len);
        CHECK(memcmp(text, vectors[i][1], coded_len) == 0 && untouched(text + coded_len, sizeof text - coded_len));
        memset(msg, FILL, sizeof msg);
        EQUAL(dialtable_import_header(msg, plain_len, text, coded_len), plain_len);
        CHECK(memcmp(msg, vectors[i][0], plain_len) == 0 && untouched(msg + plain_len, sizeof msg - plain_len));
        /* One byte too little room, and one character too few. */
        memset(msg, FILL, sizeof msg);
        if (plain_len > 0)
            CHECK(refused(dialtable_import_header(msg, plain_len - 1, text, coded_len), 33, 0));
        CHECK(refused(dialtable_import_header(msg, sizeof msg, text, coded_len - 1), plain_len > 0 ? 58 : 57, 0));
        CHECK(refused(dialtable_export_header(msg, coded_len - 1, (const uint8_t *)vectors[i][0], plain_len), 33, 0));
        CHECK(untouched(msg, sizeof msg));
    }
    text_len = dialtable_export_header(text, sizeof text, p1->bytes, p1->len);
    EQUAL(text_len, DIALTABLE_HEADER_LEN(p1->len));
    CHECK(memcmp(text, "NTLM TlRMTVNTUAADAAAA", 21) == 0);
    EQUAL(dialtable_import_header(msg, sizeof msg, text, text_len), p1->len);
    CHECK(memcmp(msg, p1->bytes, (size_t)p1->len) == 0);
}

/* What a text must be, and the order of its refusals. */
static void imports_strictly(void)
{
    static const struct {
        const char *text;
        unsigned number;
    } texts[] = {{"", 57}, {"NTLM", 57}, {"NTLMZg==", 57}, {"NTLM\tZg==", 57}, {" NTLM Zg==", 57}, {"NTLMX Zg==", 57},
                 {"Negotiate Zg==", 57}, {"NTLM Zg=", 58}, {"NTLM Zg", 58}, {"NTLM Zg===", 58}, {"NTLM Zh==", 58},
                 {"NTLM Zm9=", 58}, {"NTLM Z===", 58}, {"NTLM ====", 58}, {"NTLM Zg==Zg==", 58}, {"NTLM Zm-_", 58},
                 {"NTLM Zg== ", 58}, {"NTLM Zg==\r\n", 58}, {"NTLM Zg==,", 58}, {"NTLM Zm 9", 58},
                 {"NTLM \tZg==", 58}};
    static const char *const same[] = {"NTLM Zg==", "ntlm Zg==", "nTlM      Zg==", "Ntlm  Zg=="};
    static uint8_t text[87400], msg[65540];
    uint64_t text_len;
    unsigned i;

    memset(msg, FILL, sizeof msg);
    for (i = 0; i < sizeof texts / sizeof *texts; i++)
        CHECK(refused(dialtable_import_header(msg, sizeof msg, (const uint8_t *)texts[i].text, strlen(texts[i].text)),
                      texts[i].number, 0));
    CHECK(refused(dialtable_import_header(NULL, 0, NULL, 0), 57, 0));
    CHECK(refused(dialtable_export_header(NULL, 0, NULL, 0), 33, 0));
    CHECK(untouched(msg, sizeof msg));
    for (i = 0; i < sizeof same / sizeof *same; i++) {
        msg[0] = FILL;
        EQUAL(dialtable_import_header(msg, 1, (const uint8_t *)same[i], strlen(same[i])), 1);
        EQUAL(msg[0], 'f');
    }
    EQUAL(dialtable_import_header(NULL, 0, (const uint8_t *)"NTLM   ", 7), 0);

    /* 65,535 bytes, and one more: 58 comes before 1, and 1 before 33. */
    memset(msg, 0x5A, sizeof msg);
    CHECK(refused(dialtable_export_header(text, sizeof text, msg, 65536), 1, 0));
    CHECK(refused(dialtable_export_header(NULL, 0, msg, 65536), 1, 0));
    text_len = dialtable_export_header(text, sizeof text, msg, 65535);
    EQUAL(text_len, 87385);
    memset(msg, FILL, sizeof msg);
    EQUAL(dialtable_import_header(msg, 65535, text, text_len), 65535);
    EQUAL(msg[65534], 0x5A);
    EQUAL(msg[65535], FILL);
    memset(msg, FILL, sizeof msg);
    memcpy(text + text_len, "AA==", 4);
    CHECK(refused(dialtable_import_header(msg, sizeof msg, text, text_len + 4), 1, 0));
    CHECK(refused(dialtable_import_header(NULL, 0, text, text_len + 4), 1, 0));
    text[text_len + 1] = 'B';
    CHECK(refused(dialtable_import_header(msg, sizeof msg, text, text_len + 4), 58, 0));
    CHECK(refused(dialtable_import_header(msg, 65534, text, text_len), 33, 0));
    CHECK(untouched(msg, sizeof msg));
}

/* The MIC of nego, the challenge and P1, whose own MIC is zeros, is the one of another program. */
static void works_out_the_mic(const message_t *p1, const message_t *challenge)
{
    static const uint8_t expected[16] = {0x2B, 0xE1, 0x50, 0x84, 0xE6, 0xE5, 0xCC, 0x27,
                                         0x50, 0xDB, 0xE6, 0x94, 0x35, 0x5A, 0x94, 0xF8};
    uint8_t session_key[17] = {0, 1, 2, 3, 4, 5, 6, 7, 8, 9, 10, 11, 12, 13, 14, 15, 16}, got[17], other_nego[NEGO_LEN];
    message_t last = *p1, other = *challenge;
    unsigned i;

#define MESSAGES nego, NEGO_LEN, challenge->bytes, challenge->len, last.bytes, last.len
    memset(got, FILL, sizeof got);
    EQUAL(dialtable_mic(session_key, 16, MESSAGES, got, 16), 0);
    CHECK(memcmp(got, expected, 16) == 0);
    EQUAL(got[16], FILL);
    EQUAL(dialtable_check_mic(session_key, 16, MESSAGES), 0);
    memcpy(last.bytes + DIALTABLE_MIC_AT, expected, 16);
    EQUAL(dialtable_check_mic(session_key, 16, MESSAGES), 1);
    memset(got, FILL, sizeof got);
    EQUAL(dialtable_mic(session_key, 16, MESSAGES, got, sizeof got), 0);
    CHECK(memcmp(got, expected, 16) == 0);
    EQUAL(got[16], FILL);
    for (i = 0; i < 16; i++) {
        last.bytes[DIALTABLE_MIC_AT + i] ^= 1;
        EQUAL(dialtable_check_mic(session_key, 16, MESSAGES), 0);
        last.bytes[DIALTABLE_MIC_AT + i] ^= 1;
    }

    /* Refused: 33, 55, the NEGOTIATE's, the CHALLENGE's, the AUTHENTICATE's, 56. Nothing changes. */
    memset(got, FILL, sizeof got);
    last.bytes[40] = 64; /* the user name lies before the MIC's end */
    CHECK(refused(dialtable_mic(session_key, 16, MESSAGES, got, 16), 56, 0));
    CHECK(refused(dialtable_check_mic(session_key, 16, MESSAGES), 56, 0));
    last.bytes[40] = 112;
    CHECK(refused(dialtable_mic(session_key, 16, MESSAGES, got, 16), 9, 4));
    CHECK(refused(dialtable_check_mic(session_key, 16, MESSAGES), 9, 4));
#undef MESSAGES
#define MESSAGES nego, NEGO_LEN, other.bytes, other.len, last.bytes, last.len
    other.bytes[other.len - 2] = 1; /* the end pair's length */
    CHECK(refused_at(dialtable_mic(session_key, 16, MESSAGES, got, 16), 12, 2, other.len - 4));
    CHECK(refused_at(dialtable_check_mic(session_key, 16, MESSAGES), 12, 2, other.len - 4));
#undef MESSAGES
#define MESSAGES other_nego, NEGO_LEN, other.bytes, other.len, last.bytes, last.len
    memcpy(other_nego, nego, sizeof other_nego);
    other_nego[20] = 31;
    CHECK(refused(dialtable_mic(session_key, 16, MESSAGES, got, 16), 7, 1));
    CHECK(refused(dialtable_check_mic(session_key, 16, MESSAGES), 7, 1));
    CHECK(refused(dialtable_mic(session_key, 15, MESSAGES, got, 16), 55, 0));
    CHECK(refused(dialtable_mic(session_key, 17, MESSAGES, got, 16), 55, 0));
    CHECK(refused(dialtable_check_mic(session_key, 17, MESSAGES), 55, 0));
    CHECK(refused(dialtable_check_mic(NULL, 0, NULL, 0, NULL, 0, NULL, 0), 55, 0));
    CHECK(refused(dialtable_check_mic(session_key, 16, NULL, 0, NULL, 0, NULL, 0), 2, 0));
    CHECK(refused(dialtable_mic(session_key, 17, MESSAGES, got, 15), 33, 0));
    CHECK(refused(dialtable_mic(NULL, 0, NULL, 0, NULL, 0, NULL, 0, NULL, 0), 33, 0));
    CHECK(untouched(got, sizeof got));
#undef MESSAGES
}

/* A caller may leave anything in a register above a number of 32 bits: these hand on their registers as they are. */
__attribute__((noinline)) static uint64_t decide_wide(uint64_t settings, const uint8_t *challenge,
                                                      dialtable_len challenge_len, uint64_t *numbers,
                                                      dialtable_len numbers_len)
{
    return dialtable_decide((uint32_t)settings, challenge, challenge_len, numbers, numbers_len);
}

__attribute__((noinline)) static uint64_t field_wide(const uint8_t *msg, dialtable_len msg_len, uint64_t offset,
                                                     uint64_t len, uint8_t *out, dialtable_len out_len)
{
    return dialtable_field_bytes(msg, msg_len, (uint32_t)offset, (uint16_t)len, out, out_len);
}

__attribute__((noinline)) static uint64_t find_wide(const uint8_t *list, dialtable_len list_len, uint64_t id,
                                                    uint64_t *numbers, dialtable_len numbers_len)
{
    return dialtable_find_pair(list, list_len, (uint16_t)id, numbers, numbers_len);
}

__attribute__((noinline)) static uint64_t open_wide(uint8_t *out, dialtable_len out_len, uint64_t flags,
                                                    const uint8_t *domain, dialtable_len domain_len)
{
    return dialtable_write_negotiate(out, out_len, (uint32_t)flags, version, domain, domain_len, NULL, 0);
}

__attribute__((noinline)) static uint64_t name_wide(const uint8_t *msg, dialtable_len msg_len, uint64_t which,
                                                    uint8_t *out, dialtable_len out_len)
{
    return dialtable_nl_auth_name(msg, msg_len, (uint32_t)which, out, out_len);
}

static void takes_numbers_in_wide_registers(const message_t *p1, const message_t *challenge)
{
    volatile uint64_t above = 0xA5A5A5A500000000u;
    uint64_t numbers[DIALTABLE_FOUND_NUMBERS];
    uint8_t name[8], out[40];
    message_t weak = *challenge;

    weak.bytes[23] &= 0xDF; /* the 128-bit flag */
    EQUAL(decide_wide(above | DIALTABLE_NTLMV2, weak.bytes, weak.len, numbers, DIALTABLE_DECISION_NUMBERS), 0);
    CHECK(refused(decide_wide(above | DIALTABLE_DEMAND_128, weak.bytes, weak.len, numbers, 3), 20, 0));
    EQUAL(field_wide(p1->bytes, p1->len, above | 88, above | 8, name, sizeof name), 8);
    CHECK(memcmp(name, box7, 8) == 0);
    EQUAL(find_wide(challenge->bytes + 70, 64, above | 0xA5A50007u, numbers, DIALTABLE_FOUND_NUMBERS), 0);
    EQUAL(numbers[DIALTABLE_FOUND_THERE], 1);
    EQUAL(open_wide(out, sizeof out, above | 1, NULL, 0), 40);
    CHECK(memcmp(out + 12, "\1\0\0\0" "\0\0\0\0" "\x28\0\0\0", 12) == 0);
    CHECK(refused(open_wide(out, sizeof out, above, NULL, 0), 5, 0));
    EQUAL(name_wide(five, FIVE_LEN, above | 4, out, sizeof out), 5);
    CHECK(memcmp(out, "d.com", 5) == 0);
}

/* The names of refusals, flags, pair ids, NL_AUTH's bits and marks have the numbers of document 01. */
static void names_numbers(void)
{
    static const uint32_t named[] = {
        DIALTABLE_REFUSED_TOO_LONG, DIALTABLE_REFUSED_TOO_SHORT, DIALTABLE_REFUSED_WRONG_SIGNATURE,
        DIALTABLE_REFUSED_WRONG_TYPE, DIALTABLE_REFUSED_NO_CHARSET, DIALTABLE_REFUSED_PAST_END,
        DIALTABLE_REFUSED_IN_FIXED_PART, DIALTABLE_REFUSED_ODD_NAME, DIALTABLE_REFUSED_NAME_OVER_SECRET,
        DIALTABLE_REFUSED_PAIR_PAST_END, DIALTABLE_REFUSED_PAIR_MISSING, DIALTABLE_REFUSED_WRONG_END_PAIR,
        DIALTABLE_REFUSED_WRONG_PAIR_SIZE, DIALTABLE_REFUSED_NO_STRINGS, DIALTABLE_REFUSED_UNTERMINATED,
        DIALTABLE_REFUSED_BYTES_LEFT, DIALTABLE_REFUSED_WRONG_RESPONSE, DIALTABLE_REFUSED_NO_128_BIT,
        DIALTABLE_REFUSED_NO_SERVER_NAMES, DIALTABLE_REFUSED_TOO_LONG_TO_WRITE, DIALTABLE_REFUSED_ODD_NAME_TO_WRITE,
        DIALTABLE_REFUSED_WRONG_KEY, DIALTABLE_REFUSED_NO_ROOM, DIALTABLE_REFUSED_ZERO_IN_STRING,
        DIALTABLE_REFUSED_WRONG_LABEL, DIALTABLE_REFUSED_PLACE_NOT_BEFORE, DIALTABLE_REFUSED_TOO_MANY_JUMPS,
        DIALTABLE_REFUSED_NAME_TOO_LONG, DIALTABLE_REFUSED_PLACE_OUTSIDE, DIALTABLE_REFUSED_WRONG_SESSION_KEY,
        DIALTABLE_REFUSED_NO_MIC, DIALTABLE_REFUSED_WRONG_SCHEME, DIALTABLE_REFUSED_WRONG_BASE64,
        DIALTABLE_FLAG_UNICODE, DIALTABLE_FLAG_OEM, DIALTABLE_FLAG_REQUEST_TARGET, DIALTABLE_FLAG_SIGN,
        DIALTABLE_FLAG_SEAL, DIALTABLE_FLAG_DOMAIN_SUPPLIED, DIALTABLE_FLAG_WORKSTATION_SUPPLIED,
        DIALTABLE_FLAG_TARGET_INFO, DIALTABLE_FLAG_VERSION, DIALTABLE_FLAG_128, DIALTABLE_FLAG_KEY_EXCH,
        DIALTABLE_PAIR_NB_COMPUTER, DIALTABLE_PAIR_NB_DOMAIN, DIALTABLE_PAIR_DNS_COMPUTER, DIALTABLE_PAIR_DNS_DOMAIN,
        DIALTABLE_PAIR_DNS_TREE, DIALTABLE_PAIR_FLAGS, DIALTABLE_PAIR_TIMESTAMP, DIALTABLE_PAIR_SINGLE_HOST,
        DIALTABLE_PAIR_TARGET_NAME, DIALTABLE_PAIR_CHANNEL_BINDINGS, DIALTABLE_NL_AUTH_BIT_A, DIALTABLE_NL_AUTH_BIT_B,
        DIALTABLE_NL_AUTH_BIT_C, DIALTABLE_NL_AUTH_BIT_D, DIALTABLE_NL_AUTH_BIT_E, DIALTABLE_NEGOTIATE,
        DIALTABLE_CHALLENGE, DIALTABLE_AUTHENTICATE};
    static const uint32_t expected[] = {
        1, 2, 3, 4, 5, 6, 7, 8, 9, 10, 11, 12, 13, 14, 15, 16, 17, 20, 21, 30, 31, 32, 33, 34, 50, 51, 52, 53, 54, 55,
        56, 57, 58,
        0x1, 0x2, 0x4, 0x10, 0x20, 0x1000, 0x2000, 0x800000, 0x2000000, 0x20000000, 0x40000000,
        1, 2, 3, 4, 5, 6, 7, 8, 9, 10, 0x1, 0x2, 0x4, 0x8, 0x10, 1, 2, 3};
    unsigned i;

    EQUAL(sizeof named, sizeof expected);
    for (i = 0; i < sizeof named / sizeof *named; i++)
        EQUAL(named[i], expected[i]);
    EQUAL(sizeof(dialtable_len), 8);
}

int main(int argc, char **argv)
{
    message_t p1, challenge, no_timestamp;

    if (argc != 4) {
        puts("usage: dialtable_test P1 CHALLENGE NO_TIMESTAMP\n0 passed, 1 failed");
        return 2;
    }
    read_file(argv[1], &p1);
    read_file(argv[2], &challenge);
    read_file(argv[3], &no_timestamp);

    reads_authenticate(&p1);
    refuses(&p1);
    reads_challenge(&challenge);
    reads_negotiate();
    keeps_max_len(p1.bytes, p1.len);
    keeps_max_len(challenge.bytes, challenge.len);
    keeps_max_len(nego, NEGO_LEN);
    reads_nl_auth();
    reads_nl_auth_names();
    reads_pairs(&challenge);
    says_where(&challenge);
    shows_far_places(&challenge);
    prints_lines(&p1, &challenge);
    explains(&p1, &challenge);
    explains_the_longest();
    checks_a_night(&p1, &challenge);
    writes_and_reads_back();
    writes_negotiate();
    writes_the_longest_negotiate();
    writes_nl_auth();
    writes_the_longest_name();
    writes_response_pairs(&challenge);
    writes_the_longest_pairs();
    decides(&challenge, &no_timestamp);
    finds_domain(&challenge);
    answers(&challenge, &no_timestamp);
    tells_the_kind();
    writes_one_way(&p1);
    writes_shared_secrets_twice();
    carries_messages(&p1);
    imports_strictly();
    works_out_the_mic(&p1, &challenge);
    takes_numbers_in_wide_registers(&p1, &challenge);
    names_numbers();

    printf("%d passed, %d failed\n", passed, failed);
    return failed != 0;
}
