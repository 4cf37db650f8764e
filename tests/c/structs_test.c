/*
 * The inline functions of dialtable.h against the calls that they make, on every message that is named: the same answer,
 * each member the number of its name, and where the call refuses nothing changed. structs_test MESSAGE.. The last line
 * is 'N passed, M failed'.
 */
#include <stdio.h>
#include <stdlib.h>
#include <string.h>

#include "check.h"
#include "dialtable.h"

#define ROOM 8192
#define FILL 0xEE
static uint8_t msg[ROOM];
static dialtable_len len;
static unsigned negotiates, challenges, authenticates, nl_auths; /* that were taken */

static int untouched(const void *bytes, size_t size)
{
    const uint8_t *p = (const uint8_t *)bytes;

    while (size > 0)
        if (p[--size] != FILL) return 0;
    return 1;
}

static void read_file(const char *path)
{
    FILE *file = fopen(path, "rb");

    if (file == NULL) {
        printf("%s can't be opened: give the path of a message\n0 passed, 1 failed\n", path);
        exit(1);
    }
    len = fread(msg, 1, sizeof msg, file);
    fclose(file);
}

/* A reading by array and by struct: both answers are alike; refused, the struct is as it was, else the claims hold. */
#define BOTH(by_array, by_struct, record) \
    uint64_t answer; \
    memset(&(record), FILL, sizeof(record)); \
    answer = by_array; \
    CHECK(by_struct == answer); \
    if (DIALTABLE_IS_REFUSED(answer)) CHECK(untouched(&(record), sizeof(record))); \
    if (DIALTABLE_IS_REFUSED(answer)) return
#define IS_FIELD(field, prefix) \
    CHECK((field).offset == numbers[prefix##_OFFSET] && (field).length == numbers[prefix##_LEN] && \
          (field).max_len == numbers[prefix##_MAX_LEN])

static void negotiate(void)
{
    uint64_t numbers[DIALTABLE_NEGOTIATE_NUMBERS];
    struct dialtable_negotiate read;

    BOTH(dialtable_read_negotiate(msg, len, numbers, DIALTABLE_COUNT(numbers)),
         dialtable_read_negotiate_struct(msg, len, &read), read);
    negotiates++;
    CHECK(read.flags == numbers[DIALTABLE_NEGOTIATE_FLAGS]);
    IS_FIELD(read.domain, DIALTABLE_NEGOTIATE_DOMAIN);
    IS_FIELD(read.workstation, DIALTABLE_NEGOTIATE_WORKSTATION);
}

static void challenge(void)
{
    uint64_t numbers[DIALTABLE_CHALLENGE_NUMBERS];
    uint8_t server_challenge[8], again[9];
    struct dialtable_challenge read;

    memset(again, FILL, sizeof again);
    BOTH(dialtable_read_challenge(msg, len, numbers, DIALTABLE_COUNT(numbers), server_challenge, sizeof server_challenge),
         dialtable_read_challenge_struct(msg, len, &read, again, 8), read);
    challenges++;
    CHECK(read.flags == numbers[DIALTABLE_CHALLENGE_FLAGS]);
    CHECK(memcmp(again, server_challenge, 8) == 0 && again[8] == FILL);
    CHECK(DIALTABLE_NUMBER(dialtable_read_challenge_struct(msg, len, &read, again, 7)) == DIALTABLE_REFUSED_NO_ROOM);
    IS_FIELD(read.target_name, DIALTABLE_CHALLENGE_TARGET_NAME);
    IS_FIELD(read.target_info, DIALTABLE_CHALLENGE_TARGET_INFO);
}

static void timestamp(void)
{
    uint64_t numbers[DIALTABLE_TIMESTAMP_NUMBERS];
    struct dialtable_timestamp read;

    BOTH(dialtable_read_timestamp(msg, len, numbers, DIALTABLE_COUNT(numbers)),
         dialtable_read_timestamp_struct(msg, len, &read), read);
    CHECK((uint64_t)read.there == numbers[DIALTABLE_TIMESTAMP_THERE] && read.time == numbers[DIALTABLE_TIMESTAMP_TIME]);
}

static void server_names(void)
{
    uint64_t numbers[DIALTABLE_SERVER_NAMES_NUMBERS];
    struct dialtable_server_names read;

    BOTH(dialtable_read_server_names(msg, len, numbers, DIALTABLE_COUNT(numbers)),
         dialtable_read_server_names_struct(msg, len, &read), read);
    CHECK((uint64_t)read.nb_computer == numbers[DIALTABLE_SERVER_NAMES_NB_COMPUTER]);
    CHECK((uint64_t)read.nb_domain == numbers[DIALTABLE_SERVER_NAMES_NB_DOMAIN]);
}

static void decide(uint32_t settings)
{
    uint64_t numbers[DIALTABLE_DECISION_NUMBERS], clock = 0x0123456789ABCDEFu;
    struct dialtable_decision decision;

    BOTH(dialtable_decide(settings, msg, len, numbers, DIALTABLE_COUNT(numbers)),
         dialtable_decide_struct(settings, msg, len, clock, &decision), decision);
    CHECK(decision.flags == numbers[DIALTABLE_DECISION_FLAGS]);
    CHECK((uint64_t)decision.timestamp_there == numbers[DIALTABLE_DECISION_TIMESTAMP_THERE]);
    CHECK(decision.timestamp == numbers[DIALTABLE_DECISION_TIMESTAMP]);
    CHECK(decision.time == (decision.timestamp_there && (settings & DIALTABLE_NTLMV2) ? decision.timestamp : clock));
}

static void nl_auth(void)
{
    uint64_t numbers[DIALTABLE_NL_AUTH_NUMBERS];
    struct dialtable_nl_auth read;

    BOTH(dialtable_read_nl_auth(msg, len, numbers, DIALTABLE_COUNT(numbers)),
         dialtable_read_nl_auth_struct(msg, len, &read), read);
    nl_auths++;
    CHECK(read.type == numbers[DIALTABLE_NL_AUTH_TYPE] && read.flags == numbers[DIALTABLE_NL_AUTH_FLAGS]);
#define IS_STRING(string, name, jumped) \
    CHECK((string).offset == numbers[DIALTABLE_NL_AUTH_##name##_OFFSET] && \
          (string).length == numbers[DIALTABLE_NL_AUTH_##name##_LEN] && (string).jumps == (jumped))
    IS_STRING(read.a, A, 0);
    IS_STRING(read.b, B, 0);
    IS_STRING(read.c, C, numbers[DIALTABLE_NL_AUTH_C_JUMPS]);
    IS_STRING(read.d, D, numbers[DIALTABLE_NL_AUTH_D_JUMPS]);
    IS_STRING(read.e, E, numbers[DIALTABLE_NL_AUTH_E_JUMPS]);
}

static void find_pair(const uint8_t *list, dialtable_len list_len, uint16_t id)
{
    uint64_t numbers[DIALTABLE_FOUND_NUMBERS];
    struct dialtable_found found;

    BOTH(dialtable_find_pair(list, list_len, id, numbers, DIALTABLE_COUNT(numbers)),
         dialtable_find_pair_struct(list, list_len, id, &found), found);
    CHECK((uint64_t)found.there == numbers[DIALTABLE_FOUND_THERE] && found.place == numbers[DIALTABLE_FOUND_PLACE] &&
          found.length == numbers[DIALTABLE_FOUND_LEN]);
}

static void next_pair(const uint8_t *list, dialtable_len list_len, dialtable_len at)
{
    uint64_t numbers[DIALTABLE_NEXT_NUMBERS];
    struct dialtable_next next;

    BOTH(dialtable_next_pair(list, list_len, at, numbers, DIALTABLE_COUNT(numbers)),
         dialtable_next_pair_struct(list, list_len, at, &next), next);
    CHECK((uint64_t)next.there == numbers[DIALTABLE_NEXT_THERE] && next.id == numbers[DIALTABLE_NEXT_ID] &&
          next.place == numbers[DIALTABLE_NEXT_PLACE] && next.length == numbers[DIALTABLE_NEXT_LEN] &&
          next.at == numbers[DIALTABLE_NEXT_AT]);
}

/* The pair list of a challenge, or a message as if it were a list, walked to its end or first fault. */
static void pairs(void)
{
    struct dialtable_challenge read;
    uint8_t server_challenge[8];
    struct dialtable_next next = {1, 0, 0, 0, 0};
    const uint8_t *list = msg;
    dialtable_len list_len = len;
    uint16_t id;

    if (!DIALTABLE_IS_REFUSED(dialtable_read_challenge_struct(msg, len, &read, server_challenge, 8))) {
        list = msg + read.target_info.offset;
        list_len = read.target_info.length;
    }
    for (id = 0; id < 12; id++) find_pair(list, list_len, id);
    do {
        next_pair(list, list_len, next.at);
        if (DIALTABLE_IS_REFUSED(dialtable_next_pair_struct(list, list_len, next.at, &next))) return;
    } while (next.there);
}

/* Parts of different lengths and bytes, so that two that were exchanged are seen: by their values here, and in what is
 * written by the places where they stand (MS-NLMP 2.2.1.3). */
static const uint8_t version[8] = {10, 0, 1, 2, 3, 4, 5, 15}, mic[16] = {0x77, 0x78, 0x79};
static const uint8_t lm[24] = {0x11}, nt[48] = {0x22}, domain[6] = {0x33}, user[8] = {0x44}, workstation[10] = {0x55},
                     key[16] = {0x66};
#define PARTS \
    version, mic, lm, sizeof lm, nt, sizeof nt, domain, sizeof domain, user, sizeof user, workstation, \
        sizeof workstation, key, sizeof key

static struct dialtable_parts named_parts(void)
{
    struct dialtable_parts parts;

    parts.key = dialtable_part(key, sizeof key);
    parts.workstation = dialtable_part(workstation, sizeof workstation);
    parts.user = dialtable_part(user, sizeof user);
    parts.domain = dialtable_part(domain, sizeof domain);
    parts.nt = dialtable_part(nt, sizeof nt);
    parts.lm = dialtable_part(lm, sizeof lm);
    parts.mic = mic;
    parts.version = version;
    return parts;
}

static void respond(uint32_t settings)
{
    static uint8_t out[ROOM], expected[ROOM];
    uint64_t numbers[DIALTABLE_RESPONSE_NUMBERS], clock = 0x0123456789ABCDEFu;
    struct dialtable_parts parts = named_parts();
    struct dialtable_response response;

    memset(out, FILL, sizeof out);
    memset(expected, FILL, sizeof expected);
    BOTH(dialtable_respond(expected, sizeof expected, msg, len, settings, clock, PARTS, numbers, DIALTABLE_COUNT(numbers)),
         dialtable_respond_struct(out, sizeof out, settings, msg, len, clock, &parts, &response), response);
    CHECK(memcmp(out, expected, sizeof out) == 0);
    CHECK(response.time == numbers[DIALTABLE_RESPONSE_TIME]);
    CHECK((uint64_t)response.mic_due == numbers[DIALTABLE_RESPONSE_MIC_DUE]);
}

/* What is read and written again by its struct has the same fields. */
static void authenticate(void)
{
    static uint8_t out[ROOM], canonical[ROOM];
    uint64_t numbers[DIALTABLE_AUTHENTICATE_NUMBERS], written;
    uint8_t read_mic[16], again[17];
    struct dialtable_authenticate read;
    struct dialtable_parts parts;

    memset(again, FILL, sizeof again);
    BOTH(dialtable_read_authenticate(msg, len, numbers, DIALTABLE_COUNT(numbers), read_mic, sizeof read_mic),
         dialtable_read_authenticate_struct(msg, len, &read, again, 16), read);
    authenticates++;
    CHECK(read.flags == numbers[DIALTABLE_AUTHENTICATE_FLAGS]);
    CHECK((uint64_t)read.mic_present == numbers[DIALTABLE_AUTHENTICATE_MIC_PRESENT]);
    CHECK(memcmp(again, read_mic, 16) == 0 && again[16] == FILL);
    CHECK(DIALTABLE_NUMBER(dialtable_read_authenticate_struct(msg, len, &read, again, 15)) == DIALTABLE_REFUSED_NO_ROOM);
    IS_FIELD(read.lm, DIALTABLE_AUTHENTICATE_LM);
    IS_FIELD(read.nt, DIALTABLE_AUTHENTICATE_NT);
    IS_FIELD(read.domain, DIALTABLE_AUTHENTICATE_DOMAIN);
    IS_FIELD(read.user, DIALTABLE_AUTHENTICATE_USER);
    IS_FIELD(read.workstation, DIALTABLE_AUTHENTICATE_WORKSTATION);
    IS_FIELD(read.key, DIALTABLE_AUTHENTICATE_KEY);
    parts.version = NULL;
    parts.mic = again;
    parts.lm = dialtable_field_part(msg, read.lm);
    parts.nt = dialtable_field_part(msg, read.nt);
    parts.domain = dialtable_field_part(msg, read.domain);
    parts.user = dialtable_field_part(msg, read.user);
    parts.workstation = dialtable_field_part(msg, read.workstation);
    parts.key = dialtable_field_part(msg, read.key);
    written = dialtable_write_authenticate_struct(out, sizeof out, read.flags, &parts);
    CHECK(dialtable_canonical_authenticate(canonical, sizeof canonical, msg, len) == written);
    CHECK(DIALTABLE_IS_REFUSED(written) || memcmp(out, canonical, (size_t)written) == 0);
}

/* Each part of what is written, and nothing where there is no part. */
static void write_authenticate(void)
{
    static const uint8_t zeros[16] = {0};
    uint8_t out[256], expected[256];
    struct dialtable_parts parts = named_parts();
    uint32_t flags = DIALTABLE_FLAGS_WANTED;
    uint64_t written;

    memset(out, FILL, sizeof out);
    memset(expected, FILL, sizeof expected);
    written = dialtable_write_authenticate(expected, sizeof expected, flags, PARTS);
    CHECK(dialtable_write_authenticate_struct(out, sizeof out, flags, &parts) == written);
    CHECK(written == 88 + 24 + 48 + 6 + 8 + 10 + 16 && memcmp(out, expected, sizeof out) == 0);
    CHECK(memcmp(out + 64, version, 8) == 0 && memcmp(out + DIALTABLE_MIC_AT, mic, 16) == 0);
    CHECK(out[12] == 24 && out[20] == 48 && out[28] == 6 && out[36] == 8 && out[44] == 10 && out[52] == 16);
    CHECK(out[out[16]] == 0x11 && out[out[24]] == 0x22 && out[out[32]] == 0x33 && out[out[40]] == 0x44 &&
          out[out[48]] == 0x55 && out[out[56]] == 0x66);
    memset(&parts, 0, sizeof parts);
    CHECK(dialtable_write_authenticate_struct(out, sizeof out, flags, &parts) == 88);
    CHECK(memcmp(out + 64, zeros, 8) == 0 && memcmp(out + DIALTABLE_MIC_AT, zeros, 16) == 0);
    CHECK(DIALTABLE_NUMBER(dialtable_write_authenticate_struct(out, 87, flags, &parts)) == DIALTABLE_REFUSED_NO_ROOM);
}

/* The MIC goes to its place and nowhere else; then it is right, and with a byte changed it is not. */
static void write_mic(void)
{
    uint8_t first[40], last[256], before[256];
    struct dialtable_parts parts = named_parts();
    uint64_t first_len, last_len, answer;

    memset(last, FILL, sizeof last);
    first_len = dialtable_write_negotiate(first, sizeof first, DIALTABLE_FLAGS_WANTED, version, NULL, 0, NULL, 0);
    last_len = dialtable_write_authenticate_struct(last, sizeof last, DIALTABLE_FLAGS_WANTED, &parts);
    CHECK(first_len == 40 && !DIALTABLE_IS_REFUSED(last_len));
    memcpy(before, last, sizeof before);
#define MESSAGES first, first_len, msg, len, last, last_len
    answer = dialtable_check_mic(key, sizeof key, MESSAGES);
    CHECK(answer == 0 && !dialtable_mic_is_right(answer));
    CHECK(DIALTABLE_IS_REFUSED(dialtable_write_mic(key, 15, MESSAGES)) && memcmp(last, before, sizeof last) == 0);
    CHECK(dialtable_write_mic(key, sizeof key, MESSAGES) == 0);
    CHECK(memcmp(last, before, DIALTABLE_MIC_AT) == 0 && memcmp(last + 88, before + 88, sizeof last - 88) == 0);
    CHECK(dialtable_mic_is_right(dialtable_check_mic(key, sizeof key, MESSAGES)));
    last[DIALTABLE_MIC_AT + 15] ^= 1;
    CHECK(!dialtable_mic_is_right(dialtable_check_mic(key, sizeof key, MESSAGES)));
    last[40] = 64; /* the user name lies over the MIC's place: there is no MIC, and if(dialtable_check_mic()) would go on */
    answer = dialtable_check_mic(key, sizeof key, MESSAGES);
    CHECK(answer != 0 && DIALTABLE_NUMBER(answer) == DIALTABLE_REFUSED_NO_MIC && !dialtable_mic_is_right(answer));
    memcpy(before, last, sizeof before);
    CHECK(DIALTABLE_NUMBER(dialtable_write_mic(key, sizeof key, MESSAGES)) == DIALTABLE_REFUSED_NO_MIC);
    CHECK(memcmp(last, before, sizeof last) == 0);
}

/* Every refusal has its own sentence, a number that is none another one, and none is NULL. */
static void words(void)
{
    static const unsigned named[] = {
#define NUMBER(name, number, text) number,
        DIALTABLE_REFUSALS(NUMBER)
#undef NUMBER
    };
    static const char *const texts[] = {
#define TEXT(name, number, text) text,
        DIALTABLE_REFUSALS(TEXT)
#undef TEXT
    };
    const char *other = dialtable_refusal_text(59);
    unsigned number, at, there = 0;

    CHECK(DIALTABLE_COUNT(named) == 33 && DIALTABLE_COUNT(texts) == 33);
    for (at = 0; at < DIALTABLE_COUNT(named); at++) {
        CHECK(strcmp(dialtable_refusal_text(named[at]), texts[at]) == 0 && strlen(texts[at]) > 10);
        for (number = 0; number < at; number++)
            there += named[number] == named[at] || strcmp(texts[number], texts[at]) == 0;
    }
    CHECK(there == 0);
    for (number = 0; number < 1000; number++) {
        const char *text = dialtable_refusal_text(number);

        there += text != NULL && strcmp(text, other) != 0 && number > 0 && number < 256;
        if (text == NULL || *text == 0) CHECK(!"a number without a sentence");
    }
    CHECK(there == 33);
    CHECK(strcmp(dialtable_refusal_text(0), "not refused") == 0);
    CHECK(strstr(dialtable_refusal_text(0x600), "DIALTABLE_NUMBER") != NULL); /* an answer in place of its number */
}

/* What stands in the place of a constant, and arguments with an effect, which happens once. */
enum { REFUSED = DIALTABLE_IS_REFUSED((uint64_t)1 << 63), NUMBER = DIALTABLE_NUMBER((uint64_t)0x2100) };

static void macros(void)
{
    uint64_t answers[] = {0x8000000000140605u, 0, 7}, *next = answers, answer;
    int64_t as_signed = (int64_t)answers[0];

    CHECK(REFUSED == 1 && NUMBER == 33);
    CHECK(DIALTABLE_IS_REFUSED(*next++) == 1 && next == answers + 1);
    CHECK(DIALTABLE_IS_REFUSED(answer = *next++) == 0 && next == answers + 2 && answer == 0);
    CHECK(DIALTABLE_NUMBER(answers[0]) == 6 && DIALTABLE_FIELD(answers[0]) == 5 && DIALTABLE_PLACE(answers[0]) == 0x14);
    CHECK(DIALTABLE_IS_REFUSED(as_signed) && DIALTABLE_NUMBER(as_signed) == 6 && DIALTABLE_PLACE(as_signed) == 0x14);
    CHECK(DIALTABLE_COUNT(answers) == 3);
    CHECK(dialtable_mic_is_right((uint64_t)1) == 1 && !dialtable_mic_is_right((uint64_t)0));
    CHECK(!dialtable_mic_is_right((uint64_t)2) && !dialtable_mic_is_right(answers[0]) && !dialtable_mic_is_right(~answer));
}

/* The version as a text and as a number. */
static void version_twice(void)
{
    char text[32];

    sprintf(text, "%d.%d.%d", DIALTABLE_VERSION_NUMBER / 10000, DIALTABLE_VERSION_NUMBER / 100 % 100,
            DIALTABLE_VERSION_NUMBER % 100);
    CHECK(strcmp(text, DIALTABLE_VERSION) == 0);
}

/* The flags' names, all of MS-NLMP 2.2.2.5 that are not reserved, and what a box asks for. */
static void flags(void)
{
    static const uint32_t all[] = {
        DIALTABLE_FLAG_UNICODE, DIALTABLE_FLAG_OEM, DIALTABLE_FLAG_REQUEST_TARGET, DIALTABLE_FLAG_SIGN,
        DIALTABLE_FLAG_SEAL, DIALTABLE_FLAG_DATAGRAM, DIALTABLE_FLAG_LM_KEY, DIALTABLE_FLAG_NTLM,
        DIALTABLE_FLAG_ANONYMOUS, DIALTABLE_FLAG_DOMAIN_SUPPLIED, DIALTABLE_FLAG_WORKSTATION_SUPPLIED,
        DIALTABLE_FLAG_ALWAYS_SIGN, DIALTABLE_FLAG_TARGET_TYPE_DOMAIN, DIALTABLE_FLAG_TARGET_TYPE_SERVER,
        DIALTABLE_FLAG_EXTENDED_SESSIONSECURITY, DIALTABLE_FLAG_IDENTIFY, DIALTABLE_FLAG_REQUEST_NON_NT_SESSION_KEY,
        DIALTABLE_FLAG_TARGET_INFO, DIALTABLE_FLAG_VERSION, DIALTABLE_FLAG_128, DIALTABLE_FLAG_KEY_EXCH,
        DIALTABLE_FLAG_56};
    static const int bits[] = {0, 1, 2, 4, 5, 6, 7, 9, 11, 12, 13, 15, 16, 17, 19, 20, 22, 23, 25, 29, 30, 31};
    unsigned i;

    CHECK(DIALTABLE_COUNT(all) == DIALTABLE_COUNT(bits));
    for (i = 0; i < DIALTABLE_COUNT(all); i++) CHECK(all[i] == (uint32_t)1 << bits[i]);
    CHECK(DIALTABLE_FLAGS_WANTED == 0xE2888235u);
}

static void every_reading(void)
{
    negotiate();
    challenge();
    timestamp();
    server_names();
    authenticate();
    nl_auth();
    pairs();
    decide(DIALTABLE_DEFAULTS);
    decide(DIALTABLE_NTLMV2 | DIALTABLE_INTEGRITY);
    decide(0);
    respond(DIALTABLE_DEFAULTS);
    respond(0);
}

/* Challenges that no server sent: the timestamp 0, which is there all the same, and one of the names 1 and 2 alone. */
static void odd_challenges(void)
{
    static const uint8_t head[56] = "NTLMSSP\0\2\0\0\0\0\0\0\0\x38\0\0\0\1\2\x88\xE0" "12345678" "\0\0\0\0\0\0\0\0";
    static const uint8_t lists[3][16] = {{7, 0, 8, 0}, {1, 0, 2, 0, 'S', 0, 9, 0, 2, 0, 'T', 0},
                                         {2, 0, 2, 0, 'D', 0, 9, 0, 2, 0, 'T', 0}};
    unsigned i;

    for (i = 0; i < 3; i++) {
        memcpy(msg, head, sizeof head);
        memcpy(msg + sizeof head, lists[i], sizeof lists[i]);
        msg[40] = msg[42] = sizeof lists[i];
        msg[44] = sizeof head;
        len = sizeof head + sizeof lists[i];
        CHECK(!DIALTABLE_IS_REFUSED(dialtable_check_pairs(lists[i], sizeof lists[i])));
        every_reading();
    }
}

int main(int argc, char **argv)
{
    int i;

    for (i = 1; i < argc; i++) {
        read_file(argv[i]);
        every_reading();
        if (strstr(argv[i], "challenge-smbd.bin") != NULL) write_mic();
    }
    CHECK(negotiates > 0 && challenges > 1 && authenticates > 1 && nl_auths > 0);
    odd_challenges();
    write_authenticate();
    words();
    macros();
    version_twice();
    flags();
    printf("%d passed, %d failed\n", passed, failed);
    return failed != 0;
}
