/*
 * The recipe at the top of dialtable.h as a program: tools/test-c takes its lines out of the header, as recipe.inc.
 * recipe TIMESTAMP NO_TIMESTAMP OEM REFUSED: signs in to four servers, each of which sends the message of one file. The
 * last line is 'N passed, M failed'.
 */
#include <stdio.h>
#include <stdlib.h>
#include <string.h>

#include "check.h"
#include "dialtable.h"

#define SERVER_TIME 0x01DD750F3F7F2C5Cu
#define CLOCK 0x0123456789ABCDEFu

/* The box's settings, its names, and what its radio module works out. */
struct settings {
    uint32_t wanted, settings;
    uint64_t clock;
};
struct names {
    struct dialtable_bytes domain, user, workstation, target;
};
struct module {
    uint8_t lm[24], nt[60], key[16], session_key[16];
    dialtable_len nt_len;
    uint64_t time, flags; /* those of the flags pair that goes back, 0 where there is none */
};

static const uint8_t version[8] = {10, 0, 0x61, 0x4A, 0, 0, 0, 15}, zeros[16] = {0};
#define WANTED (DIALTABLE_FLAG_UNICODE | DIALTABLE_FLAG_OEM | DIALTABLE_FLAG_REQUEST_TARGET | DIALTABLE_FLAG_SIGN | \
                DIALTABLE_FLAG_VERSION | DIALTABLE_FLAG_128 | DIALTABLE_FLAG_KEY_EXCH)
static const struct settings settings = {WANTED, DIALTABLE_DEFAULTS, CLOCK};
static const struct settings no_ntlmv2 = {WANTED, DIALTABLE_DEFAULTS & ~DIALTABLE_NTLMV2, CLOCK};
enum { NAME_UNSENT = 1, NOT_SENT = 3 };

static const char *server; /* the file that the server sends */
static int line_is_cut;    /* the last message doesn't go out */
static uint8_t first_sent[64], challenge_sent[1024], sent[1024];
static dialtable_len first_sent_len, challenge_sent_len, sent_len;
static struct module worked;
static struct dialtable_response done; /* what the library answered besides */
static int lines;
static char logged[512]; /* the last line */

/* Sends a message, and where there is room for it receives the server's. */
static dialtable_len exchange(const uint8_t *msg, dialtable_len msg_len, uint8_t *in, dialtable_len in_len)
{
    FILE *file;
    dialtable_len got;

    if (in_len == 0) {
        if (line_is_cut) return NOT_SENT;
        memcpy(sent, msg, (size_t)msg_len);
        sent_len = msg_len;
        return 0;
    }
    memcpy(first_sent, msg, (size_t)msg_len);
    first_sent_len = msg_len;
    file = fopen(server, "rb");
    if (file == NULL) {
        printf("%s can't be opened: give the path of a message\n0 passed, 1 failed\n", server);
        exit(1);
    }
    got = fread(in, 1, (size_t)in_len, file);
    fclose(file);
    memcpy(challenge_sent, in, (size_t)got);
    challenge_sent_len = got;
    return got;
}

static int encode(const struct settings *box, int unicode, struct names *own)
{
    static const uint8_t wide[] = {'b', 0, 'o', 0, 'x', 0, '7', 0}, narrow[] = {'b', 'o', 'x', '7'};
    static const uint8_t target[] = {'c', 0, 'i', 0, 'f', 0, 's', 0, '/', 0, 's', 0};

    own->domain = own->workstation = dialtable_part(NULL, 0);
    own->user = unicode ? dialtable_part(wide, sizeof wide) : dialtable_part(narrow, sizeof narrow);
    own->target = dialtable_part(target, sizeof target);
    return box->clock == CLOCK;
}

/* In the place of the real work: bytes that can be seen again. */
static uint64_t work_out(struct module *module, const uint8_t *challenge, dialtable_len challenge_len, uint64_t time,
                         const uint8_t *pairs, dialtable_len pairs_len, const struct names *own)
{
    struct dialtable_found found = {0, 0, 0};

    CHECK(challenge != NULL && challenge_len > 0 && own->user.length > 0);
    CHECK(dialtable_find_pair_struct(pairs, pairs_len, DIALTABLE_PAIR_FLAGS, &found) == 0);
    module->flags = found.there ? pairs[found.place] : 0;
    CHECK(dialtable_find_pair_struct(pairs, pairs_len, DIALTABLE_PAIR_TARGET_NAME, &found) == 0);
    CHECK(found.there && found.length == own->target.length &&
          memcmp(pairs + found.place, own->target.bytes, (size_t)own->target.length) == 0);
    memset(module->lm, 0x11, sizeof module->lm);
    memset(module->nt, 0x22, sizeof module->nt);
    memset(module->key, 0x66, sizeof module->key);
    memset(module->session_key, 0x55, sizeof module->session_key);
    module->nt_len = sizeof module->nt;
    module->time = time;
    return 0;
}

static void log_it(const uint8_t *line, uint64_t len)
{
    CHECK(!DIALTABLE_IS_REFUSED(len) && len < sizeof logged);
    memcpy(logged, line, (size_t)len);
    logged[len] = 0;
    lines++;
}

static uint64_t sign_in(const struct settings *box)
{
    uint8_t first[64], challenge[1024], pairs[1100], out[1024], line[500];
    uint64_t answer, worked_out, first_len, challenge_len, pairs_len;
    struct dialtable_decision decision;
    struct dialtable_parts parts;
    struct module *radio = &worked;
    struct names own;

    sent_len = 0;
    lines = 0;
#include "recipe.inc"
}

int main(int argc, char **argv)
{
    /* That of the three messages, by another program. */
    static const uint8_t mic[16] = {0xA3, 0x5B, 0x43, 0x74, 0x25, 0x95, 0x97, 0xE0,
                                    0x1E, 0xD6, 0x00, 0x54, 0xDC, 0xF4, 0x88, 0x60};
    uint64_t answer;

    if (argc != 5) {
        puts("usage: recipe TIMESTAMP NO_TIMESTAMP OEM REFUSED\n0 passed, 1 failed");
        return 2;
    }

    /* The server's time, its domain, a MIC, and no LM response of the box's own. */
    server = argv[1];
    CHECK(sign_in(&settings) == 0);
    CHECK(first_sent_len == 40 && memcmp(first_sent, "NTLMSSP\0" "\1", 9) == 0);
    CHECK(worked.time == SERVER_TIME && worked.flags == DIALTABLE_PAIR_FLAG_MIC);
    CHECK(sent_len == 88 + 14 + 8 + 24 + 60 + 16 && memcmp(sent + DIALTABLE_MIC_AT, mic, 16) == 0);
    CHECK(strcmp(logged, "auth flags=628A8215 set=U domain=PEERSRV user=box7 work= lm=24 nt=60 key=16 mic=1 kind=v2"
                         " max=000000\n")
          == 0);
    CHECK(lines == 3);
    CHECK(dialtable_mic_is_right(dialtable_check_mic(worked.session_key, 16, first_sent, first_sent_len, challenge_sent,
                                                     challenge_sent_len, sent, sent_len)));

    /* Without NTLMV2 the Time is the box's own, though the server sent one; so the answer has it too. */
    CHECK(sign_in(&no_ntlmv2) == 0);
    CHECK(worked.time == CLOCK && done.time == CLOCK);

    /* The box's own clock, and zeros for the MIC; its line says mic=1 all the same. */
    server = argv[2];
    CHECK(sign_in(&settings) == 0);
    CHECK(worked.time == CLOCK && worked.flags == 0);
    CHECK(memcmp(sent + DIALTABLE_MIC_AT, zeros, 16) == 0);
    CHECK(strstr(logged, " mic=1 ") != NULL && strstr(logged, " user=box7 ") != NULL);

    /* A sign-in whose last message doesn't go out is none. */
    line_is_cut = 1;
    CHECK(sign_in(&settings) == NOT_SENT);
    CHECK(sent_len == 0);
    line_is_cut = 0;

    /* Names in bytes. */
    server = argv[3];
    CHECK(sign_in(&settings) == 0);
    CHECK(strstr(logged, " set=O ") != NULL && strstr(logged, " user=box7 ") != NULL);

    /* No challenge: nothing is sent but the NEGOTIATE, and the log says why. */
    server = argv[4];
    answer = sign_in(&settings);
    CHECK(DIALTABLE_IS_REFUSED(answer) && DIALTABLE_NUMBER(answer) == DIALTABLE_REFUSED_WRONG_TYPE);
    CHECK(sent_len == 0 && lines == 2 && strcmp(logged, "refused 4 field=0 at=0\n") == 0);

    printf("%d passed, %d failed\n", passed, failed);
    return failed != 0;
}
