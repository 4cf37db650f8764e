/*
 * The bench's side of a sign-in. Standard input has four lines of hex: the session key, and the NEGOTIATE, CHALLENGE
 * and AUTHENTICATE that were seen.
 *     bench check         does the MIC of the AUTHENTICATE fit the key and the three messages: yes, no, or refused
 *     bench clip BYTES    the AUTHENTICATE with its user name clipped to so many bytes and a MIC that fits again, for
 *                         trials: the fault that this library was made against
 */
#include <stdio.h>
#include <stdlib.h>
#include <string.h>

#include "dialtable.h"
#include "hex.h"

#define ROOM 4096

struct seen {
    uint8_t key[16], negotiate[ROOM], challenge[ROOM], authenticate[ROOM];
    dialtable_len key_len, negotiate_len, challenge_len, authenticate_len;
};

/* Tells a line that can't be read; its status is then that of a wrong command. */
static int read_one(const char *what, uint8_t *out, size_t room, dialtable_len *len)
{
    long n = hex_read(out, room);

    *len = n < 0 ? 0 : (dialtable_len)n;
    if (n == HEX_NO_ROOM) fprintf(stderr, "%s doesn't fit: it may have %lu bytes\n", what, (unsigned long)room);
    if (n == HEX_NONE) fprintf(stderr, "%s isn't there as a line of hex: write pairs of 0-9 and a-f\n", what);
    return n >= 0;
}

static int read_seen(struct seen *seen)
{
    return read_one("line 1, the session key,", seen->key, sizeof seen->key, &seen->key_len) &&
           read_one("line 2, the NEGOTIATE,", seen->negotiate, ROOM, &seen->negotiate_len) &&
           read_one("line 3, the CHALLENGE,", seen->challenge, ROOM, &seen->challenge_len) &&
           read_one("line 4, the AUTHENTICATE,", seen->authenticate, ROOM, &seen->authenticate_len);
}

static int refused(uint64_t answer)
{
    if (!DIALTABLE_IS_REFUSED(answer)) return 0;
    printf("refused %u field=%u at=%llu: %s\n", DIALTABLE_NUMBER(answer), DIALTABLE_FIELD(answer),
           (unsigned long long)DIALTABLE_PLACE(answer), dialtable_refusal_text(DIALTABLE_NUMBER(answer)));
    return 1;
}

static int check(const struct seen *seen)
{
    uint64_t answer;

    /* The check of dialtable.h, line by line. */
    answer = dialtable_check_mic(seen->key, seen->key_len, seen->negotiate, seen->negotiate_len, seen->challenge,
                                 seen->challenge_len, seen->authenticate, seen->authenticate_len);
    if (dialtable_mic_is_right(answer)) puts("yes");
    else if (!refused(answer)) puts("no");

    return hex_told(fflush(stdout) == 0 && !ferror(stdout));
}

static int clip(const struct seen *seen, dialtable_len bytes)
{
    const uint8_t *msg = seen->authenticate;
    struct dialtable_authenticate read = {0}; /* gcc does not see that refused() tells */
    struct dialtable_parts parts;
    uint64_t len;
    uint8_t mic[16], out[ROOM];

    if (refused(dialtable_read_authenticate_struct(msg, seen->authenticate_len, &read, mic, sizeof mic))) return 1;
    parts.version = msg + 64;
    parts.mic = mic;
    parts.lm = dialtable_field_part(msg, read.lm);
    parts.nt = dialtable_field_part(msg, read.nt);
    parts.domain = dialtable_field_part(msg, read.domain);
    parts.user = dialtable_field_part(msg, read.user);
    parts.workstation = dialtable_field_part(msg, read.workstation);
    parts.key = dialtable_field_part(msg, read.key);
    if (parts.user.length > bytes) parts.user.length = bytes;
    len = dialtable_write_authenticate_struct(out, sizeof out, read.flags, &parts);
    if (refused(len)) return 1;
    if (refused(dialtable_write_mic(seen->key, seen->key_len, seen->negotiate, seen->negotiate_len, seen->challenge,
                                    seen->challenge_len, out, len))) return 1;
    return hex_told(hex_write("authenticate", out, (size_t)len));
}

int main(int argc, char **argv)
{
    static struct seen seen;

    if (argc == 2 && strcmp(argv[1], "check") == 0) return read_seen(&seen) ? check(&seen) : 2;
    if (argc == 3 && strcmp(argv[1], "clip") == 0) return read_seen(&seen) ? clip(&seen, strtoul(argv[2], NULL, 0)) : 2;
    fputs("usage: bench check or bench clip BYTES, with key, NEGOTIATE, CHALLENGE and AUTHENTICATE in hex\n", stderr);
    return 2;
}
