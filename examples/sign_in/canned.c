/*
 * A sign-in without a server and without a radio module: 'make example'. The challenge is one that Samba's smbd sent
 * to 'make sign-in', and the response that smbd then took stands in for the radio module's. Prints the lines of the
 * three messages as sign_in.c logs them. The status is 0 only where the AUTHENTICATE is byte for byte the one that
 * smbd took.
 */
#include <stdio.h>
#include <string.h>

#include "sign_in.h"

#include "canned.h"

dialtable_len exchange(const uint8_t *msg, dialtable_len msg_len, uint8_t *in, dialtable_len in_len)
{
    if (in_len == 0) {
        return msg_len == sizeof canned_authenticate && memcmp(msg, canned_authenticate, sizeof canned_authenticate) == 0
                   ? 0 : NOT_TAKEN;
    }
    if (in_len < sizeof canned_challenge) return 0;
    memcpy(in, canned_challenge, sizeof canned_challenge);
    return sizeof canned_challenge;
}

void log_it(const uint8_t *line, uint64_t line_len)
{
    if (DIALTABLE_IS_REFUSED(line_len)) fputs("a line has no room\n", stderr);
    else fwrite(line, 1, (size_t)line_len, stdout);
}

/* The response that was taken, where it was worked out over this time and this pair list. */
int radio_respond(struct radio *radio, const struct radio_task *task)
{
    struct dialtable_authenticate taken;
    uint8_t mic[16], time[8];
    const uint8_t *nt;
    uint64_t answer;
    int i;

    answer = dialtable_read_authenticate_struct(canned_authenticate, sizeof canned_authenticate, &taken, mic, sizeof mic);
    if (DIALTABLE_IS_REFUSED(answer)) return 0;
    nt = canned_authenticate + taken.nt.offset;
    radio->nt_len = taken.nt.length;
    for (i = 0; i < 8; i++) time[i] = (uint8_t)(task->time >> 8 * i);
    if (radio->nt_len != task->pairs_len + 48 || memcmp(nt + 24, time, 8) != 0 ||
        memcmp(nt + 44, task->pairs, task->pairs_len) != 0) return 0;
    memcpy(radio->nt, nt, radio->nt_len);
    memcpy(radio->lm, canned_authenticate + taken.lm.offset, sizeof radio->lm);
    memcpy(radio->key, canned_authenticate + taken.key.offset, sizeof radio->key);
    memcpy(radio->session_key, canned_session_key, sizeof radio->session_key);
    return 1;
}

int main(void)
{
    static struct radio radio;
    struct settings box = {
        "bench-operator-of-the-northern-depot-number-seven-hall-b-2nd", "", "BOX7", "cifs/localhost",
        DIALTABLE_FLAGS_WANTED, DIALTABLE_DEFAULTS, 0
    };

    uint64_t answer = sign_in(&box, &radio);

    if (answer == 0 && fflush(stdout) == 0 && !ferror(stdout)) return 0;
    if (DIALTABLE_IS_REFUSED(answer))
        fprintf(stderr, "refused %u: %s\n", DIALTABLE_NUMBER(answer), dialtable_refusal_text(DIALTABLE_NUMBER(answer)));
    fputs("the sign-in isn't the one that was taken, or its lines can't be written\n", stderr);
    return 1;
}
