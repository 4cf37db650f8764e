/*
 * Sign-ins of other programs: the MIC of each is worked out and checks, and with any byte of its messages or of its key
 * changed it doesn't. mic_test SIGN_INS, a file as tests/mic/triples.txt. The last line is 'N passed, M failed'.
 */
#include <stdio.h>
#include <stdlib.h>
#include <string.h>

#include "dialtable.h"

static int passed, failed;

static void check(int holds, const char *source, const char *what)
{
    if (holds) {
        passed++;
    } else {
        failed++;
        printf("failed: %s: %s\n", source, what);
    }
}

/* What stands on a line behind each of these words. The last ends a sign-in. */
enum { KEY, NEGOTIATE, CHALLENGE, AUTHENTICATE, MIC, PARTS };
static const char *const words[PARTS] = {"key ", "negotiate ", "challenge ", "authenticate ", "mic "};
static uint8_t parts[PARTS][1024];
static dialtable_len lens[PARTS];
static char line[2200], source[2200];

/* Reads pairs of hex digits; 0 where there is anything else. */
static int read_hex(const char *text, int part)
{
    unsigned byte;

    for (lens[part] = 0; text[0] != 0 && text[0] != '\n'; text += 2) {
        if (lens[part] == sizeof parts[part] || sscanf(text, "%2x", &byte) != 1 || text[1] == 0 || text[1] == '\n')
            return 0;
        parts[part][lens[part]++] = (uint8_t)byte;
    }
    return 1;
}

#define SIGN_IN parts[KEY], lens[KEY], parts[NEGOTIATE], lens[NEGOTIATE], parts[CHALLENGE], lens[CHALLENGE], \
                parts[AUTHENTICATE], lens[AUTHENTICATE]

static void try_sign_in(void)
{
    uint8_t mic[16];
    unsigned part, at, said_yes = 0, worked_out = 0;

    check(dialtable_mic(SIGN_IN, mic, sizeof mic) == 0 && lens[MIC] == 16 && memcmp(mic, parts[MIC], 16) == 0, source,
          "the MIC is another one");
    check(dialtable_check_mic(SIGN_IN) == 1, source, "the MIC doesn't check");
    for (part = KEY; part <= AUTHENTICATE; part++)
        for (at = 0; at < lens[part]; at++) {
            parts[part][at] ^= 0x40;
            said_yes += dialtable_check_mic(SIGN_IN) == 1;
            if (part == AUTHENTICATE && at >= DIALTABLE_MIC_AT && at < DIALTABLE_MIC_AT + 16)
                worked_out += dialtable_mic(SIGN_IN, mic, sizeof mic) == 0 && memcmp(mic, parts[MIC], 16) == 0;
            parts[part][at] ^= 0x40;
        }
    check(said_yes == 0, source, "with a byte changed it checks all the same");
    check(worked_out == 16, source, "the MIC's own bytes play a part in it");
}

int main(int argc, char **argv)
{
    FILE *file = argc == 2 ? fopen(argv[1], "r") : NULL;
    int part;

    if (file == NULL) {
        puts("usage: mic_test SIGN_INS, a file as tests/mic/triples.txt\n0 passed, 1 failed");
        return 2;
    }
    while (fgets(line, sizeof line, file) != NULL) {
        if (strncmp(line, "source ", 7) == 0) {
            strcpy(source, line + 7);
            source[strcspn(source, "\n")] = 0;
        }
        for (part = 0; part < PARTS; part++)
            if (strncmp(line, words[part], strlen(words[part])) == 0)
                check(read_hex(line + strlen(words[part]), part), source, "its bytes can't be read");
        if (strncmp(line, words[MIC], strlen(words[MIC])) == 0)
            try_sign_in();
    }
    fclose(file);
    check(passed == 18 * 9, argv[1], "it doesn't hold eighteen sign-ins");
    printf("%d passed, %d failed\n", passed, failed);
    return failed != 0;
}
