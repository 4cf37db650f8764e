/*
 * NL_AUTH for trials with a domain controller.
 *     nl_auth request FLAGS A B C D E    'request HEX', as the library writes it; FLAGS says which strings go out
 *     nl_auth line                       the log line of a message, which standard input has as a line of hex
 * Where there is none, 'refused NUMBER field=FIELD at=PLACE: WORDS' and status 1.
 */
#include <stdio.h>
#include <stdlib.h>
#include <string.h>

#include "dialtable.h"
#include "hex.h"

#define ROOM 1024
#define LINE_ROOM (128 + 4 * ROOM + 3 * DIALTABLE_NL_AUTH_NAME_ROOM)

static int refused(uint64_t answer)
{
    if (!DIALTABLE_IS_REFUSED(answer)) return 0;
    printf("refused %u field=%u at=%llu: %s\n", DIALTABLE_NUMBER(answer), DIALTABLE_FIELD(answer),
           (unsigned long long)DIALTABLE_PLACE(answer), dialtable_refusal_text(DIALTABLE_NUMBER(answer)));
    return 1;
}

static struct dialtable_bytes text(const char *word)
{
    return dialtable_part((const uint8_t *)word, strlen(word));
}

static int request(uint32_t flags, char **words)
{
    struct dialtable_bytes a = text(words[0]), b = text(words[1]), c = text(words[2]), d = text(words[3]),
                           e = text(words[4]);
    uint8_t out[ROOM];
    uint64_t len = dialtable_write_nl_auth_request(out, sizeof out, flags, a.bytes, a.length, b.bytes, b.length, c.bytes,
                                                   c.length, d.bytes, d.length, e.bytes, e.length);

    return refused(len) || hex_told(hex_write("request", out, (size_t)len));
}

static int line(void)
{
    static uint8_t msg[ROOM], out[LINE_ROOM];
    long msg_len = hex_read(msg, sizeof msg);
    uint64_t len;

    if (msg_len < 0) {
        fputs("the message isn't there as a line of hex that fits: write pairs of 0-9 and a-f\n", stderr);
        return 2;
    }
    len = dialtable_nl_auth_line(msg, (dialtable_len)msg_len, out, sizeof out);
    return refused(len) || hex_told(fwrite(out, 1, (size_t)len, stdout) == len && fflush(stdout) == 0);
}

int main(int argc, char **argv)
{
    if (argc == 8 && strcmp(argv[1], "request") == 0) return request((uint32_t)strtoul(argv[2], NULL, 0), argv + 3);
    if (argc == 2 && strcmp(argv[1], "line") == 0) return line();
    fputs("usage: nl_auth request FLAGS A B C D E, or nl_auth line with the message in hex\n", stderr);
    return 2;
}
