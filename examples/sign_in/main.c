/*
 * sign_in USER DOMAIN WORKSTATION TARGET WANTED SETTINGS: one sign-in, with the server at the other end of standard
 * input and output, as lines of hex. First comes the password, as a line of text. Then:
 *     out  negotiate HEX
 *     in   HEX                the server's CHALLENGE
 *     out  authenticate HEX
 *     out  key HEX            the session key, for whoever speaks with the server after this
 * or 'refused NUMBER field=FIELD at=PLACE: WORDS', or another reason in a line, and status 1. The log goes to
 * standard error.
 */
#include <stdio.h>
#include <stdlib.h>

#include "hex.h"
#include "program.h"

dialtable_len exchange(const uint8_t *msg, dialtable_len msg_len, uint8_t *in, dialtable_len in_len)
{
    int is_sent = hex_write(in_len > 0 ? "negotiate" : "authenticate", msg, (size_t)msg_len);
    long len;

    if (in_len == 0) return is_sent ? 0 : NOT_SENT;
    if (!is_sent) {
        fputs("the NEGOTIATE can't be sent: standard output takes no more\n", stderr);
        exit(1);
    }
    len = hex_read(in, (size_t)in_len);
    if (len >= 0) return (dialtable_len)len;
    puts("no challenge: there is no line of hex that fits");
    exit(1);
}

int main(int argc, char **argv)
{
    static struct radio radio;
    struct settings box;

    if (argc != 1 + SETTINGS_WORDS) {
        fputs("usage: sign_in " SETTINGS_USAGE ", the password as a line\n", stderr);
        return 2;
    }
    if (!program_start(argv + 1, &box, &radio) || program_tell(sign_in(&box, &radio)) != 0) return 1;
    if (hex_write("key", radio.session_key, sizeof radio.session_key)) return 0;
    fputs("the key can't be told: standard output takes no more\n", stderr);
    return 1;
}
