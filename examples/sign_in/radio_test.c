/* The stand-in for the radio module against MS-NLMP 4.2.4. The last line is 'N passed, M failed'. */
#include <stdio.h>
#include <string.h>

#include "radio.h"

static int passed, failed;

static void same(const char *what, const uint8_t *bytes, size_t len, const char *hex)
{
    char text[2 * 256 + 1] = "";
    size_t i;

    for (i = 0; i < len && i < 256; i++) sprintf(text + 2 * i, "%02x", bytes[i]);
    if (strcmp(text, hex) == 0) {
        passed++;
    } else {
        failed++;
        printf("%s is %s\n  and MS-NLMP 4.2.4 has %s\n", what, text, hex);
    }
}

#define WIDE(name, text, n) \
    static uint8_t name[2 * (n)]; \
    widen(name, text, n)

static void widen(uint8_t *out, const char *text, size_t n)
{
    size_t i;

    for (i = 0; i < n; i++) out[2 * i] = (uint8_t)text[i];
}

int main(void)
{
    static const uint8_t server_challenge[8] = {0x01, 0x23, 0x45, 0x67, 0x89, 0xab, 0xcd, 0xef};
    static const uint8_t pairs[36] = "\2\0\14\0D\0o\0m\0a\0i\0n\0\1\0\14\0S\0e\0r\0v\0e\0r\0";
    static struct radio radio;
    struct radio_task task = {0};
    WIDE(user, "User", 4);
    WIDE(domain, "Domain", 6);

    widen(radio.password, "Password", 8);
    radio.password_len = 16;
    memset(radio.client_challenge, 0xaa, 8);
    memset(radio.random_key, 0x55, 16);
    task.user = user, task.user_len = sizeof user;
    task.domain = domain, task.domain_len = sizeof domain;
    task.pairs = pairs, task.pairs_len = sizeof pairs;
    task.server_challenge = server_challenge;
    task.key_exchange = 1;
    if (!radio_respond(&radio, &task)) failed++;
    same("the NTLMv2 response (4.2.4.2.2, 4.2.4.1.3)", radio.nt, radio.nt_len,
         "68cd0ab851e51c96aabc927bebef6a1c"
         "01010000000000000000000000000000aaaaaaaaaaaaaaaa00000000"
         "02000c0044006f006d00610069006e0001000c005300650072007600650072000000000000000000");
    same("the LMv2 response (4.2.4.2.1)", radio.lm, 24, "86c35097ac9cec102554764a57cccc19aaaaaaaaaaaaaaaa");
    same("the key to send (4.2.4.2.3)", radio.key, 16, "c5dad2544fc9799094ce1ce90bc9d03e");
    same("the session key", radio.session_key, 16, "55555555555555555555555555555555");
    task.key_exchange = 0;
    if (!radio_respond(&radio, &task)) failed++;
    same("the session base key (4.2.4.1.2)", radio.session_key, 16, "8de40ccadbc14a82f15cb0ad0de95ca3");
    task.pairs_len = RADIO_NT_ROOM - 47;
    if (radio_respond(&radio, &task)) failed++;
    printf("%d passed, %d failed\n", passed, failed);
    return failed != 0;
}
