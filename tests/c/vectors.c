/*
 * The published vectors of MD5 (RFC 1321, A.5) and HMAC-MD5 (RFC 2104, appendix; RFC 2202, section 2) against the
 * compiled code of crates/md5_digest and crates/hmac_md5, by way of crates/md5_calls. The last line is 'N passed, M failed'.
 */
#include <stdint.h>
#include <stdio.h>
#include <string.h>

#ifdef __cplusplus
extern "C" {
#endif
/* Those of crates/md5_calls: sixteen bytes of out. */
uint64_t md5_of(const uint8_t *message, uint64_t message_len, uint8_t *out, uint64_t out_len);
uint64_t hmac_md5_of(const uint8_t *key, uint64_t key_len, const uint8_t *text, uint64_t text_len, uint8_t *out,
                     uint64_t out_len);
#ifdef __cplusplus
}
#endif

#define FILL 0xEE

static int passed, failed;

/* Sixteen bytes as hex digits, and nothing after them changed. */
static void check(const uint8_t out[17], const char *expected, const char *what)
{
    char got[33];
    unsigned i;

    for (i = 0; i < 16; i++)
        sprintf(got + 2 * i, "%02x", out[i]);
    if (strcmp(got, expected) == 0 && out[16] == FILL) {
        passed++;
    } else {
        failed++;
        printf("failed: %s: got %s, expected %s\n", what, got, expected);
    }
}

static void md5(const char *message, const char *expected)
{
    uint8_t out[17];

    memset(out, FILL, sizeof out);
    md5_of((const uint8_t *)message, strlen(message), out, 16);
    check(out, expected, message);
}

static void hmac_md5(const uint8_t *key, uint64_t key_len, const void *text, uint64_t text_len, const char *expected,
                     const char *what)
{
    uint8_t out[17];

    memset(out, FILL, sizeof out);
    hmac_md5_of(key, key_len, (const uint8_t *)text, text_len, out, 16);
    check(out, expected, what);
}

static void of_rfc_1321(void)
{
    md5("", "d41d8cd98f00b204e9800998ecf8427e");
    md5("a", "0cc175b9c0f1b6a831c399e269772661");
    md5("abc", "900150983cd24fb0d6963f7d28e17f72");
    md5("message digest", "f96b697d7cb7938d525a2f31aaf161d0");
    md5("abcdefghijklmnopqrstuvwxyz", "c3fcd3d76192e4007dfb496cca67e13b");
    md5("ABCDEFGHIJKLMNOPQRSTUVWXYZabcdefghijklmnopqrstuvwxyz0123456789", "d174ab98d277d9f5a5611c2c9f419d9f");
    md5("12345678901234567890123456789012345678901234567890123456789012345678901234567890",
        "57edf4a22be3c955ac49da2e2107b67a");
}

static void of_rfc_2104(void)
{
    static const char want[] = "what do ya want for nothing?";
    uint8_t key[16], data[50];

    memset(key, 0x0B, sizeof key);
    hmac_md5(key, 16, "Hi There", 8, "9294727a3638bb1c13f48ef8158bfc9d", "RFC 2104, 1");
    hmac_md5((const uint8_t *)"Jefe", 4, want, sizeof want - 1, "750c783e6ab0b503eaa86e310a5db738", "RFC 2104, 2");
    memset(key, 0xAA, sizeof key);
    memset(data, 0xDD, sizeof data);
    hmac_md5(key, 16, data, sizeof data, "56be34521d144c88dbb8c733f0e8b3f6", "RFC 2104, 3");
}

static void of_rfc_2202(void)
{
    static const char want[] = "what do ya want for nothing?", cut[] = "Test With Truncation";
    static const char larger[] = "Test Using Larger Than Block-Size Key - Hash Key First";
    static const char both[] = "Test Using Larger Than Block-Size Key and Larger Than One Block-Size Data";
    uint8_t key[80], data[50];
    unsigned i;

    memset(key, 0x0B, sizeof key);
    hmac_md5(key, 16, "Hi There", 8, "9294727a3638bb1c13f48ef8158bfc9d", "RFC 2202, 1");
    hmac_md5((const uint8_t *)"Jefe", 4, want, sizeof want - 1, "750c783e6ab0b503eaa86e310a5db738", "RFC 2202, 2");
    memset(key, 0xAA, sizeof key);
    memset(data, 0xDD, sizeof data);
    hmac_md5(key, 16, data, sizeof data, "56be34521d144c88dbb8c733f0e8b3f6", "RFC 2202, 3");
    for (i = 0; i < 25; i++)
        key[i] = (uint8_t)(i + 1);
    memset(data, 0xCD, sizeof data);
    hmac_md5(key, 25, data, sizeof data, "697eaf0aca3a3aea3a75164746ffaa79", "RFC 2202, 4");
    memset(key, 0x0C, sizeof key);
    hmac_md5(key, 16, cut, sizeof cut - 1, "56461ef2342edc00f9bab995690efd4c", "RFC 2202, 5");
    memset(key, 0xAA, sizeof key);
    hmac_md5(key, 80, larger, sizeof larger - 1, "6b1ab7fe4bd7bf8f0b62e6ce61b9d0cd", "RFC 2202, 6");
    hmac_md5(key, 80, both, sizeof both - 1, "6f630fad67cda0ee1fb1f562db3aa53e", "RFC 2202, 7");
}

int main(void)
{
    of_rfc_1321();
    of_rfc_2104();
    of_rfc_2202();
    printf("%d passed, %d failed\n", passed, failed);
    return failed != 0;
}
