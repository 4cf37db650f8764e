/*
 * The stack that each call of dialtable.h takes on a Cortex-M or a riscv32: bytes below the caller's own frame, the most
 * over all messages of messages.h. The stack is painted before a call, and what is no longer paint was used.
 */
#include <stdio.h>
#include <string.h>

#include "dialtable.h"
#include "messages.h"

#define DEEP 4096u
#define PAINT 0xA5A5A5A5u

static uint8_t out[1024], bytes[16], zeros[24];
#define NUMBERS 24
static uint64_t numbers[NUMBERS];
static struct dialtable_entry entries[3];
static volatile uint64_t answer;

static struct {
    const char *name;
    unsigned most;
} calls[64];

#ifdef __riscv
#define COPY "mv"
#else
#define COPY "mov"
#endif
#define STACK(call_, ...) \
    do { \
        uintptr_t top; \
        volatile uint32_t *at; \
        __asm__ volatile(COPY " %0, sp" : "=r"(top)); \
        for (at = (volatile uint32_t *)(top - DEEP); (uintptr_t)at < top; at++) \
            *at = PAINT; \
        answer = dialtable_##call_(__VA_ARGS__); \
        for (at = (volatile uint32_t *)(top - DEEP); (uintptr_t)at < top && *at == PAINT; at++) \
            ; \
        calls[place].name = #call_; \
        if (top - (uintptr_t)at > calls[place].most) \
            calls[place].most = (unsigned)(top - (uintptr_t)at); \
        place++; \
    } while (0)

#define NAMES zeros, 0, zeros, 8, zeros, 8

/* The message of messages.h with this name. */
static unsigned named(const char *name)
{
    unsigned which = 0;

    while (strcmp(messages[which].name, name) != 0)
        which++;
    return which;
}

/* A caller's arguments that have no register lie in its own frame. */
static void measure(const uint8_t *msg, dialtable_len len)
{
    unsigned place = 0, i, first = named("negotiate-names.bin"), second = named("challenge-smbd.bin");

    for (i = 0; i < 3; i++) {
        entries[i].length = len;
        entries[i].mark = i + 1;
    }
    STACK(read_authenticate, msg, len, numbers, NUMBERS, bytes, 16);
    STACK(read_challenge, msg, len, numbers, NUMBERS, bytes, 16);
    STACK(read_timestamp, msg, len, numbers, NUMBERS);
    STACK(read_server_names, msg, len, numbers, NUMBERS);
    STACK(read_negotiate, msg, len, numbers, NUMBERS);
    STACK(read_nl_auth, msg, len, numbers, NUMBERS);
    STACK(nl_auth_name, msg, len, 4, out, sizeof out);
    STACK(field_bytes, msg, len, 12, 8, out, sizeof out);
    STACK(check_pairs, msg, len);
    STACK(count_pairs, msg, len, numbers, NUMBERS);
    STACK(find_pair, msg, len, DIALTABLE_PAIR_TIMESTAMP, numbers, NUMBERS);
    STACK(next_pair, msg, len, 0, numbers, NUMBERS);
    STACK(authenticate_line, msg, len, out, sizeof out);
    STACK(challenge_line, msg, len, out, sizeof out);
    STACK(negotiate_line, msg, len, out, sizeof out);
    STACK(nl_auth_line, msg, len, out, sizeof out);
    STACK(ntlm_line, msg, len, out, sizeof out);
    STACK(ntlm_program_line, msg, len, out, sizeof out);
    STACK(nl_auth_program_line, msg, len, out, sizeof out);
    STACK(explain, msg, len, out, sizeof out);
    STACK(check_messages, msg, len, entries, 3);
    STACK(write_authenticate, out, sizeof out, 0xE28A8215u, zeros, zeros, zeros, 24, zeros, 24, NAMES, zeros, 16);
    STACK(write_negotiate, out, sizeof out, 0xA2088207u, zeros, zeros, 5, zeros, 5);
    STACK(write_nl_auth_request, out, sizeof out, 31, msg, 1, msg, 1, msg, 1, msg, 1, msg, 1);
    STACK(write_nl_auth_response, out, sizeof out);
    STACK(write_response_pairs, out, sizeof out, msg, len, zeros, 8, 1, zeros);
    STACK(decide, DIALTABLE_NTLMV2 | DIALTABLE_INTEGRITY, msg, len, numbers, NUMBERS);
    STACK(domain_to_send, NULL, 0, msg, len, out, sizeof out);
#define PARTS zeros, zeros, zeros, 24, zeros, 24, NAMES, zeros, 16, numbers, NUMBERS
    STACK(respond, out, sizeof out, msg, len, DIALTABLE_NTLMV2, 5, PARTS);
    STACK(respond_for_bench, out, sizeof out, msg, len, 5, 0, PARTS);
    STACK(respond_to_old_server, out, sizeof out, msg, len, 5, PARTS);
    STACK(respond_for_relay, out, sizeof out, msg, len, 5, PARTS);
#define SIGN_IN zeros, 16, messages[first].bytes, messages[first].len, messages[second].bytes, messages[second].len, \
                msg, len
    STACK(canonical_authenticate, out, sizeof out, msg, len);
    STACK(export_header, out, sizeof out, msg, len);
    STACK(import_header, out, sizeof out, (const uint8_t *)"NTLM Zm9vYg==", 13);
    STACK(mic, SIGN_IN, bytes, 16);
    STACK(check_mic, SIGN_IN);
}

int main(void)
{
    unsigned i;

    for (i = 0; i < sizeof messages / sizeof *messages; i++)
        measure(messages[i].bytes, messages[i].len);
    for (i = 0; calls[i].name != NULL; i++)
        printf("%s %u\n", calls[i].name, calls[i].most);
    return 0;
}
