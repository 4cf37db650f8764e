/*
 * What valgrind's memcheck has seen of each call. Bytes that are marked as undefined keep their values; memcheck
 * follows what is worked out from them, and counts an error at each conditional jump and each address that depends on
 * one. An answer, a number or a byte that depends on one without a jump is looked for after the call.
 */
#ifndef HELD_H
#define HELD_H

#include <stdio.h>
#include <valgrind/memcheck.h>

#include "calls.h"
#include "secret.h"

#define NAME(name) #name,
static const char *const call_names[] = {HELD_CALLS(NAME) HELD_INLINE(NAME) "", EXCEPTION(NAME)};
static int passed, failed;

static void hold(int holds, const char *call, const char *what)
{
    if (holds) {
        passed++;
    } else {
        failed++;
        printf("failed: %s: %s\n", call, what);
    }
}

struct count {
    unsigned long calls, answered, refused[256];
    unsigned long jumps; /* conditional jumps and addresses that depend on a secret */
    unsigned long shown; /* calls after which something public depended on one */
};
static struct count counts[CALLS];
static int last_call, is_shown;
static uint64_t answer;

static void mark(const void *bytes, uint64_t size)
{
    VALGRIND_MAKE_MEM_UNDEFINED(bytes, size);
}
static void unmark(const void *bytes, uint64_t size)
{
    VALGRIND_MAKE_MEM_DEFINED(bytes, size);
}
static void mark_secrets(const uint8_t *msg, uint64_t len)
{
    struct stretch secret[STRETCHES];
    unsigned i;

    secrets_of(msg, len, secret);
    for (i = 0; i < STRETCHES; i++)
        mark(msg + secret[i].start, secret[i].end - secret[i].start);
}

/* After a call: its answer, which is then unmarked. Only the yes or no of check_mic may depend on a secret, and no
 * refusal. */
static void called(int call, unsigned jumps)
{
    uint64_t hidden = 0, yes_or_no = call == CALL_check_mic ? 1 : 0;

    VALGRIND_GET_VBITS(&answer, &hidden, sizeof answer);
    unmark(&answer, sizeof answer);
    last_call = call;
    is_shown = call < HELD && (hidden & (DIALTABLE_IS_REFUSED(answer) ? UINT64_MAX : ~yes_or_no)) != 0;
    counts[call].calls++;
    counts[call].jumps += jumps;
    counts[call].shown += is_shown != 0;
    if (DIALTABLE_IS_REFUSED(answer))
        counts[call].refused[DIALTABLE_NUMBER(answer)]++;
    else
        counts[call].answered++;
}
#define CALL(name, ...) \
    do { \
        unsigned before = VALGRIND_COUNT_ERRORS; \
        answer = dialtable_##name(__VA_ARGS__); \
        called(CALL_##name, VALGRIND_COUNT_ERRORS - before); \
    } while (0)

/* What must not depend on a secret after the last call. A call is counted once. */
static void is_public(const void *bytes, uint64_t size)
{
    if (size == 0 || VALGRIND_CHECK_MEM_IS_DEFINED(bytes, size) == 0)
        return;
    counts[last_call].shown += is_shown == 0;
    is_shown = 1;
    unmark(bytes, size);
}
/* A message that was written into so much room: public but for the secrets that its own heads say. */
static void is_public_but_secrets(const uint8_t *out, uint64_t room)
{
    struct stretch secret[STRETCHES];
    uint64_t written = DIALTABLE_IS_REFUSED(answer) ? 0 : answer < room ? answer : room;
    unsigned i;

    is_public(out, room < 64 ? room : 64);
    secrets_of(out, written, secret);
    for (i = 0; i < STRETCHES; i++)
        unmark(out + secret[i].start, secret[i].end - secret[i].start);
    is_public(out, room);
}

#endif
