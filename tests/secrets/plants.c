/* See plants.h. A stand-in finds its secret by secret.h, as try.h does to mark it. */
#include <stddef.h>
#include <valgrind/memcheck.h>

#include "calls.h"
#include "dialtable.h"
#include "plants.h"
#include "secret.h"

int planted_call, planted_fault, planted_secret;
unsigned long planted_times;

/* Volatile, so that no compiler leaves a fault out or makes it without a jump. */
static volatile unsigned sink;
static volatile const uint8_t table[256] = {3, 1, 4, 1, 5, 9, 2, 6};
__attribute__((noinline)) static void planted_jump(uint8_t secret)
{
    if (secret & 1)
        sink = 1;
}
__attribute__((noinline)) static void planted_address(uint8_t secret)
{
    sink = table[secret];
}

/* The answer, after the fault. None is made where the message lacks the secret, or there is no such byte or number. */
static uint64_t plant(int call, const uint8_t *secret, uint8_t *public_byte, uint64_t *number, uint64_t answer)
{
    if (call != planted_call || secret == NULL || (planted_fault == IN_PUBLIC && public_byte == NULL) ||
        (planted_fault == IN_NUMBER && number == NULL))
        return answer;
    planted_times++;
    switch (planted_fault) {
    case JUMP: planted_jump(*secret); break;
    case ADDRESS: planted_address(*secret); break;
    case IN_ANSWER: return answer ^ (uint64_t)(*secret & 1) << 8;
    case IN_PUBLIC: *public_byte ^= *secret & 1; break;
    case IN_NUMBER: *number ^= *secret & 1; break;
    }
    return answer;
}

static const uint8_t *secret_in(const uint8_t *msg, dialtable_len len)
{
    struct stretch secret[STRETCHES];

    secrets_of(msg, len, secret);
    return secret[planted_secret].end > 0 ? msg + secret[planted_secret].start : NULL;
}
/* A public byte of an output: the first of Version, or where nothing is written the output's first. */
static uint8_t *public_of(uint8_t *out, dialtable_len room, uint64_t answer)
{
    return room == 0 ? NULL : DIALTABLE_IS_REFUSED(answer) ? out : out + 64;
}

/* The stand-in of a call: its name, its parameters, these as arguments, its secret, its public byte and its number. */
#define STAND_IN(name, parameters, arguments, secret, public_byte, number) \
    uint64_t __real_dialtable_##name parameters; \
    uint64_t __wrap_dialtable_##name parameters; \
    uint64_t __wrap_dialtable_##name parameters \
    { \
        uint64_t answer = __real_dialtable_##name arguments; \
        return plant(CALL_##name, secret, public_byte, number, answer); \
    }

#define LINE(name) \
    STAND_IN(name, (const uint8_t *msg, dialtable_len len, uint8_t *out, dialtable_len room), (msg, len, out, room), \
             secret_in(msg, len), room > 0 ? out : NULL, NULL)
LINE_CALLS(LINE)

/* Refused, it leaves the MIC's bytes as they were. */
STAND_IN(read_authenticate,
         (const uint8_t *msg, dialtable_len len, uint64_t *numbers, dialtable_len count, uint8_t *mic,
          dialtable_len mic_len),
         (msg, len, numbers, count, mic, mic_len),
         secret_in(msg, len), DIALTABLE_IS_REFUSED(answer) ? mic : NULL, DIALTABLE_IS_REFUSED(answer) ? NULL : numbers)
STAND_IN(canonical_authenticate,
         (uint8_t *out, dialtable_len room, const uint8_t *msg, dialtable_len len), (out, room, msg, len),
         secret_in(msg, len), public_of(out, room, answer), NULL)
/* Of these two the whole message is marked: its heads can't be looked at. */
STAND_IN(field_bytes,
         (const uint8_t *msg, dialtable_len len, uint32_t offset, uint16_t size, uint8_t *out, dialtable_len room),
         (msg, len, offset, size, out, room), msg + len - 1, room > size ? out + room - 1 : NULL, NULL)
STAND_IN(export_header,
         (uint8_t *out, dialtable_len room, const uint8_t *msg, dialtable_len len), (out, room, msg, len),
         msg + len - 1, room > 0 ? out : NULL, NULL)

#define SIGN_IN_PARAMETERS \
    const uint8_t *key, dialtable_len key_len, const uint8_t *negotiate, dialtable_len negotiate_len, \
    const uint8_t *challenge, dialtable_len challenge_len, const uint8_t *msg, dialtable_len len
#define SIGN_IN key, key_len, negotiate, negotiate_len, challenge, challenge_len, msg, len
#define SIGN_IN_SECRET (planted_secret != BY_KEY ? secret_in(msg, len) : key_len > 0 ? key : NULL)
STAND_IN(mic, (SIGN_IN_PARAMETERS, uint8_t *mic, dialtable_len mic_len), (SIGN_IN, mic, mic_len), SIGN_IN_SECRET, NULL,
         NULL)
STAND_IN(check_mic, (SIGN_IN_PARAMETERS), (SIGN_IN), SIGN_IN_SECRET, NULL, NULL)

#define PARTS_PARAMETERS \
    const uint8_t version[8], const uint8_t mic[16], const uint8_t *lm, dialtable_len lm_len, const uint8_t *nt, \
    dialtable_len nt_len, const uint8_t *domain, dialtable_len domain_len, const uint8_t *user, \
    dialtable_len user_len, const uint8_t *workstation, dialtable_len workstation_len, const uint8_t *key, \
    dialtable_len key_len
#define PARTS \
    version, mic, lm, lm_len, nt, nt_len, domain, domain_len, user, user_len, workstation, workstation_len, key, key_len
#define PARTS_SECRET given(mic, lm, lm_len, nt, nt_len, key, key_len)
static const uint8_t *given(const uint8_t *mic, const uint8_t *lm, dialtable_len lm_len, const uint8_t *nt,
                            dialtable_len nt_len, const uint8_t *key, dialtable_len key_len)
{
    switch (planted_secret) {
    case BY_LM: return lm_len > 0 ? lm : NULL;
    case BY_NT: return nt_len > 0 ? nt : NULL;
    case BY_KEY: return key_len > 0 ? key : NULL;
    default: return mic;
    }
}
STAND_IN(write_authenticate, (uint8_t *out, dialtable_len room, uint32_t flags, PARTS_PARAMETERS),
         (out, room, flags, PARTS), PARTS_SECRET, public_of(out, room, answer), NULL)
#define CHALLENGE_PARAMETERS uint8_t *out, dialtable_len room, const uint8_t *challenge, dialtable_len challenge_len
#define CHALLENGE out, room, challenge, challenge_len
#define RESPOND(name, own_parameters, own) \
    STAND_IN(name, (CHALLENGE_PARAMETERS, own_parameters, PARTS_PARAMETERS, uint64_t *numbers, dialtable_len count), \
             (CHALLENGE, own, PARTS, numbers, count), PARTS_SECRET, public_of(out, room, answer), \
             DIALTABLE_IS_REFUSED(answer) ? NULL : numbers)
#define AND , /* a comma inside a macro's argument */
RESPOND(respond, uint32_t settings AND uint64_t clock, settings AND clock)
RESPOND(respond_for_bench, uint64_t clock AND uint32_t demand_128, clock AND demand_128)
RESPOND(respond_to_old_server, uint64_t clock, clock)
RESPOND(respond_for_relay, uint64_t clock, clock)

/* That of the first listed AUTHENTICATE. Where another listed message has the byte too, it may be no secret, and is
 * then not marked. */
static const uint8_t *secret_in_night(const uint8_t *buffer, dialtable_len size, const struct dialtable_entry *entry)
{
    const uint8_t *secret = NULL;
    uint8_t marked = 0;

    if (entry->mark == DIALTABLE_AUTHENTICATE && entry->start <= size && entry->length <= size - entry->start)
        secret = secret_in(buffer + entry->start, entry->length);
    if (secret != NULL)
        VALGRIND_GET_VBITS(secret, &marked, 1);
    return marked ? secret : NULL;
}
STAND_IN(check_messages,
         (const uint8_t *buffer, dialtable_len size, struct dialtable_entry *entries, dialtable_len count),
         (buffer, size, entries, count), secret_in_night(buffer, size, entries), (uint8_t *)&entries->number, NULL)
