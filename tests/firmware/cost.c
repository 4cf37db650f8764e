/*
 * A box's use of the library, with the long calls and their arrays or, where BY_STRUCT is defined, with the inline
 * functions over structs. tools/test-firmware wants the second to have no more code than the first.
 */
#include "dialtable.h"

static const uint8_t version[8] = {6, 1, 0xB1, 0x1D, 0, 0, 0, 15}, zeros[16] = {0};

struct own {
    const uint8_t *lm, *nt, *domain, *user, *workstation, *key;
    uint32_t nt_len, domain_len, user_len, workstation_len;
};

uint64_t answer(uint8_t *out, uint32_t room, const uint8_t *challenge, uint32_t challenge_len, uint32_t settings,
                uint64_t clock, const struct own *own, int *mic_due)
{
#ifdef BY_STRUCT
    struct dialtable_parts parts;
    struct dialtable_response done;
    uint64_t len;

    parts.version = version, parts.mic = zeros;
    parts.lm = dialtable_part(own->lm, 24), parts.nt = dialtable_part(own->nt, own->nt_len);
    parts.domain = dialtable_part(own->domain, own->domain_len), parts.user = dialtable_part(own->user, own->user_len);
    parts.workstation = dialtable_part(own->workstation, own->workstation_len), parts.key = dialtable_part(own->key, 16);
    len = dialtable_respond_struct(out, room, settings, challenge, challenge_len, clock, &parts, &done);
    if (DIALTABLE_IS_REFUSED(len)) return len;
    *mic_due = done.mic_due;
#else
    uint64_t done[DIALTABLE_RESPONSE_NUMBERS], len;

    len = dialtable_respond(out, room, challenge, challenge_len, settings, clock, version, zeros, own->lm, 24, own->nt,
                            own->nt_len, own->domain, own->domain_len, own->user, own->user_len, own->workstation,
                            own->workstation_len, own->key, 16, done, DIALTABLE_RESPONSE_NUMBERS);
    if (DIALTABLE_IS_REFUSED(len)) return len;
    *mic_due = done[DIALTABLE_RESPONSE_MIC_DUE] != 0;
#endif
    return len;
}

uint64_t write(uint8_t *out, uint32_t room, uint32_t flags, const struct own *own)
{
#ifdef BY_STRUCT
    struct dialtable_parts parts;

    parts.version = version, parts.mic = zeros;
    parts.lm = dialtable_part(own->lm, 24), parts.nt = dialtable_part(own->nt, own->nt_len);
    parts.domain = dialtable_part(own->domain, own->domain_len), parts.user = dialtable_part(own->user, own->user_len);
    parts.workstation = dialtable_part(own->workstation, own->workstation_len), parts.key = dialtable_part(own->key, 16);
    return dialtable_write_authenticate_struct(out, room, flags, &parts);
#else
    return dialtable_write_authenticate(out, room, flags, version, zeros, own->lm, 24, own->nt, own->nt_len, own->domain,
                                        own->domain_len, own->user, own->user_len, own->workstation,
                                        own->workstation_len, own->key, 16);
#endif
}

uint64_t user_of(const uint8_t *msg, uint32_t len, const uint8_t **user, uint32_t *user_len)
{
#ifdef BY_STRUCT
    struct dialtable_authenticate read;
    uint8_t mic[16];
    uint64_t answer = dialtable_read_authenticate_struct(msg, len, &read, mic, sizeof mic);

    if (DIALTABLE_IS_REFUSED(answer)) return answer;
    *user = msg + read.user.offset;
    *user_len = read.user.length;
#else
    uint64_t numbers[DIALTABLE_AUTHENTICATE_NUMBERS];
    uint8_t mic[16];
    uint64_t answer =
        dialtable_read_authenticate(msg, len, numbers, DIALTABLE_AUTHENTICATE_NUMBERS, mic, sizeof mic);

    if (DIALTABLE_IS_REFUSED(answer)) return answer;
    *user = msg + (uint32_t)numbers[DIALTABLE_AUTHENTICATE_USER_OFFSET];
    *user_len = (uint16_t)numbers[DIALTABLE_AUTHENTICATE_USER_LEN];
#endif
    return 0;
}

uint64_t flags_of(const uint8_t *msg, uint32_t len, uint32_t settings, uint64_t clock, uint32_t *flags, uint64_t *time)
{
#ifdef BY_STRUCT
    struct dialtable_decision decision;
    uint64_t answer = dialtable_decide_struct(settings, msg, len, clock, &decision);

    if (DIALTABLE_IS_REFUSED(answer)) return answer;
    *flags = decision.flags;
    *time = decision.time;
#else
    uint64_t numbers[DIALTABLE_DECISION_NUMBERS];
    uint64_t answer = dialtable_decide(settings, msg, len, numbers, DIALTABLE_DECISION_NUMBERS);

    if (DIALTABLE_IS_REFUSED(answer)) return answer;
    *flags = (uint32_t)numbers[DIALTABLE_DECISION_FLAGS];
    *time = numbers[DIALTABLE_DECISION_TIMESTAMP_THERE] != 0 && (settings & DIALTABLE_NTLMV2) != 0
                ? numbers[DIALTABLE_DECISION_TIMESTAMP] : clock;
#endif
    return 0;
}

uint64_t work_out(const uint8_t *bytes, uint32_t flags);

uint64_t hand_on_challenge(const uint8_t *msg, uint32_t len)
{
#ifdef BY_STRUCT
    struct dialtable_challenge read;
    uint8_t server_challenge[8];
    uint64_t answer = dialtable_read_challenge_struct(msg, len, &read, server_challenge, sizeof server_challenge);

    if (DIALTABLE_IS_REFUSED(answer)) return answer;
    return work_out(server_challenge, read.flags);
#else
    uint64_t numbers[DIALTABLE_CHALLENGE_NUMBERS];
    uint8_t server_challenge[8];
    uint64_t answer = dialtable_read_challenge(msg, len, numbers, DIALTABLE_CHALLENGE_NUMBERS, server_challenge,
                                               sizeof server_challenge);

    if (DIALTABLE_IS_REFUSED(answer)) return answer;
    return work_out(server_challenge, (uint32_t)numbers[DIALTABLE_CHALLENGE_FLAGS]);
#endif
}

uint64_t hand_on_mic(const uint8_t *msg, uint32_t len)
{
#ifdef BY_STRUCT
    struct dialtable_authenticate read;
    uint8_t mic[16];
    uint64_t answer = dialtable_read_authenticate_struct(msg, len, &read, mic, sizeof mic);

    if (DIALTABLE_IS_REFUSED(answer) || !read.mic_present) return answer;
    return work_out(mic, 0);
#else
    uint64_t numbers[DIALTABLE_AUTHENTICATE_NUMBERS];
    uint8_t mic[16];
    uint64_t answer =
        dialtable_read_authenticate(msg, len, numbers, DIALTABLE_AUTHENTICATE_NUMBERS, mic, sizeof mic);

    if (DIALTABLE_IS_REFUSED(answer) || numbers[DIALTABLE_AUTHENTICATE_MIC_PRESENT] == 0) return answer;
    return work_out(mic, 0);
#endif
}
