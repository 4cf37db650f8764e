/*
 * Dialtable: NTLM and NL_AUTH messages read and written, with every call proved against its definition.
 *
 *     gcc -Iinclude program.c target/staticlib/libdialtable.a -o program
 *
 * In this file, in this order: a sign-in, the rules of every call, answers and refusals, flags and settings, the calls
 * of a sign-in, reading, one AUTHENTICATE from its parts, log lines, a night's messages, HTTP header lines, NL_AUTH, and
 * lists of pairs. Functions without the prefix dialtable_ are yours.
 *
 * A sign-in, as examples/sign_in/sign_in.c has it, which 'make sign-in' tries on servers:
 *
 *     // Ask. exchange sends a message, and where there is room receives the server's.
 *     first_len = dialtable_write_negotiate(first, sizeof first, box->wanted, version, NULL, 0, NULL, 0);
 *     if (DIALTABLE_IS_REFUSED(first_len)) return first_len;
 *     log_it(line, dialtable_negotiate_line(first, first_len, line, sizeof line));
 *     challenge_len = exchange(first, first_len, challenge, sizeof challenge);
 *     log_it(line, dialtable_challenge_line(challenge, challenge_len, line, sizeof line));
 *     // Is the challenge good enough? Its flags say how the names go out: UTF-16LE or bytes.
 *     answer = dialtable_decide_struct(box->settings, challenge, challenge_len, box->clock, &decision);
 *     if (DIALTABLE_IS_REFUSED(answer)) return answer;
 *     if (!encode(box, (decision.flags & DIALTABLE_FLAG_UNICODE) != 0, &own)) return NAME_UNSENT;
 *     // The radio module works out responses and keys, over the Time and the pair list that goes back.
 *     pairs_len = dialtable_write_response_pairs(pairs, sizeof pairs, challenge, challenge_len, own.target.bytes,
 *                                                own.target.length, 0, zeros);
 *     if (DIALTABLE_IS_REFUSED(pairs_len)) return pairs_len;
 *     worked_out = work_out(radio, challenge, challenge_len, decision.time, pairs, pairs_len, &own);
 *     if (worked_out != 0) return worked_out;
 *     // Write the answer. A MIC goes in afterwards: it is worked out over all three messages.
 *     parts.domain = own.domain, parts.user = own.user, parts.workstation = own.workstation;
 *     parts.lm = dialtable_part(radio->lm, sizeof radio->lm), parts.nt = dialtable_part(radio->nt, radio->nt_len);
 *     parts.key = dialtable_part(radio->key, sizeof radio->key), parts.version = version, parts.mic = zeros;
 *     answer = dialtable_respond_struct(out, sizeof out, box->settings, challenge, challenge_len, box->clock, &parts, &done);
 *     if (DIALTABLE_IS_REFUSED(answer)) return answer;
 *     if (done.mic_due)
 *         worked_out = dialtable_write_mic(radio->session_key, sizeof radio->session_key, first, first_len, challenge,
 *                                          challenge_len, out, answer);
 *     if (DIALTABLE_IS_REFUSED(worked_out)) return worked_out;
 *     // Send it.
 *     log_it(line, dialtable_authenticate_line(out, answer, line, sizeof line));
 *     return exchange(out, answer, NULL, 0);
 *
 * exchange answers how long the server's message is, 0 where none came; for the last message, which has no room for
 * another, 0 where it was sent whole, else a number of your own. encode writes every name whole or answers 0.
 * box->wanted are DIALTABLE_FLAGS_WANTED and box->settings DIALTABLE_DEFAULTS, or less for an old server. The key that
 * is sent (radio->key) is the exported session key (radio->session_key) as the radio module has encrypted it; the MIC
 * is worked out with the exported one itself.
 *
 * Whoever saw all three messages and has the key, a server or a bench, checks them (examples/sign_in/bench.c):
 *
 *     answer = dialtable_check_mic(seen->key, seen->key_len, seen->negotiate, seen->negotiate_len, seen->challenge,
 *                                  seen->challenge_len, seen->authenticate, seen->authenticate_len);
 *     if (dialtable_mic_is_right(answer)) puts("yes");
 *     else if (!refused(answer)) puts("no");
 *
 * ---- The rules of every call.
 *
 * Every call takes bytes as they come, of any length, and always ends. Nothing is kept between calls and nothing is
 * allocated; calls are reentrant. Memory is lent for the length of the call: inputs are only read, an output is written
 * at its start and left as it was after that, and of a night's entries only the answers are written. An output must not
 * overlap an input or another output. A pointer may be NULL where its length is 0; version, mic and bindings, where they
 * come without a length, must never be NULL.
 *
 * The answer is 0, or the length of what was written, or a refusal. A refusal changes no byte of any output. An output
 * exactly as long as what is written suffices.
 *
 *     uint64_t answer = dialtable_authenticate_line(msg, msg_len, line, sizeof line);
 *     if (DIALTABLE_IS_REFUSED(answer))
 *         printf("refused: %s, field %u\n", dialtable_refusal_text(DIALTABLE_NUMBER(answer)), DIALTABLE_FIELD(answer));
 *
 * Keep an answer in a uint64_t: in 32 bits a refusal looks like a length. The macros don't compile with anything else,
 * and a compiler that can warns where an answer is dropped.
 *
 * Numbers come back in an array of uint64_t, at the places that are named before each call. A call whose name ends in
 * _struct has the members of a struct for them: it is inline and makes the call with the array, which is the one that
 * is proved. A refusal leaves array and struct as they were. numbers_len counts numbers, not bytes: write
 * DIALTABLE_COUNT(numbers). An array (or a MIC's or a server challenge's bytes) that is too short is refused 33, before
 * anything is read.
 *
 * Names are UTF-16LE where the flags have UNICODE, else bytes (OEM); those of a NEGOTIATE are always bytes, and those
 * in pairs always UTF-16LE. Times are the 64-bit numbers of the timestamp pair: tenths of microseconds since 1601.
 *
 * Proved is the module that the library is compiled from, for every input, in the language's own abstract machine. The
 * compiler's work after that is not proved: it is tested, for x86-64 built fast and built small in 'make test', for
 * Cortex-M3, Cortex-M0 and riscv32 in 'make test-firmware'. What is inline here is C, and tested.
 *
 * Nothing is proved of time either. 'make test-secrets' tests, for the two builds for x86-64, that no conditional jump
 * and no memory address depends on a byte of an LM response, an NT response, a session key or a MIC, in any call that is
 * lent one but dialtable_import_header, which looks at each character of its text. Other targets are not tested for it.
 */
#ifndef DIALTABLE_H
#define DIALTABLE_H

#include <stddef.h>
#include <stdint.h>

/* ---- What the compiler needs first. To read on, go to 'Answers and refusals'. */

/* The version of the header, of the Rust crate and of pkg-config's file. */
#define DIALTABLE_VERSION "0.1.0"
#define DIALTABLE_VERSION_NUMBER 100 /* 10,000 for the first of its numbers, 100 for the second, 1 for the third */

/* A compiler that can warns where the answer of a call is dropped. */
#if defined __cplusplus && __cplusplus >= 201703L || defined __STDC_VERSION__ && __STDC_VERSION__ > 201710L
#define DIALTABLE_MUST_USE [[nodiscard]]
#elif defined __GNUC__
#define DIALTABLE_MUST_USE __attribute__((warn_unused_result))
#else
#define DIALTABLE_MUST_USE
#endif

/* The functions of this file: always inline where a compiler can be told, so that a struct costs no code. */
#ifdef __GNUC__
#define DIALTABLE_INLINE static inline __attribute__((always_inline))
#else
#define DIALTABLE_INLINE static inline
#endif

/* An answer as it is; anything that isn't a number of 64 bits doesn't compile. */
#if defined __cplusplus && __cplusplus >= 201103L
extern "C++" {
template <class number> DIALTABLE_INLINE constexpr uint64_t dialtable_number_of_64_bits(number answer)
{
    static_assert(sizeof(answer & 0u) == 8, "an answer has 64 bits: keep it in a uint64_t");
    return static_cast<uint64_t>(answer);
}
}
#define DIALTABLE_ANSWER_OF_64_BITS(answer) dialtable_number_of_64_bits(answer)
#else
#ifdef __GNUC__
#define DIALTABLE_SIZE_OF_ANSWER(answer) sizeof(__typeof__((answer) & 0u))
#else
#define DIALTABLE_SIZE_OF_ANSWER(answer) sizeof((answer) & 0u)
#endif
#define DIALTABLE_ANSWER_OF_64_BITS(answer) \
    ((uint64_t)(answer) + 0 * sizeof(char[DIALTABLE_SIZE_OF_ANSWER(answer) == 8 ? 1 : -1]))
#endif

/* How many elements an array has, such as that of a call's numbers. A pointer has none to count. */
#if defined __cplusplus && __cplusplus >= 201103L
extern "C++" {
template <class number, size_t count> DIALTABLE_INLINE constexpr uint64_t dialtable_count_of_array(const number (&)[count])
{
    return count;
}
}
#define DIALTABLE_COUNT(array) dialtable_count_of_array(array)
#elif defined __GNUC__ && !defined __cplusplus
#define DIALTABLE_COUNT(array) \
    ((uint64_t)(sizeof(array) / sizeof(*(array)) + \
                0 * sizeof(char[__builtin_types_compatible_p(__typeof__(array), __typeof__(&*(array))) ? -1 : 1])))
#else
#define DIALTABLE_COUNT(array) ((uint64_t)(sizeof(array) / sizeof(*(array))))
#endif

#ifdef __cplusplus
extern "C" {
#endif

/* Every length has 64 bits, on a box with 32-bit pointers too. A length must be that of memory which is there. */
typedef uint64_t dialtable_len;

/* ---- Answers and refusals. */

#define DIALTABLE_IS_REFUSED(answer) ((int)(DIALTABLE_ANSWER_OF_64_BITS(answer) >> 63))
#define DIALTABLE_NUMBER(answer) ((unsigned)(DIALTABLE_ANSWER_OF_64_BITS(answer) >> 8 & 0xffu))
/* The field, 0 where no other is said. AUTHENTICATE: LM response 1, NT response 2, domain 3, user 4, workstation 5,
 * session key 6. CHALLENGE: target name 1, target info 2. NEGOTIATE: domain 1, workstation 2. NL_AUTH: strings A to E
 * are 1 to 5. */
#define DIALTABLE_FIELD(answer) ((unsigned)(DIALTABLE_ANSWER_OF_64_BITS(answer) & 0xffu))
/* Where in a pair list a refusal 10 to 13 is: the first byte of the pair that failed (for 12 the end pair's, also where
 * bytes stand after it), for 11 where a pair should have started, which is the list's end where the list just runs out.
 * Counted from the start of the message, or of the list in the calls that are lent a list alone. 0 for every other
 * number. It has 47 bits: a place past 0x7fffffffffff is shown as 0x7fffffffffff. No message is that long, only a list
 * lent alone, or a walk that is asked past its list. */
#define DIALTABLE_PLACE(answer) (DIALTABLE_ANSWER_OF_64_BITS(answer) >> 16 & 0x7fffffffffffu)

/* Three calls are named check_, and their 0 is not the same:
 *     dialtable_check_mic         1: the MIC is right.   0: it is wrong.   Refused 56: there is none.
 *     dialtable_check_messages    0: each entry has its own answer, which may be a refusal.
 *     dialtable_check_pairs       0: the list is sound.
 * 'if (dialtable_check_mic(..))' would take a message without a MIC, since a refusal is not 0. */

/* 1 only where this is the answer of dialtable_check_mic and the MIC was checked and is right. */
DIALTABLE_MUST_USE DIALTABLE_INLINE int dialtable_mic_is_right(uint64_t answer)
{
    return answer == 1;
}
#define dialtable_mic_is_right(answer) dialtable_mic_is_right(DIALTABLE_ANSWER_OF_64_BITS(answer))

/* Every refusal: X(NAME, NUMBER, "what is wrong"). DIALTABLE_REFUSED_NAME is the number, and the calls below tell
 * which of them they give.
 *   8: wget writes bytes (OEM) as names though its flags have UNICODE, and is refused where one has odd length; where
 *      all are even they are read as UTF-16LE, which they aren't.
 *   4: also a night's mark that is no kind's.  1: also a night's buffer.  30: also a pair list.
 *   31: with UNICODE; a pair's name always.  54: start and length of a night's entry. */
#define DIALTABLE_REFUSALS(X) \
    X(TOO_LONG, 1, "message over 65,535 bytes") \
    X(TOO_SHORT, 2, "shorter than its fixed part") \
    X(WRONG_SIGNATURE, 3, "signature differs") \
    X(WRONG_TYPE, 4, "type differs") \
    X(NO_CHARSET, 5, "UNICODE and OEM both clear") \
    X(PAST_END, 6, "a field ends past the message") \
    X(IN_FIXED_PART, 7, "a field begins in the fixed part") \
    X(ODD_NAME, 8, "a name at an odd place or of odd length") \
    X(NAME_OVER_SECRET, 9, "a name shares a byte with a secret") \
    X(PAIR_PAST_END, 10, "a pair's value passes the end of the list") \
    X(PAIR_MISSING, 11, "under 4 bytes left where a pair should start") \
    X(WRONG_END_PAIR, 12, "end pair with nonzero length, or bytes after it") \
    X(WRONG_PAIR_SIZE, 13, "a pair of a size that its id forbids") \
    X(NO_STRINGS, 14, "NL_AUTH request with no bit A to E") \
    X(UNTERMINATED, 15, "a string without its zero byte, or a name cut short") \
    X(BYTES_LEFT, 16, "bytes after the last string") \
    X(WRONG_RESPONSE, 17, "a response's buffer isn't one zero byte") \
    X(NO_128_BIT, 20, "128-bit demanded, not in the flags") \
    X(NO_SERVER_NAMES, 21, "integrity or confidentiality wanted, pairs 1 and 2 not both there") \
    X(TOO_LONG_TO_WRITE, 30, "a message to write would pass 65,535 bytes") \
    X(ODD_NAME_TO_WRITE, 31, "a name to write has odd length") \
    X(WRONG_KEY, 32, "a key neither empty nor 16 bytes, or without KEY_EXCH") \
    X(NO_ROOM, 33, "an output is too short") \
    X(ZERO_IN_STRING, 34, "an NL_AUTH string to write holds a zero byte") \
    X(WRONG_LABEL, 50, "a length byte of other top bits, or a label to write that is empty or over 63") \
    X(PLACE_NOT_BEFORE, 51, "a jump to a place that is not before its run of labels") \
    X(TOO_MANY_JUMPS, 52, "a seventeenth jump in one name") \
    X(NAME_TOO_LONG, 53, "a name whose coded length is over 255") \
    X(PLACE_OUTSIDE, 54, "a message that passes the end of the night's buffer") \
    X(WRONG_SESSION_KEY, 55, "a session key that isn't 16 bytes") \
    X(NO_MIC, 56, "an AUTHENTICATE without a MIC") \
    X(WRONG_SCHEME, 57, "a header's text without the word NTLM and a space") \
    X(WRONG_BASE64, 58, "a bad character, padding, group or last bits in base64")

#define DIALTABLE_REFUSAL_NUMBER(name, number, text) DIALTABLE_REFUSED_##name = number,
enum { DIALTABLE_REFUSALS(DIALTABLE_REFUSAL_NUMBER) };
#undef DIALTABLE_REFUSAL_NUMBER

/* What is wrong, by the refusal's number: that of DIALTABLE_NUMBER(answer), or of a night's entry. Never NULL. */
#define DIALTABLE_REFUSAL_CASE(name, number, text) case number: return text;
DIALTABLE_MUST_USE static inline const char *dialtable_refusal_text(unsigned number)
{
    switch (number) {
    case 0: return "not refused";
    DIALTABLE_REFUSALS(DIALTABLE_REFUSAL_CASE)
    default: return number > 255 ? "no refusal's number: give DIALTABLE_NUMBER(answer)" : "another reason";
    }
}
#undef DIALTABLE_REFUSAL_CASE

/* ---- Flags and settings. */

/* NegotiateFlags of MS-NLMP 2.2.2.5. The library goes by UNICODE (which wins over OEM), OEM, REQUEST_TARGET, SIGN, SEAL,
 * DOMAIN_SUPPLIED, WORKSTATION_SUPPLIED, TARGET_INFO, VERSION, 128 and KEY_EXCH; the others are read and written as they
 * are. */
#define DIALTABLE_FLAG_UNICODE 0x1u
#define DIALTABLE_FLAG_OEM 0x2u
#define DIALTABLE_FLAG_REQUEST_TARGET 0x4u
#define DIALTABLE_FLAG_SIGN 0x10u
#define DIALTABLE_FLAG_SEAL 0x20u
#define DIALTABLE_FLAG_DATAGRAM 0x40u
#define DIALTABLE_FLAG_LM_KEY 0x80u
#define DIALTABLE_FLAG_NTLM 0x200u
#define DIALTABLE_FLAG_ANONYMOUS 0x800u
#define DIALTABLE_FLAG_DOMAIN_SUPPLIED 0x1000u
#define DIALTABLE_FLAG_WORKSTATION_SUPPLIED 0x2000u
#define DIALTABLE_FLAG_ALWAYS_SIGN 0x8000u
#define DIALTABLE_FLAG_TARGET_TYPE_DOMAIN 0x10000u
#define DIALTABLE_FLAG_TARGET_TYPE_SERVER 0x20000u
#define DIALTABLE_FLAG_EXTENDED_SESSIONSECURITY 0x80000u
#define DIALTABLE_FLAG_IDENTIFY 0x100000u
#define DIALTABLE_FLAG_REQUEST_NON_NT_SESSION_KEY 0x400000u
#define DIALTABLE_FLAG_TARGET_INFO 0x800000u
#define DIALTABLE_FLAG_VERSION 0x2000000u
#define DIALTABLE_FLAG_128 0x20000000u
#define DIALTABLE_FLAG_KEY_EXCH 0x40000000u
#define DIALTABLE_FLAG_56 0x80000000u

/* What a box asks for in its NEGOTIATE: that which 'make sign-in' sends. Ask for KEY_EXCH only together with SIGN or
 * SEAL: to a challenge with KEY_EXCH and neither of them no key is sent, and Samba and gss-ntlmssp then refuse the
 * sign-in. Without 128 a challenge is refused 20, unless the settings leave DIALTABLE_DEMAND_128 out. For names in bytes
 * ask for OEM and not for UNICODE. */
#define DIALTABLE_FLAGS_WANTED \
    (DIALTABLE_FLAG_UNICODE | DIALTABLE_FLAG_REQUEST_TARGET | DIALTABLE_FLAG_SIGN | DIALTABLE_FLAG_SEAL | \
     DIALTABLE_FLAG_NTLM | DIALTABLE_FLAG_ALWAYS_SIGN | DIALTABLE_FLAG_EXTENDED_SESSIONSECURITY | \
     DIALTABLE_FLAG_TARGET_INFO | DIALTABLE_FLAG_VERSION | DIALTABLE_FLAG_128 | DIALTABLE_FLAG_KEY_EXCH | \
     DIALTABLE_FLAG_56)

/* Settings: what the box demands of a challenge. A sum of these bits; other bits are ignored. */
#define DIALTABLE_DEMAND_128 1u      /* refuse (20) a challenge without 128-bit */
#define DIALTABLE_NTLMV2 2u          /* a timestamp in the challenge is the Time, and the LM response then zeros */
#define DIALTABLE_INTEGRITY 4u       /* with NTLMV2: refuse (21) a challenge that has not both pairs 1 and 2 */
#define DIALTABLE_CONFIDENTIALITY 8u /* the same */
#define DIALTABLE_DEFAULTS (DIALTABLE_DEMAND_128 | DIALTABLE_NTLMV2)

/* ---- A sign-in, in the order of its calls. Its log lines are further down. */

/* 1. The NEGOTIATE. Room: 40 bytes and those of both names. A name that isn't empty sets its bit in the flags written
 * (DOMAIN_SUPPLIED, WORKSTATION_SUPPLIED) and an empty one clears it; other bits are written as they are. Both names are
 * bytes (OEM), also with UNICODE. Version is written with VERSION, else zeros. Refuses 5, 30, 33. Answers the message's
 * length. */
DIALTABLE_MUST_USE
uint64_t dialtable_write_negotiate(uint8_t *out, dialtable_len out_len, uint32_t flags, const uint8_t version[8],
                                   const uint8_t *domain, dialtable_len domain_len, const uint8_t *workstation,
                                   dialtable_len workstation_len);

/* 2. The decision on the challenge: reading it, 20, 21. Answers 0. */
enum {
    DIALTABLE_DECISION_FLAGS,
    DIALTABLE_DECISION_TIMESTAMP_THERE, /* 0 or 1 */
    DIALTABLE_DECISION_TIMESTAMP,       /* 0 where there is none */
    DIALTABLE_DECISION_NUMBERS
};
DIALTABLE_MUST_USE
uint64_t dialtable_decide(uint32_t settings, const uint8_t *challenge, dialtable_len challenge_len, uint64_t *numbers,
                          dialtable_len numbers_len);

struct dialtable_decision {
    uint32_t flags; /* the challenge's */
    int timestamp_there;
    uint64_t timestamp;
    uint64_t time; /* the Time that the response is worked out over */
};
/* The Time is the timestamp where one is there and NTLMV2 is set, else the clock. */
DIALTABLE_MUST_USE DIALTABLE_INLINE
uint64_t dialtable_decide_struct(uint32_t settings, const uint8_t *challenge, dialtable_len challenge_len,
                                 uint64_t clock, struct dialtable_decision *decision)
{
    uint64_t numbers[DIALTABLE_DECISION_NUMBERS];
    uint64_t answer = dialtable_decide(settings, challenge, challenge_len, numbers, DIALTABLE_COUNT(numbers));

    if (DIALTABLE_IS_REFUSED(answer)) return answer;
    decision->flags = (uint32_t)numbers[DIALTABLE_DECISION_FLAGS];
    decision->time = numbers[DIALTABLE_DECISION_TIMESTAMP_THERE] != 0 && (settings & DIALTABLE_NTLMV2) != 0
                         ? numbers[DIALTABLE_DECISION_TIMESTAMP] : clock;
    decision->timestamp_there = numbers[DIALTABLE_DECISION_TIMESTAMP_THERE] != 0;
    decision->timestamp = numbers[DIALTABLE_DECISION_TIMESTAMP];
    return answer;
}

/* 3. The domain to send, for a response that is worked out over the domain: own, or where that is empty and UNICODE is
 * set, the challenge's first pair 2. Copies it, and answers its length. */
DIALTABLE_MUST_USE
uint64_t dialtable_domain_to_send(const uint8_t *own, dialtable_len own_len, const uint8_t *challenge,
                                  dialtable_len challenge_len, uint8_t *out, dialtable_len out_len);

/* 4. The pair list that goes back inside the NTLMv2 response: the challenge's pairs in their order, without those of ids
 * 9 and 10; then pair 10 with the bindings (16 zeros for none), pair 9 with the target name, which is that of the server
 * the box wants, always UTF-16LE, and the end pair. In the first flags pair the bits below are set: MIC where a
 * timestamp is there, UNVERIFIED where unverified is not 0 and the target name is not empty. Where a bit is due and no
 * flags pair came in, one with it stands before pair 10. Where the target info is empty or doesn't count it is the end
 * pair alone. Refuses as reading does (not by 20 and 21), then 31 (field 2) a target name of odd length, whatever the
 * flags say, 30 a list over 65,535 bytes, and 33. Room: 32 bytes and those of the target info and of the target name.
 * Answers the list's length. */
#define DIALTABLE_PAIR_FLAG_MIC 0x2u
#define DIALTABLE_PAIR_FLAG_UNVERIFIED 0x4u
DIALTABLE_MUST_USE
uint64_t dialtable_write_response_pairs(uint8_t *out, dialtable_len out_len, const uint8_t *challenge,
                                        dialtable_len challenge_len, const uint8_t *target_name,
                                        dialtable_len target_name_len, uint32_t unverified, const uint8_t bindings[16]);

/* 5. The AUTHENTICATE that answers the challenge, with the challenge's flags and the domain to send. Names go out as
 * they are given: the challenge's UNICODE decides, before the call, whether user, workstation and own domain must be
 * UTF-16LE or bytes. With a timestamp and NTLMV2 the LM response written is 24 zero bytes; a MIC that is not due is
 * written as zeros; the key is written with KEY_EXCH and SIGN or SEAL, else passed over. Room: 88 bytes and those of the
 * six fields, the domain being the one that is sent. Refuses as dialtable_decide does, then 31, 32, 30, 33. Answers the
 * message's length. */
enum {
    DIALTABLE_RESPONSE_TIME,    /* the server's timestamp, or the clock */
    DIALTABLE_RESPONSE_MIC_DUE, /* 0 or 1 */
    DIALTABLE_RESPONSE_NUMBERS
};
DIALTABLE_MUST_USE
uint64_t dialtable_respond(uint8_t *out, dialtable_len out_len, const uint8_t *challenge, dialtable_len challenge_len,
                           uint32_t settings, uint64_t clock, const uint8_t version[8], const uint8_t mic[16],
                           const uint8_t *lm, dialtable_len lm_len, const uint8_t *nt, dialtable_len nt_len,
                           const uint8_t *domain, dialtable_len domain_len, const uint8_t *user, dialtable_len user_len,
                           const uint8_t *workstation, dialtable_len workstation_len, const uint8_t *key,
                           dialtable_len key_len, uint64_t *numbers, dialtable_len numbers_len);

/* The same with its parts by name. A part that is all zero is an empty one, a version or mic that is NULL is zeros:
 * 'struct dialtable_parts parts = {0};' in C, '= {}' in C++, is an AUTHENTICATE without a part. */
struct dialtable_bytes {
    const uint8_t *bytes;
    dialtable_len length;
};
struct dialtable_parts {
    const uint8_t *version, *mic; /* 8 and 16 bytes, or NULL */
    struct dialtable_bytes lm, nt, domain, user, workstation, key;
};
struct dialtable_response {
    uint64_t time;
    int mic_due;
};
DIALTABLE_MUST_USE DIALTABLE_INLINE
struct dialtable_bytes dialtable_part(const uint8_t *bytes, dialtable_len length)
{
    struct dialtable_bytes part;

    part.bytes = bytes;
    part.length = length;
    return part;
}
static const uint8_t dialtable_zeros[16] = {0};
DIALTABLE_MUST_USE DIALTABLE_INLINE
uint64_t dialtable_respond_struct(uint8_t *out, dialtable_len out_len, uint32_t settings, const uint8_t *challenge,
                                  dialtable_len challenge_len, uint64_t clock, const struct dialtable_parts *parts,
                                  struct dialtable_response *response)
{
    uint64_t numbers[DIALTABLE_RESPONSE_NUMBERS];
    uint64_t answer = dialtable_respond(
        out, out_len, challenge, challenge_len, settings, clock, parts->version != NULL ? parts->version : dialtable_zeros,
        parts->mic != NULL ? parts->mic : dialtable_zeros, parts->lm.bytes, parts->lm.length, parts->nt.bytes,
        parts->nt.length, parts->domain.bytes, parts->domain.length, parts->user.bytes, parts->user.length,
        parts->workstation.bytes, parts->workstation.length, parts->key.bytes, parts->key.length, numbers,
        DIALTABLE_COUNT(numbers));

    if (DIALTABLE_IS_REFUSED(answer)) return answer;
    response->time = numbers[DIALTABLE_RESPONSE_TIME];
    response->mic_due = numbers[DIALTABLE_RESPONSE_MIC_DUE] != 0;
    return answer;
}

/* dialtable_respond with the default settings, but for 128-bit: for the bench, which demands it where demand_128 is not
 * 0; for old servers, of which it is not demanded; for the relay, by the defaults. */
DIALTABLE_MUST_USE
uint64_t dialtable_respond_for_bench(uint8_t *out, dialtable_len out_len, const uint8_t *challenge,
                                     dialtable_len challenge_len, uint64_t clock, uint32_t demand_128,
                                     const uint8_t version[8], const uint8_t mic[16], const uint8_t *lm,
                                     dialtable_len lm_len, const uint8_t *nt, dialtable_len nt_len,
                                     const uint8_t *domain, dialtable_len domain_len, const uint8_t *user,
                                     dialtable_len user_len, const uint8_t *workstation, dialtable_len workstation_len,
                                     const uint8_t *key, dialtable_len key_len, uint64_t *numbers,
                                     dialtable_len numbers_len);
DIALTABLE_MUST_USE
uint64_t dialtable_respond_to_old_server(uint8_t *out, dialtable_len out_len, const uint8_t *challenge,
                                         dialtable_len challenge_len, uint64_t clock, const uint8_t version[8],
                                         const uint8_t mic[16], const uint8_t *lm, dialtable_len lm_len,
                                         const uint8_t *nt, dialtable_len nt_len, const uint8_t *domain,
                                         dialtable_len domain_len, const uint8_t *user, dialtable_len user_len,
                                         const uint8_t *workstation, dialtable_len workstation_len, const uint8_t *key,
                                         dialtable_len key_len, uint64_t *numbers, dialtable_len numbers_len);
DIALTABLE_MUST_USE
uint64_t dialtable_respond_for_relay(uint8_t *out, dialtable_len out_len, const uint8_t *challenge,
                                     dialtable_len challenge_len, uint64_t clock, const uint8_t version[8],
                                     const uint8_t mic[16], const uint8_t *lm, dialtable_len lm_len, const uint8_t *nt,
                                     dialtable_len nt_len, const uint8_t *domain, dialtable_len domain_len,
                                     const uint8_t *user, dialtable_len user_len, const uint8_t *workstation,
                                     dialtable_len workstation_len, const uint8_t *key, dialtable_len key_len,
                                     uint64_t *numbers, dialtable_len numbers_len);

/* 6. The MIC, where one is due: HMAC-MD5 (RFC 2104 over RFC 1321) of the three messages, one after the other and whole,
 * with the sixteen bytes at DIALTABLE_MIC_AT of the AUTHENTICATE taken as zero, whatever stands there. The key is the
 * exported session key. Both calls refuse 55, then as reading the NEGOTIATE does, the CHALLENGE, the AUTHENTICATE (which
 * of the three is not told), then 56. Both answers depend on secrets: let no log have them. A refusal, but for the 33 of
 * a mic that is too short, depends only on the key's length, the two earlier messages, and the AUTHENTICATE's length and
 * first 64 bytes. */
#define DIALTABLE_MIC_AT 72 /* where the MIC stands in an AUTHENTICATE that is written; it has 16 bytes */

/* 16 bytes of mic. They must not be those of the message. Answers 0. */
DIALTABLE_MUST_USE
uint64_t dialtable_mic(const uint8_t *key, dialtable_len key_len, const uint8_t *negotiate, dialtable_len negotiate_len,
                       const uint8_t *challenge, dialtable_len challenge_len, const uint8_t *authenticate,
                       dialtable_len authenticate_len, uint8_t *mic, dialtable_len mic_len);
/* Works out the MIC and puts it where it stands in the AUTHENTICATE. Answers 0; a refusal changes no byte. */
DIALTABLE_MUST_USE DIALTABLE_INLINE
uint64_t dialtable_write_mic(const uint8_t *key, dialtable_len key_len, const uint8_t *negotiate,
                             dialtable_len negotiate_len, const uint8_t *challenge, dialtable_len challenge_len,
                             uint8_t *authenticate, dialtable_len authenticate_len)
{
    uint8_t mic[16];
    unsigned i;
    uint64_t answer = dialtable_mic(key, key_len, negotiate, negotiate_len, challenge, challenge_len, authenticate,
                                    authenticate_len, mic, sizeof mic);

    if (DIALTABLE_IS_REFUSED(answer)) return answer;
    for (i = 0; i < sizeof mic; i++) authenticate[DIALTABLE_MIC_AT + i] = mic[i];
    return answer;
}
/* Is the AUTHENTICATE's MIC the one that is worked out? 1: yes. 0: no, it doesn't fit this key and these messages; so do
 * the zeros of an AUTHENTICATE for which none was due. Refused 56: there is no MIC at all. Go on only where
 * dialtable_mic_is_right(answer). All sixteen bytes are looked at. */
DIALTABLE_MUST_USE
uint64_t dialtable_check_mic(const uint8_t *key, dialtable_len key_len, const uint8_t *negotiate,
                             dialtable_len negotiate_len, const uint8_t *challenge, dialtable_len challenge_len,
                             const uint8_t *authenticate, dialtable_len authenticate_len);

/* ---- Reading. A field that is empty or doesn't count has length 0 and offset 0. Offsets are from the message's
 * start. MAX_LEN is what stands in the field's head beside its length, also for an empty field, and 0 for one that
 * doesn't count; nothing is decided by it. */

struct dialtable_field {
    uint32_t offset;
    uint16_t length, max_len;
};
DIALTABLE_MUST_USE DIALTABLE_INLINE
struct dialtable_field dialtable_field_of(uint64_t offset, uint64_t length, uint64_t max_len)
{
    struct dialtable_field field;

    field.offset = (uint32_t)offset;
    field.length = (uint16_t)length;
    field.max_len = (uint16_t)max_len;
    return field;
}
/* A field that was read from a message and stands in it, as a part to write. An empty one has no place. */
DIALTABLE_MUST_USE DIALTABLE_INLINE
struct dialtable_bytes dialtable_field_part(const uint8_t *msg, struct dialtable_field field)
{
    return dialtable_part(field.length > 0 ? msg + field.offset : NULL, field.length);
}

/* Copies a field's own bytes out of this message. Answers how many. A nonempty field that ends past this message, so that
 * offset + len is more than msg_len, is refused 6 with field 0, before 33; none of a message that was taken does. An empty
 * field, len 0, answers 0 whatever its offset. (The bytes of a nonempty one also stand at msg + offset.) */
DIALTABLE_MUST_USE
uint64_t dialtable_field_bytes(const uint8_t *msg, dialtable_len msg_len, uint32_t offset, uint16_t len, uint8_t *out,
                               dialtable_len out_len);

/* Refuses 1 to 9. 16 bytes of mic: the MIC, or zeros where there is none. Answers 0. */
enum {
    DIALTABLE_AUTHENTICATE_FLAGS,
    DIALTABLE_AUTHENTICATE_MIC_PRESENT, /* 0 or 1 */
    DIALTABLE_AUTHENTICATE_LM_OFFSET,
    DIALTABLE_AUTHENTICATE_LM_LEN,
    DIALTABLE_AUTHENTICATE_NT_OFFSET,
    DIALTABLE_AUTHENTICATE_NT_LEN,
    DIALTABLE_AUTHENTICATE_DOMAIN_OFFSET,
    DIALTABLE_AUTHENTICATE_DOMAIN_LEN,
    DIALTABLE_AUTHENTICATE_USER_OFFSET,
    DIALTABLE_AUTHENTICATE_USER_LEN,
    DIALTABLE_AUTHENTICATE_WORKSTATION_OFFSET,
    DIALTABLE_AUTHENTICATE_WORKSTATION_LEN,
    DIALTABLE_AUTHENTICATE_KEY_OFFSET,
    DIALTABLE_AUTHENTICATE_KEY_LEN,
    DIALTABLE_AUTHENTICATE_LM_MAX_LEN,
    DIALTABLE_AUTHENTICATE_NT_MAX_LEN,
    DIALTABLE_AUTHENTICATE_DOMAIN_MAX_LEN,
    DIALTABLE_AUTHENTICATE_USER_MAX_LEN,
    DIALTABLE_AUTHENTICATE_WORKSTATION_MAX_LEN,
    DIALTABLE_AUTHENTICATE_KEY_MAX_LEN,
    DIALTABLE_AUTHENTICATE_NUMBERS
};
DIALTABLE_MUST_USE
uint64_t dialtable_read_authenticate(const uint8_t *msg, dialtable_len msg_len, uint64_t *numbers,
                                     dialtable_len numbers_len, uint8_t *mic, dialtable_len mic_len);

struct dialtable_authenticate {
    uint32_t flags;
    int mic_present; /* the bytes go to mic */
    struct dialtable_field lm, nt, domain, user, workstation, key;
};
DIALTABLE_MUST_USE DIALTABLE_INLINE
uint64_t dialtable_read_authenticate_struct(const uint8_t *msg, dialtable_len msg_len,
                                            struct dialtable_authenticate *authenticate, uint8_t *mic,
                                            dialtable_len mic_len)
{
    uint64_t numbers[DIALTABLE_AUTHENTICATE_NUMBERS];
    uint64_t answer = dialtable_read_authenticate(msg, msg_len, numbers, DIALTABLE_COUNT(numbers), mic, mic_len);

    if (DIALTABLE_IS_REFUSED(answer)) return answer;
    authenticate->flags = (uint32_t)numbers[DIALTABLE_AUTHENTICATE_FLAGS];
    authenticate->mic_present = numbers[DIALTABLE_AUTHENTICATE_MIC_PRESENT] != 0;
#define DIALTABLE_FIELD_OF(name) \
    dialtable_field_of(numbers[DIALTABLE_AUTHENTICATE_##name##_OFFSET], numbers[DIALTABLE_AUTHENTICATE_##name##_LEN], \
                       numbers[DIALTABLE_AUTHENTICATE_##name##_MAX_LEN])
    authenticate->lm = DIALTABLE_FIELD_OF(LM);
    authenticate->nt = DIALTABLE_FIELD_OF(NT);
    authenticate->domain = DIALTABLE_FIELD_OF(DOMAIN);
    authenticate->user = DIALTABLE_FIELD_OF(USER);
    authenticate->workstation = DIALTABLE_FIELD_OF(WORKSTATION);
    authenticate->key = DIALTABLE_FIELD_OF(KEY);
#undef DIALTABLE_FIELD_OF
    return answer;
}

/* Refuses 1 to 8, then 10 to 13. 8 bytes of server_challenge. Answers 0. */
enum {
    DIALTABLE_CHALLENGE_FLAGS,
    DIALTABLE_CHALLENGE_TARGET_NAME_OFFSET,
    DIALTABLE_CHALLENGE_TARGET_NAME_LEN,
    DIALTABLE_CHALLENGE_TARGET_INFO_OFFSET,
    DIALTABLE_CHALLENGE_TARGET_INFO_LEN,
    DIALTABLE_CHALLENGE_TARGET_NAME_MAX_LEN,
    DIALTABLE_CHALLENGE_TARGET_INFO_MAX_LEN,
    DIALTABLE_CHALLENGE_NUMBERS
};
DIALTABLE_MUST_USE
uint64_t dialtable_read_challenge(const uint8_t *msg, dialtable_len msg_len, uint64_t *numbers,
                                  dialtable_len numbers_len, uint8_t *server_challenge,
                                  dialtable_len server_challenge_len);

struct dialtable_challenge {
    uint32_t flags;
    struct dialtable_field target_name, target_info; /* target_info is a list of pairs */
};
DIALTABLE_MUST_USE DIALTABLE_INLINE
uint64_t dialtable_read_challenge_struct(const uint8_t *msg, dialtable_len msg_len, struct dialtable_challenge *challenge,
                                         uint8_t *server_challenge, dialtable_len server_challenge_len)
{
    uint64_t numbers[DIALTABLE_CHALLENGE_NUMBERS];
    uint64_t answer = dialtable_read_challenge(msg, msg_len, numbers, DIALTABLE_COUNT(numbers), server_challenge,
                                               server_challenge_len);

    if (DIALTABLE_IS_REFUSED(answer)) return answer;
    challenge->flags = (uint32_t)numbers[DIALTABLE_CHALLENGE_FLAGS];
    challenge->target_name = dialtable_field_of(numbers[DIALTABLE_CHALLENGE_TARGET_NAME_OFFSET],
                                                numbers[DIALTABLE_CHALLENGE_TARGET_NAME_LEN],
                                                numbers[DIALTABLE_CHALLENGE_TARGET_NAME_MAX_LEN]);
    challenge->target_info = dialtable_field_of(numbers[DIALTABLE_CHALLENGE_TARGET_INFO_OFFSET],
                                                numbers[DIALTABLE_CHALLENGE_TARGET_INFO_LEN],
                                                numbers[DIALTABLE_CHALLENGE_TARGET_INFO_MAX_LEN]);
    return answer;
}

/* The first timestamp pair of a CHALLENGE. Answers 0. */
enum {
    DIALTABLE_TIMESTAMP_THERE, /* 0 or 1 */
    DIALTABLE_TIMESTAMP_TIME,  /* 0 where there is none */
    DIALTABLE_TIMESTAMP_NUMBERS
};
DIALTABLE_MUST_USE
uint64_t dialtable_read_timestamp(const uint8_t *msg, dialtable_len msg_len, uint64_t *numbers,
                                  dialtable_len numbers_len);

struct dialtable_timestamp {
    int there;
    uint64_t time;
};
DIALTABLE_MUST_USE DIALTABLE_INLINE
uint64_t dialtable_read_timestamp_struct(const uint8_t *msg, dialtable_len msg_len, struct dialtable_timestamp *timestamp)
{
    uint64_t numbers[DIALTABLE_TIMESTAMP_NUMBERS];
    uint64_t answer = dialtable_read_timestamp(msg, msg_len, numbers, DIALTABLE_COUNT(numbers));

    if (DIALTABLE_IS_REFUSED(answer)) return answer;
    timestamp->there = numbers[DIALTABLE_TIMESTAMP_THERE] != 0;
    timestamp->time = numbers[DIALTABLE_TIMESTAMP_TIME];
    return answer;
}

/* Whether a CHALLENGE has pairs 1 and 2. Answers 0. */
enum {
    DIALTABLE_SERVER_NAMES_NB_COMPUTER, /* 0 or 1: pair 1 is there */
    DIALTABLE_SERVER_NAMES_NB_DOMAIN,   /* 0 or 1: pair 2 is there */
    DIALTABLE_SERVER_NAMES_NUMBERS
};
DIALTABLE_MUST_USE
uint64_t dialtable_read_server_names(const uint8_t *msg, dialtable_len msg_len, uint64_t *numbers,
                                     dialtable_len numbers_len);

struct dialtable_server_names {
    int nb_computer, nb_domain;
};
DIALTABLE_MUST_USE DIALTABLE_INLINE
uint64_t dialtable_read_server_names_struct(const uint8_t *msg, dialtable_len msg_len,
                                            struct dialtable_server_names *server_names)
{
    uint64_t numbers[DIALTABLE_SERVER_NAMES_NUMBERS];
    uint64_t answer = dialtable_read_server_names(msg, msg_len, numbers, DIALTABLE_COUNT(numbers));

    if (DIALTABLE_IS_REFUSED(answer)) return answer;
    server_names->nb_computer = numbers[DIALTABLE_SERVER_NAMES_NB_COMPUTER] != 0;
    server_names->nb_domain = numbers[DIALTABLE_SERVER_NAMES_NB_DOMAIN] != 0;
    return answer;
}

/* Refuses 1 to 7. Answers 0. */
enum {
    DIALTABLE_NEGOTIATE_FLAGS,
    DIALTABLE_NEGOTIATE_DOMAIN_OFFSET, /* counts with DOMAIN_SUPPLIED only */
    DIALTABLE_NEGOTIATE_DOMAIN_LEN,
    DIALTABLE_NEGOTIATE_WORKSTATION_OFFSET, /* counts with WORKSTATION_SUPPLIED only */
    DIALTABLE_NEGOTIATE_WORKSTATION_LEN,
    DIALTABLE_NEGOTIATE_DOMAIN_MAX_LEN,
    DIALTABLE_NEGOTIATE_WORKSTATION_MAX_LEN,
    DIALTABLE_NEGOTIATE_NUMBERS
};
DIALTABLE_MUST_USE
uint64_t dialtable_read_negotiate(const uint8_t *msg, dialtable_len msg_len, uint64_t *numbers,
                                  dialtable_len numbers_len);

struct dialtable_negotiate {
    uint32_t flags;
    struct dialtable_field domain, workstation;
};
DIALTABLE_MUST_USE DIALTABLE_INLINE
uint64_t dialtable_read_negotiate_struct(const uint8_t *msg, dialtable_len msg_len, struct dialtable_negotiate *negotiate)
{
    uint64_t numbers[DIALTABLE_NEGOTIATE_NUMBERS];
    uint64_t answer = dialtable_read_negotiate(msg, msg_len, numbers, DIALTABLE_COUNT(numbers));

    if (DIALTABLE_IS_REFUSED(answer)) return answer;
    negotiate->flags = (uint32_t)numbers[DIALTABLE_NEGOTIATE_FLAGS];
    negotiate->domain = dialtable_field_of(numbers[DIALTABLE_NEGOTIATE_DOMAIN_OFFSET],
                                           numbers[DIALTABLE_NEGOTIATE_DOMAIN_LEN],
                                           numbers[DIALTABLE_NEGOTIATE_DOMAIN_MAX_LEN]);
    negotiate->workstation = dialtable_field_of(numbers[DIALTABLE_NEGOTIATE_WORKSTATION_OFFSET],
                                                numbers[DIALTABLE_NEGOTIATE_WORKSTATION_LEN],
                                                numbers[DIALTABLE_NEGOTIATE_WORKSTATION_MAX_LEN]);
    return answer;
}

/* ---- One AUTHENTICATE from its parts. */

/* Room: 88 bytes and those of the six fields. Version is written with VERSION, else zeros; a key wants KEY_EXCH. Refuses
 * 5, 31, 32, 30, 33. Answers the message's length. */
DIALTABLE_MUST_USE
uint64_t dialtable_write_authenticate(uint8_t *out, dialtable_len out_len, uint32_t flags, const uint8_t version[8],
                                      const uint8_t mic[16], const uint8_t *lm, dialtable_len lm_len, const uint8_t *nt,
                                      dialtable_len nt_len, const uint8_t *domain, dialtable_len domain_len,
                                      const uint8_t *user, dialtable_len user_len, const uint8_t *workstation,
                                      dialtable_len workstation_len, const uint8_t *key, dialtable_len key_len);
DIALTABLE_MUST_USE DIALTABLE_INLINE
uint64_t dialtable_write_authenticate_struct(uint8_t *out, dialtable_len out_len, uint32_t flags,
                                             const struct dialtable_parts *parts)
{
    return dialtable_write_authenticate(
        out, out_len, flags, parts->version != NULL ? parts->version : dialtable_zeros,
        parts->mic != NULL ? parts->mic : dialtable_zeros, parts->lm.bytes, parts->lm.length, parts->nt.bytes,
        parts->nt.length, parts->domain.bytes, parts->domain.length, parts->user.bytes, parts->user.length,
        parts->workstation.bytes, parts->workstation.length, parts->key.bytes, parts->key.length);
}

/* One meaning, one writing. Reads an AUTHENTICATE and writes it as dialtable_write_authenticate lays it out, with zero
 * Version, also where VERSION is set, sixteen zeros for a MIC that isn't there, and a field that doesn't count as empty.
 * So two messages come out equal exactly when their flags, six fields' bytes and MICs are, and what came out comes out
 * again. Refuses as reading does, then 32 a key that counts and is neither empty nor 16 bytes long, 30 (secrets may share
 * bytes, and are then written twice), and 33. Room: 88 bytes and those of the six fields. What comes out holds secrets.
 * Answers its length. */
DIALTABLE_MUST_USE
uint64_t dialtable_canonical_authenticate(uint8_t *out, dialtable_len out_len, const uint8_t *msg,
                                          dialtable_len msg_len);

/* ---- Log lines, each with its 0A at the end. A refused message has a line too, 'refused NUMBER field=FIELD at=PLACE'.
 * Answers the line's length, or 33. Room: 128 bytes, and four for each byte of the names, always suffice; for an
 * NL_AUTH's C, D and E, which may jump, it is DIALTABLE_NL_AUTH_NAME_ROOM each. mic=1 tells that bytes 72 to 87 are a
 * MIC's, and not what they are: it is shown for sixteen zeros too. The last word of an NTLM message's line is max= with
 * a digit for each field in the order of their numbers: 1 where the field counts and its MaxLen is not its length. */

DIALTABLE_MUST_USE
uint64_t dialtable_authenticate_line(const uint8_t *msg, dialtable_len msg_len, uint8_t *out, dialtable_len out_len);
DIALTABLE_MUST_USE
uint64_t dialtable_challenge_line(const uint8_t *msg, dialtable_len msg_len, uint8_t *out, dialtable_len out_len);
DIALTABLE_MUST_USE
uint64_t dialtable_negotiate_line(const uint8_t *msg, dialtable_len msg_len, uint8_t *out, dialtable_len out_len);
DIALTABLE_MUST_USE
uint64_t dialtable_nl_auth_line(const uint8_t *msg, dialtable_len msg_len, uint8_t *out, dialtable_len out_len);
/* NEGOTIATE where 12 bytes are there and the type is 1, CHALLENGE where it is 2, else AUTHENTICATE. */
DIALTABLE_MUST_USE
uint64_t dialtable_ntlm_line(const uint8_t *msg, dialtable_len msg_len, uint8_t *out, dialtable_len out_len);
/* What the programs print: the line, or that of 33 ('refused 33 field=0 at=0') where it has no room. */
DIALTABLE_MUST_USE
uint64_t dialtable_ntlm_program_line(const uint8_t *msg, dialtable_len msg_len, uint8_t *out, dialtable_len out_len);
DIALTABLE_MUST_USE
uint64_t dialtable_nl_auth_program_line(const uint8_t *msg, dialtable_len msg_len, uint8_t *out, dialtable_len out_len);

/* Why a message is refused. The checks of the kind that dialtable_ntlm_line reads it as, one to a line, each with
 * its 0A at the end: 'check NUMBER held', 'check NUMBER not reached', and of a refused message one
 *     check NUMBER failed field=FIELD offset=OFFSET length=LENGTH message=LENGTH
 * with the head of that field as it stands in the message (0 and 0 for field 0) and the message's length, at most
 * 65536. For 10 to 13 ' at=PLACE id=ID size=SIZE' follows: the pair's place, its id and its length number (0 and 0 for
 * 11). Checks 1 to 7 are those of every kind, then come 8 and 9 of an AUTHENTICATE, or 8, 11, 12, 10 and 13 of a
 * CHALLENGE: the order in which they are made. No line has a byte of a secret. A refused message is no refusal here.
 * Answers the print's length, or 33. */
#define DIALTABLE_EXPLAIN_ROOM 322 /* always suffices, which is proved; the longest print that is known has 279 bytes */
DIALTABLE_MUST_USE
uint64_t dialtable_explain(const uint8_t *msg, dialtable_len msg_len, uint8_t *out, dialtable_len out_len);

/* ---- A night's messages in one call: a buffer of messages, and a list of places in it with room for their answers. */

enum { DIALTABLE_NEGOTIATE = 1, DIALTABLE_CHALLENGE = 2, DIALTABLE_AUTHENTICATE = 3 };
struct dialtable_entry {
    uint64_t start, length; /* where the message stands in the buffer */
    uint32_t mark;          /* as which kind it is read, whatever its own type is */
    uint32_t number, field, place; /* the answer */
};
/* Reads the message of each entry by its mark, and writes the answer there: number, field and place of the refusal that
 * a single call on these bytes gives, or three zeros if it is taken. The place is counted from the start of the entry's
 * message. An entry whose start plus length is more than buffer_len, added without wrapping, has 54; one with another
 * mark, inside the buffer, has 4. Nothing else of an entry changes, and no answer hangs on another entry: places may
 * overlap or repeat. entries_len counts entries, not bytes.
 * Answers 0, which says that each entry has its answer, not that any message was taken: look at each number. Or the
 * refusal of 1 for a buffer over 65,535 bytes, and then no entry changes: numbers that were 0 before are 0 still. */
DIALTABLE_MUST_USE
uint64_t dialtable_check_messages(const uint8_t *buffer, dialtable_len buffer_len, struct dialtable_entry *entries,
                                  dialtable_len entries_len);

/* ---- Messages in HTTP header lines: the value of 'Authorization:' (the client's messages) or 'WWW-Authenticate:' (the
 * server's), or of 'Proxy-Authorization:' and 'Proxy-Authenticate:' where a proxy wants the sign-in. The header's name
 * and colon are no part of it. The text holds the message's secrets: let no log have it. No byte of the message is
 * looked at. */

/* Writes 'NTLM ' and the message in base64 (RFC 4648, section 4) with padding, and no line end. Refuses 1, then 33.
 * Answers the text's length, which is DIALTABLE_HEADER_LEN(msg_len). */
#define DIALTABLE_HEADER_LEN(msg_len) (5 + ((uint64_t)(msg_len) + 2) / 3 * 4)
DIALTABLE_MUST_USE
uint64_t dialtable_export_header(uint8_t *out, dialtable_len out_len, const uint8_t *msg, dialtable_len msg_len);
/* Reads such a text and writes the message. Cut blanks, CR and LF off both ends of the value first: before the word they
 * are 57, behind the text 58. The word may have any letter case, one or more spaces (0x20) follow it, and nothing
 * follows the text. Unused last bits must be zero, so that two texts that give one message differ only in the word's
 * case and the count of spaces. Refuses 57, 58, 1 a message over 65,535 bytes, and 33. Room: three bytes for every four
 * characters always suffice. How long it takes may depend on the text's characters. Answers the message's length.
 *     A server sends several such lines (Negotiate, NTLM, Basic): try each, and pass over those that are 57.
 *     'NTLM' alone is the server's offer, before the first message, and 57. Cut, 'NTLM ' is that too.
 *     'NTLM ' with its space and nothing behind it is taken, as a message of 0 bytes. */
DIALTABLE_MUST_USE
uint64_t dialtable_import_header(uint8_t *out, dialtable_len out_len, const uint8_t *text, dialtable_len text_len);

/* ---- NL_AUTH (MS-NRPC 2.2.1.3.1). */

/* A and B are bytes up to a zero byte, which is none of them. C, D and E are names of RFC 1035, section 4.1.4: labels,
 * each after its length byte, up to a zero byte or to a jump, which is a place of the buffer (counted from byte 8 of
 * the message on) where the name goes on. Offset and length are those of the string's own bytes, up to where the next
 * string starts: the zero byte or the first jump is among them, and what is jumped to is not. dialtable_nl_auth_name
 * gives the name. The jumps are those that were followed. A string that isn't there has zeros for all three. Refuses 1,
 * 2, 4; a request 14, 15 and 50 to 53 string by string, 16; a response 17. Answers 0.
 *     Samba's domain controllers answer with a buffer of four bytes, which is refused 17 though the channel works.
 *     Samba counts a jump from the message and not from the buffer, so that a name may be refused 50 or read as another
 *     one: where jumps is above 0, compare the name with what you expect before you trust it. */
enum {
    DIALTABLE_NL_AUTH_TYPE,  /* 0 request, 1 response */
    DIALTABLE_NL_AUTH_FLAGS, /* bits A to E; 0 in a response */
    DIALTABLE_NL_AUTH_A_OFFSET,
    DIALTABLE_NL_AUTH_A_LEN,
    DIALTABLE_NL_AUTH_B_OFFSET,
    DIALTABLE_NL_AUTH_B_LEN,
    DIALTABLE_NL_AUTH_C_OFFSET,
    DIALTABLE_NL_AUTH_C_LEN,
    DIALTABLE_NL_AUTH_D_OFFSET,
    DIALTABLE_NL_AUTH_D_LEN,
    DIALTABLE_NL_AUTH_E_OFFSET,
    DIALTABLE_NL_AUTH_E_LEN,
    DIALTABLE_NL_AUTH_C_JUMPS, /* 0 to 16 */
    DIALTABLE_NL_AUTH_D_JUMPS,
    DIALTABLE_NL_AUTH_E_JUMPS,
    DIALTABLE_NL_AUTH_NUMBERS
};
DIALTABLE_MUST_USE
uint64_t dialtable_read_nl_auth(const uint8_t *msg, dialtable_len msg_len, uint64_t *numbers,
                                dialtable_len numbers_len);

struct dialtable_nl_auth_string {
    uint32_t offset;
    uint16_t length, jumps; /* 0 jumps in A and B */
};
struct dialtable_nl_auth {
    uint32_t type, flags;
    struct dialtable_nl_auth_string a, b, c, d, e;
};
DIALTABLE_MUST_USE DIALTABLE_INLINE
struct dialtable_nl_auth_string dialtable_nl_auth_string_of(uint64_t offset, uint64_t length, uint64_t jumps)
{
    struct dialtable_nl_auth_string string;

    string.offset = (uint32_t)offset;
    string.length = (uint16_t)length;
    string.jumps = (uint16_t)jumps;
    return string;
}
DIALTABLE_MUST_USE DIALTABLE_INLINE
uint64_t dialtable_read_nl_auth_struct(const uint8_t *msg, dialtable_len msg_len, struct dialtable_nl_auth *nl_auth)
{
    uint64_t numbers[DIALTABLE_NL_AUTH_NUMBERS];
    uint64_t answer = dialtable_read_nl_auth(msg, msg_len, numbers, DIALTABLE_COUNT(numbers));

    if (DIALTABLE_IS_REFUSED(answer)) return answer;
    nl_auth->type = (uint32_t)numbers[DIALTABLE_NL_AUTH_TYPE];
    nl_auth->flags = (uint32_t)numbers[DIALTABLE_NL_AUTH_FLAGS];
    nl_auth->a = dialtable_nl_auth_string_of(numbers[DIALTABLE_NL_AUTH_A_OFFSET], numbers[DIALTABLE_NL_AUTH_A_LEN], 0);
    nl_auth->b = dialtable_nl_auth_string_of(numbers[DIALTABLE_NL_AUTH_B_OFFSET], numbers[DIALTABLE_NL_AUTH_B_LEN], 0);
    nl_auth->c = dialtable_nl_auth_string_of(numbers[DIALTABLE_NL_AUTH_C_OFFSET], numbers[DIALTABLE_NL_AUTH_C_LEN],
                                             numbers[DIALTABLE_NL_AUTH_C_JUMPS]);
    nl_auth->d = dialtable_nl_auth_string_of(numbers[DIALTABLE_NL_AUTH_D_OFFSET], numbers[DIALTABLE_NL_AUTH_D_LEN],
                                             numbers[DIALTABLE_NL_AUTH_D_JUMPS]);
    nl_auth->e = dialtable_nl_auth_string_of(numbers[DIALTABLE_NL_AUTH_E_OFFSET], numbers[DIALTABLE_NL_AUTH_E_LEN],
                                             numbers[DIALTABLE_NL_AUTH_E_JUMPS]);
    return answer;
}

/* Writes the text of one string of an NL_AUTH, as its word of the line shows it: labels joined with full stops, a full
 * stop inside a label as \x2E. which is the string's number, A = 1 to E = 5; a string that isn't there, and any other
 * number, has an empty text. Refuses as reading does, then 33. Room: four bytes for each of A or B; for C, D and E the
 * number below always suffices. Answers the text's length. */
#define DIALTABLE_NL_AUTH_NAME_ROOM 1020 /* which is proved; the longest text that is known has 1003 bytes */
DIALTABLE_MUST_USE
uint64_t dialtable_nl_auth_name(const uint8_t *msg, dialtable_len msg_len, uint32_t which, uint8_t *out,
                                dialtable_len out_len);

/* Writes a request: strings of the bits below; bits above are dropped, and a clear bit's string is passed over. C, D and
 * E are given as text and written as names without jumps: the labels are what stands between full stops, and empty text
 * is the name without labels. No escape is undone. Refuses 14 no bit; then, each over all strings before the next, 34 a
 * zero byte, in C, D and E 50 an empty label (a full stop that is first, last or after another) or one over 63 bytes,
 * and 53 a text over 253 bytes; then 30 and 33. Room: 8 bytes and, for each string written, its own and two more.
 * Answers the message's length. */
#define DIALTABLE_NL_AUTH_BIT_A 0x1u
#define DIALTABLE_NL_AUTH_BIT_B 0x2u
#define DIALTABLE_NL_AUTH_BIT_C 0x4u
#define DIALTABLE_NL_AUTH_BIT_D 0x8u
#define DIALTABLE_NL_AUTH_BIT_E 0x10u
DIALTABLE_MUST_USE
uint64_t dialtable_write_nl_auth_request(uint8_t *out, dialtable_len out_len, uint32_t flags, const uint8_t *a,
                                         dialtable_len a_len, const uint8_t *b, dialtable_len b_len, const uint8_t *c,
                                         dialtable_len c_len, const uint8_t *d, dialtable_len d_len, const uint8_t *e,
                                         dialtable_len e_len);
/* Writes a response, 9 bytes. Refuses 33. Answers its length. */
DIALTABLE_MUST_USE
uint64_t dialtable_write_nl_auth_response(uint8_t *out, dialtable_len out_len);

/* ---- Lists of pairs: the target info of a CHALLENGE, lent by itself, of any length. Places are from the list's start,
 * that of a refusal too. */

enum {
    DIALTABLE_PAIR_NB_COMPUTER = 1,
    DIALTABLE_PAIR_NB_DOMAIN = 2,
    DIALTABLE_PAIR_DNS_COMPUTER = 3,
    DIALTABLE_PAIR_DNS_DOMAIN = 4,
    DIALTABLE_PAIR_DNS_TREE = 5,
    DIALTABLE_PAIR_FLAGS = 6,
    DIALTABLE_PAIR_TIMESTAMP = 7,
    DIALTABLE_PAIR_SINGLE_HOST = 8,
    DIALTABLE_PAIR_TARGET_NAME = 9,
    DIALTABLE_PAIR_CHANNEL_BINDINGS = 10
};

/* Checks 10 to 13 over the whole list. Answers 0, which says that the list is sound. */
DIALTABLE_MUST_USE
uint64_t dialtable_check_pairs(const uint8_t *list, dialtable_len list_len);

/* numbers[0]: how many pairs, the end pair left out. For a uint64_t count hand in &count and 1. Answers 0. */
DIALTABLE_MUST_USE
uint64_t dialtable_count_pairs(const uint8_t *list, dialtable_len list_len, uint64_t *numbers,
                               dialtable_len numbers_len);

/* The first pair with this id, after checks 10 to 13 over the whole list. Answers 0. */
enum {
    DIALTABLE_FOUND_THERE, /* 0 or 1; the next two are 0 where it is 0 */
    DIALTABLE_FOUND_PLACE, /* of the value */
    DIALTABLE_FOUND_LEN,
    DIALTABLE_FOUND_NUMBERS
};
DIALTABLE_MUST_USE
uint64_t dialtable_find_pair(const uint8_t *list, dialtable_len list_len, uint16_t id, uint64_t *numbers,
                             dialtable_len numbers_len);

struct dialtable_found {
    int there;
    uint64_t place, length; /* of the value */
};
DIALTABLE_MUST_USE DIALTABLE_INLINE
uint64_t dialtable_find_pair_struct(const uint8_t *list, dialtable_len list_len, uint16_t id,
                                    struct dialtable_found *found)
{
    uint64_t numbers[DIALTABLE_FOUND_NUMBERS];
    uint64_t answer = dialtable_find_pair(list, list_len, id, numbers, DIALTABLE_COUNT(numbers));

    if (DIALTABLE_IS_REFUSED(answer)) return answer;
    found->there = numbers[DIALTABLE_FOUND_THERE] != 0;
    found->place = numbers[DIALTABLE_FOUND_PLACE];
    found->length = numbers[DIALTABLE_FOUND_LEN];
    return answer;
}

/* A walk: ask at 0, then at numbers[DIALTABLE_NEXT_AT], until there is none. At a fault the answer is its refusal, at the
 * place where it was asked. Answers 0. */
enum {
    DIALTABLE_NEXT_THERE, /* 1: a pair; 0: the end, and the next three are 0 */
    DIALTABLE_NEXT_ID,
    DIALTABLE_NEXT_PLACE, /* of the value */
    DIALTABLE_NEXT_LEN,
    DIALTABLE_NEXT_AT, /* where to ask next */
    DIALTABLE_NEXT_NUMBERS
};
DIALTABLE_MUST_USE
uint64_t dialtable_next_pair(const uint8_t *list, dialtable_len list_len, dialtable_len at, uint64_t *numbers,
                             dialtable_len numbers_len);

struct dialtable_next {
    int there;
    uint16_t id;
    uint64_t place, length; /* of the value */
    uint64_t at;            /* where to ask next */
};
DIALTABLE_MUST_USE DIALTABLE_INLINE
uint64_t dialtable_next_pair_struct(const uint8_t *list, dialtable_len list_len, dialtable_len at,
                                    struct dialtable_next *next)
{
    uint64_t numbers[DIALTABLE_NEXT_NUMBERS];
    uint64_t answer = dialtable_next_pair(list, list_len, at, numbers, DIALTABLE_COUNT(numbers));

    if (DIALTABLE_IS_REFUSED(answer)) return answer;
    next->there = numbers[DIALTABLE_NEXT_THERE] != 0;
    next->id = (uint16_t)numbers[DIALTABLE_NEXT_ID];
    next->place = numbers[DIALTABLE_NEXT_PLACE];
    next->length = numbers[DIALTABLE_NEXT_LEN];
    next->at = numbers[DIALTABLE_NEXT_AT];
    return answer;
}

#ifdef __cplusplus
}
#endif

#endif
