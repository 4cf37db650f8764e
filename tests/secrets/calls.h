/*
 * Every call of the library, by whether secrets_test holds it. 'secrets_test calls' prints this list, and
 * tools/test-secrets wants it to be the library's: a new call fails until it is put here.
 */
#ifndef CALLS_H
#define CALLS_H

/* Those that are lent a message and print of it. The second four are another kind's, lent an AUTHENTICATE by mistake:
 * they are called where the message isn't of that kind. */
#define LINE_CALLS(X) \
    X(authenticate_line) X(ntlm_line) X(ntlm_program_line) X(explain) \
    X(challenge_line) X(negotiate_line) X(nl_auth_line) X(nl_auth_program_line)
/* Those that are lent the LM response, the NT response, the session key and the MIC, to write them. */
#define WRITING_CALLS(X) \
    X(respond) X(respond_for_bench) X(respond_to_old_server) X(respond_for_relay) X(write_authenticate)
/* The others that are lent an AUTHENTICATE, or a session key. */
#define OTHER_CALLS(X) \
    X(read_authenticate) X(canonical_authenticate) X(check_messages) X(field_bytes) X(export_header) X(mic) X(check_mic)
#define HELD_CALLS(X) LINE_CALLS(X) WRITING_CALLS(X) OTHER_CALLS(X)

/* The header's inline functions over them. They are compiled into the caller's code, here by gcc with -O2. The others
 * of the header touch no byte of a secret: dialtable_part and dialtable_field_part make a pointer and a length of two
 * numbers, and dialtable_mic_is_right takes the answer that its caller decides by. */
#define HELD_INLINE(X) X(read_authenticate_struct) X(respond_struct) X(write_authenticate_struct) X(write_mic)

/* The one exception: its text holds the message's secrets, and it looks whether each character is base64. */
#define EXCEPTION(X) X(import_header)

/* Not held: these are lent no AUTHENTICATE, no response, no session key and no MIC, but
 * - a NEGOTIATE, a CHALLENGE, or what one is made from (the channel bindings of write_response_pairs are a hash of what
 *   the server shows to everybody, and no secret of demand 3);
 * - an NL_AUTH, which has no secret;
 * - a list of pairs, which is a part of a CHALLENGE. */
#define WITHOUT_SECRETS(X) \
    X(read_negotiate) X(write_negotiate) X(read_challenge) X(read_timestamp) X(read_server_names) X(decide) \
    X(domain_to_send) X(write_response_pairs) \
    X(read_nl_auth) X(nl_auth_name) X(write_nl_auth_request) X(write_nl_auth_response) \
    X(check_pairs) X(count_pairs) X(find_pair) X(next_pair)

#define CALL_NUMBER(name) CALL_##name,
enum { HELD_CALLS(CALL_NUMBER) HELD_INLINE(CALL_NUMBER) HELD, EXCEPTION(CALL_NUMBER) CALLS };
#undef CALL_NUMBER

#endif
