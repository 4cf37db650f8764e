/*
 * A stand-in for the radio module, which keeps the password and works out what the library leaves to its caller: the
 * NTLMv2 response and the session key (MS-NLMP 3.3.2, 3.1.5.1.2). For trials at a desk: nothing here is proved, and no
 * secret is wiped. radio_test.c holds it against the values of MS-NLMP 4.2.4.
 */
#ifndef RADIO_H
#define RADIO_H

#include <stddef.h>
#include <stdint.h>

#define RADIO_NAME_ROOM 512
#define RADIO_NT_ROOM 2048

struct radio {
    uint8_t password[RADIO_NAME_ROOM]; /* UTF-16LE */
    size_t password_len;
    uint8_t client_challenge[8], random_key[16]; /* chance, new for each sign-in */
    /* What it works out: both responses, the key to send, and the session key that signs and seals. */
    uint8_t lm[24], nt[RADIO_NT_ROOM], key[16], session_key[16];
    size_t nt_len;
};

/* What a response is worked out from; names are UTF-16LE, the domain is the one that is sent. */
struct radio_task {
    const uint8_t *user, *domain, *pairs, *server_challenge;
    size_t user_len, domain_len, pairs_len;
    uint64_t time;
    int key_exchange; /* KEY_EXCH with SIGN or SEAL: the session key is the random one, sent under the base key */
};

/* New chance. Answers 1, or 0 where the system has none to give. */
int radio_draw(struct radio *radio);

/* Answers 1, or 0 where a name or the pair list has no room in the module. */
int radio_respond(struct radio *radio, const struct radio_task *task);

#endif
