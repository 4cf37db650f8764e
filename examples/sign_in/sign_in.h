/* A box signs in: what firmware has of this, over dialtable.h and its radio module. */
#ifndef SIGN_IN_H
#define SIGN_IN_H

#include "dialtable.h"
#include "radio.h"

#define NAME_ROOM 256
#define CHALLENGE_ROOM 1024
#define PAIRS_ROOM (32 + CHALLENGE_ROOM + NAME_ROOM)
#define ANSWER_ROOM (88 + 24 + RADIO_NT_ROOM + 3 * NAME_ROOM + 16)
#define LINE_ROOM (256 + 3 * 4 * NAME_ROOM)

/* Text is UTF-8. */
struct settings {
    const char *user, *domain, *workstation, *target;
    uint32_t wanted;   /* the flags that its NEGOTIATE asks for */
    uint32_t settings; /* DIALTABLE_DEFAULTS, or less for an old server */
    uint64_t clock;
};

/* Answers 0 where the AUTHENTICATE was sent, or the library's refusal, or one of these; then it was not sent, but for
 * the last. */
enum {
    NAME_UNSENT = 1, /* a name of the settings can't be sent whole */
    NO_RESPONSE,     /* the radio module has none */
    NOT_SENT,        /* the AUTHENTICATE can't be sent */
    NOT_TAKEN        /* it was sent, and the server doesn't take it */
};
uint64_t sign_in(const struct settings *box, struct radio *radio);

/* The box's own. Sends a message, and where there is room for it receives the server's: answers its length, or 0 where
 * none came. Where there is no room answers 0, or NOT_SENT, or NOT_TAKEN where it hears so. */
dialtable_len exchange(const uint8_t *msg, dialtable_len msg_len, uint8_t *in, dialtable_len in_len);
/* Logs a line whole; where line_len is a refusal, since it had no room, logs that. */
void log_it(const uint8_t *line, uint64_t line_len);

#endif
