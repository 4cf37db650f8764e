/*
 * Faults planted in the held calls. Linked with --wrap for each of them, plants.c stands between plants_test and the
 * library. It makes the call; then, in the one that is planted and each time, it does what the library must never do
 * with one of the secrets that it was lent.
 */
#ifndef PLANTS_H
#define PLANTS_H

/* A conditional jump, or an address, by the secret; a bit of it in the answer, in a public byte, or in a number that
 * comes with the answer. */
enum { JUMP, ADDRESS, IN_ANSWER, IN_PUBLIC, IN_NUMBER, FAULTS };
/* In the order of secret.h. To mic and check_mic the key is the session key that they are given. */
enum { BY_LM, BY_NT, BY_KEY, BY_MIC, SECRETS };

extern int planted_call, planted_fault, planted_secret;
extern unsigned long planted_times; /* how often the fault was made */

#endif
