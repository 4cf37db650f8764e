/*
 * What secrets_test is given: a file of lines, each a word and hex.
 *     key, negotiate, challenge, authenticate, mic    a sign-in, as tests/mic/triples.txt has them; 'mic' ends one
 *     message                                         a message of messages/, of any kind
 *     night, entry START LENGTH KIND                  a night's buffer, and each line of its index
 * Other lines are passed over.
 */
#ifndef INPUTS_H
#define INPUTS_H

#include <stdint.h>
#include <stdio.h>
#include <stdlib.h>
#include <string.h>

#include "dialtable.h"

struct message {
    uint8_t *bytes;
    uint64_t len;
};
struct sign_in {
    struct message key, negotiate, challenge, authenticate;
};
static struct sign_in sign_ins[64];
static struct message messages[256], challenges[128], night;
static struct dialtable_entry night_entries[16];
static unsigned sign_in_count, message_count, challenge_count, entry_count;
#define IS_FULL(array, count) ((count) == sizeof(array) / sizeof *(array))

static void stop(const char *what, const char *why)
{
    printf("%s: %s\n0 passed, 1 failed\n", what, why);
    exit(2);
}

static int digit(char c)
{
    const char *digits = "0123456789abcdef", *at = c == 0 ? NULL : strchr(digits, c);

    return at == NULL ? -1 : (int)(at - digits);
}

static struct message read_hex(const char *text)
{
    struct message read;
    size_t digits = strcspn(text, "\n"), i;

    read.len = digits / 2;
    read.bytes = malloc(read.len + 1);
    if (read.bytes == NULL || digits % 2 != 0)
        stop(text, "no pairs of hex digits");
    for (i = 0; i < read.len; i++) {
        int high = digit(text[2 * i]), low = digit(text[2 * i + 1]);

        if (high < 0 || low < 0)
            stop(text, "no pairs of hex digits");
        read.bytes[i] = (uint8_t)(high << 4 | low);
    }
    return read;
}

/* A message of any kind; a CHALLENGE, by its type, is answered too. */
static void keep(struct message message)
{
    if (IS_FULL(messages, message_count) || IS_FULL(challenges, challenge_count))
        stop("inputs", "more messages than this program has room for");
    messages[message_count++] = message;
    if (message.len >= 12 && message.bytes[8] == 2)
        challenges[challenge_count++] = message;
}

static void keep_sign_in(struct sign_in sign_in)
{
    if (IS_FULL(sign_ins, sign_in_count))
        stop("inputs", "more sign-ins than this program has room for");
    sign_ins[sign_in_count++] = sign_in;
    keep(sign_in.negotiate);
    keep(sign_in.challenge);
    keep(sign_in.authenticate);
}

static void keep_entry(const char *text)
{
    unsigned long start, length;
    char kind[32];
    struct dialtable_entry entry = {0, 0, DIALTABLE_AUTHENTICATE, 0, 0, 0};

    if (IS_FULL(night_entries, entry_count) || sscanf(text, "%lu %lu %31s", &start, &length, kind) != 3)
        stop(text, "no place of a night, or one too many");
    entry.start = start;
    entry.length = length;
    if (strcmp(kind, "NEGOTIATE") == 0)
        entry.mark = DIALTABLE_NEGOTIATE;
    if (strcmp(kind, "CHALLENGE") == 0)
        entry.mark = DIALTABLE_CHALLENGE;
    night_entries[entry_count++] = entry;
}

/* What stands behind a line's word; NULL where it is another word. */
static const char *behind(const char *line, const char *word)
{
    size_t n = strlen(word);

    return strncmp(line, word, n) == 0 && line[n] == ' ' ? line + n + 1 : NULL;
}

static void read_inputs(const char *path)
{
    static char line[8192];
    static struct sign_in sign_in;
    FILE *file = fopen(path, "r");
    const char *rest;

    if (file == NULL)
        stop(path, "can't be opened");
    while (fgets(line, sizeof line, file) != NULL) {
        if (strchr(line, '\n') == NULL)
            stop(path, "a line of it is too long for this program");
        if ((rest = behind(line, "key")) != NULL) sign_in.key = read_hex(rest);
        if ((rest = behind(line, "negotiate")) != NULL) sign_in.negotiate = read_hex(rest);
        if ((rest = behind(line, "challenge")) != NULL) sign_in.challenge = read_hex(rest);
        if ((rest = behind(line, "authenticate")) != NULL) sign_in.authenticate = read_hex(rest);
        if (behind(line, "mic") != NULL) keep_sign_in(sign_in);
        if ((rest = behind(line, "message")) != NULL) keep(read_hex(rest));
        if ((rest = behind(line, "night")) != NULL) night = read_hex(rest);
        if ((rest = behind(line, "entry")) != NULL) keep_entry(rest);
    }
    fclose(file);
    if (sign_in_count == 0 || message_count < 60 || challenge_count < 10 || night.len == 0 || entry_count == 0)
        stop(path, "it doesn't have the sign-ins, the messages and the night of this repository");
}

#endif
