/*
 * upload USER DOMAIN WORKSTATION TARGET WANTED SETTINGS PATH FILE: a box puts a file on a web server by HTTP, and signs
 * in by header lines, which the library writes and reads. The server is at the other end of standard input and output.
 * First comes the password, as a line of text. Then:
 *     out  a PUT without a message and without a body
 *     in   the server's response, which must be 401 with no message: it offers schemes
 *     out  a PUT without a body, with the NEGOTIATE in its line 'Authorization'
 *     in   the server's response, with the CHALLENGE in a line 'WWW-Authenticate'
 *     out  a PUT with the AUTHENTICATE and the file
 *     in   the server's response: a status of 200 to 299 says that it took both
 * or in the place of what would go out a reason in a line, as sign_in has it, and status 1. The log goes to standard
 * error. The session key goes to nobody, but for a bench that names an open descriptor in SIGN_IN_KEY_FD, which is none
 * of the three that the server and the log have: there it is written ahead of the last PUT, as a line 'key HEX'.
 */
#define _POSIX_C_SOURCE 200112L /* fdopen */
#include <ctype.h>
#include <stdio.h>
#include <stdlib.h>
#include <string.h>

#include "program.h"

#define LINE_LEN 8192
#define FILE_ROOM 65536

static struct radio radio;
static const char *path;
static uint8_t file[FILE_ROOM];
static size_t file_len;

/* Where the bench wants the session key. Answers NULL where it wants none, or names no descriptor beyond standard
 * error. */
static FILE *key_file(void)
{
    const char *name = getenv("SIGN_IN_KEY_FD");
    long fd = name == NULL ? 0 : strtol(name, NULL, 10);

    return fd > 2 && fd <= 1023 ? fdopen((int)fd, "w") : NULL;
}

/* Answers 1, or 0 where the bench wants the key and can't have it. */
static int tell_key(void)
{
    FILE *to = key_file();
    size_t i;
    int written;

    if (to == NULL) return getenv("SIGN_IN_KEY_FD") == NULL;
    written = fputs("key ", to) != EOF;
    for (i = 0; i < sizeof radio.session_key && written; i++) written = fprintf(to, "%02x", radio.session_key[i]) > 0;
    written = written && putc('\n', to) != EOF;
    return fclose(to) == 0 && written;
}

/* A request with a message in its header line, or without one, and with so much of the file. Answers 1, or 0 where it
 * can't be sent. */
static int put(const uint8_t *msg, dialtable_len msg_len, size_t body_len)
{
    static uint8_t text[DIALTABLE_HEADER_LEN(ANSWER_ROOM)];
    uint64_t len = dialtable_export_header(text, sizeof text, msg, msg_len);

    if (DIALTABLE_IS_REFUSED(len)) return 0;
    printf("PUT %s HTTP/1.1\r\nHost: localhost\r\nContent-Length: %lu\r\n", path, (unsigned long)body_len);
    if (msg_len > 0) printf("Authorization: %.*s\r\n", (int)len, (const char *)text);
    printf("\r\n");
    fwrite(file, 1, body_len, stdout);
    return fflush(stdout) == 0 && !ferror(stdout);
}

/* A line of a response's head, without the blanks at its end. Answers 1, or 0 where it is the empty one, or none. */
static int read_line(char line[LINE_LEN])
{
    size_t len;

    if (fgets(line, LINE_LEN, stdin) == NULL || strchr(line, '\n') == NULL) return 0;
    for (len = strlen(line); len > 0 && isspace((unsigned char)line[len - 1]);) line[--len] = 0;
    return len > 0;
}

/* The value of a header line of this name, in small letters, without the blanks before it; NULL for another line. */
static const char *value_of(const char *line, const char *name)
{
    for (; *name != 0; line++, name++)
        if (tolower((unsigned char)*line) != *name) return NULL;
    if (*line++ != ':') return NULL;
    while (*line == ' ' || *line == '\t') line++;
    return line;
}

/* Reads a response, its body too. Answers its status, or 0 where there is none. A message is that of the first line
 * that has one: the server's offer, 'NTLM' alone, and other schemes are refused 57. */
static int receive(uint8_t *in, dialtable_len in_len, dialtable_len *msg_len)
{
    static char line[LINE_LEN];
    const char *value;
    uint64_t answer;
    long rest = 0;
    int status = 0;

    *msg_len = 0;
    if (!read_line(line) || sscanf(line, "HTTP/1.%*d %d", &status) != 1) return 0;
    while (read_line(line)) {
        if ((value = value_of(line, "content-length")) != NULL) rest = strtol(value, NULL, 10);
        if (*msg_len > 0 || in_len == 0 || (value = value_of(line, "www-authenticate")) == NULL) continue;
        answer = dialtable_import_header(in, in_len, (const uint8_t *)value, strlen(value));
        if (!DIALTABLE_IS_REFUSED(answer)) *msg_len = answer;
    }
    while (rest-- > 0 && getchar() != EOF) {}
    return status;
}

dialtable_len exchange(const uint8_t *msg, dialtable_len msg_len, uint8_t *in, dialtable_len in_len)
{
    int is_last = in_len == 0, status;
    dialtable_len len;

    if (is_last && !tell_key()) {
        fputs("the session key can't be told: name an open descriptor over 2 in SIGN_IN_KEY_FD, or leave it out\n", stderr);
        exit(1);
    }
    if (!put(msg, msg_len, is_last ? file_len : 0)) {
        if (is_last) return NOT_SENT;
        fputs("the NEGOTIATE can't be sent: standard output takes no more\n", stderr);
        exit(1);
    }
    status = receive(in, in_len, &len);
    if (is_last) return status >= 200 && status < 300 ? 0 : NOT_TAKEN;
    if (len > 0) return len;
    printf("no challenge: the server's status is %d, and no line has a message that fits\n", status);
    exit(1);
}

/* Whether the server wants a sign-in. Its offers are no messages. */
static int is_asked(void)
{
    static uint8_t in[CHALLENGE_ROOM];
    dialtable_len len;

    return put(NULL, 0, 0) && receive(in, sizeof in, &len) == 401 && len == 0;
}

static int read_file(const char *name)
{
    FILE *from = fopen(name, "rb");
    int is_whole;

    if (from == NULL) return 0;
    file_len = fread(file, 1, sizeof file, from);
    is_whole = !ferror(from) && file_len < sizeof file;
    fclose(from);
    return is_whole;
}

int main(int argc, char **argv)
{
    struct settings box;

    if (argc != 1 + SETTINGS_WORDS + 2) {
        fputs("usage: upload " SETTINGS_USAGE " PATH FILE, the password as a line\n", stderr);
        return 2;
    }
    path = argv[SETTINGS_WORDS + 1];
    if (!read_file(argv[SETTINGS_WORDS + 2])) {
        puts("nothing to upload: the file can't be read, or has more than 65,535 bytes");
        return 1;
    }
    if (!program_start(argv + 1, &box, &radio)) return 1;
    if (is_asked()) return program_tell(sign_in(&box, &radio));
    puts("no sign-in: the server doesn't ask for one");
    return 1;
}
