/*
 * Loaded before the C library (LD_PRELOAD): `read` and `write` fail or move less than they could, as the letters of
 * SHORT_READS and SHORT_WRITES say, one for each call on standard input or output; later calls are the system's own.
 *   1  at most one byte    i  interrupted by a signal    e  a fault of the device    .  as the system has it
 */
#define _GNU_SOURCE
#include <errno.h>
#include <stdlib.h>
#include <sys/syscall.h>
#include <unistd.h>

static char next_of(const char *variable, size_t *at)
{
    const char *letters = getenv(variable);
    char letter = letters != NULL ? letters[*at] : '\0';
    *at += letter != '\0';
    return letter;
}

static ssize_t moved(char letter, long number, int fd, const void *bytes, size_t n)
{
    if (letter == 'i' || letter == 'e') {
        errno = letter == 'i' ? EINTR : EIO;
        return -1;
    }
    return syscall(number, fd, bytes, letter == '1' && n > 1 ? 1 : n);
}

ssize_t read(int fd, void *bytes, size_t n)
{
    static size_t at;
    return moved(fd == 0 ? next_of("SHORT_READS", &at) : '.', SYS_read, fd, bytes, n);
}

ssize_t write(int fd, const void *bytes, size_t n)
{
    static size_t at;
    return moved(fd == 1 ? next_of("SHORT_WRITES", &at) : '.', SYS_write, fd, bytes, n);
}
