/*
 * Loaded before the C library (LD_PRELOAD): plants faults in the program whose name FAULT_IN has. TEXT is a part of a file's
 * path, or of its name in /proc/self/fd, as 'pipe:'.
 *   FAULT_READ=N:TEXT    the N-th read of such a file fails: a fault of the device
 *   FAULT_WRITE=N:TEXT   such files have room for N bytes: then the disk is full
 *   FAULT_KILL=N:TEXT    the program is killed in the middle of the N-th write to such a file
 *   FAULT_MEMORY=N       there is no memory for N bytes or more at a time
 * What the C library itself reads and writes, as by stdio, passes these by.
 */
#define _GNU_SOURCE
#include <errno.h>
#include <fcntl.h>
#include <signal.h>
#include <stdio.h>
#include <stdlib.h>
#include <string.h>
#include <sys/syscall.h>
#include <sys/types.h>
#include <sys/uio.h>
#include <unistd.h>

extern void *__libc_malloc(size_t size);
extern void *__libc_calloc(size_t count, size_t size);
extern void *__libc_realloc(void *memory, size_t size);
extern void *__libc_memalign(size_t alignment, size_t size);

/* The fault of this name, where it is planted in this program. */
static const char *planted(const char *name)
{
    const char *in = getenv("FAULT_IN");
    return in != NULL && strcmp(in, program_invocation_short_name) == 0 ? getenv(name) : NULL;
}

/* Whether the fault of this name is for this file; its number, then. */
static int is_for(const char *name, int fd, size_t *number)
{
    const char *fault = planted(name);
    char *text, link[64], path[4096];
    ssize_t len;

    if (fault == NULL) return 0;
    *number = strtoul(fault, &text, 10);
    snprintf(link, sizeof link, "/proc/self/fd/%d", fd);
    len = readlink(link, path, sizeof path - 1);
    if (len < 0 || *text != ':') return 0;
    path[len] = '\0';
    return strstr(path, text + 1) != NULL;
}

ssize_t read(int fd, void *bytes, size_t n)
{
    static size_t reads;
    size_t bad;

    if (is_for("FAULT_READ", fd, &bad)) {
        if (++reads >= bad) {
            errno = EIO;
            return -1;
        }
        n = n > 16 ? 16 : n; /* so that there is a middle */
    }
    return syscall(SYS_read, fd, bytes, n);
}

ssize_t write(int fd, const void *bytes, size_t n)
{
    static size_t written, writes;
    size_t number;
    ssize_t moved;

    if (is_for("FAULT_KILL", fd, &number) && ++writes >= number) {
        syscall(SYS_write, fd, bytes, n / 2);
        kill(getpid(), SIGKILL);
    }
    if (!is_for("FAULT_WRITE", fd, &number)) return syscall(SYS_write, fd, bytes, n);
    if (written >= number && n > 0) {
        errno = ENOSPC;
        return -1;
    }
    moved = syscall(SYS_write, fd, bytes, n > number - written ? number - written : n);
    if (moved > 0) written += (size_t)moved;
    return moved;
}

/* One part at a time, so that no byte goes past the above. */
ssize_t writev(int fd, const struct iovec *parts, int count)
{
    int i = 0;
    while (i < count - 1 && parts[i].iov_len == 0) i++;
    return count > 0 ? write(fd, parts[i].iov_base, parts[i].iov_len) : 0;
}

/* Programs then read and write by themselves. */
ssize_t copy_file_range(int from, off64_t *from_at, int to, off64_t *to_at, size_t n, unsigned how)
{
    if (planted("FAULT_READ") == NULL && planted("FAULT_WRITE") == NULL && planted("FAULT_KILL") == NULL)
        return syscall(SYS_copy_file_range, from, from_at, to, to_at, n, how);
    errno = EXDEV;
    return -1;
}

static int has_memory(size_t size)
{
    const char *fault = planted("FAULT_MEMORY");
    if (fault == NULL || size < strtoul(fault, NULL, 10)) return 1;
    errno = ENOMEM;
    return 0;
}

void *malloc(size_t size)
{
    return has_memory(size) ? __libc_malloc(size) : NULL;
}

void *calloc(size_t count, size_t size)
{
    return has_memory(size > 0 && count > (size_t)-1 / size ? (size_t)-1 : count * size) ? __libc_calloc(count, size) : NULL;
}

void *realloc(void *memory, size_t size)
{
    return has_memory(size) ? __libc_realloc(memory, size) : NULL;
}

int posix_memalign(void **memory, size_t alignment, size_t size)
{
    *memory = has_memory(size) ? __libc_memalign(alignment, size) : NULL;
    return *memory == NULL ? ENOMEM : 0;
}
