/*
 * The three proved programs on inputs and outputs that fail, come in pieces or have no room. Something is printed only where
 * the input was read to its end; where reading or writing fails, standard error has one line that says so.
 * programs_test PROGRAMS CRATES LIBRARY: the folders of the programs and of their crates, and the library of short_reads.c.
 * The last line is 'N passed, M failed'.
 */
#define _GNU_SOURCE
#include <errno.h>
#include <fcntl.h>
#include <signal.h>
#include <stdio.h>
#include <stdlib.h>
#include <string.h>
#include <sys/mman.h>
#include <sys/resource.h>
#include <sys/wait.h>
#include <time.h>
#include <unistd.h>

enum { ROOM = 4096, CLOSED = -1 };

struct text {
    char bytes[ROOM];
    size_t len;
};

/* A program, what it prints for no input and for too much, the message that its crate has for it, and what it prints for
 * that. */
struct program {
    const char *name;
    const char *of_none, *of_too_much;
    const char *of_no_room; /* what it says where its print can't be written whole */
    char path[ROOM];
    struct text message;
    struct text line;
};

/* How a program is started beside its input and output. */
struct start {
    const char *preload; /* a library, or NULL */
    const char *reads;   /* its SHORT_READS */
    const char *writes;  /* its SHORT_WRITES */
    int ignored;         /* a signal that is ignored, or 0 */
    long file_room;      /* the most bytes of a file, or 0 */
};

static const struct start plain = {NULL, "", "", 0, 0};
static int passed, failed;

static void give_up(const char *what)
{
    perror(what);
    printf("%d passed, %d failed\n", passed, failed + 1);
    exit(1);
}

static void wait_a_little(void)
{
    struct timespec pause = {0, 50000000};
    nanosleep(&pause, NULL);
}

static void get_all(int fd, struct text *text)
{
    ssize_t n;
    text->len = 0;
    while ((n = read(fd, text->bytes + text->len, ROOM - text->len)) > 0)
        text->len += (size_t)n;
    if (n < 0)
        give_up("read");
}

static int opened(const char *path, int how)
{
    int fd = open(path, how | O_CLOEXEC);
    if (fd < 0)
        give_up(path);
    return fd;
}

static void get_file(const char *folder, const char *name, const char *file, struct text *text)
{
    char path[ROOM];
    int fd;
    snprintf(path, sizeof path, "%s/%s/%s", folder, name, file);
    fd = opened(path, O_RDONLY);
    get_all(fd, text);
    close(fd);
}

/* A file without a name that holds these bytes, to be read from its start. */
static int holding(const void *bytes, size_t n)
{
    int fd = memfd_create("bytes", MFD_CLOEXEC);
    if (fd < 0 || write(fd, bytes, n) != (ssize_t)n || lseek(fd, 0, SEEK_SET) != 0)
        give_up("a file");
    return fd;
}

/* A pipe. Its end for the program has O_NONBLOCK where `ready` is 0. */
static void open_pipe(int ends[2], int programs_end, int ready)
{
    if (pipe2(ends, O_CLOEXEC) != 0)
        give_up("pipe");
    if (!ready && fcntl(ends[programs_end], F_SETFL, O_NONBLOCK) != 0)
        give_up("O_NONBLOCK");
}

static void put(int fd, const char *bytes, size_t n)
{
    if (write(fd, bytes, n) != (ssize_t)n)
        give_up("write to a pipe");
}

static void become(const struct program *program, const struct start *start, int in, int out, int err)
{
    struct rlimit limit = {(rlim_t)start->file_room, (rlim_t)start->file_room};
    if (dup2(err, 2) < 0)
        _exit(120);
    if ((in == CLOSED ? close(0) : dup2(in, 0)) < 0 || (out == CLOSED ? close(1) : dup2(out, 1)) < 0)
        _exit(121);
    if (signal(SIGPIPE, SIG_DFL) == SIG_ERR)
        _exit(122);
    /* One that tries for ever is ended, and so fails. */
    alarm(60);
    if (start->ignored != 0 && signal(start->ignored, SIG_IGN) == SIG_ERR)
        _exit(123);
    if (start->file_room != 0 && setrlimit(RLIMIT_FSIZE, &limit) != 0)
        _exit(124);
    if (start->preload != NULL && setenv("LD_PRELOAD", start->preload, 1) != 0)
        _exit(125);
    if (setenv("SHORT_READS", start->reads, 1) != 0 || setenv("SHORT_WRITES", start->writes, 1) != 0)
        _exit(126);
    execl(program->path, program->name, (char *)NULL);
    _exit(127);
}

static pid_t begin(const struct program *program, const struct start *start, int in, int out, int err)
{
    pid_t child = fork();
    if (child < 0)
        give_up("fork");
    if (child == 0)
        become(program, start, in, out, err);
    return child;
}

static int ended(pid_t child)
{
    int status;
    if (waitpid(child, &status, 0) != child)
        give_up("waitpid");
    return status;
}

/* ---- what a run has to leave */

static int gives(int fd, const char *bytes, size_t n)
{
    struct text text;
    get_all(fd, &text);
    return text.len == n && memcmp(text.bytes, bytes, n) == 0;
}

static int holds(int file, const char *bytes, size_t n)
{
    if (lseek(file, 0, SEEK_SET) != 0)
        give_up("lseek");
    return gives(file, bytes, n);
}

static void note(const struct program *program, const char *what, int right)
{
    passed += right;
    failed += !right;
    if (!right)
        printf("failed: %s: %s\n", program->name, what);
}

static const char not_read[] =
    "standard input could not be read to its end, so nothing was printed; give it the whole message again";
static const char not_written[] =
    "the line could not be written whole; what was printed does not count: make room for it and run this again";
static const char checks_not_written[] =
    "the checks could not be written whole; what was printed does not count: make room for them and run this again";

/* A program's standard error: a pipe, which no limit on files reaches. */
static void listen_to(int err[2])
{
    if (pipe2(err, O_CLOEXEC) != 0)
        give_up("pipe");
}

/* It has this one line of the program, or nothing where `said` is NULL. */
static int heard(const struct program *program, int err[2], const char *said)
{
    char line[ROOM];
    int n = said == NULL ? 0 : snprintf(line, sizeof line, "%s: %s\n", program->name, said);
    int right;
    close(err[1]);
    right = gives(err[0], line, (size_t)n);
    close(err[0]);
    return right;
}

/* Runs the program on an input and compares what it printed and what it said. */
static void on_input(const struct program *program, const char *what, const struct start *start, int in, const char *line,
                     size_t n, const char *said)
{
    int out = holding("", 0), err[2], right;
    listen_to(err);
    right = ended(begin(program, start, in, out, err[1])) == 0;
    right &= heard(program, err, said);
    note(program, what, right && holds(out, line, n));
    close(out);
}

static void reads_whole(const struct program *program, const char *what, const struct start *start, int in)
{
    on_input(program, what, start, in, program->line.bytes, program->line.len, NULL);
}

static void cannot_read(const struct program *program, const char *what, const struct start *start, int in)
{
    on_input(program, what, start, in, "", 0, not_read);
}

/* The same on an output: what it holds afterwards is compared by the caller. */
static void cannot_write(const struct program *program, const char *what, const struct start *start, int out)
{
    int in = holding(program->message.bytes, program->message.len), err[2], right;
    listen_to(err);
    right = ended(begin(program, start, in, out, err[1])) == 0;
    note(program, what, heard(program, err, program->of_no_room) && right);
    close(in);
}

/* ---- inputs */

static void from_files(const struct program *program)
{
    static const char zeros[200000];
    static const size_t too_long[] = {65536, 65537, sizeof zeros};
    size_t i;
    int in = holding(program->message.bytes, program->message.len);
    reads_whole(program, "a file", &plain, in);
    close(in);
    in = opened("/dev/null", O_RDONLY);
    on_input(program, "an empty input", &plain, in, program->of_none, strlen(program->of_none), NULL);
    close(in);
    for (i = 0; i < sizeof too_long / sizeof *too_long; i++) {
        in = holding(zeros, too_long[i]);
        on_input(program, "an input of more than 65,535 bytes", &plain, in, program->of_too_much,
                 strlen(program->of_too_much), NULL);
        close(in);
    }
}

static void from_what_cannot_be_read(const struct program *program)
{
    int in = opened("/", O_RDONLY | O_DIRECTORY);
    cannot_read(program, "a directory", &plain, in);
    close(in);
    in = opened("/dev/null", O_WRONLY);
    cannot_read(program, "an input that is open for writing alone", &plain, in);
    close(in);
    cannot_read(program, "a closed input", &plain, CLOSED);
}

/* A pipe that holds the first n bytes and is not ready for more, or has ended. */
static void from_a_pipe_that_does_not_wait(const struct program *program, size_t n, int has_ended)
{
    int ends[2];
    open_pipe(ends, 0, 0);
    put(ends[1], program->message.bytes, n);
    if (has_ended) {
        close(ends[1]);
        reads_whole(program, "a pipe that does not wait and has ended", &plain, ends[0]);
    } else {
        cannot_read(program, "a pipe that is not ready", &plain, ends[0]);
        close(ends[1]);
    }
    close(ends[0]);
}

static void stop_and_go_on(pid_t child)
{
    int status;
    if (kill(child, SIGSTOP) != 0 || waitpid(child, &status, WUNTRACED) != child || kill(child, SIGCONT) != 0)
        give_up("kill");
}

/* The message in pieces with pauses between them; the program may be stopped and go on in each. */
static void from_a_slow_pipe(const struct program *program, const char *what, size_t piece, int stops)
{
    int ends[2], out = holding("", 0), err[2], right;
    size_t at = 0;
    pid_t child;
    open_pipe(ends, 0, 1);
    listen_to(err);
    child = begin(program, &plain, ends[0], out, err[1]);
    close(ends[0]);
    while (at < program->message.len) {
        size_t n = program->message.len - at < piece ? program->message.len - at : piece;
        wait_a_little();
        if (stops)
            stop_and_go_on(child);
        put(ends[1], program->message.bytes + at, n);
        at += n;
    }
    close(ends[1]);
    right = ended(child) == 0;
    right &= heard(program, err, NULL);
    note(program, what, right && holds(out, program->line.bytes, program->line.len));
    close(out);
}

static void with_reads(const struct program *program, const char *preload, const char *what, const char *reads, int whole)
{
    struct start start = {preload, reads, "", 0, 0};
    int in = holding(program->message.bytes, program->message.len);
    if (whole)
        reads_whole(program, what, &start, in);
    else
        cannot_read(program, what, &start, in);
    close(in);
}

/* ---- outputs */

static void to_what_has_no_room(const struct program *program)
{
    int out = opened("/dev/full", O_WRONLY);
    cannot_write(program, "a full device", &plain, out);
    close(out);
    out = opened("/dev/null", O_RDONLY);
    cannot_write(program, "an output that is open for reading alone", &plain, out);
    close(out);
    cannot_write(program, "a closed output", &plain, CLOSED);
}

/* A file that may grow to five bytes: the line's first bytes are there, and standard error says that they don't count. */
static void to_a_file_with_little_room(const struct program *program)
{
    struct start start = {NULL, "", "", SIGXFSZ, 5};
    FILE *file = tmpfile();
    if (file == NULL)
        give_up("tmpfile");
    cannot_write(program, "a file with little room", &start, fileno(file));
    note(program, "the bytes that had room", holds(fileno(file), program->line.bytes, 5));
    fclose(file);
}

static void to_a_full_pipe(const struct program *program)
{
    int ends[2];
    open_pipe(ends, 1, 0);
    while (write(ends[1], program->line.bytes, program->line.len) > 0) {}
    if (errno != EAGAIN)
        give_up("write to a pipe");
    cannot_write(program, "a full pipe that does not wait", &plain, ends[1]);
    close(ends[0]);
    close(ends[1]);
}

/* A pipe that nobody reads: the write fails, since a program of the toolchain ignores the signal from its start on. */
static void to_a_pipe_that_nobody_reads(const struct program *program)
{
    struct start ignoring = {NULL, "", "", SIGPIPE, 0};
    int ends[2];
    open_pipe(ends, 1, 1);
    close(ends[0]);
    cannot_write(program, "a pipe that nobody reads, with its signal ignored", &ignoring, ends[1]);
    cannot_write(program, "a pipe that nobody reads", &plain, ends[1]);
    close(ends[1]);
}

static void with_writes(const struct program *program, const char *preload)
{
    struct start pieces = {preload, "", "11", 0, 0};
    struct start fault = {preload, "", "1e", 0, 0};
    int in = holding(program->message.bytes, program->message.len), out;
    reads_whole(program, "a line that is taken in pieces", &pieces, in);
    close(in);
    out = holding("", 0);
    cannot_write(program, "a line whose second write fails", &fault, out);
    note(program, "the byte that was taken", holds(out, program->line.bytes, 1));
    close(out);
}

static void test(const struct program *program, const char *preload)
{
    from_files(program);
    from_what_cannot_be_read(program);
    from_a_pipe_that_does_not_wait(program, program->message.len, 1);
    from_a_pipe_that_does_not_wait(program, program->message.len, 0);
    from_a_pipe_that_does_not_wait(program, program->message.len * 5 / 6, 0);
    from_a_pipe_that_does_not_wait(program, 0, 0);
    from_a_slow_pipe(program, "a slow pipe", program->message.len / 4, 0);
    from_a_slow_pipe(program, "a slow pipe, with stops", program->message.len / 4, 1);
    with_reads(program, preload, "reads of one byte", "1111111", 1);
    with_reads(program, preload, "a first read that is interrupted", "i", 0);
    with_reads(program, preload, "a later read that is interrupted", "11i", 0);
    with_reads(program, preload, "a read that fails after the last byte", ".e", 0);
    to_what_has_no_room(program);
    to_a_file_with_little_room(program);
    to_a_full_pipe(program);
    to_a_pipe_that_nobody_reads(program);
    with_writes(program, preload);
}

int main(int argc, char **argv)
{
#define NOT_REACHED_3_TO_9 \
    "check 3 not reached\ncheck 4 not reached\ncheck 5 not reached\ncheck 6 not reached\ncheck 7 not reached\n" \
    "check 8 not reached\ncheck 9 not reached\n"
    static const char refused_2[] = "refused 2 field=0 at=0\n", refused_1[] = "refused 1 field=0 at=0\n";
    static const struct {
        const char *name, *of_none, *of_too_much, *of_no_room;
    } programs[] = {
        {"ntlm_line", refused_2, refused_1, not_written},
        {"nl_auth_line", refused_2, refused_1, not_written},
        {"ntlm_explain", "check 1 held\ncheck 2 failed field=0 offset=0 length=0 message=0\n" NOT_REACHED_3_TO_9,
         "check 1 failed field=0 offset=0 length=0 message=65536\ncheck 2 not reached\n" NOT_REACHED_3_TO_9,
         checks_not_written}};
    size_t i;
    int fd;
    if (argc != 4) {
        fprintf(stderr, "usage: programs_test PROGRAMS CRATES LIBRARY\n");
        return 2;
    }
    /* With 0, 1 and 2 open, no file below gets one of these numbers. */
    while ((fd = open("/dev/null", O_RDWR | O_CLOEXEC)) >= 0 && fd < 3) {}
    close(fd);
    /* A program that ends early fails its test and ends no other. */
    signal(SIGPIPE, SIG_IGN);
    for (i = 0; i < sizeof programs / sizeof *programs; i++) {
        struct program program;
        program.name = programs[i].name;
        program.of_none = programs[i].of_none;
        program.of_too_much = programs[i].of_too_much;
        program.of_no_room = programs[i].of_no_room;
        snprintf(program.path, sizeof program.path, "%s/%s", argv[1], program.name);
        get_file(argv[2], program.name, "stdin", &program.message);
        get_file(argv[2], program.name, "stdout", &program.line);
        test(&program, argv[3]);
    }
    printf("%d passed, %d failed\n", passed, failed);
    return failed != 0;
}
