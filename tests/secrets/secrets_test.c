/*
 * No conditional jump and no address by a secret: the calls of dialtable.h that are lent secrets, under valgrind's
 * memcheck, on real messages and drawn ones, taken and refused. And nothing public that depends on a secret: answers,
 * numbers, the text of lines, what is written outside the secrets' places.
 *
 *     secrets_test INPUTS N SEED    the inputs as inputs.h has them, then N drawn messages. Run it under valgrind
 *     secrets_test calls            the library's calls as calls.h has them: held, exception or without (secrets)
 *
 * calls.h says which calls are held and why the others aren't, secret.h, night.h and try.h say what is marked.
 * plants_test shows that what is looked for would be found. Memcheck sees the instructions that are run: what no
 * message reaches isn't held. It doesn't see how long an instruction takes. The last line is 'N passed, M failed'.
 */
#include <stdio.h>
#include <stdlib.h>
#include <string.h>

#include "dialtable.h"
#include "try.h"

static void print_calls(void)
{
#define PRINT_HELD(name) puts("held dialtable_" #name);
#define PRINT_EXCEPTION(name) puts("exception dialtable_" #name);
#define PRINT_WITHOUT(name) puts("without dialtable_" #name);
    HELD_CALLS(PRINT_HELD)
    EXCEPTION(PRINT_EXCEPTION)
    WITHOUT_SECRETS(PRINT_WITHOUT)
}

static void print_numbers(const unsigned long *times)
{
    unsigned n;

    for (n = 0; n < 256; n++)
        if (times[n] > 0)
            printf(" %u:%lu", n, times[n]);
}

/* Messages at 65,535 bytes and over, whose responses share so many that the canonical form would pass 65,535 too. */
static void try_long(void)
{
    static const uint64_t lens[] = {65535, 65536, 65536 + 1000};
    unsigned i;

    for (i = 0; i < 3; i++) {
        take(&sign_ins[0].authenticate);
        memset(msg + len, 0xA5, sizeof msg - len);
        len = lens[i];
        put_head(1, 40000, 40000, 2000);
        put_head(2, 40000, 40000, 2000);
        try_message(&sign_ins[0], 1);
    }
}

/* The refusals that each call must have reached, beside an answer that is none. */
static const struct {
    int call;
    const unsigned char numbers[16];
} wanted[] = {
    {CALL_read_authenticate, {1, 2, 3, 4, 5, 6, 7, 8, 9, 33}},
    {CALL_read_authenticate_struct, {1, 2, 3, 4, 5, 6, 7, 8, 9}},
    {CALL_authenticate_line, {33}},
    {CALL_ntlm_line, {33}},
    {CALL_ntlm_program_line, {33}},
    {CALL_explain, {33}},
    {CALL_canonical_authenticate, {1, 2, 3, 4, 5, 6, 7, 8, 9, 32, 30, 33}},
    {CALL_check_messages, {1}},
    {CALL_field_bytes, {6, 33}},
    {CALL_export_header, {1, 33}},
    {CALL_import_header, {58, 33}},
    {CALL_mic, {55, 2, 3, 4, 5, 6, 7, 8, 9, 56, 33}},
    {CALL_check_mic, {55, 2, 3, 4, 5, 6, 7, 8, 9, 56}},
    {CALL_write_mic, {55, 2, 3, 4, 5, 6, 7, 8, 9, 56}},
    {CALL_respond, {2, 3, 4, 5, 6, 10, 11, 12, 20, 21, 30, 31, 32, 33}},
    {CALL_respond_struct, {2, 3, 4, 5, 6, 10, 11, 12, 20, 21, 30, 31, 32, 33}},
    {CALL_respond_for_bench, {2, 4, 5, 20, 30, 31, 32, 33}},
    {CALL_respond_to_old_server, {2, 4, 5, 30, 31, 32, 33}},
    {CALL_respond_for_relay, {2, 4, 5, 20, 30, 31, 32, 33}},
    {CALL_write_authenticate, {5, 31, 32, 30, 33}},
    {CALL_write_authenticate_struct, {5, 31, 32, 30, 33}},
};
static const unsigned char wanted_of_entries[] = {0, 2, 3, 4, 5, 6, 7, 8, 9, 10, 11, 12, 54};

static int is_reached(int call)
{
    unsigned i, k, missing = 0;

    for (i = 0; i < sizeof wanted / sizeof *wanted; i++)
        for (k = 0; wanted[i].call == call && wanted[i].numbers[k] != 0; k++)
            if (counts[call].refused[wanted[i].numbers[k]] == 0) {
                missing++;
                printf("%s was never refused by %u: give a larger N\n", call_names[call], wanted[i].numbers[k]);
            }
    return missing == 0 && counts[call].answered > 0;
}

static void report(int call)
{
    const struct count *count = &counts[call];

    printf("  %s: %lu calls, %lu answered, refused", call_names[call], count->calls, count->answered);
    print_numbers(count->refused);
    if (call < HELD) {
        printf("; by a secret: %lu jumps and addresses, %lu answers and public bytes\n", count->jumps, count->shown);
        hold(count->jumps == 0, call_names[call], "a conditional jump or an address depends on a secret");
        hold(count->shown == 0, call_names[call], "an answer, a number or a public byte depends on a secret");
    } else {
        printf("; the exception: %lu jumps and addresses by the text\n", count->jumps);
        hold(count->jumps > 0, call_names[call], "it is named as the exception, and no jump depends on its text");
    }
    hold(is_reached(call), call_names[call], "not all that it can answer was reached");
}

/* All messages, as dialtable_read_authenticate_struct has answered. */
static void report_messages(unsigned long drawn)
{
    static const char *const names[] = {SHAPES(NAME)};
    const struct count *read = &counts[CALL_read_authenticate_struct];
    unsigned i;

    printf("  %lu messages: %u of this repository, 3 long ones, %lu drawn; %lu taken, refused", read->calls,
           message_count, drawn, read->answered);
    print_numbers(read->refused);
    printf("\n  of those taken");
    for (i = 0; i < SHAPE_COUNT; i++)
        printf(" %s:%lu", names[i], shapes[i]);
    printf("\n  a MIC that was checked was right %lu times and wrong %lu times\n", mics[1], mics[0]);
    for (i = 0; i < SHAPE_COUNT; i++)
        hold(shapes[i] > 0, names[i], "no such message was taken");
    hold(mics[0] > 0 && mics[1] > 0, "check_mic", "it didn't say both yes and no");
}

static void report_night(void)
{
    unsigned i, reached = 0;

    printf("  entries of a night, by number:");
    print_numbers(entry_answers);
    puts("");
    for (i = 0; i < sizeof wanted_of_entries; i++)
        reached += entry_answers[wanted_of_entries[i]] > 0;
    hold(reached == sizeof wanted_of_entries, "entries of a night", "not all that one can be answered was reached");
}

static void try_all(unsigned long drawn)
{
    unsigned long i;
    int call;

    for (i = 0; i < message_count; i++) {
        take(&messages[i]);
        try_message(&sign_ins[i / 3 % sign_in_count], (unsigned)i);
    }
    check_night(night.bytes, night.len, night_entries, entry_count);
    try_long();
    for (i = 0; i < drawn; i++) {
        const struct sign_in *sign_in = draw_message((unsigned)i);

        try_message(sign_in, (unsigned)i);
    }
    report_messages(drawn);
    for (call = 0; call < CALLS; call++)
        if (call != HELD)
            report(call);
    report_night();
}

int main(int argc, char **argv)
{
    if (argc == 2 && strcmp(argv[1], "calls") == 0) {
        print_calls();
        return 0;
    }
    if (argc != 4)
        stop("usage", "secrets_test calls | INPUTS N SEED");
    begin(argv[1], strtoull(argv[3], NULL, 10));
    try_all(strtoul(argv[2], NULL, 10));
    printf("%d passed, %d failed\n", passed, failed);
    return failed != 0;
}
