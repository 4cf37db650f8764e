/*
 * Would what secrets_test looks for be found? In each held call, by each secret that it is lent, faults are planted,
 * one after the other (plants.h), on messages that are taken and refused. Each must be found as often as it was made,
 * in its call and in the header's inline function over it, and nothing else may be found.
 *     plants_test INPUTS    linked with plants.c and --wrap for each held call. Run it under valgrind
 * The last line is 'N passed, M failed'.
 */
#include <stdio.h>
#include <stdlib.h>
#include <string.h>

#include "dialtable.h"
#include "plants.h"
#include "try.h"

/* The inline function over a call; the call itself where there is none. */
static int inline_over(int call)
{
    switch (call) {
    case CALL_read_authenticate: return CALL_read_authenticate_struct;
    case CALL_respond: return CALL_respond_struct;
    case CALL_write_authenticate: return CALL_write_authenticate_struct;
    case CALL_mic: return CALL_write_mic;
    default: return call;
    }
}

/* Whether there is such a fault: of field_bytes and export_header the whole message is one secret, nothing that mic and
 * check_mic write is public, and only reading and answering give numbers. */
static int is_plant(void)
{
    if (planted_fault == IN_NUMBER)
        return planted_call == CALL_read_authenticate || planted_call == CALL_respond ||
               planted_call == CALL_respond_for_bench || planted_call == CALL_respond_to_old_server ||
               planted_call == CALL_respond_for_relay;
    if (planted_call == CALL_field_bytes || planted_call == CALL_export_header)
        return planted_secret == BY_NT;
    return planted_fault != IN_PUBLIC || (planted_call != CALL_mic && planted_call != CALL_check_mic);
}

/* An AUTHENTICATE that has every secret: taken, and with a CHALLENGE as it is (its turn is 7); and refused, with a name
 * over the NT response or past the end, and with a CHALLENGE that is cut. */
static void try_few(void)
{
    unsigned i;

    for (i = 0; i < 8; i++) {
        take(&sign_ins[0].authenticate);
        if (i == 6) put_head(4, 8, 8, u32_at(head_of(msg, 2) + 4));
        if (i == 7) put_head(5, 8, 8, (uint32_t)len - 1);
        try_message(&sign_ins[0], i < 6 ? 7 : 1);
    }
}

/* How often the planted fault was found; -1 where anything else was. */
static long found(void)
{
    const struct count *own = &counts[planted_call], *over = &counts[inline_over(planted_call)];
    unsigned long jumps = 0, shown = 0, expected;
    int call;

    for (call = 0; call < HELD; call++) {
        jumps += counts[call].jumps;
        shown += counts[call].shown;
    }
    /* An inline function asks whether the answer is a refusal: with a fault in the answer comes a jump by it. */
    if (planted_fault == IN_ANSWER && over != own)
        jumps -= over->jumps;
    expected = planted_fault == JUMP || planted_fault == ADDRESS ? own->jumps : own->shown;
    if (over != own)
        expected += planted_fault == JUMP || planted_fault == ADDRESS ? over->jumps : over->shown;
    return expected == jumps + shown ? (long)expected : -1;
}

/* All faults of one call. */
static void try_plants(void)
{
    unsigned long plants = 0, made = 0, seen = 0;
    long times;

    for (planted_secret = 0; planted_secret < SECRETS; planted_secret++)
        for (planted_fault = 0; planted_fault < FAULTS; planted_fault++) {
            if (!is_plant())
                continue;
            memset(counts, 0, sizeof counts);
            planted_times = 0;
            try_few();
            times = found();
            plants++;
            made += planted_times;
            seen += times < 0 ? 0 : (unsigned long)times;
            hold(planted_times > 0 && times == (long)planted_times, call_names[planted_call],
                 "a fault was not found as often as it was made, or something else was");
        }
    printf("  %s: %lu faults planted, made %lu times, found %lu times\n", call_names[planted_call], plants, made, seen);
}

int main(int argc, char **argv)
{
    if (argc != 2)
        stop("usage", "plants_test INPUTS");
    begin(argv[1], 1);
    for (planted_call = 0; planted_call < CALL_read_authenticate_struct; planted_call++)
        try_plants();
    printf("%d passed, %d failed\n", passed, failed);
    return failed != 0;
}
