/*
 * A program that comes to no good end: with FAULT it reads where no memory is, with HANG it never ends. tools/on-board
 * must end both with a line that says so, though what was printed before looks good.
 */
#include <stdint.h>
#include <stdio.h>

static volatile uint32_t zero;

int main(void)
{
    puts("1 passed, 0 failed");
#ifdef FAULT
    zero = *(volatile uint32_t *)(uintptr_t)0xE8000000u;
#endif
#ifdef HANG
    while (zero == 0)
        ;
#endif
    return (int)zero;
}
