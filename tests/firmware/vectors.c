/* What a Cortex-M starts from: the top of its stack and newlib's start. A fault ends the emulator, with a line. */
extern unsigned __stack;
extern void _start(void);

/* One request of semihosting, which the emulator does for the program. */
static void host(unsigned request, const void *what)
{
    register unsigned r0 __asm__("r0") = request;
    register const void *r1 __asm__("r1") = what;

    __asm__ volatile("bkpt 0xAB" : "+r"(r0) : "r"(r1) : "memory");
}
enum { WRITE_TEXT = 4, END = 0x18, END_BY_FAULT = 0x20023 };

static void fault(void)
{
    host(WRITE_TEXT, "a fault ended the program on the board\n");
    for (;;)
        host(END, (const void *)END_BY_FAULT);
}

__attribute__((section(".vectors"), used)) static void *const vectors[16] = {
    &__stack, (void *)_start, (void *)fault, (void *)fault, (void *)fault, (void *)fault, (void *)fault};
