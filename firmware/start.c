/*
 * start.c: from reset to main, on any Cortex-M.
 *
 * After reset the processor takes its stack pointer from the first word of flash
 * and goes on at the second. Every other exception here is a fault: an access to
 * what is no memory, say. It is reported with the address of the instruction, and
 * the run ends.
 */
#include "semihosting.h"

extern int main(void);
extern uint32_t stack_top, data_start, data_end, data_in_flash, bss_start, bss_end;

/* The C library has these two where a program uses its files (examples/key.c does). */
__attribute__((weak)) void initialise_monitor_handles(void);
__attribute__((weak)) int fflush(void *all);

/* What a program adds to the report of a fault. */
__attribute__((weak)) void at_fault(void) {}

static void reset(void)
{
    const uint32_t *from = &data_in_flash;

    for (uint32_t *to = &data_start; to < &data_end;)
        *to++ = *from++;
    for (uint32_t *to = &bss_start; to < &bss_end;)
        *to++ = 0;
    if (initialise_monitor_handles)
        initialise_monitor_handles();
    int status = main();
    if (fflush)
        fflush(0);
    leave(status == 0);
}

/* The processor has pushed eight words; the seventh is the address that it was at. */
__attribute__((used)) static void report(const uint32_t *pushed)
{
    say("fault: the instruction at ");
    say_number(pushed[6]);
    say("\n");
    at_fault();
    leave(0);
}

__attribute__((naked)) static void fault(void)
{
    __asm__("mov r0, sp\n\tbl report");
}

typedef void handler(void);

__attribute__((section(".vectors"), used)) const struct {
    uint32_t *stack;
    handler *reset, *others[14];
} vectors = {
    &stack_top,
    reset,
    { fault, fault, fault, fault, fault, fault, fault, fault, fault, fault, fault, fault, fault, fault },
};

/* The C library asks for these; there is nothing to do. */
void _init(void) {}
void _fini(void) {}
