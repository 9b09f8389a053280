/*
 * semihosting.h: a board's words to the machine that emulates or debugs it.
 *
 * A breakpoint with the number 0xAB is a call to that machine: r0 says which, r1
 * what with. A board that nobody watches stops there.
 */
#ifndef SEMIHOSTING_H
#define SEMIHOSTING_H

#include <stdint.h>

static inline void semihosting(uint32_t which, uintptr_t what)
{
    register uint32_t r0 __asm__("r0") = which;
    register uintptr_t r1 __asm__("r1") = what;
    __asm__ volatile("bkpt 0xAB" : "+r"(r0) : "r"(r1) : "memory");
}

/* Prints text up to its 0. */
static inline void say(const char *text)
{
    semihosting(0x04, (uintptr_t)text);
}

/* Prints a number, decimal. */
static inline void say_number(uint32_t number)
{
    char digits[11];
    char *at = digits + sizeof digits - 1;

    *at = 0;
    do
        *--at = (char)('0' + number % 10);
    while (number /= 10);
    say(at);
}

/* Ends the run; the emulator's exit status is 0 only where all went well. */
static inline void leave(int well)
{
    semihosting(0x18, well ? 0x20026 : 0x20023);
    for (;;)
        ;
}

#endif
