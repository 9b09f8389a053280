/*
 * divide.c: 64-bit division as the library asks for it, by 32 bits where both numbers
 * have no more. It stands in for a library that divides 32-bit numbers, to see what
 * that would bring.
 */
#include <stdint.h>

__attribute__((used)) static uint64_t parts(uint32_t a, uint32_t b)
{
    return a / b | (uint64_t)(a % b) << 32;
}

/* Quotient in r0 and r1, remainder in r2 and r3; every dividend and divisor of the library has 32 bits. */
__attribute__((naked)) void __aeabi_uldivmod(void)
{
    __asm__("push {r4, lr}\n\t"
            "mov r1, r2\n\t"
            "bl parts\n\t"
            "mov r2, r1\n\t"
            "movs r1, #0\n\t"
            "movs r3, #0\n\t"
            "pop {r4, pc}");
}
