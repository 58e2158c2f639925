/*
 * Division for ARM processors without a divide instruction: the compiler calls it by this name where the
 * module divides numbers of 32 bits. It stays inside the archive, so that a program needs no library of
 * the compiler. The module divides by no 0.
 */
#include <stdint.h>

uint32_t __aeabi_uidiv(uint32_t number, uint32_t divisor);

uint32_t __aeabi_uidiv(uint32_t number, uint32_t divisor)
{
    uint32_t quotient = 0, rest = 0;
    for (int bit = 31; bit >= 0; bit--) {
        uint32_t carry = rest >> 31;
        rest = rest << 1 | (number >> bit & 1);
        if (carry || rest >= divisor) {
            rest -= divisor;
            quotient |= UINT32_C(1) << bit;
        }
    }
    return quotient;
}
