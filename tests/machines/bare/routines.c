/* Memory routines for programs without a C library. They go byte by byte, so that no access is unaligned. */
#include <stdint.h>

typedef __SIZE_TYPE__ count;
void *memcpy(void *to, const void *from, count n);
void *memmove(void *to, const void *from, count n);
void *memset(void *to, int byte, count n);

/* 'volatile' keeps the compiler from making each of these a call of itself */

void *memcpy(void *to, const void *from, count n)
{
    volatile uint8_t *t = to;
    const uint8_t *f = from;
    while (n--)
        *t++ = *f++;
    return to;
}

void *memmove(void *to, const void *from, count n)
{
    volatile uint8_t *t = to;
    const uint8_t *f = from;
    if (t < f)
        return memcpy(to, from, n);
    while (n--)
        t[n] = f[n];
    return to;
}

void *memset(void *to, int byte, count n)
{
    volatile uint8_t *t = to;
    while (n--)
        *t++ = (uint8_t)byte;
    return to;
}

#ifdef __arm__
/* The names that compilers for ARM call them by: EABI run-time library, section 4.3.4. */
#define SAME(name, routine) __typeof__(routine) name __attribute__((alias(#routine)));
SAME(__aeabi_memcpy, memcpy)
SAME(__aeabi_memcpy4, memcpy)
SAME(__aeabi_memcpy8, memcpy)
SAME(__aeabi_memmove, memmove)
void __aeabi_memclr(void *to, count n);
void __aeabi_memclr(void *to, count n) { memset(to, 0, n); }
SAME(__aeabi_memclr4, __aeabi_memclr)
SAME(__aeabi_memclr8, __aeabi_memclr)
#endif
