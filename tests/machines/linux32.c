/*
 * The driver's start and output as a 32-bit program of Linux on x86, without a C
 * library, and the division that it asks of one.
 */
#include <stdint.h>

enum { SYSTEM_EXIT = 1, SYSTEM_WRITE = 4, STANDARD_OUTPUT = 1, TOP_BIT = 63 };

int main(void);
void put_text(const char *text, uint32_t length);
void _start(void);
uint64_t __udivdi3(uint64_t a, uint64_t b);
uint64_t __umoddi3(uint64_t a, uint64_t b);

static int system_call(int call, int a, const char *b, uint32_t c)
{
    int answer;
    __asm volatile("int $0x80" : "=a"(answer) : "a"(call), "b"(a), "c"(b), "d"(c) : "memory");
    return answer;
}

void put_text(const char *text, uint32_t length)
{
    while (length) {
        int wrote = system_call(SYSTEM_WRITE, STANDARD_OUTPUT, text, length);
        if (wrote <= 0)
            system_call(SYSTEM_EXIT, 1, 0, 0);
        text += wrote, length -= (uint32_t)wrote;
    }
}

__attribute__((force_align_arg_pointer)) void _start(void)
{
    system_call(SYSTEM_EXIT, main(), 0, 0);
    for (;;)
        ;
}

static uint64_t divide(uint64_t a, uint64_t b, uint64_t *rest)
{
    uint64_t quotient = 0;
    *rest = 0;
    for (int bit = TOP_BIT; bit >= 0; bit--) {
        *rest = *rest << 1 | (a >> bit & 1);
        if (*rest >= b)
            *rest -= b, quotient |= (uint64_t)1 << bit;
    }
    return quotient;
}

uint64_t __udivdi3(uint64_t a, uint64_t b)
{
    uint64_t rest;
    return divide(a, b, &rest);
}

uint64_t __umoddi3(uint64_t a, uint64_t b)
{
    uint64_t rest;
    divide(a, b, &rest);
    return rest;
}
