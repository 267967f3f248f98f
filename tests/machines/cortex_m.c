/*
 * The start of a program on a Cortex-M under qemu. Output goes through
 * semihosting: newlib's, or with BARE put_text alone, without a C library. With
 * TRAP_UNALIGNED every unaligned access is a fault.
 */
#include <stdint.h>

#define CCR (*(volatile uint32_t *)0xE000ED14u)   /* configuration and control */
#define CPACR (*(volatile uint32_t *)0xE000ED88u) /* coprocessor access */
enum { UNALIGN_TRP = 1 << 3, FPU_ON = 0xF << 20 };
enum { PUT_CHARACTER = 0x03, EXIT = 0x18, ENDED = 0x20026, RUN_TIME_ERROR = 0x20023 }; /* of semihosting */

extern char __stack[], __data_start[], __data_end[], __data_load[], __bss_start__[], __bss_end__[];
int main(void);
void *memcpy(void *to, const void *from, __SIZE_TYPE__ n);
void *memset(void *to, int byte, __SIZE_TYPE__ n);
void Reset_Handler(void);

static void semihosting(uint32_t call, uintptr_t argument)
{
    register uint32_t r0 __asm("r0") = call;
    register uintptr_t r1 __asm("r1") = argument;
    __asm volatile("bkpt 0xab" : "+r"(r0) : "r"(r1) : "memory");
}

static void fault(void)
{
    semihosting(EXIT, RUN_TIME_ERROR);
    for (;;)
        ;
}

#ifdef BARE
void put_text(const char *text, uint32_t length);
void put_text(const char *text, uint32_t length)
{
    while (length--)
        semihosting(PUT_CHARACTER, (uintptr_t)text++);
}

static void start(void)
{
    if (main() == 0)
        semihosting(EXIT, ENDED);
    fault();
}
#else
void exit(int status);
void initialise_monitor_handles(void);
void __libc_init_array(void);
void _init(void);
void _fini(void);
void _init(void) {}
void _fini(void) {}

static void start(void)
{
    initialise_monitor_handles();
    __libc_init_array();
    exit(main());
}
#endif

void Reset_Handler(void)
{
    memcpy(__data_start, __data_load, (__SIZE_TYPE__)(__data_end - __data_start));
    memset(__bss_start__, 0, (__SIZE_TYPE__)(__bss_end__ - __bss_start__));
#ifdef TRAP_UNALIGNED
    CCR |= UNALIGN_TRP;
#endif
#ifdef __ARM_FP
    CPACR |= FPU_ON;
#endif
    start();
}

/* stack, reset, NMI, hard, memory, bus and usage fault */
__attribute__((section(".vectors"), used)) const void *const vectors[] = {__stack, Reset_Handler, fault, fault, fault, fault, fault};
