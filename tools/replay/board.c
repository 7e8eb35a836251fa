/* What a Cortex-M board of qemu's mps2 family needs to start the C library's program, which speaks by semihosting. */
#include <stdint.h>

extern void _start(void);
extern uint32_t stack_top;

static void begin(void)
{
#ifdef __ARM_FP
    *(volatile uint32_t *)0xE000ED88 |= 0xFu << 20; /* the float unit is off at reset */
    __asm volatile("dsb\n isb");
#endif
    _start();
    for (;;)
        ;
}

static void fault(void)
{
    for (;;)
        __asm volatile("bkpt 1");
}

struct vectors {
    uint32_t *stack;
    void (*handler[15])(void);
};

__attribute__((section(".vectors"), used)) const struct vectors vectors = { &stack_top, { begin, fault, fault, fault, fault, fault } };

void _init(void) {}
void _fini(void) {}
