/* How deep a call goes: the stack below is painted before it, and looked at after it. */
#ifndef STACK_H
#define STACK_H

#include <stdint.h>

#define STACK_PAINTED 49152
#define STACK_PAINT 0xa5a5a5a5u

static volatile uint32_t *painted_from;

#if defined(__x86_64__)
#define STACK_POINTER(p) __asm volatile("mov %%rsp, %0" : "=r"(p))
#define STACK_SPARED 128 /* below the stack pointer a function may keep this much */
#elif defined(__riscv)
#define STACK_POINTER(p) __asm volatile("mv %0, sp" : "=r"(p))
#define STACK_SPARED 0
#else
#define STACK_POINTER(p) __asm volatile("mov %0, sp" : "=r"(p))
#define STACK_SPARED 0
#endif

/* inlined, both, so that they have no frame of their own below the caller's */
#define INLINED static inline __attribute__((always_inline))

INLINED void paint(void)
{
    uintptr_t here;
    STACK_POINTER(here);
    volatile uint32_t *top = (volatile uint32_t *)((here - STACK_SPARED) & ~(uintptr_t)7);
    for (int i = 1; i <= STACK_PAINTED / 4; i++)
        top[-i] = STACK_PAINT;
    painted_from = top;
}

INLINED unsigned long depth(void)
{
    for (int i = STACK_PAINTED / 4; i >= 1; i--)
        if (painted_from[-i] != STACK_PAINT)
            return (unsigned long)i * 4;
    return 0;
}

#endif
