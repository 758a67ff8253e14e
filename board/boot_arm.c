/* From reset to main on a Cortex-M. */
#include "board.h"

extern uint32_t data_from[], data_begin[], data_end[], bss_begin[], bss_end[], stack_top[]; /* by the linker script */

int main(void);
void reset(void);
void fault(void);

#define CPACR (*(volatile uint32_t *)0xE000ED88u) /* who may use the coprocessors */

/* The stack's top, reset, and fourteen faults and calls: none is expected here. */
struct vectors {
    uint32_t *stack;
    void (*entries[15])(void);
};

__attribute__((section(".vectors"), used)) static const struct vectors vectors = {
    stack_top,
    {reset, fault, fault, fault, fault, fault, fault, fault, fault, fault, fault, fault, fault, fault, fault}};

void fault(void)
{
    say("fault\n");
    finish(1);
}

void reset(void)
{
    uint32_t *to, *from = data_from;
    for (to = data_begin; to < data_end; to++) {
        *to = *from++;
    }
    for (to = bss_begin; to < bss_end; to++) {
        *to = 0;
    }
#if defined(__ARM_FP)
    CPACR |= 0xFu << 20; /* the compiler may use the FPU */
    __asm__ volatile("dsb\nisb");
#endif
    finish(main());
}
