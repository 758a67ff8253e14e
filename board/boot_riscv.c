/* From reset to main on a RISC-V core of 32 bits. */
#include "board.h"

extern uint32_t data_from[], data_begin[], data_end[], bss_begin[], bss_end[]; /* by the linker script */

int main(void);
void start(void);
void reset(void);
void fault(void);

__attribute__((naked, section(".vectors"), used)) void start(void)
{
    __asm__ volatile(".option push\n"
                     ".option norelax\n"
                     "la gp, __global_pointer$\n"
                     ".option pop\n"
                     "la sp, stack_top\n"
                     "la t0, fault\n"
                     "csrw mtvec, t0\n"
                     "j reset");
}

/* No trap is expected here. */
__attribute__((aligned(4))) void fault(void)
{
    say("fault\n");
    finish(1);
}

void reset(void)
{
    uint32_t *to, *from = data_from;
    for (to = data_begin; to < data_end; to++) {
        *to = *from++;
    }
    for (to = bss_begin; to < bss_end; to++) {
        *to = 0;
    }
    finish(main());
}
