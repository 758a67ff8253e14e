/* The stack of a call, painted before it. */
#include "board.h"

#define PAINT 0x5AC3E178u

extern uint32_t stack_lowest[]; /* by the linker script */

#if defined(__arm__)
#define MOVE "mov"
#else
#define MOVE "mv"
#endif

__attribute__((noinline)) uint32_t stack_of(void (*call)(void))
{
    volatile uint32_t *word;
    uint32_t *top;

    __asm__ volatile(MOVE " %0, sp" : "=r"(top));
    for (word = stack_lowest; word < top; word++) {
        *word = PAINT;
    }
    call();
    for (word = stack_lowest; word < top && *word == PAINT; word++) {
    }
    if (word == stack_lowest) {
        say("the stack is used up\n");
        finish(1);
    }
    return (uint32_t)((uintptr_t)top - (uintptr_t)word);
}
