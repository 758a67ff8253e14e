/* What a board gives to the programs here; host.c gives the same on a machine with a C library. */
#ifndef BOARD_H
#define BOARD_H

#include <stdint.h>

#ifdef __cplusplus
extern "C" {
#endif

/* Prints a text. */
void say(const char *text);

/* Ends the program; 0 is success. */
void finish(int status) __attribute__((noreturn));

/* Calls, and gives how many bytes of stack the call took, from the entry of `call` on; 0 where it isn't measured. */
uint32_t stack_of(void (*call)(void));

#ifdef __cplusplus
}
#endif

#endif
