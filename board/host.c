/* The board's functions on a machine with a C library. */
#include <stdio.h>
#include <stdlib.h>

#include "board.h"

void say(const char *text)
{
    fputs(text, stdout);
}

void finish(int status)
{
    exit(status);
}

uint32_t stack_of(void (*call)(void))
{
    call();
    return 0;
}
