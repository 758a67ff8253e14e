/* Lines of words and numbers, without printf. */
#ifndef LINE_H
#define LINE_H

#include "board.h"

static char line[200];
static uint32_t line_length;

static void put_char(char c)
{
    if (line_length < sizeof line - 2) {
        line[line_length++] = c;
    }
}

static void put_words(const char *words)
{
    while (*words != 0) {
        put_char(*words++);
    }
}

static void put_number(uint32_t number)
{
    char digits[10];
    uint32_t count = 0;
    do {
        digits[count++] = (char)('0' + number % 10);
        number /= 10;
    } while (number != 0);
    while (count > 0) {
        put_char(digits[--count]);
    }
}

static inline void put_hex(uint32_t number)
{
    int shift;
    for (shift = 28; shift >= 0; shift -= 4) {
        put_char("0123456789abcdef"[number >> shift & 15]);
    }
}

static void end_line(void)
{
    line[line_length++] = '\n';
    line[line_length] = 0;
    say(line);
    line_length = 0;
}

#endif
