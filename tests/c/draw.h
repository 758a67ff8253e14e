/* Numbers and bytes by chance, the same for the same seed. */
#ifndef DRAW_H
#define DRAW_H

#include <stdint.h>

static uint64_t chance_state;

/* splitmix64 */
static uint64_t draw(void)
{
    uint64_t z = chance_state += 0x9E3779B97F4A7C15u;
    z = (z ^ (z >> 30)) * 0xBF58476D1CE4E5B9u;
    z = (z ^ (z >> 27)) * 0x94D049BB133111EBu;
    return z ^ (z >> 31);
}

/* A number below n, which isn't 0. */
static uint32_t below(uint32_t n)
{
    return (uint32_t)(((draw() >> 32) * n) >> 32);
}

static void any_bytes(uint8_t *bytes, uint32_t length)
{
    uint32_t i;
    for (i = 0; i < length; i++) {
        bytes[i] = (uint8_t)draw();
    }
}

#endif
