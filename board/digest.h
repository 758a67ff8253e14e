/* Digests of 64 bits, in two lanes of 32. Of two runs that differ in one word the digests differ; every board here is
 * little endian, and so is x86-64. */
#ifndef DIGEST_H
#define DIGEST_H

#include <stddef.h>
#include <stdint.h>

#include "line.h"

struct digest {
    uint32_t one, other;
};

static void add(struct digest *d, uint32_t word)
{
    d->one = (d->one ^ word) * 16777619u;
    d->other = (d->other + word) * 2654435761u;
    d->other ^= d->other >> 15;
}

/* From an address that is a multiple of four. */
static void add_all(struct digest *d, const void *bytes, size_t length)
{
    const uint8_t *at = (const uint8_t *)bytes;
    struct digest sum = *d;
    uint32_t word;

    add(&sum, (uint32_t)length);
    for (; length >= 4; length -= 4, at += 4) {
        __builtin_memcpy(&word, __builtin_assume_aligned(at, 4), 4);
        add(&sum, word);
    }
    for (word = 0; length > 0; length--, at++) {
        word = word << 8 | *at;
    }
    add(&sum, word);
    *d = sum;
}

static void put_digest(const char *what, const struct digest *d)
{
    put_words(what);
    put_hex(d->one);
    put_hex(d->other);
}

#endif
