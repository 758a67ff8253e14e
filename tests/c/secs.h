/* Texts of S3F17, written item by item with the shortest length bytes. */
#ifndef SECS_H
#define SECS_H

#include <string.h>

#include "hawsermole.h"

#ifndef LONGEST_MESSAGE
#define LONGEST_MESSAGE 3000
#endif

/* Format codes of SEMI E5, in octal as there. */
enum { LIST = 000, ASCII = 020, JIS8 = 021, U1 = 051 };

struct message {
    uint8_t bytes[LONGEST_MESSAGE];
    size_t length;
    uint32_t items;
};

/* The format byte and the length: bytes of data, or elements of a list. */
static void put_head(struct message *m, uint8_t code, size_t count)
{
    m->items++;
    m->bytes[m->length++] = (uint8_t)(code << 2 | (count > 255 ? 2 : 1));
    if (count > 255) {
        m->bytes[m->length++] = (uint8_t)(count >> 8);
    }
    m->bytes[m->length++] = (uint8_t)count;
}

static void put_item(struct message *m, uint8_t code, const void *data, size_t length)
{
    put_head(m, code, length);
    memcpy(m->bytes + m->length, data, length);
    m->length += length;
}

static void put_text(struct message *m, const char *text)
{
    put_item(m, ASCII, text, strlen(text));
}

static void put_u1(struct message *m, uint8_t value)
{
    put_item(m, U1, &value, 1);
}

/* A message up to its attributes, of which there are so many. */
static void begin(struct message *m, const char *action, const uint8_t *name, size_t length, uint8_t port,
                  size_t attributes)
{
    m->length = 0;
    m->items = 0;
    put_head(m, LIST, 5);
    put_u1(m, 1);
    put_text(m, action);
    put_item(m, ASCII, name, length);
    put_u1(m, port);
    put_head(m, LIST, attributes);
}

/* The attribute SlotMap. */
static void put_map(struct message *m, const uint8_t *codes)
{
    unsigned i;
    put_head(m, LIST, 2);
    put_text(m, "SlotMap");
    put_head(m, LIST, HM_SLOTS);
    for (i = 0; i < HM_SLOTS; i++) {
        put_u1(m, codes[i]);
    }
}

#endif
