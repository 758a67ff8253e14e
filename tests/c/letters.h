/*
 * Messages by chance, the same for the same seed: the parts of an input as the text of an S3F17, with attributes of all
 * kinds of value; some are then cut, damaged, or no message at all.
 */
#ifndef LETTERS_H
#define LETTERS_H

#include "chance.h"
#include "secs.h"

#define ROOM_FOR_VALUE 40 /* bytes that a value without lists takes at most, and its head */

/* The fourteen formats of SEMI E5 but for the list, in octal as there, and the bytes of one element. */
static const struct {
    uint8_t code, size;
} formats[] = {{010, 1}, {011, 1}, {020, 1}, {030, 8}, {031, 1}, {032, 2}, {034, 4},
               {040, 8}, {044, 4}, {050, 8}, {051, 1}, {052, 2}, {054, 4}};

#define FORMATS (sizeof formats / sizeof formats[0])

/* One element in most, and as many text or binary bytes as there is room for. */
static void put_plain_value(struct message *m)
{
    uint32_t k = below(FORMATS), size = formats[k].size;
    uint32_t elements = formats[k].code == ASCII || formats[k].code == 010 ? below(ROOM_FOR_VALUE - 4) : 1;
    uint8_t data[ROOM_FOR_VALUE];

    elements = size < 8 && below(20) == 0 ? below(3) : elements;
    any_bytes(data, elements * size);
    put_item(m, formats[k].code, data, elements * size);
}

/* Lists in lists now and then, some of them deeper than may be. */
static void put_value(struct message *m, uint32_t nested)
{
    uint32_t elements = 1 + below(2);

    if (nested > 6 || below(3) || m->length + (elements + 1) * ROOM_FOR_VALUE > LONGEST_MESSAGE) {
        put_plain_value(m);
        return;
    }
    put_head(m, LIST, elements);
    while (elements-- > 0) {
        put_value(m, nested + 1);
    }
}

#define MANY 150

/* A list of numbers, with which the message may have more items than are read. */
static void put_many(struct message *m)
{
    uint32_t elements = below(MANY);

    put_head(m, LIST, elements);
    while (elements-- > 0) {
        put_u1(m, (uint8_t)elements);
    }
}

/* The input as a message, whatever its number. */
static void put_input(struct message *m, const struct input *in)
{
    static const char *const actions[] = {"Bind", "CarrierNotification", "ProceedWithCarrier", "CancelCarrier",
                                          "CancelBind", "bind", ""};
    uint32_t action = below(16) ? below(4) : below(7), attributes = below(4);
    int mapped = attributes > 0 && in->codes_length == HM_SLOTS && below(3);

    begin(m, actions[action], in->name, in->name_length, (uint8_t)in->port, attributes);
    if (mapped) {
        put_map(m, in->rest.codes);
        attributes--;
    }
    while (attributes-- > 0) {
        if (m->length + 3 * ROOM_FOR_VALUE > LONGEST_MESSAGE) {
            return; /* a list that counts more than there are: cut short */
        }
        put_head(m, LIST, 2);
        put_text(m, below(8) ? "Usage" : "SlotMap");
        if (m->length < LONGEST_MESSAGE - 3 * MANY - ROOM_FOR_VALUE && below(30) == 0) {
            put_many(m);
        } else {
            put_value(m, 1);
        }
    }
}

/* Another end, a byte or two changed, or nothing of it left. */
static void spoil(struct message *m)
{
    uint32_t where = below((uint32_t)m->length), changes = 1 + below(2);

    switch (below(5)) {
    case 0: m->length = where; break;
    case 1: m->length += m->length < LONGEST_MESSAGE; break;
    case 2: m->length = below(200); any_bytes(m->bytes, (uint32_t)m->length); break;
    case 3: m->length = below(300); memset(m->bytes, (int)below(256), m->length); break;
    default:
        while (changes-- > 0) {
            m->bytes[where] = (uint8_t)(below(2) ? draw() : m->bytes[where] + 1u);
            where = below((uint32_t)m->length);
        }
    }
}

static void next_message(struct message *m, const struct input *in)
{
    put_input(m, in);
    if (below(3) == 0) {
        spoil(m);
    }
}

/* As many items as may be, and as many of them at the greatest depth, each with three length bytes: what costs most. */
static inline void put_costly(struct message *m, const char *action, const uint8_t *name, uint32_t length)
{
    static const uint8_t lists[] = {0x03, 0, 0, 1, 0x03, 0, 0, 1, 0x03, 0, 0, 117}, number[] = {0xA7, 0, 0, 1, 1};
    unsigned i;

    begin(m, action, name, length, 1, 1);
    put_head(m, LIST, 2);
    put_text(m, "Usage");
    memcpy(m->bytes + m->length, lists, sizeof lists);
    m->length += sizeof lists;
    for (i = 0; i < 117; i++) {
        memcpy(m->bytes + m->length, number, sizeof number);
        m->length += sizeof number;
    }
}

#endif
