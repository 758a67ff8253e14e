/*
 * Answers to the bridge (request P13) through the C interface: the text of S3F18 for every number to 70,000, in rooms
 * around its length, and the bridge's whole way against a step and then its reply, for messages by chance of which many
 * are bad. Every room is lent to the byte, filled beforehand, and looked at to its last byte afterwards.
 */
#define _DEFAULT_SOURCE
#include "check.h"
#include "lend.h"
#include "secs.h"
#include "chance.h"

#define ODD 0xA5A5A5A5u
#define LAST_NUMBER 70000u
#define MESSAGES 20000u
#define ACCEPTED_BYTES 7u
#define HEAD_BYTES 15u /* of a refusal, before its words */
#define WORDS_MOST 80u
#define ROOM_MOST (HM_REPLY_ROOM + 1u)

static struct room message_room, reply_room;
static hm_tool tool;
static hm_reports reports;
static const hm_reports no_reports;

struct text {
    uint8_t bytes[HM_REPLY_ROOM];
    uint32_t length;
};

/* The text for a number, in enough room. */
static struct text text_of(uint32_t number)
{
    struct text t;
    CHECK(hm_reply(number, t.bytes, sizeof t.bytes, &t.length) == HM_ACCEPTED && t.length <= sizeof t.bytes);
    return t;
}

static int has_words_of_its_own(uint32_t number)
{
    return (number >= 1 && number <= 14) || (number >= 20 && number <= 29);
}

/* A list of the acknowledge byte and of no error or one, a pair of code and words; length bytes are the shortest. */
static int is_reply(uint32_t number, const struct text *t)
{
    const uint8_t ack = number == 0 ? 0 : number == 1 || (number >= 20 && number <= 26) ? 3 : 5;
    const uint32_t code = number > 65535 ? 65535 : number;
    const uint8_t head[HEAD_BYTES] = {0x01, 2, 0xA5, 1, ack, 0x01, number == 0 ? 0 : 1, 0x01, 2, 0xA9, 2,
                                      (uint8_t)(code >> 8), (uint8_t)code, 0x41, (uint8_t)(t->length - HEAD_BYTES)};
    uint32_t i;

    if (number == 0) {
        return t->length == ACCEPTED_BYTES && memcmp(t->bytes, head, ACCEPTED_BYTES) == 0;
    }
    for (i = HEAD_BYTES; i < t->length; i++) {
        if (t->bytes[i] < 0x20 || t->bytes[i] > 0x7E) {
            return 0;
        }
    }
    return t->length > HEAD_BYTES && t->length <= HEAD_BYTES + WORDS_MOST && memcmp(t->bytes, head, HEAD_BYTES) == 0;
}

/* What a room has to hold after a call: the text and then what was there, or all that was there. */
static void after(uint8_t *room, uint64_t length, const struct text *t)
{
    if (t->length <= length) {
        memcpy(room, t->bytes, t->length);
    }
}

/* One call with so much room, placed so: 1 when answer, length and every byte of the room are as they have to be. */
static int writes(uint32_t number, const struct text *t, uint64_t length, enum placing placing)
{
    uint32_t told[3] = {ODD, ODD, ODD}, answer;
    uint8_t wanted[ROOM_MOST];
    struct lent lent;
    int good;

    memset(wanted, number % 2 == 0 ? 0xAA : 0x55, length);
    lent = lend(&reply_room, placing, wanted, length);
    answer = hm_reply(number, lent.writable, length, &told[1]);
    after(wanted, length, t);
    good = answer == (t->length <= length ? HM_ACCEPTED : HM_REFUSED_ROOM_TOO_SMALL);
    good = good && told[1] == (t->length <= length ? t->length : 0) && told[0] == ODD && told[2] == ODD;
    good = good && memcmp(lent.writable, wanted, length) == 0;
    return give_back(&lent) && good;
}

static void every_number(void)
{
    const struct text other = text_of(15);
    uint32_t number, length, wrong = 0;

    for (number = 0; number <= LAST_NUMBER; number++) {
        const struct text t = text_of(number);
        const int own = t.length != other.length || memcmp(t.bytes + HEAD_BYTES, other.bytes + HEAD_BYTES,
                                                           other.length - HEAD_BYTES) != 0;
        wrong += !is_reply(number, &t) || own != (number == 0 || has_words_of_its_own(number));
        for (length = t.length - 1; length <= t.length + 1; length++) {
            wrong += !writes(number, &t, length, (enum placing)(number % PLACINGS));
        }
    }
    CHECK(wrong == 0);
}

/* Every length of room, in every place, for the numbers that have words of their own and some that have none. */
static void every_room(void)
{
    static const uint32_t others[] = {0, 15, 19, 30, 255, 256, 65535, 65536, 0x80000000u, 0xFFFFFFFFu};
    uint32_t number, length, wrong = 0;
    int placing;
    size_t i;

    for (i = 0; i < 30 + sizeof others / sizeof others[0]; i++) {
        number = i < 30 ? (uint32_t)i : others[i - 30];
        for (length = 0; length <= ROOM_MOST; length++) {
            const struct text t = text_of(number);
            for (placing = 0; placing < PLACINGS; placing++) {
                wrong += !is_reply(number, &t) || !writes(number, &t, length, (enum placing)placing);
            }
        }
    }
    CHECK(wrong == 0);
}

/* No two refusals have the same words. */
static void words_differ(void)
{
    uint32_t a, b, pairs = 0;
    for (a = 1; a < 30; a++) {
        for (b = a + 1; b < 30; b++) {
            if (has_words_of_its_own(a) && has_words_of_its_own(b)) {
                const struct text one = text_of(a), other = text_of(b);
                pairs++;
                CHECK(one.length != other.length || memcmp(one.bytes + HEAD_BYTES, other.bytes + HEAD_BYTES,
                                                           one.length - HEAD_BYTES) != 0);
            }
        }
    }
    CHECK(pairs == 24 * 23 / 2);
}

/* ── The whole way ── */

/* Something that the reader refuses, or other bytes. */
static void spoil(struct message *m)
{
    uint32_t i;
    switch (below(6)) {
    case 0: m->length = below((uint32_t)m->length); break;
    case 1: m->bytes[m->length++] = (uint8_t)draw(); break;
    case 2: m->bytes[below((uint32_t)m->length)] = (uint8_t)draw(); break;
    case 3: put_item(m, JIS8, "A", 1); break;
    case 4:
        for (i = 0; i < HM_SECS_DEPTH; i++) {
            put_head(m, LIST, 1);
        }
        break;
    default:
        for (i = 0; i < 2 * HM_SECS_ITEMS; i++) {
            put_u1(m, 0);
        }
    }
}

/* A message that asks for something of what `in` has, now and then spoilt, inside its attributes or after them. */
static void some_message(struct message *m, const struct input *in)
{
    static const char *const actions[] = {"Bind", "CarrierNotification", "ProceedWithCarrier", "CancelCarrier", "Out"};
    const uint32_t action = below(20) == 0 ? 4 : below(4);
    const int mapped = in->codes_length == HM_SLOTS && below(2);
    const uint32_t more = below(8) == 0 ? 1 + 255 * below(2) : 0;

    begin(m, actions[action], in->name, in->name_length, (uint8_t)in->port, (mapped ? 1u : 0u) + more);
    if (mapped) {
        put_map(m, in->rest.codes);
    }
    if (more != 0 || below(8) == 0) {
        spoil(m);
    }
}

/* One exchange with so much room, placed so, to a copy of the tool: everything as the step and the reply have it. */
static int exchanges(const struct message *m, const hm_tool *before, uint32_t answer, uint32_t items,
                     const struct text *t, uint64_t length, enum placing placing)
{
    const int fits = t->length <= length;
    uint32_t counted[3] = {ODD, ODD, ODD}, told[3] = {ODD, ODD, ODD}, said;
    uint8_t wanted[ROOM_MOST];
    hm_tool after_it = *before;
    hm_reports given;
    struct lent message, reply;
    int good;

    memset(&given, 0xA5, sizeof given);
    memset(wanted, (uint8_t)(0x55 + answer), length);
    message = lend(&message_room, placing, m->bytes, m->length);
    reply = lend(&reply_room, placing, wanted, length);
    said = hm_secs_exchange(&after_it, &given, message.readable, m->length, &counted[1], reply.writable, length,
                            &told[1]);
    after(wanted, length, t);
    good = said == (fits ? answer : HM_REFUSED_ROOM_TOO_SMALL) && counted[1] == items;
    good = good && told[1] == (fits ? t->length : 0) && memcmp(reply.writable, wanted, length) == 0;
    good = good && memcmp(&after_it, fits ? &tool : before, sizeof tool) == 0;
    good = good && memcmp(&given, fits ? &reports : &no_reports, sizeof given) == 0;
    good = good && memcmp(message.readable, m->bytes, m->length) == 0;
    good = good && told[0] == ODD && told[2] == ODD && counted[0] == ODD && counted[2] == ODD;
    return give_back(&message) & give_back(&reply) & good;
}

/* The step and its reply; and the exchange in rooms that are too small for it, just enough and more than that. */
static uint32_t same_as_step_and_reply(const struct message *m)
{
    const hm_tool before = tool;
    uint32_t items, i, wrong = 0;
    const uint32_t answer = hm_secs_step(&tool, &reports, m->bytes, m->length, &items);
    const struct text t = text_of(answer);
    const uint32_t lengths[] = {0, ACCEPTED_BYTES - 1, ACCEPTED_BYTES, t.length - 1, t.length, t.length + 1,
                                HM_REPLY_ROOM};

    for (i = 0; i < sizeof lengths / sizeof lengths[0]; i++) {
        wrong += !exchanges(m, &before, answer, items, &t, lengths[i], (enum placing)below(PLACINGS));
    }
    if (wrong != 0) {
        CHECK(!"an exchange is the step and its reply");
    }
    return answer;
}

/* A run by chance: messages, each of which moves the tool, between the equipment's inputs. */
static void whole_way(void)
{
    static const uint8_t wanted[] = {0, 1, 2, 3, 4, 5, 6, 20, 21, 22, 23, 24, 25, 26};
    unsigned long met[27] = {0};
    struct message m;
    struct input in;
    uint32_t i;

    chance_state = 13;
    CHECK(hm_setup(&tool, HM_PORTS, HM_PLACES, 0, 0) == HM_ACCEPTED);
    for (i = 0; i < MESSAGES; i++) {
        if (below(400) == 0) {
            hm_setup(&tool, 1 + below(HM_PORTS + 1), below(HM_PLACES + 2), SETTING, TIMEOUT);
        } else if (below(800) == 0) {
            ((uint8_t *)&tool)[below(sizeof tool)] ^= 0x55;
        }
        next_input(&in, &tool);
        some_message(&m, &in);
        met[same_as_step_and_reply(&m)]++;
        hm_step(&tool, &reports, in.number, in.port, in.value, in.name, in.name_length, in.rest.codes, in.codes_length);
    }
    for (i = 0; i < sizeof wanted; i++) {
        CHECK(met[wanted[i]] > 0);
    }
}

int main(void)
{
    make_room(&message_room);
    make_room(&reply_room);
    every_number();
    every_room();
    words_differ();
    whole_way();
    return result("reply");
}
