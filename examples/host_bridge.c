/*
 * A host bridge on Hawsermole: the host's S3F17 comes as the text of the message and its answer, S3F18, goes out as
 * one; the sensors' inputs come as they are. A message is read where it stands; what it asks for is stepped, and the
 * reply is written into room that the bridge lends. No heap.
 */
#include <stdio.h>
#include <string.h>

#include "hawsermole.h"
#include "hawsermole_events.h"
#include "hawsermole_words.h"

/* Items of SEMI E5 with one length byte: a list of n elements, a text of n bytes, numbers. */
#define L(n) 0x01, n
#define A(n) 0x41, n
#define U1(value) 0xA5, 1, value
#define U4(value) 0xB1, 4, 0, 0, 0, value
#define F4(a, b, c, d) 0x91, 4, a, b, c, d

#define BIND A(4), 'B', 'i', 'n', 'd'
#define PROCEED A(18), 'P', 'r', 'o', 'c', 'e', 'e', 'd', 'W', 'i', 't', 'h', 'C', 'a', 'r', 'r', 'i', 'e', 'r'
#define UNBIND A(6), 'U', 'n', 'b', 'i', 'n', 'd'
#define SLOT_MAP A(7), 'S', 'l', 'o', 't', 'M', 'a', 'p'
#define WEIGHT A(6), 'W', 'e', 'i', 'g', 'h', 't'
#define FOUP_7 A(6), 'F', 'O', 'U', 'P', '-', '7'
#define FOUP_8 A(6), 'F', 'O', 'U', 'P', '-', '8'
#define FULL U1(3), U1(3), U1(3), U1(3), U1(3)

/* Bind with the slot map that the host expects, and an attribute that is read and dropped. */
static const uint8_t bind_7[] = {
    L(5), U4(1), BIND, FOUP_7, U1(1),
    L(2),
        L(2), SLOT_MAP, L(25), FULL, FULL, FULL, FULL, U1(3), U1(3), U1(3), U1(1), U1(1),
        L(2), WEIGHT, F4(0x40, 0xF0, 0x00, 0x00),
};
static const uint8_t wafers[HM_SLOTS] = {3, 3, 3, 3, 3, 3, 3, 3, 3, 3, 3, 3, 3, 3, 3, 3, 3, 3, 3, 3, 3, 3, 3, 1, 1};

static const uint8_t bind_8[] = {L(5), U4(2), BIND, FOUP_8, U1(2), L(0)};
static const uint8_t proceed_8[] = {L(5), U4(3), PROCEED, FOUP_8, U1(0), L(0)};
static const uint8_t unbind_8[] = {L(5), U4(4), UNBIND, FOUP_8, U1(2), L(0)};

static hm_tool tool;
static hm_reports reports;

/* A real bridge sends these events to the host. Of a message it needn't know which input it was. */
static void tell_events(const hm_report *r, uint32_t number)
{
    const hm_event *event = number == 0 ? hm_event_of_message(r) : hm_event_of(number, r);
    unsigned i;

    for (i = 0; event != NULL && i < sizeof event->events && event->events[i] != 0; i++) {
        printf(", Table %u #%u", event->table, event->events[i]);
    }
    printf("\n");
}

static void tell(uint32_t number)
{
    unsigned i;
    for (i = 0; i < reports.count; i++) {
        const hm_report *r = &reports.items[i];
        if (r->port != 0) {
            printf("    model %u, port %u: %u to %u", r->model, r->port, r->old_state, r->new_state);
        } else {
            printf("    model %u, carrier %.*s: %u to %u", r->model, HM_NAME_BYTES, (const char *)r->name,
                   r->old_state, r->new_state);
        }
        tell_events(r, number);
    }
}

/* Some bytes of a reply and what they are, with a number. */
static void part(const uint8_t *bytes, unsigned count, const char *what, unsigned number)
{
    unsigned i;
    printf("      ");
    for (i = 0; i < 4; i++) {
        if (i < count) {
            printf("%02x ", bytes[i]);
        } else {
            printf("   ");
        }
    }
    printf(" %s %u\n", what, number);
}

/* A real bridge sends the text to the host here, after a header of its own. */
static void to_host(const uint8_t *reply, uint32_t length)
{
    printf("    S3F18, %u bytes:\n", (unsigned)length);
    part(reply, 2, "list of", reply[1]);
    part(reply + 2, 3, "acknowledge, U1", reply[4]);
    part(reply + 5, 2, "errors, list of", reply[6]);
    if (reply[6] != 0) {
        part(reply + 7, 2, "error, list of", reply[8]);
        part(reply + 9, 4, "error code, U2", (unsigned)(reply[11] << 8 | reply[12]));
        part(reply + 13, 2, "error text, ASCII of", reply[14]);
        printf("      %.*s\n", (int)reply[14], (const char *)reply + 15);
    }
}

/* The text of an S3F17, without the ten bytes of HSMS header before it; so much room is lent for the reply. */
static void from_host(const char *what, const uint8_t *text, uint64_t length, uint64_t lent)
{
    uint8_t room[HM_REPLY_ROOM];
    uint32_t items, reply_length;
    uint32_t answer = hm_secs_exchange(&tool, &reports, text, length, &items, room, lent, &reply_length);

    if (answer == HM_REFUSED_ROOM_TOO_SMALL) {
        /* No input was given, and nothing was written: lend more, and send the same message again. */
        printf("%s: the reply doesn't fit into %u bytes\n", what, (unsigned)lent);
        return;
    }
    if (answer >= HM_REFUSED_CUT_SHORT) {
        /* No input was given: the tool is as it was. The place is for the log. */
        printf("%s: %u, %s, after %u items, at byte %u\n", what, (unsigned)answer,
               hm_answer_text(answer), (unsigned)items, (unsigned)hm_secs_at(text, length));
    } else if (answer != HM_ACCEPTED) {
        printf("%s: %u items read, refused by the tool with %u\n", what, (unsigned)items, (unsigned)answer);
    } else {
        printf("%s: %u items read, accepted\n", what, (unsigned)items);
        tell(0);
    }
    to_host(room, reply_length);
}

static void from_tool(const char *what, uint32_t number, uint32_t port, const char *name, const uint8_t *codes,
                      uint64_t codes_length)
{
    uint32_t answer =
        hm_step(&tool, &reports, number, port, 0, (const uint8_t *)name, strlen(name), codes, codes_length);

    printf("%s: %u\n", what, (unsigned)answer);
    tell(number);
}

static void arrives(const char *what, uint32_t port, const char *name)
{
    from_tool("LoadStart", HM_INPUT_LOAD_START, port, "", HM_NOTHING, 0);
    from_tool("LoadDone", HM_INPUT_LOAD_DONE, port, "", HM_NOTHING, 0);
    from_tool(what, HM_INPUT_ID_READ, port, name, HM_NOTHING, 0);
}

int main(void)
{
    if (hm_version() != HM_VERSION || hm_tool_size() != sizeof tool || hm_reports_size() != sizeof reports) {
        fprintf(stderr, "the archive is of version %06x, hawsermole.h of %06x\n", (unsigned)hm_version(), HM_VERSION);
        return 1;
    }
    if (hm_setup(&tool, 2, 0, 0, 0) != HM_ACCEPTED) {
        return 1;
    }

    from_host("S3F17 Bind FOUP-7 with SlotMap", bind_7, sizeof bind_7, HM_REPLY_ROOM);
    arrives("IdRead FOUP-7", 1, "FOUP-7");
    from_tool("Open FOUP-7", HM_INPUT_OPEN, 0, "FOUP-7", HM_NOTHING, 0);
    from_tool("SlotMap, as expected", HM_INPUT_SLOT_MAP, 0, "FOUP-7", wafers, sizeof wafers);

    from_host("S3F17 Bind FOUP-8, cut", bind_8, sizeof bind_8 - 3, HM_REPLY_ROOM);
    from_host("S3F17 Bind FOUP-8, no room", bind_8, sizeof bind_8, 6);
    from_host("S3F17 Bind FOUP-8", bind_8, sizeof bind_8, HM_REPLY_ROOM);
    from_host("S3F17 Bind FOUP-8 again", bind_8, sizeof bind_8, HM_REPLY_ROOM);
    arrives("IdRead of another pod", 2, "FOUP-9");
    from_host("S3F17 ProceedWithCarrier FOUP-8", proceed_8, sizeof proceed_8, HM_REPLY_ROOM);
    from_host("S3F17 Unbind FOUP-8", unbind_8, sizeof unbind_8, HM_REPLY_ROOM);
    return 0;
}
