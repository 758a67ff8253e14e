/*
 * Undoing pairs (request P10) through the C interface: what gives back the tool before it, all of its bytes, and what
 * looks as if it did.
 */
#include "check.h"

static hm_tool tool;
static hm_reports reports;
static const uint32_t hand = HM_START_MANUAL, vehicle = HM_START_AUTOMATIC;

/* An input by the parts that its row names. */
struct sent {
    uint32_t number, port, value;
    const char *name;
};

static uint8_t map[HM_SLOTS];

/* Whether the row of an input reads codes: an expected map, which is sent each time. */
static int has_map(uint32_t number)
{
    return number == HM_INPUT_BIND || number == HM_INPUT_CARRIER_NOTIFICATION;
}

/* Whether the row of an input reads a name. */
static int has_name(uint32_t number)
{
    return number <= HM_INPUT_CARRIER_IN || number == HM_INPUT_ID_READ ||
           (number >= HM_INPUT_OPEN && number <= HM_INPUT_CLOSE) || number == HM_INPUT_CANCEL_CARRIER_OUT;
}

/* The parts that the row doesn't read are filled with what no row would take. */
static uint32_t send(const struct sent *input)
{
    const int named = has_name(input->number), mapped = has_map(input->number);
    const char *const name = named ? input->name : "not a name";

    memset(&reports, 0xA5, sizeof reports);
    return hm_step(&tool, &reports, input->number, input->port, input->value, BYTES(name), strlen(name),
                   mapped ? map : BYTES("\377\377"), mapped ? sizeof map : 2);
}

static void accept(uint32_t number, uint32_t port, uint32_t value, const char *name)
{
    const struct sent input = {number, port, value, name};
    CHECK(send(&input) == HM_ACCEPTED);
}

/* The first is accepted and changes the tool, and so does the second. 1: every byte is as before. */
static int undone(struct sent first, struct sent second)
{
    const hm_tool before = tool;

    CHECK(send(&first) == HM_ACCEPTED && memcmp(&tool, &before, sizeof tool) != 0);
    CHECK(send(&second) == HM_ACCEPTED && hm_sound(&tool) == 1);
    return memcmp(&tool, &before, sizeof tool) == 0;
}

static struct sent row(uint32_t number, uint32_t port, uint32_t value, const char *name)
{
    const struct sent input = {number, port, value, name};
    return input;
}

/* B is bound to port 2, C stands at port 3 and may leave, a pod is held at port 4, and D is announced. */
static void set_up(void)
{
    memset(map, HM_CODE_CORRECTLY_OCCUPIED, sizeof map);
    CHECK(hm_setup(&tool, 4, 0, 60, 120) == HM_ACCEPTED);
    accept(HM_INPUT_BIND, 2, 0, "B");
    accept(HM_INPUT_LOAD_START, 3, hand, "");
    accept(HM_INPUT_LOAD_DONE, 3, 0, "");
    accept(HM_INPUT_ID_READ, 3, 0, "C");
    accept(HM_INPUT_CANCEL_CARRIER, 0, 0, "C");
    accept(HM_INPUT_CHANGE_ACCESS, 4, HM_ACCESS_AUTO, "");
    accept(HM_INPUT_LOAD_START, 4, hand, "");
    accept(HM_INPUT_LOAD_DONE, 4, 0, "");
    accept(HM_INPUT_CARRIER_NOTIFICATION, 0, 0, "D");
}

static void the_four_pairs(void)
{
    set_up();
    CHECK(undone(row(HM_INPUT_BIND, 1, 7, "A"), row(HM_INPUT_CANCEL_BIND, 1, 9, "A")));
    CHECK(undone(row(HM_INPUT_CARRIER_NOTIFICATION, 99, 7, "A"),
                 row(HM_INPUT_CANCEL_CARRIER_NOTIFICATION, 98, 9, "A")));
    CHECK(undone(row(HM_INPUT_RESERVE_AT_PORT, 1, 7, ""), row(HM_INPUT_CANCEL_RESERVATION_AT_PORT, 1, 9, "")));
    CHECK(undone(row(HM_INPUT_UNLOAD_START, 3, hand, ""), row(HM_INPUT_UNLOAD_FAIL, 3, 9, "")));
    accept(HM_INPUT_CHANGE_ACCESS, 3, HM_ACCESS_AUTO, "");
    CHECK(undone(row(HM_INPUT_UNLOAD_START, 3, vehicle, ""), row(HM_INPUT_UNLOAD_FAIL, 3, 9, "")));
}

/* Blanks at the end of either name: it is the same pair. */
static void padded_names(void)
{
    static const char *const names[] = {"A", "A ", "A               ", "A                               "};
    unsigned i, j;

    set_up();
    for (i = 0; i < 4; i++) {
        for (j = 0; j < 4; j++) {
            CHECK(undone(row(HM_INPUT_BIND, 1, 0, names[i]), row(HM_INPUT_CANCEL_BIND, 1, 0, names[j])));
            CHECK(undone(row(HM_INPUT_CARRIER_NOTIFICATION, 0, 0, names[i]),
                         row(HM_INPUT_CANCEL_CARRIER_NOTIFICATION, 0, 0, names[j])));
        }
    }
}

/* Fifteen others are expected: the sixteenth comes and goes, and no seventeenth in between. */
static void the_sixteenth(void)
{
    char name[] = "N00";
    unsigned i;

    set_up();
    for (i = 0; i < HM_EXPECTED - 3; i++) {
        name[1] = (char)('0' + i / 10);
        name[2] = (char)('0' + i % 10);
        accept(HM_INPUT_CARRIER_NOTIFICATION, 0, 0, name);
    }
    CHECK(undone(row(HM_INPUT_BIND, 1, 0, "A"), row(HM_INPUT_CANCEL_BIND, 1, 0, "A")));
    accept(HM_INPUT_CARRIER_NOTIFICATION, 0, 0, "A");
    CHECK(give(&tool, &reports, HM_INPUT_BIND, 1, 0, "Z") == HM_REFUSED_EXPECTED_FULL);
    accept(HM_INPUT_CANCEL_CARRIER_NOTIFICATION, 0, 0, "A");
}

/* LoadStart ends a reservation, the host's own or Bind's; LoadFail doesn't bring it back, and nothing else differs. */
static void load_start_and_load_fail(void)
{
    uint32_t port;

    set_up();
    CHECK(undone(row(HM_INPUT_LOAD_START, 1, hand, ""), row(HM_INPUT_LOAD_FAIL, 1, 0, "")));
    accept(HM_INPUT_RESERVE_AT_PORT, 1, 0, "");
    for (port = 1; port <= 2; port++) {
        hm_tool expected = tool;
        expected.ports[port - 1].reserved = HM_NOT_RESERVED;
        CHECK(!undone(row(HM_INPUT_LOAD_START, port, hand, ""), row(HM_INPUT_LOAD_FAIL, port, 0, "")));
        CHECK(memcmp(&tool, &expected, sizeof tool) == 0);
    }
}

/* The alarm of a hand in AUTO stays after UnloadFail; it is all that differs. LoadFail clears it. */
static void a_hand_in_auto(void)
{
    hm_tool expected;

    set_up();
    accept(HM_INPUT_CHANGE_ACCESS, 3, HM_ACCESS_AUTO, "");
    expected = tool;
    expected.hands[2].alarm = HM_ALARM_ON;
    CHECK(!undone(row(HM_INPUT_UNLOAD_START, 3, hand, ""), row(HM_INPUT_UNLOAD_FAIL, 3, 0, "")));
    CHECK(memcmp(&tool, &expected, sizeof tool) == 0);
    /* with the alarm on already, a second hand leaves nothing new */
    CHECK(undone(row(HM_INPUT_UNLOAD_START, 3, hand, ""), row(HM_INPUT_UNLOAD_FAIL, 3, 0, "")));
    accept(HM_INPUT_CHANGE_ACCESS, 1, HM_ACCESS_AUTO, "");
    CHECK(undone(row(HM_INPUT_LOAD_START, 1, hand, ""), row(HM_INPUT_LOAD_FAIL, 1, 0, "")));
}

/* CancelBind and then Bind: the record comes back as it was, behind the others. */
static void the_order_of_records(void)
{
    hm_tool before;

    set_up();
    before = tool;
    CHECK(!undone(row(HM_INPUT_CANCEL_BIND, 2, 0, "B"), row(HM_INPUT_BIND, 2, 0, "B")));
    CHECK(tool.count == 3 && before.count == 3 && is_name(before.carriers[0].name, "B"));
    CHECK(memcmp(&tool.carriers[2], &before.carriers[0], sizeof tool.carriers[0]) == 0);
    CHECK(memcmp(&tool.carriers[0], &before.carriers[1], 2 * sizeof tool.carriers[0]) == 0);
    CHECK(memcmp(tool.ports, before.ports, sizeof tool.ports) == 0);
    /* the last of them comes back to where it was */
    CHECK(undone(row(HM_INPUT_CANCEL_BIND, 2, 0, "B"), row(HM_INPUT_BIND, 2, 0, "B")));
}

/* A goes into place 1 of a buffer, and B into place 2. */
static void stocked(void)
{
    static const char *const names[] = {"A", "B"};
    uint32_t i;

    memset(map, HM_CODE_CORRECTLY_OCCUPIED, sizeof map);
    CHECK(hm_setup(&tool, 2, 2, 0, 0) == HM_ACCEPTED);
    for (i = 0; i < 2; i++) {
        accept(HM_INPUT_BIND, 1, 0, names[i]);
        accept(HM_INPUT_LOAD_START, 1, hand, "");
        accept(HM_INPUT_LOAD_DONE, 1, 0, "");
        accept(HM_INPUT_ID_READ, 1, 0, names[i]);
        accept(HM_INPUT_MOVE_IN, 1, i + 1, "");
    }
}

/* What else gives the tool back: the queue's youngest, an open pod, a mode, a service; and the way out and in. */
static void further_pairs(void)
{
    hm_tool before;

    stocked();
    CHECK(undone(row(HM_INPUT_CARRIER_OUT, 1, 0, "A"), row(HM_INPUT_CANCEL_CARRIER_OUT, 0, 0, "A ")));
    CHECK(undone(row(HM_INPUT_OPEN, 0, 0, "A"), row(HM_INPUT_CLOSE, 0, 0, "A")));
    CHECK(undone(row(HM_INPUT_CHANGE_ACCESS, 1, 1, ""), row(HM_INPUT_CHANGE_ACCESS, 1, 0, "")));
    CHECK(undone(row(HM_INPUT_CHANGE_SERVICE_STATUS, 1, 0, ""), row(HM_INPUT_CHANGE_SERVICE_STATUS, 1, 1, "")));
    before = tool;
    accept(HM_INPUT_CARRIER_OUT, 2, 0, "A");
    accept(HM_INPUT_OUT_START, 2, 0, "");
    accept(HM_INPUT_OUT_DONE, 2, 0, "");
    accept(HM_INPUT_CARRIER_IN, 0, 0, "A");
    accept(HM_INPUT_MOVE_IN, 2, 1, "");
    CHECK(memcmp(&tool, &before, sizeof tool) == 0);
    accept(HM_INPUT_CARRIER_OUT, 2, 0, "A");
    accept(HM_INPUT_CARRIER_OUT, 1, 0, "B");
    CHECK(!undone(row(HM_INPUT_CANCEL_CARRIER_OUT, 0, 0, "A"), row(HM_INPUT_CARRIER_OUT, 2, 0, "A")));
    CHECK(tool.queued == 2 && is_name(tool.queue[0].name, "B") && is_name(tool.queue[1].name, "A"));
}

int main(void)
{
    the_four_pairs();
    padded_names();
    the_sixteenth();
    load_start_and_load_fail();
    a_hand_in_auto();
    the_order_of_records();
    further_pairs();
    return result("undo");
}
