/*
 * Hands on an AUTO port (request P9) through the C interface: who starts, what is held, what clears an alarm, what is
 * refused, and every byte.
 */
#include "check.h"

#define PORTS 3

static hm_tool tool;
static hm_reports reports;
static const hm_reports no_reports;
static const uint32_t load = HM_INPUT_LOAD_START, done = HM_INPUT_LOAD_DONE, fail = HM_INPUT_LOAD_FAIL;
static const uint32_t unload = HM_INPUT_UNLOAD_START, gone = HM_INPUT_UNLOAD_DONE, stays = HM_INPUT_UNLOAD_FAIL;
static const uint32_t hand = HM_START_MANUAL, vehicle = HM_START_AUTOMATIC;

static uint32_t send(uint32_t number, uint32_t port, uint32_t value, const char *name)
{
    memset(&reports, 0xA5, sizeof reports); /* what stood there before must be gone */
    return give(&tool, &reports, number, port, value, name);
}

#define ACCEPTED(number, port, value, name) CHECK(send((number), (port), (value), (name)) == HM_ACCEPTED)

/* Refused with this number, and nothing has changed. */
static int is_refused(uint32_t number, uint32_t port, uint32_t value, uint32_t answer)
{
    const hm_tool before = tool;
    return send(number, port, value, "A") == answer && memcmp(&tool, &before, sizeof tool) == 0 &&
           memcmp(&reports, &no_reports, sizeof reports) == 0;
}

/* The last report is the port's alarm, and no other speaks of one. */
static int alarmed(uint32_t port, uint8_t old_state, uint8_t new_state)
{
    static const uint8_t no_name[HM_NAME_BYTES];
    const hm_report *last = &reports.items[reports.count - 1];
    unsigned i, alarms = 0;

    for (i = 0; i < HM_REPORTS; i++) {
        alarms += reports.items[i].model == HM_MODEL_ALARM;
    }
    return reports.count > 0 && alarms == 1 && last->model == HM_MODEL_ALARM && last->port == port &&
           memcmp(last->name, no_name, sizeof no_name) == 0 && last->old_state == old_state &&
           last->new_state == new_state;
}

static int silent(void)
{
    unsigned i;
    for (i = 0; i < HM_REPORTS && reports.items[i].model != HM_MODEL_ALARM; i++) {
    }
    return i == HM_REPORTS;
}

static int is(uint32_t port, uint8_t alarm, uint8_t held)
{
    return tool.hands[port - 1].alarm == alarm && tool.hands[port - 1].held == held && hm_sound(&tool) == 1;
}

/* Every port in AUTO. */
static void set_up(uint32_t places)
{
    uint32_t port;
    CHECK(hm_setup(&tool, PORTS, places, 0, 0) == HM_ACCEPTED);
    for (port = 1; port <= PORTS; port++) {
        CHECK(is(port, HM_ALARM_OFF, HM_NOT_HELD));
        ACCEPTED(HM_INPUT_CHANGE_ACCESS, port, HM_ACCESS_AUTO, "");
    }
}

/* Brought by a vehicle, rejected by the host, and READY TO UNLOAD. */
static void ready_to_unload(uint32_t port)
{
    set_up(0);
    ACCEPTED(load, port, vehicle, "");
    ACCEPTED(done, port, 0, "");
    ACCEPTED(HM_INPUT_ID_READ, port, 0, "A");
    ACCEPTED(HM_INPUT_CANCEL_CARRIER, port, 0, "A");
}

static void who_starts(uint32_t port)
{
    static const uint32_t odd[] = {2, 3, 255, 256, 257, 65536, 0x80000000u, UINT32_MAX};
    unsigned i;

    set_up(0);
    ACCEPTED(load, port, vehicle, "");
    CHECK(silent() && is(port, 0, 0));
    ACCEPTED(fail, port, 0, "");
    ACCEPTED(load, port, hand, "");
    CHECK(alarmed(port, HM_ALARM_OFF, HM_ALARM_ON) && reports.count == 2 && is(port, HM_ALARM_ON, HM_NOT_HELD));
    ACCEPTED(fail, port, 0, "");
    CHECK(alarmed(port, HM_ALARM_ON, HM_ALARM_OFF) && is(port, 0, 0));
    for (i = 0; i < sizeof odd / sizeof odd[0]; i++) {
        CHECK(is_refused(load, port, odd[i], HM_REFUSED_OUT_OF_RANGE));
        CHECK(is_refused(unload, port, odd[i], HM_REFUSED_OUT_OF_RANGE));
    }
    ACCEPTED(HM_INPUT_CHANGE_ACCESS, port, HM_ACCESS_MANUAL, "");
    CHECK(is_refused(load, port, vehicle, HM_REFUSED_AUTOMATIC_IN_MANUAL));
    ACCEPTED(load, port, hand, "");
    CHECK(silent() && is(port, 0, 0));
    ACCEPTED(done, port, 0, "");
    CHECK(tool.ports[port - 1].pod == HM_POD_PRESENT && is(port, 0, 0));
}

/* Held: one byte differs, and there is no report. Continued: every byte is as a vehicle's LoadDone leaves it. */
static void held_and_continued(uint32_t port)
{
    hm_tool expected, loaded;

    set_up(0);
    ACCEPTED(load, port, vehicle, "");
    ACCEPTED(done, port, 0, "");
    loaded = tool;
    set_up(0);
    ACCEPTED(load, port, hand, "");
    expected = tool;
    expected.hands[port - 1].held = HM_HELD;
    ACCEPTED(done, port, 0, "");
    CHECK(memcmp(&tool, &expected, sizeof tool) == 0 && memcmp(&reports, &no_reports, sizeof reports) == 0);
    CHECK(is_refused(done, port, 0, HM_REFUSED_CONDITIONS) && is_refused(load, port, hand, HM_REFUSED_CONDITIONS));
    CHECK(is_refused(HM_INPUT_ID_READ, port, 0, 5) && is_refused(HM_INPUT_ID_READ_FAILED, port, 0, 5));
    CHECK(is_refused(HM_INPUT_CHANGE_ACCESS, port, HM_ACCESS_MANUAL, 5) && is_refused(stays, port, 0, 5));
    ACCEPTED(HM_INPUT_CONTINUE, port, 0, "");
    CHECK(alarmed(port, HM_ALARM_ON, HM_ALARM_OFF) && reports.count == 1);
    CHECK(memcmp(&tool, &loaded, sizeof tool) == 0);
    CHECK(is_refused(HM_INPUT_CONTINUE, port, 0, HM_REFUSED_CONDITIONS));
}

/* Taken off again, held or not: as before it was put there. */
static void held_and_let_go(uint32_t port)
{
    hm_tool before;

    set_up(0);
    before = tool;
    ACCEPTED(load, port, hand, "");
    ACCEPTED(done, port, 0, "");
    ACCEPTED(fail, port, 0, "");
    CHECK(alarmed(port, HM_ALARM_ON, HM_ALARM_OFF) && reports.count == 2 && memcmp(&tool, &before, sizeof tool) == 0);
    ACCEPTED(load, port, hand, "");
    ACCEPTED(fail, port, 0, "");
    CHECK(memcmp(&tool, &before, sizeof tool) == 0);
}

static void unloads(uint32_t port)
{
    ready_to_unload(port);
    ACCEPTED(unload, port, vehicle, "");
    CHECK(silent() && is(port, 0, 0));
    ACCEPTED(stays, port, 0, "");
    ACCEPTED(unload, port, hand, "");
    CHECK(alarmed(port, HM_ALARM_OFF, HM_ALARM_ON) && is(port, 1, 0));
    ACCEPTED(stays, port, 0, "");
    CHECK(silent() && is(port, 1, 0));
    ACCEPTED(unload, port, hand, "");
    CHECK(silent() && is(port, 1, 0));
    ACCEPTED(stays, port, 0, "");
    ACCEPTED(unload, port, vehicle, "");
    CHECK(silent() && is(port, 1, 0));
    ACCEPTED(stays, port, 0, "");
    ACCEPTED(HM_INPUT_CHANGE_ACCESS, port, HM_ACCESS_MANUAL, "");
    CHECK(silent() && is(port, 1, 0));
    CHECK(is_refused(unload, port, vehicle, HM_REFUSED_AUTOMATIC_IN_MANUAL));
    ACCEPTED(unload, port, hand, "");
    CHECK(silent() && is(port, 1, 0));
    ACCEPTED(gone, port, 0, "");
    CHECK(alarmed(port, HM_ALARM_ON, HM_ALARM_OFF) && reports.count == 7 && is(port, 0, 0));
}

/* A pod that came out of the buffer, was touched by a hand, and is called back in. */
static void cleared_by_move_in(void)
{
    set_up(1);
    ACCEPTED(load, 2, vehicle, "");
    ACCEPTED(done, 2, 0, "");
    ACCEPTED(HM_INPUT_ID_READ, 2, 0, "A");
    ACCEPTED(HM_INPUT_PROCEED_WITH_CARRIER, 2, 0, "A");
    ACCEPTED(HM_INPUT_MOVE_IN, 2, 1, "");
    ACCEPTED(HM_INPUT_CARRIER_OUT, 2, 0, "A");
    ACCEPTED(HM_INPUT_OUT_START, 2, 0, "");
    CHECK(is_refused(load, 2, hand, HM_REFUSED_RESERVED_OR_TIED) && is_refused(load, 2, vehicle, 4));
    ACCEPTED(HM_INPUT_OUT_DONE, 2, 0, "");
    ACCEPTED(unload, 2, hand, "");
    ACCEPTED(stays, 2, 0, "");
    ACCEPTED(HM_INPUT_CARRIER_IN, 0, 0, "A");
    CHECK(silent() && is(2, 1, 0));
    ACCEPTED(HM_INPUT_MOVE_IN, 2, 1, "");
    CHECK(alarmed(2, HM_ALARM_ON, HM_ALARM_OFF) && is(2, 0, 0));
}

/* Sound, though no run comes there: an alarm OUT OF SERVICE, which ends in service, and one in MANUAL, where LoadDone
   holds the pod all the same. */
static void odd_and_sound(void)
{
    set_up(0);
    ACCEPTED(HM_INPUT_CHANGE_SERVICE_STATUS, 1, HM_SERVICE_OUT, "");
    tool.hands[0].alarm = HM_ALARM_ON;
    CHECK(is(1, 1, 0));
    ACCEPTED(HM_INPUT_CHANGE_SERVICE_STATUS, 1, HM_SERVICE_IN, "");
    CHECK(alarmed(1, HM_ALARM_ON, HM_ALARM_OFF) && is(1, 0, 0));
    ACCEPTED(load, 2, hand, "");
    tool.ports[1].access = HM_ACCESS_MANUAL;
    ACCEPTED(done, 2, 0, "");
    CHECK(is(2, 1, 1) && memcmp(&reports, &no_reports, sizeof reports) == 0);
    ACCEPTED(HM_INPUT_CONTINUE, 2, 0, "");
    CHECK(is(2, 0, 0) && tool.ports[1].access == HM_ACCESS_MANUAL && tool.ports[1].pod == HM_POD_PRESENT);
}

static void refusals(void)
{
    static const uint32_t ports[] = {0, PORTS + 1, 256, 257, UINT32_MAX};
    unsigned i;

    set_up(0);
    ACCEPTED(load, 1, hand, "");
    ACCEPTED(done, 1, 0, "");
    for (i = 0; i < sizeof ports / sizeof ports[0]; i++) {
        CHECK(is_refused(HM_INPUT_CONTINUE, ports[i], 0, HM_REFUSED_OUT_OF_RANGE));
        CHECK(is_refused(load, ports[i], vehicle, 1) && is_refused(unload, ports[i], hand, 1));
    }
    CHECK(is_refused(HM_INPUT_CONTINUE, 2, 0, HM_REFUSED_CONDITIONS));
    CHECK(is_refused(HM_INPUTS + 1, 1, 0, 1) && is_refused(256 + HM_INPUT_CONTINUE, 1, 0, 1));
    CHECK(hm_time_step(&tool, &reports, HM_INPUT_CONTINUE, 0, HM_NOTHING, 0, 0) == HM_REFUSED_OUT_OF_RANGE);
    CHECK(is(1, 1, 1));
    /* 5 before 13, whoever starts */
    ACCEPTED(HM_INPUT_CHANGE_ACCESS, 2, HM_ACCESS_MANUAL, "");
    CHECK(is_refused(unload, 2, vehicle, HM_REFUSED_CONDITIONS) && is_refused(unload, 2, hand, 5));
    CHECK(is_refused(load, 2, vehicle, HM_REFUSED_AUTOMATIC_IN_MANUAL));
    /* parts that Continue doesn't name are ignored */
    CHECK(hm_step(&tool, &reports, HM_INPUT_CONTINUE, 1, UINT32_MAX, BYTES("no name"), 7, BYTES("x"), 1) == 0);
    CHECK(alarmed(1, HM_ALARM_ON, HM_ALARM_OFF) && is(1, 0, 0));
}

/* Each byte from the first alarm to the end with each value: how many are sound. */
static unsigned sound_values(void)
{
    uint8_t *const bytes = (uint8_t *)&tool;
    size_t at;
    unsigned value, sound = 0;

    for (at = offsetof(hm_tool, hands); at < sizeof tool; at++) {
        const uint8_t was = bytes[at];
        for (value = 0; value < 256; value++) {
            bytes[at] = (uint8_t)value;
            sound += hm_sound(&tool);
        }
        bytes[at] = was;
    }
    return sound;
}

#define BYTES_HERE (2u * HM_PORTS + HM_SPARE_BYTES)

static void every_byte_that_is_damaged(void)
{
    set_up(0); /* READY TO LOAD: neither alarm nor held, and nothing where there is no port */
    CHECK(offsetof(hm_tool, hands) == HM_TOOL_01_BYTES + 1597 && sound_values() == BYTES_HERE);
    ACCEPTED(load, 2, vehicle, ""); /* loading: an alarm may be on, held only with it */
    CHECK(sound_values() == BYTES_HERE + 1);
    ACCEPTED(fail, 2, 0, "");
    ACCEPTED(load, 2, hand, ""); /* with the alarm on it may be off, and a pod held */
    CHECK(sound_values() == BYTES_HERE + 2);
    ACCEPTED(done, 2, 0, ""); /* held: the alarm stays */
    CHECK(sound_values() == BYTES_HERE + 1);
    ACCEPTED(HM_INPUT_CONTINUE, 2, 0, ""); /* a pod that stands there: an alarm may be on */
    CHECK(sound_values() == BYTES_HERE + 1);
    tool.hands[1].held = HM_HELD;
    CHECK(!hm_sound(&tool) && is_refused(HM_INPUT_CONTINUE, 2, 0, HM_REFUSED_OUT_OF_RANGE));
}

int main(void)
{
    uint32_t port;

    for (port = 1; port <= PORTS; port++) {
        who_starts(port);
        held_and_continued(port);
        held_and_let_go(port);
        unloads(port);
    }
    cleared_by_move_in();
    odd_and_sound();
    refusals();
    every_byte_that_is_damaged();
    return result("hands");
}
