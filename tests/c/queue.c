/* The queue for CarrierOut (request P5) through the C interface: what waits, starts, ends, is dropped; every byte. */
#include "check.h"

static hm_tool tool;
static hm_reports reports;
static const hm_reports no_reports;

static uint32_t send(uint32_t number, uint32_t port, const char *name)
{
    memset(&reports, 0xA5, sizeof reports); /* what stood there before must be gone */
    return give(&tool, &reports, number, port, 0, name);
}

#define ACCEPTED(number, port, name) CHECK(send((number), (port), (name)) == HM_ACCEPTED)

/* Refused with this number, and nothing has changed. */
static int is_refused(uint32_t number, uint32_t port, const char *name, uint32_t answer)
{
    const hm_tool before = tool;
    return send(number, port, name) == answer && memcmp(&tool, &before, sizeof tool) == 0 &&
           memcmp(&reports, &no_reports, sizeof reports) == 0;
}

/* Accepted without a report, and of the tool only its queue has changed, to the one of this tool. */
static int is_queued(uint32_t number, uint32_t port, const char *name, const hm_tool *expected)
{
    return send(number, port, name) == HM_ACCEPTED && memcmp(&tool, expected, sizeof tool) == 0 &&
           memcmp(&reports, &no_reports, sizeof reports) == 0 && hm_sound(&tool) == 1;
}

static void put_request(hm_tool *to, unsigned at, const char *name, uint8_t port, uint8_t started)
{
    memset(&to->queue[at], 0, sizeof to->queue[at]);
    memcpy(to->queue[at].name, name, strlen(name));
    to->queue[at].port = port;
    to->queue[at].started = started;
}

static void take_out(hm_tool *from, unsigned at)
{
    from->queued--;
    for (; at < HM_REQUESTS - 1; at++) {
        from->queue[at] = from->queue[at + 1];
    }
    memset(&from->queue[at], 0, sizeof from->queue[at]);
}

/* A pod with this name goes through port 1 into the buffer. */
static void store(const char *name, uint32_t place)
{
    ACCEPTED(HM_INPUT_LOAD_START, 1, "");
    ACCEPTED(HM_INPUT_LOAD_DONE, 1, "");
    ACCEPTED(HM_INPUT_ID_READ, 1, name);
    ACCEPTED(HM_INPUT_PROCEED_WITH_CARRIER, 0, name);
    CHECK(give(&tool, &reports, HM_INPUT_MOVE_IN, 1, place, "") == HM_ACCEPTED);
}

/* Two ports, both empty, and A, B and C in the buffer. */
static void three_inside(void)
{
    CHECK(hm_setup(&tool, 2, 4, 0, 0) == HM_ACCEPTED);
    store("A", 1);
    store("B", 2);
    store("C", 3);
}

/* To an empty port, one that is loading, reserved, tied, out of service; closed, open and in access. */
static void requests_are_queued_whatever_the_port_does(void)
{
    hm_tool expected;

    three_inside();
    expected = tool;
    expected.queued = 1;
    put_request(&expected, 0, "A", 2, HM_NOT_STARTED);
    CHECK(is_queued(HM_INPUT_CARRIER_OUT, 2, "A", &expected));
    ACCEPTED(HM_INPUT_LOAD_START, 1, "");
    ACCEPTED(HM_INPUT_OPEN, 0, "B");
    expected = tool;
    expected.queued = 2;
    put_request(&expected, 1, "B", 1, HM_NOT_STARTED);
    CHECK(is_queued(HM_INPUT_CARRIER_OUT, 1, "B", &expected));
    ACCEPTED(HM_INPUT_LOAD_FAIL, 1, "");
    CHECK(give(&tool, &reports, HM_INPUT_CHANGE_SERVICE_STATUS, 1, HM_SERVICE_OUT, "") == HM_ACCEPTED);
    expected = tool;
    expected.queued = 3;
    put_request(&expected, 2, "C", 1, HM_NOT_STARTED);
    CHECK(is_queued(HM_INPUT_CARRIER_OUT, 1, "C", &expected));
    ACCEPTED(HM_INPUT_CANCEL_CARRIER_OUT, 0, "C");
    ACCEPTED(HM_INPUT_BIND, 2, "X");
    expected = tool;
    expected.queued = 3;
    put_request(&expected, 2, "C", 2, HM_NOT_STARTED);
    CHECK(is_queued(HM_INPUT_CARRIER_OUT, 2, "C", &expected));
}

static void carrier_out_is_refused(void)
{
    three_inside();
    ACCEPTED(HM_INPUT_CARRIER_NOTIFICATION, 0, "X");
    ACCEPTED(HM_INPUT_LOAD_START, 1, "");
    ACCEPTED(HM_INPUT_LOAD_DONE, 1, "");
    ACCEPTED(HM_INPUT_ID_READ, 1, "Y");
    ACCEPTED(HM_INPUT_CARRIER_OUT, 2, "A");
    CHECK(is_refused(HM_INPUT_CARRIER_OUT, 0, "B", HM_REFUSED_OUT_OF_RANGE));
    CHECK(is_refused(HM_INPUT_CARRIER_OUT, 3, "B", HM_REFUSED_OUT_OF_RANGE));
    CHECK(is_refused(HM_INPUT_CARRIER_OUT, 0x101, "B", HM_REFUSED_OUT_OF_RANGE));
    CHECK(is_refused(HM_INPUT_CARRIER_OUT, 1, "", HM_REFUSED_OUT_OF_RANGE));
    CHECK(is_refused(HM_INPUT_CARRIER_OUT, 1, "Z", HM_REFUSED_NO_RECORD));
    CHECK(is_refused(HM_INPUT_CARRIER_OUT, 1, "X", HM_REFUSED_CONDITIONS));
    CHECK(is_refused(HM_INPUT_CARRIER_OUT, 2, "Y", HM_REFUSED_CONDITIONS));
    CHECK(is_refused(HM_INPUT_CARRIER_OUT, 2, "A", HM_REFUSED_QUEUED_ALREADY));
    CHECK(is_refused(HM_INPUT_CARRIER_OUT, 1, "A", HM_REFUSED_QUEUED_ALREADY)); /* to another port, too */
    CHECK(is_refused(HM_INPUT_CARRIER_OUT, 1, "A  ", HM_REFUSED_QUEUED_ALREADY));
}

/* A carrier queued already is answered 9 where the queue is full, and a name without record or buffer place 2 or 5. */
static void sixteen_fill_the_queue(void)
{
    hm_tool expected;
    char name[2] = "a";
    uint8_t i;

    CHECK(hm_setup(&tool, HM_PORTS, HM_PLACES, 0, 0) == HM_ACCEPTED);
    for (i = 0; i < HM_PLACES; i++, name[0]++) {
        store(name, i + 1u);
    }
    ACCEPTED(HM_INPUT_CARRIER_NOTIFICATION, 0, "X");
    for (i = 0; i < HM_REQUESTS; i++) {
        name[0]--;
        expected = tool;
        expected.queued++;
        put_request(&expected, i, name, (uint8_t)(1 + i % HM_PORTS), HM_NOT_STARTED);
        CHECK(is_queued(HM_INPUT_CARRIER_OUT, 1u + i % HM_PORTS, name, &expected));
    }
    CHECK(tool.queued == HM_REQUESTS && is_refused(HM_INPUT_CARRIER_OUT, 1, "a", HM_REFUSED_QUEUE_FULL));
    CHECK(is_refused(HM_INPUT_CARRIER_OUT, 1, "Z", HM_REFUSED_NO_RECORD));
    CHECK(is_refused(HM_INPUT_CARRIER_OUT, 1, "X", HM_REFUSED_CONDITIONS));
    ACCEPTED(HM_INPUT_CANCEL_CARRIER_OUT, 0, "h");
    CHECK(is_refused(HM_INPUT_CARRIER_OUT, 1, "a", HM_REFUSED_QUEUED_ALREADY));
    ACCEPTED(HM_INPUT_CARRIER_OUT, 1, "h");
    CHECK(tool.queued == HM_REQUESTS && is_name(tool.queue[HM_REQUESTS - 1].name, "h"));
}

/* Reports of port 1: so many of these models, from old to new. */
static int is_told(uint8_t count, const uint8_t (*told)[3])
{
    hm_reports expected;
    uint8_t i;

    memset(&expected, 0, sizeof expected);
    expected.count = count;
    for (i = 0; i < count; i++) {
        expected.items[i].model = told[i][0];
        expected.items[i].port = 1;
        expected.items[i].old_state = told[i][1];
        expected.items[i].new_state = told[i][2];
    }
    return memcmp(&reports, &expected, sizeof expected) == 0;
}

static const uint8_t starts[][3] = {{HM_MODEL_RESERVATION, HM_NOT_RESERVED, HM_RESERVED}};
static const uint8_t comes_out[][3] = {{HM_MODEL_TRANSFER, HM_TRANSFER_READY_TO_LOAD, HM_TRANSFER_READY_TO_UNLOAD},
                                       {HM_MODEL_RESERVATION, HM_RESERVED, HM_NOT_RESERVED},
                                       {HM_MODEL_TIE, HM_NOT_TIED, HM_TIED}};

/* Starts the request at this place of the queue, whose port is 1. */
static void check_start(unsigned at)
{
    hm_tool expected = tool;

    expected.queue[at].started = HM_STARTED;
    expected.ports[0].reserved = HM_RESERVED;
    ACCEPTED(HM_INPUT_OUT_START, 1, "");
    CHECK(memcmp(&tool, &expected, sizeof tool) == 0 && is_told(1, starts) && hm_sound(&tool) == 1);
}

/* The carrier at this place of the table, whose request at this place of the queue is started, stands at port 1. */
static void check_done(unsigned carrier, unsigned at)
{
    hm_tool expected = tool;

    expected.carriers[carrier].place = HM_PLACE_PORT;
    expected.carriers[carrier].spot = 0;
    expected.carriers[carrier].port = 1;
    expected.carriers[carrier].came_out = 1;
    expected.ports[0].transfer = HM_TRANSFER_READY_TO_UNLOAD;
    expected.ports[0].reserved = HM_NOT_RESERVED;
    memcpy(expected.ports[0].tie, expected.carriers[carrier].name, HM_NAME_BYTES);
    expected.ports[0].pod = HM_POD_PRESENT;
    expected.ports[0].tag = HM_TAG_READ;
    take_out(&expected, at);
    ACCEPTED(HM_INPUT_OUT_DONE, 1, "");
    CHECK(memcmp(&tool, &expected, sizeof tool) == 0 && is_told(3, comes_out) && hm_sound(&tool) == 1);
}

/* The oldest for the port, and not one for another port; one that is open keeps its place and comes when it is shut. */
static void the_oldest_that_is_ready_starts(void)
{
    three_inside();
    ACCEPTED(HM_INPUT_OPEN, 0, "B");
    ACCEPTED(HM_INPUT_CARRIER_OUT, 2, "A");
    ACCEPTED(HM_INPUT_CARRIER_OUT, 1, "B");
    ACCEPTED(HM_INPUT_CARRIER_OUT, 1, "C");
    check_start(2);
    check_done(2, 2);
    ACCEPTED(HM_INPUT_UNLOAD_START, 1, "");
    ACCEPTED(HM_INPUT_UNLOAD_DONE, 1, "");
    CHECK(is_refused(HM_INPUT_OUT_START, 1, "", HM_REFUSED_CONDITIONS)); /* B is open */
    ACCEPTED(HM_INPUT_CLOSE, 0, "B");
    check_start(1);
    check_done(1, 1);
    CHECK(tool.queued == 1 && is_name(tool.queue[0].name, "A"));
}

static void out_start_is_refused(void)
{
    three_inside();
    CHECK(is_refused(HM_INPUT_OUT_START, 1, "", HM_REFUSED_CONDITIONS)); /* nothing to take */
    ACCEPTED(HM_INPUT_CARRIER_OUT, 2, "A");
    CHECK(is_refused(HM_INPUT_OUT_START, 1, "", HM_REFUSED_CONDITIONS)); /* nothing for this port */
    CHECK(is_refused(HM_INPUT_OUT_START, 0, "", HM_REFUSED_OUT_OF_RANGE));
    CHECK(is_refused(HM_INPUT_OUT_START, 3, "", HM_REFUSED_OUT_OF_RANGE));
    ACCEPTED(HM_INPUT_RESERVE_AT_PORT, 1, "");
    CHECK(is_refused(HM_INPUT_OUT_START, 1, "", HM_REFUSED_RESERVED_OR_TIED)); /* 4 before 5 */
    ACCEPTED(HM_INPUT_RESERVE_AT_PORT, 2, "");
    CHECK(is_refused(HM_INPUT_OUT_START, 2, "", HM_REFUSED_RESERVED_OR_TIED)); /* the host's own reservation */
    ACCEPTED(HM_INPUT_CANCEL_RESERVATION_AT_PORT, 2, "");
    ACCEPTED(HM_INPUT_LOAD_START, 2, "");
    CHECK(is_refused(HM_INPUT_OUT_START, 2, "", HM_REFUSED_CONDITIONS)); /* not READY TO LOAD */
    ACCEPTED(HM_INPUT_LOAD_FAIL, 2, "");
    CHECK(give(&tool, &reports, HM_INPUT_CHANGE_SERVICE_STATUS, 2, HM_SERVICE_OUT, "") == HM_ACCEPTED);
    CHECK(is_refused(HM_INPUT_OUT_START, 2, "", HM_REFUSED_CONDITIONS));
    CHECK(give(&tool, &reports, HM_INPUT_CHANGE_SERVICE_STATUS, 2, HM_SERVICE_IN, "") == HM_ACCEPTED);
    ACCEPTED(HM_INPUT_OUT_START, 2, "");
    ACCEPTED(HM_INPUT_CARRIER_OUT, 2, "B");
    CHECK(is_refused(HM_INPUT_OUT_START, 2, "", HM_REFUSED_RESERVED_OR_TIED)); /* one at a time for a port */
}

static void out_done_is_refused(void)
{
    three_inside();
    CHECK(is_refused(HM_INPUT_OUT_DONE, 1, "", HM_REFUSED_CONDITIONS));
    ACCEPTED(HM_INPUT_CARRIER_OUT, 1, "A");
    CHECK(is_refused(HM_INPUT_OUT_DONE, 1, "", HM_REFUSED_CONDITIONS)); /* queued, and not started */
    ACCEPTED(HM_INPUT_RESERVE_AT_PORT, 1, "");
    CHECK(is_refused(HM_INPUT_OUT_DONE, 1, "", HM_REFUSED_CONDITIONS)); /* the host's own reservation */
    ACCEPTED(HM_INPUT_CANCEL_RESERVATION_AT_PORT, 1, "");
    ACCEPTED(HM_INPUT_OUT_START, 1, "");
    CHECK(is_refused(HM_INPUT_OUT_DONE, 0, "", HM_REFUSED_OUT_OF_RANGE));
    CHECK(is_refused(HM_INPUT_OUT_DONE, 2, "", HM_REFUSED_CONDITIONS)); /* started to another port */
    CHECK(is_refused(HM_INPUT_OUT_DONE, 3, "", HM_REFUSED_OUT_OF_RANGE));
    ACCEPTED(HM_INPUT_OUT_DONE, 1, "");
    CHECK(is_refused(HM_INPUT_OUT_DONE, 1, "", HM_REFUSED_CONDITIONS)); /* once */
}

/* Between the two the carrier and its port are kept from everything else. */
static void a_started_request_keeps_its_port_and_carrier(void)
{
    three_inside();
    ACCEPTED(HM_INPUT_CARRIER_OUT, 1, "A");
    ACCEPTED(HM_INPUT_CARRIER_OUT, 1, "B");
    check_start(0);
    CHECK(is_refused(HM_INPUT_OPEN, 0, "A", HM_REFUSED_CONDITIONS));
    CHECK(is_refused(HM_INPUT_LOAD_START, 1, "", HM_REFUSED_RESERVED_OR_TIED));
    CHECK(is_refused(HM_INPUT_CANCEL_RESERVATION_AT_PORT, 1, "", HM_REFUSED_RESERVED_OR_TIED));
    CHECK(is_refused(HM_INPUT_RESERVE_AT_PORT, 1, "", HM_REFUSED_RESERVED_OR_TIED));
    CHECK(is_refused(HM_INPUT_BIND, 1, "X", HM_REFUSED_RESERVED_OR_TIED));
    CHECK(is_refused(HM_INPUT_CHANGE_SERVICE_STATUS, 1, "", HM_REFUSED_RESERVED_OR_TIED));
    CHECK(is_refused(HM_INPUT_CARRIER_OUT, 2, "A", HM_REFUSED_QUEUED_ALREADY));
    CHECK(is_refused(HM_INPUT_CANCEL_CARRIER_OUT, 0, "A", HM_REFUSED_CONDITIONS));
    ACCEPTED(HM_INPUT_OPEN, 0, "B"); /* queued alone: it may be opened */
    ACCEPTED(HM_INPUT_LOAD_START, 2, "");
    check_done(0, 0);
    CHECK(tool.queued == 1 && is_name(tool.queue[0].name, "B"));
}

/* CancelCarrier of a carrier that waits drops its request; one that is started runs on, and comes out cancelled. */
static void carriers_are_cancelled(void)
{
    hm_tool expected;

    three_inside();
    ACCEPTED(HM_INPUT_CARRIER_OUT, 1, "A");
    ACCEPTED(HM_INPUT_CARRIER_OUT, 1, "B");
    ACCEPTED(HM_INPUT_CARRIER_OUT, 2, "C");
    check_start(0);
    expected = tool;
    expected.carriers[1].cancelled = 1;
    take_out(&expected, 1);
    CHECK(is_queued(HM_INPUT_CANCEL_CARRIER, 0, "B", &expected));
    CHECK(is_refused(HM_INPUT_CANCEL_CARRIER, 1, "C", HM_REFUSED_CONDITIONS)); /* refused, it drops nothing */
    expected.carriers[0].cancelled = 1;
    CHECK(is_queued(HM_INPUT_CANCEL_CARRIER, 0, "A ", &expected));
    check_done(0, 0);
    CHECK(tool.carriers[0].cancelled == 1 && tool.queued == 1);
}

static void requests_are_cancelled(void)
{
    hm_tool expected;

    three_inside();
    CHECK(is_refused(HM_INPUT_CANCEL_CARRIER_OUT, 0, "A", HM_REFUSED_CONDITIONS));
    CHECK(is_refused(HM_INPUT_CANCEL_CARRIER_OUT, 0, "Z", HM_REFUSED_CONDITIONS)); /* without a record, too */
    CHECK(is_refused(HM_INPUT_CANCEL_CARRIER_OUT, 0, "", HM_REFUSED_OUT_OF_RANGE));
    CHECK(is_refused(HM_INPUT_CANCEL_CARRIER_OUT, 0, " ", HM_REFUSED_OUT_OF_RANGE));
    expected = tool;
    CHECK(is_queued(HM_INPUT_CANCEL_ALL_CARRIER_OUT, 99, " ", &expected)); /* accepted with none, and reads no part */
    ACCEPTED(HM_INPUT_CARRIER_OUT, 1, "A");
    ACCEPTED(HM_INPUT_CARRIER_OUT, 2, "B");
    ACCEPTED(HM_INPUT_CARRIER_OUT, 1, "C");
    ACCEPTED(HM_INPUT_OUT_START, 2, "");
    expected = tool;
    take_out(&expected, 0);
    CHECK(is_queued(HM_INPUT_CANCEL_CARRIER_OUT, 0, "A   ", &expected));
    ACCEPTED(HM_INPUT_CARRIER_OUT, 1, "A");
    expected = tool;
    take_out(&expected, 2);
    take_out(&expected, 1);
    CHECK(is_queued(HM_INPUT_CANCEL_ALL_CARRIER_OUT, 0, "", &expected)); /* B is started */
    CHECK(tool.queued == 1 && is_name(tool.queue[0].name, "B"));
}

/* A byte of the tool, by its place. */
static int sound_with(size_t at, uint8_t value)
{
    hm_tool damaged = tool;
    ((uint8_t *)&damaged)[at] = value;
    return hm_sound(&damaged) == 1;
}

#define QUEUE_AT(field) offsetof(hm_tool, field)

/* Each clause by a byte that breaks it: the tool isn't sound, and refuses every input. */
static void damage_is_seen(void)
{
    static const size_t request = sizeof(hm_request);
    const size_t second = QUEUE_AT(queue) + request, port = offsetof(hm_request, port);

    three_inside();
    ACCEPTED(HM_INPUT_CARRIER_OUT, 1, "A");
    ACCEPTED(HM_INPUT_CARRIER_OUT, 1, "B");
    ACCEPTED(HM_INPUT_OUT_START, 1, "");
    CHECK(sound_with(QUEUE_AT(queued), 2) && !sound_with(QUEUE_AT(queued), 17)); /* at most 16 */
    CHECK(!sound_with(QUEUE_AT(queued), 1) && !sound_with(QUEUE_AT(queued), 3)); /* what is unused is zero */
    CHECK(!sound_with(second + request, 1) && !sound_with(QUEUE_AT(spare), 1));
    CHECK(!sound_with(second + port, 0) && !sound_with(second + port, 3) && sound_with(second + port, 2));
    CHECK(!sound_with(second + port + 1, 2) && !sound_with(QUEUE_AT(queue) + port + 1, 2)); /* 0 or 1 */
    CHECK(!sound_with(second, 'Z') && !sound_with(second + 1, 'B') && sound_with(second, 'C'));
    CHECK(!sound_with(second, 'A'));                                        /* twice */
    CHECK(!sound_with(second + port + 1, HM_STARTED));                      /* two started to one port */
    CHECK(!sound_with(offsetof(hm_tool, carriers) + offsetof(hm_carrier, open), 1));
    CHECK(!sound_with(offsetof(hm_tool, carriers) + offsetof(hm_carrier, accessing), HM_ACCESSING_IN_ACCESS));
    CHECK(sound_with(offsetof(hm_tool, carriers) + sizeof(hm_carrier) + offsetof(hm_carrier, open), 1));
    CHECK(!sound_with(offsetof(hm_tool, ports) + offsetof(hm_port, reserved), HM_NOT_RESERVED));
    CHECK(!sound_with(offsetof(hm_tool, ports) + offsetof(hm_port, transfer), HM_TRANSFER_OUT_OF_SERVICE));
    tool.queued = 17;
    CHECK(is_refused(HM_INPUT_CANCEL_ALL_CARRIER_OUT, 0, "", HM_REFUSED_OUT_OF_RANGE));
}

/* A port that Bind reserved is tied, and no request is started to it; one may wait for it. */
static void a_tied_port_is_not_kept(void)
{
    three_inside();
    ACCEPTED(HM_INPUT_BIND, 1, "X");
    tool.queued = 1;
    put_request(&tool, 0, "A", 1, HM_NOT_STARTED);
    CHECK(hm_sound(&tool) == 1);
    tool.queue[0].started = HM_STARTED;
    CHECK(hm_sound(&tool) == 0);
}

/* Each byte of the queue with each value: sound are what was there, another port and another carrier. */
static void every_byte_of_the_queue(void)
{
    size_t at;
    unsigned sound = 0;

    three_inside();
    ACCEPTED(HM_INPUT_CARRIER_OUT, 1, "A");
    for (at = QUEUE_AT(queued) * 256u; at < offsetof(hm_tool, clock) * 256u; at++) {
        sound += sound_with(at / 256, (uint8_t)(at % 256)) ? 1u : 0u;
    }
    /* The port may be the other, the name B or C, and the request can't be started: port 1 isn't reserved. */
    CHECK(sound == (offsetof(hm_tool, clock) - QUEUE_AT(queued)) + 3);
}

int main(void)
{
    requests_are_queued_whatever_the_port_does();
    carrier_out_is_refused();
    sixteen_fill_the_queue();
    the_oldest_that_is_ready_starts();
    out_start_is_refused();
    out_done_is_refused();
    a_started_request_keeps_its_port_and_carrier();
    carriers_are_cancelled();
    requests_are_cancelled();
    damage_is_seen();
    a_tied_port_is_not_kept();
    every_byte_of_the_queue();
    return result("queue");
}
