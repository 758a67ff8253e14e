/*
 * A full tool, and every row to it: what costs the most. Whoever includes this has a `tool` and an input `in` above,
 * and says what it is to give the one to the other and to set the tool up.
 */
#ifndef FULL_H
#define FULL_H

#include "chance.h"

static void step(void);
/* With SETTING and TIMEOUT. */
static void set_up(uint32_t ports, uint32_t places);

/* When all predicted carriers are ready; Clock brings it, and judges all at once. */
#define READY_AT 1000

/* As many as there may be; together they take until then. */
static void most_wafers(void)
{
    in.codes_length = 0;
    for (in.wafers = 0; in.wafers < HM_WAFERS; in.wafers++) {
        in.rest.wafers[in.wafers].process = in.rest.wafers[in.wafers].handling = READY_AT / (2.0 * HM_WAFERS);
    }
}

static void plain_step(uint32_t number, uint32_t port, uint32_t value, uint32_t letter)
{
    in.number = number;
    in.port = port;
    in.value = value;
    in.name_length = HM_NAME_BYTES;
    memset(in.name, 'N', HM_NAME_BYTES);
    in.name[HM_NAME_BYTES - 1] = (uint8_t)('0' + letter); /* differs in the last byte alone: the longest to compare */
    fitting_codes(&in, &tool);
    in.clock = number == HM_INPUT_CLOCK ? READY_AT : hm_seconds(&tool.clock);
    in.time = READY_AT;
    if (number == HM_INPUT_WAFERS) {
        most_wafers();
    }
    step();
}

/* As many wafers, one of them with a time that is no good. */
static void refused_wafers(uint32_t letter)
{
    plain_step(HM_INPUT_CLOSE, 0, 0, letter); /* refused, too: it is IN ACCESS */
    in.number = HM_INPUT_WAFERS;
    most_wafers();
    in.rest.wafers[HM_WAFERS - 1].handling = -1;
    step();
}

static void load(uint32_t port, uint32_t letter)
{
    plain_step(HM_INPUT_LOAD_START, port, 0, 0);
    plain_step(HM_INPUT_LOAD_DONE, port, 0, 0);
    plain_step(HM_INPUT_ID_READ, port, 0, letter);
    plain_step(HM_INPUT_PROCEED_WITH_CARRIER, 0, 0, letter);
}

/* 16 carriers in the buffer, 4 at the ports, 16 expected. */
static void fill(void)
{
    uint32_t i;
    set_up(HM_PORTS, HM_PLACES);
    for (i = 0; i < HM_PLACES; i++) {
        load(1 + i % HM_PORTS, i);
        plain_step(HM_INPUT_MOVE_IN, 1 + i % HM_PORTS, i + 1, 0);
    }
    for (i = 0; i < HM_PORTS; i++) {
        load(i + 1, HM_PLACES + i);
    }
    for (i = 0; i < HM_EXPECTED; i++) {
        plain_step(HM_INPUT_CARRIER_NOTIFICATION, 0, 0, HM_PLACES + HM_PORTS + i);
    }
}

/* CarrierOut of all that is in the buffer, which fills the queue. */
static void queue_all(void)
{
    uint32_t i;
    for (i = 0; i < HM_REQUESTS; i++) {
        plain_step(HM_INPUT_CARRIER_OUT, 1 + i % HM_PORTS, 0, i);
    }
}

/* From the full tool: at the last port stands a pod that is bound and not yet read, and one in the buffer isn't
   queued, so that any row of document 01 may be accepted. */
static void free_one(void)
{
    plain_step(HM_INPUT_CANCEL_CARRIER_OUT, 0, 0, HM_PLACES - 1);
    plain_step(HM_INPUT_CANCEL_CARRIER, 0, 0, HM_PLACES + HM_PORTS - 1);
    plain_step(HM_INPUT_UNLOAD_START, HM_PORTS, 0, 0);
    plain_step(HM_INPUT_UNLOAD_DONE, HM_PORTS, 0, 0);
    plain_step(HM_INPUT_CANCEL_CARRIER_NOTIFICATION, 0, 0, HM_RECORDS - 1);
    plain_step(HM_INPUT_BIND, HM_PORTS, 0, HM_RECORDS);
    plain_step(HM_INPUT_LOAD_START, HM_PORTS, 0, 0);
    plain_step(HM_INPUT_LOAD_DONE, HM_PORTS, 0, 0);
}

/* From the full tool: two ports are empty, and a request is started to the first. */
static void free_ports(void)
{
    uint32_t i;
    for (i = 0; i < 2; i++) {
        plain_step(HM_INPUT_CANCEL_CARRIER, 0, 0, HM_PLACES + i);
        plain_step(HM_INPUT_UNLOAD_START, i + 1, 0, 0);
        plain_step(HM_INPUT_UNLOAD_DONE, i + 1, 0, 0);
    }
    plain_step(HM_INPUT_OUT_START, 1, 0, 0);
}

/* The carrier at the port is opened, mapped and accessed; what its slot map is, the host accepts. */
static void access_pod(uint32_t letter)
{
    plain_step(HM_INPUT_OPEN, 0, 0, letter);
    plain_step(HM_INPUT_SLOT_MAP, 0, 0, letter);
    plain_step(HM_INPUT_PROCEED_WITH_CARRIER, 0, 0, letter);
    plain_step(HM_INPUT_ACCESS_START, 0, 0, letter);
}

/* A tool without a buffer: 16 carriers expected, and one at each port that was accessed and has a Tp, three of them
   closed again and READY TO UNLOAD: Clock makes all four PREDICTED, and completes the three. */
static void fill_fixed(void)
{
    uint32_t i;
    set_up(HM_PORTS, 0);
    for (i = 0; i < HM_EXPECTED; i++) {
        plain_step(HM_INPUT_CARRIER_NOTIFICATION, 0, 0, HM_PORTS + i);
    }
    for (i = 0; i < HM_PORTS; i++) {
        load(i + 1, i);
        access_pod(i);
    }
    for (i = 1; i < HM_PORTS; i++) {
        plain_step(HM_INPUT_ACCESS_END, 0, 0, i);
        plain_step(HM_INPUT_CLOSE, 0, 0, i);
    }
    refused_wafers(0);
    for (i = 0; i < HM_PORTS; i++) {
        plain_step(i == 0 ? HM_INPUT_WAFERS : HM_INPUT_PREDICTED_TIME, 0, 0, i);
    }
}

/* A hand at a port in AUTO: its pod is held, and let stay. */
static void by_hand(void)
{
    set_up(HM_PORTS, HM_PLACES);
    plain_step(HM_INPUT_CHANGE_ACCESS, HM_PORTS, HM_ACCESS_AUTO, 0);
    plain_step(HM_INPUT_LOAD_START, HM_PORTS, HM_START_MANUAL, 0);
    plain_step(HM_INPUT_LOAD_DONE, HM_PORTS, 0, 0);
    plain_step(HM_INPUT_CONTINUE, HM_PORTS, 0, 0);
}

/* A pod whose tag can't be read is rejected in a tool without a buffer: nine reports, the most of any input. */
static void reject_unknown(void)
{
    set_up(HM_PORTS, 0);
    plain_step(HM_INPUT_LOAD_START, 1, 0, 0);
    plain_step(HM_INPUT_LOAD_DONE, 1, 0, 0);
    plain_step(HM_INPUT_ID_READ_FAILED, 1, 0, 0);
    plain_step(HM_INPUT_CANCEL_CARRIER, 1, 0, 0);
}

/* Every row with every name, known and not, and every port, to this tool, which is kept in `kept_tool`. */
static void every_row(hm_tool *kept_tool)
{
    uint32_t number, port, letter;

    *kept_tool = tool;
    for (number = 1; number <= HM_INPUTS; number++) {
        for (letter = 0; letter <= HM_RECORDS + 1; letter++) {
            for (port = 0; port <= HM_PORTS; port++) {
                tool = *kept_tool;
                plain_step(number, port, 1, letter);
            }
        }
    }
    tool = *kept_tool;
}

/* The last of all is the full one, with a full queue. */
static void every_row_to_full_tools(hm_tool *kept_tool)
{
    by_hand();
    reject_unknown();
    fill_fixed();
    every_row(kept_tool);
    fill();
    queue_all();
    free_one();
    every_row(kept_tool);
    fill();
    queue_all();
    free_ports();
    every_row(kept_tool);
    fill();
    queue_all();
    every_row(kept_tool);
}

#endif
