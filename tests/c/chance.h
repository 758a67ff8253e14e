/*
 * Inputs by chance, the same for the same seed: most fit the tool that they are given to, some are odd. No expression
 * draws twice without saying in which order, so that every compiler draws the same.
 */
#ifndef CHANCE_H
#define CHANCE_H

#include <string.h>

#include "draw.h"
#include "hawsermole.h"

#define LONGEST 300 /* bytes of the longest name and of the longest codes */

/* No row has codes and wafers: they share their bytes, of which a board has few. */
struct input {
    uint32_t number, port, value, name_length, codes_length, clock, time;
    uint8_t name[LONGEST];
    uint64_t wafers; /* how many are sent; of more than HM_WAFERS none is there */
    union {
        uint8_t codes[LONGEST];
        hm_wafer wafers[HM_WAFERS];
    } rest;
};

/* Which function takes the input: this or the next, or else hm_step. */
static inline int for_time_step(const struct input *in)
{
    return in->number >= HM_INPUT_CLOCK && in->number <= HM_INPUT_NO_PREDICTION;
}

static inline int for_wafers(const struct input *in)
{
    return in->number == HM_INPUT_WAFERS;
}

/* The times of most set-ups: those of document 000's scenarios. */
#define SETTING 60
#define TIMEOUT 120

static int filling; /* for a while the host announces carriers and cancels none, so that runs come to full tools */

static uint32_t odd_number(void)
{
    static const uint32_t odd[] = {0, 5, 17, 31, 255, 256, 257, 65537, 0x80000000u, 0x80000001u, 0xFFFFFFFFu};
    return odd[below(sizeof odd / sizeof odd[0])];
}

/* One of 44 names, of 1 to 16 bytes; many are the beginning of another. */
static void some_name(struct input *in)
{
    static const char longest[] = "CARRIER-OF-LOT-7";
    uint32_t k = below(44);
    in->name_length = 1 + k % HM_NAME_BYTES;
    memcpy(in->name, longest, in->name_length);
    in->name[in->name_length - 1] = (uint8_t)(HM_NAME_BYTE_GREATEST - k / HM_NAME_BYTES);
}

static void known_name(struct input *in, const hm_carrier *carrier)
{
    for (in->name_length = 0; in->name_length < HM_NAME_BYTES; in->name_length++) {
        if (carrier->name[in->name_length] == 0) {
            return;
        }
        in->name[in->name_length] = carrier->name[in->name_length];
    }
}

/* Of 0, 16, 17 or any other length up to 300, of every byte; or a good name with one bad byte. */
static void odd_name(struct input *in)
{
    static const uint32_t lengths[] = {0, 1, 15, 16, 17, 255, 256, 257, 272, LONGEST};
    if (below(3) == 0) {
        uint8_t bad = (uint8_t)(below(2) ? draw() : below(HM_NAME_BYTE_LEAST));
        some_name(in);
        in->name[below(in->name_length)] = bad;
        return;
    }
    in->name_length = below(2) ? lengths[below(sizeof lengths / sizeof lengths[0])] : below(LONGEST + 1);
    if (below(2)) {
        any_bytes(in->name, in->name_length);
    } else {
        memset(in->name, 'A', in->name_length);
    }
}

/* Blanks after the name: most leave at most 32 bytes. */
static void pad(struct input *in)
{
    uint32_t most = LONGEST - in->name_length, room = HM_TEXT_BYTES - HM_NAME_BYTES + (below(8) ? 0 : 20);
    uint32_t blanks = below((room < most ? room : most) + 1);
    memset(in->name + in->name_length, HM_BLANK, blanks);
    in->name_length += blanks;
}

/* Codes of a slot map. */
static void good_codes(struct input *in)
{
    uint32_t i;
    in->codes_length = HM_SLOTS;
    for (i = 0; i < HM_SLOTS; i++) {
        in->rest.codes[i] = (uint8_t)below(HM_CODE_GREATEST + 1);
    }
}

/* Codes of an expected map, or none. */
static void expected_codes(struct input *in)
{
    uint32_t i;
    in->codes_length = below(4) ? HM_SLOTS : 0;
    for (i = 0; i < in->codes_length; i++) {
        in->rest.codes[i] = below(2) ? HM_CODE_EMPTY : HM_CODE_CORRECTLY_OCCUPIED;
    }
}

/* The map that this tool expects of the named carrier, now and then with one slot changed; else as it was. */
static void codes_as_expected(struct input *in, const hm_tool *tool)
{
    uint8_t padded[HM_NAME_BYTES] = {0};
    uint32_t i;
    memcpy(padded, in->name, in->name_length < HM_NAME_BYTES ? in->name_length : HM_NAME_BYTES);
    for (i = 0; i < HM_RECORDS; i++) {
        if (memcmp(tool->carriers[i].name, padded, HM_NAME_BYTES) == 0 && tool->expected_maps[i][0] != 0) {
            uint8_t change = below(3) ? 0 : HM_CODE_EMPTY ^ HM_CODE_CORRECTLY_OCCUPIED;
            memcpy(in->rest.codes, tool->expected_maps[i], HM_SLOTS);
            in->rest.codes[below(HM_SLOTS)] ^= change;
            return;
        }
    }
}

/* What the row reads of codes. */
static void fitting_codes(struct input *in, const hm_tool *tool)
{
    good_codes(in);
    if (in->number == HM_INPUT_BIND || in->number == HM_INPUT_CARRIER_NOTIFICATION) {
        expected_codes(in);
    } else if (in->number == HM_INPUT_SLOT_MAP && below(4)) {
        codes_as_expected(in, tool);
    }
}

/* The clock goes on or stands, and times are around it. */
static void fitting_times(struct input *in, const hm_tool *tool)
{
    uint32_t ahead = below(2 * SETTING);

    in->clock = hm_seconds(&tool->clock) + (below(3) ? 0 : ahead);
    ahead = below(2 * SETTING + TIMEOUT);
    in->time = in->clock + ahead - SETTING;
}

/* A good time: seldom the longest, most of them short. */
static double some_time(void)
{
    const uint32_t longest = HM_WAFER_PARTS * (uint32_t)HM_WAFER_SECONDS - 1;
    uint32_t parts = below(4) ? below(HM_WAFER_PARTS * SETTING) : HM_WAFER_PARTS * below(4);
    return (double)(below(64) ? parts : longest) / HM_WAFER_PARTS;
}

static double odd_time(void)
{
    static const double odd[] = {-1, 0.1, 1.0 / 2048, -1.0 / 1024, 1e300, HM_WAFER_SECONDS,
                                 HM_WAFER_SECONDS - 1.0 / 2048};
    double time = odd[below(sizeof odd / sizeof odd[0])];
    if (below(2)) {
        any_bytes((uint8_t *)&time, sizeof time);
    }
    return time;
}

/* No wafers, a few, or up to as many as there may be; then there are no codes. */
static void fitting_wafers(struct input *in)
{
    uint32_t i;
    in->codes_length = 0;
    in->wafers = below(3) ? below(4) : below(HM_WAFERS + 1);
    for (i = 0; i < in->wafers; i++) {
        in->rest.wafers[i].process = some_time();
        in->rest.wafers[i].handling = some_time();
    }
}

/* A time that isn't good, or too many wafers; the clock may be so late that the predicted time has no second. */
static void odd_wafers(struct input *in)
{
    static const uint64_t many[] = {HM_WAFERS + 1, HM_WAFERS + 2, 256, 1ull << 32, 1ull << 63, UINT64_MAX};
    uint32_t kind = below(4);
    if (kind == 0) {
        in->wafers = many[below(sizeof many / sizeof many[0])];
    } else if (kind == 1) {
        in->clock = UINT32_MAX - below(SETTING);
    } else if (in->wafers > 0) {
        hm_wafer *wafer = &in->rest.wafers[below((uint32_t)in->wafers)];
        *(kind == 2 ? &wafer->process : &wafer->handling) = odd_time();
    }
}

static void odd_codes(struct input *in)
{
    static const uint32_t lengths[] = {0, 1, 24, 25, 26, 255, 256, 281, LONGEST};
    in->codes_length = below(2) ? lengths[below(sizeof lengths / sizeof lengths[0])] : below(LONGEST + 1);
    if (below(2)) {
        any_bytes(in->rest.codes, in->codes_length);
    } else {
        memset(in->rest.codes, HM_CODE_CORRECTLY_OCCUPIED, in->codes_length);
    }
}

/* One part of the input becomes odd. */
static void one_odd_part(struct input *in)
{
    uint32_t part = below(7);
    if (for_wafers(in) && part != 3) {
        odd_wafers(in);
        return;
    }
    switch (part) {
    case 0: in->number = below(2) ? odd_number() : (uint32_t)draw(); break;
    case 1: in->port = below(2) ? odd_number() : (uint32_t)draw(); break;
    case 2: in->value = below(2) ? odd_number() : (uint32_t)draw(); break;
    case 3: odd_name(in); break;
    case 4: in->clock = below(2) ? in->clock - 1 - below(SETTING) : (uint32_t)draw(); break;
    case 5: in->time = below(2) ? odd_number() : (uint32_t)draw(); break;
    default: odd_codes(in); break;
    }
}

/* What a port of this state may be waiting for. */
static uint32_t number_for_port(const hm_port *port, const hm_hands *hands)
{
    static const uint8_t ready[] = {1, 2, 7, 9, 10, 11, 12, 13, 13, 13, 13, 13, 27, 27, 27, 27};
    static const uint8_t reserved[] = {2, 9, 12, 13, 13, 13, 27, 28, 28, 28, 28};
    static const uint8_t loading[] = {14, 14, 14, 15}, held[] = {14, 15, 36, 36, 36};
    static const uint8_t unloading[] = {25, 25, 25, 26};
    static const uint8_t unread[] = {2, 9, 16, 16, 16, 16, 17};
    static const uint8_t blocked[] = {5, 6, 9, 18, 18, 18, 18};
    static const uint8_t leaving[] = {6, 8, 9, 24, 24, 24};
    if (port->movement == HM_MOVEMENT_LOADING) {
        return hands->held ? held[below(sizeof held)] : loading[below(sizeof loading)];
    }
    if (port->movement == HM_MOVEMENT_UNLOADING) {
        return unloading[below(sizeof unloading)];
    }
    switch (port->transfer) {
    case HM_TRANSFER_READY_TO_LOAD:
        return port->reserved ? reserved[below(sizeof reserved)] : ready[below(sizeof ready)];
    case HM_TRANSFER_BLOCKED:
        return port->tag == HM_TAG_UNREAD ? unread[below(sizeof unread)] : blocked[below(sizeof blocked)];
    case HM_TRANSFER_READY_TO_UNLOAD: return leaving[below(sizeof leaving)];
    default: return HM_INPUT_CHANGE_SERVICE_STATUS;
    }
}

/* What a carrier of this state may be waiting for. */
static uint32_t number_for_carrier(const hm_carrier *carrier)
{
    if (carrier->place == HM_PLACE_EXPECTED) {
        return filling || below(3) ? 0u + HM_INPUT_ID_READ : HM_INPUT_CANCEL_BIND + 2 * below(2);
    }
    if (carrier->id == HM_STATUS_WAITING_FOR_HOST || carrier->slot == HM_STATUS_WAITING_FOR_HOST) {
        return filling || below(6) ? HM_INPUT_PROCEED_WITH_CARRIER : HM_INPUT_CANCEL_CARRIER;
    }
    if (carrier->open) {
        return HM_INPUT_SLOT_MAP + below(4);
    }
    if (carrier->accessing == HM_ACCESSING_NOT_ACCESSED && !carrier->cancelled && below(4)) {
        return HM_INPUT_OPEN;
    }
    if (carrier->place == HM_PLACE_BUFFER) {
        return below(8) ? HM_INPUT_CARRIER_OUT : HM_INPUT_CANCEL_CARRIER_OUT;
    }
    return HM_INPUT_CARRIER_IN;
}

/* What a prediction of this state may be waiting for, in a tool without a buffer. */
static uint32_t number_for_prediction(const hm_prediction *own)
{
    static const uint8_t awaited[] = {31, 32, 34, 35, 35, 35};
    static const uint8_t numbers[] = {31, 31, 32, 33, 33, 34, 35};
    if (own->state == HM_PREDICTION_WAITING_FOR_CARRIER) {
        return HM_INPUT_CLOCK;
    }
    if (own->state == HM_PREDICTION_WAITING_FOR_PREDICTION && !own->has_predicted) {
        return awaited[below(sizeof awaited)];
    }
    return numbers[below(sizeof numbers)];
}

/* Most pods are moved by whom the port is for; the value is 0 or 1 before. */
static void fitting_start(struct input *in, const hm_tool *tool)
{
    const int starts = in->number == HM_INPUT_LOAD_START || in->number == HM_INPUT_UNLOAD_START;

    if (starts && in->port >= 1 && in->port <= HM_PORTS && below(3)) {
        in->value = tool->ports[in->port - 1].access;
    }
}

/* An input that a carrier or a port of this tool may be waiting for, and some that none waits for. */
static void fitting_number(struct input *in, const hm_tool *tool, const hm_carrier *carrier)
{
    uint32_t kind = below(8);
    if (kind == 0) {
        in->number = 1 + below(HM_INPUTS);
    } else if (kind == 4 && tool->places == 0 && carrier != NULL) {
        known_name(in, carrier);
        in->number = number_for_prediction(&tool->predictions[carrier - tool->carriers]);
    } else if (kind == 1 || (filling && kind == 2)) {
        in->number = HM_INPUT_CARRIER_NOTIFICATION;
    } else if (kind <= 4 && carrier != NULL) {
        known_name(in, carrier);
        in->number = number_for_carrier(carrier);
        in->port = below(2) && in->number <= HM_INPUT_CANCEL_CARRIER ? carrier->port : in->port;
    } else {
        in->number = number_for_port(&tool->ports[in->port - 1], &tool->hands[in->port - 1]);
    }
    fitting_start(in, tool);
    if (in->number == HM_INPUT_MOVE_IN) {
        in->value = 1 + below(tool->places + 1u);
    }
}

/* An input for this tool, whatever its bytes. */
static void next_input(struct input *in, const hm_tool *tool)
{
    uint32_t ports = tool->used == 0 || tool->used > HM_PORTS ? HM_PORTS : tool->used;
    uint32_t records = tool->count > HM_RECORDS ? HM_RECORDS : tool->count;
    const hm_carrier *carrier = records == 0 ? NULL : &tool->carriers[below(records)];

    filling = below(200) == 0 ? !filling : filling;
    in->port = 1 + below(ports);
    in->value = below(4) ? below(2) : below(tool->places + 2u);
    some_name(in);
    if (carrier != NULL && below(3)) {
        known_name(in, carrier);
    }
    fitting_number(in, tool, carrier);
    fitting_codes(in, tool);
    fitting_times(in, tool);
    if (for_wafers(in)) {
        fitting_wafers(in);
    }
    if (below(for_wafers(in) ? 4 : 12) == 0) {
        one_odd_part(in);
    }
    if (below(4) == 0) {
        pad(in);
    }
}

/* Some bytes of the tool are changed, or it holds nothing but any bytes. */
static inline void damage(hm_tool *tool)
{
    uint32_t changes = 1 + below(3);

    if (below(8) == 0) {
        any_bytes((uint8_t *)tool, sizeof *tool);
    } else if (below(8) == 0) {
        memset(tool, (int)below(256), sizeof *tool);
    }
    while (changes-- > 0) {
        static const struct {
            uint32_t start, length;
        } parts[] = {{0, sizeof(hm_tool)}, {0, sizeof(hm_tool)}, {0, 300}, {offsetof(hm_tool, expected_maps), 300},
                     {offsetof(hm_tool, queued), 60}, {offsetof(hm_tool, clock), 60},
                     {offsetof(hm_tool, hands), HM_PORTS * sizeof(hm_hands)}};
        uint32_t part = below(sizeof parts / sizeof parts[0]);
        uint32_t where = parts[part].start + below(parts[part].length);
        ((uint8_t *)tool)[where] = (uint8_t)(below(2) ? draw() : below(6));
    }
}

#endif
