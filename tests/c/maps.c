/* Expected maps (request P1) through the C interface: what is kept, what is compared, what is refused; every byte. */
#include "check.h"

#define BASE_BYTES 1891 /* document 01's tool, before the expected maps */

static hm_tool tool;
static hm_reports reports;

static uint32_t send(uint32_t number, uint32_t port, const char *name, const uint8_t *codes, uint64_t length)
{
    memset(&reports, 0xA5, sizeof reports); /* what stood there before must be gone */
    return hm_step(&tool, &reports, number, port, 0, (const uint8_t *)name, strlen(name), codes, length);
}

#define PLAIN(number, port, name) CHECK(send((number), (port), (name), HM_NOTHING, 0) == HM_ACCEPTED)
#define MAPPED(number, port, name, map) CHECK(send((number), (port), (name), (map), HM_SLOTS) == HM_ACCEPTED)

/* A map of both codes, another one for each kind. */
static void make_map(uint8_t *map, unsigned kind)
{
    unsigned i;
    for (i = 0; i < HM_SLOTS; i++) {
        map[i] = (kind + i) % 3 == 0 ? HM_CODE_EMPTY : HM_CODE_CORRECTLY_OCCUPIED;
    }
    map[kind % HM_SLOTS] = HM_CODE_EMPTY;
}

static int all_zero(const uint8_t *bytes, size_t length)
{
    size_t i;
    for (i = 0; i < length && bytes[i] == 0; i++) {
    }
    return i == length;
}

/* The reports are this one alone, all 201 bytes. */
static int is_slot_report(const char *name, uint8_t new_state)
{
    hm_reports expected;
    memset(&expected, 0, sizeof expected);
    expected.count = 1;
    expected.items[0].model = HM_MODEL_SLOT;
    memcpy(expected.items[0].name, name, strlen(name));
    expected.items[0].old_state = HM_STATUS_NOT_READ;
    expected.items[0].new_state = new_state;
    return memcmp(&reports, &expected, sizeof expected) == 0;
}

/* A map changes neither answer nor reports of the two inputs, and of the tool its own 25 bytes alone. */
static void maps_are_kept(uint32_t number)
{
    hm_tool without;
    hm_reports told;
    uint8_t map[HM_SLOTS];

    make_map(map, number);
    CHECK(hm_setup(&tool, 2, 1, 0, 0) == HM_ACCEPTED);
    PLAIN(HM_INPUT_CARRIER_NOTIFICATION, 0, "A");
    without = tool;
    MAPPED(number, 1, "B", map);
    told = reports;
    CHECK(memcmp(tool.expected_maps[1], map, HM_SLOTS) == 0);
    memset(tool.expected_maps[1], 0, HM_SLOTS);
    CHECK(hm_step(&without, &reports, number, 1, 0, (const uint8_t *)"B", 1, HM_NOTHING, 0) == HM_ACCEPTED);
    CHECK(memcmp(&tool, &without, sizeof tool) == 0 && memcmp(&told, &reports, sizeof told) == 0);
    CHECK(all_zero((const uint8_t *)&tool + BASE_BYTES, sizeof tool - BASE_BYTES));
}

/* Refused with 1, and nothing has changed. */
static int is_refused(uint32_t number, const char *name, const uint8_t *codes, uint64_t length)
{
    const hm_tool before = tool;
    uint32_t answer = send(number, 1, name, codes, length);
    return answer == HM_REFUSED_OUT_OF_RANGE && memcmp(&tool, &before, sizeof tool) == 0 &&
           all_zero((const uint8_t *)&reports, sizeof reports);
}

/* Every other length up to 300, and at every slot every code but the two. */
static void other_maps_are_refused(uint32_t number)
{
    uint8_t codes[300];
    unsigned i, refused = 0;

    memset(codes, HM_CODE_CORRECTLY_OCCUPIED, sizeof codes);
    CHECK(hm_setup(&tool, 2, 0, 0, 0) == HM_ACCEPTED);
    PLAIN(HM_INPUT_CARRIER_NOTIFICATION, 0, "A");
    for (i = 1; i <= sizeof codes; i++) {
        refused += is_refused(number, "B", codes, i) ? 1u : 0u;
    }
    CHECK(refused == sizeof codes - 1);
    for (i = refused = 0; i < HM_SLOTS * 256; i++) {
        codes[i / 256] = (uint8_t)(i % 256);
        refused += is_refused(number, "A", codes, HM_SLOTS) ? 1u : 0u; /* 1 comes before 3, the name is taken */
        codes[i / 256] = HM_CODE_CORRECTLY_OCCUPIED;
    }
    CHECK(refused == HM_SLOTS * 254);
    memset(codes, 0, HM_SLOTS);
    CHECK(is_refused(number, "B", codes, HM_SLOTS)); /* 25 zeros are no way to say "none" */
}

/* Carrier A, bound with this map or with none, stands open at port 1. */
static void open_a_carrier(const uint8_t *map, uint64_t length)
{
    CHECK(hm_setup(&tool, 1, 0, 0, 0) == HM_ACCEPTED);
    CHECK(send(HM_INPUT_BIND, 1, "A", map, length) == HM_ACCEPTED);
    PLAIN(HM_INPUT_LOAD_START, 1, "");
    PLAIN(HM_INPUT_LOAD_DONE, 1, "");
    PLAIN(HM_INPUT_ID_READ, 1, "A");
    PLAIN(HM_INPUT_OPEN, 0, "A");
}

/* The slot map is kept, the slot status is this one, and nothing else has changed. */
static int is_mapped(const hm_tool *open, const uint8_t *codes, uint8_t status)
{
    hm_tool expected = *open;
    memcpy(expected.carriers[0].map, codes, HM_SLOTS);
    expected.carriers[0].slot = status;
    return memcmp(&tool, &expected, sizeof tool) == 0 && is_slot_report("A", status) && hm_sound(&tool) == 1;
}

static void an_equal_map_is_ok_at_once(void)
{
    uint8_t map[HM_SLOTS];
    hm_tool open;
    unsigned kind;

    for (kind = 0; kind < HM_SLOTS; kind++) {
        make_map(map, kind);
        open_a_carrier(map, HM_SLOTS);
        open = tool;
        MAPPED(HM_INPUT_SLOT_MAP, 0, "A", map);
        CHECK(is_mapped(&open, map, HM_STATUS_OK));
        CHECK(send(HM_INPUT_PROCEED_WITH_CARRIER, 0, "A", HM_NOTHING, 0) == HM_REFUSED_CONDITIONS);
        PLAIN(HM_INPUT_ACCESS_START, 0, "A");
    }
}

/* At every slot every other code that a slot map may have. */
static void another_map_waits_for_the_host(void)
{
    uint8_t map[HM_SLOTS], codes[HM_SLOTS];
    hm_tool open;
    unsigned i, waiting = 0;

    make_map(map, 1);
    open_a_carrier(map, HM_SLOTS);
    open = tool;
    for (i = 0; i < HM_SLOTS * (HM_CODE_GREATEST + 1); i++) {
        memcpy(codes, map, HM_SLOTS);
        codes[i / (HM_CODE_GREATEST + 1)] = (uint8_t)(i % (HM_CODE_GREATEST + 1));
        tool = open;
        MAPPED(HM_INPUT_SLOT_MAP, 0, "A", codes);
        waiting += is_mapped(&open, codes, HM_STATUS_WAITING_FOR_HOST) ? 1u : 0u;
    }
    CHECK(waiting == HM_SLOTS * HM_CODE_GREATEST);
    tool = open;
    codes[HM_SLOTS - 1] = HM_CODE_DOUBLE_SLOTTED;
    MAPPED(HM_INPUT_SLOT_MAP, 0, "A", codes);
    CHECK(send(HM_INPUT_ACCESS_START, 0, "A", HM_NOTHING, 0) == HM_REFUSED_NOT_VERIFIED);
    PLAIN(HM_INPUT_PROCEED_WITH_CARRIER, 0, "A");
    PLAIN(HM_INPUT_ACCESS_START, 0, "A");
}

/* Without an expected map no map is equal, not even the zeros that stand for none. */
static void no_map_never_equals(void)
{
    uint8_t codes[HM_SLOTS];
    hm_tool open;
    unsigned code;

    open_a_carrier(HM_NOTHING, 0);
    open = tool;
    for (code = 0; code <= HM_CODE_GREATEST; code++) {
        memset(codes, (int)code, HM_SLOTS);
        tool = open;
        MAPPED(HM_INPUT_SLOT_MAP, 0, "A", codes);
        CHECK(is_mapped(&open, codes, HM_STATUS_WAITING_FOR_HOST));
    }
}

/* The maps are those of these kinds, in the order of the records; kind 0: none. The rest is zero. */
static int maps_are(unsigned first, unsigned second, unsigned third)
{
    const unsigned kinds[3] = {first, second, third};
    uint8_t expected[HM_TOOL_BYTES - BASE_BYTES];
    unsigned i;

    memset(expected, 0, sizeof expected);
    for (i = 0; i < 3; i++) {
        if (kinds[i] != 0) {
            make_map(expected + i * HM_SLOTS, kinds[i]);
        }
    }
    return memcmp((const uint8_t *)&tool + BASE_BYTES, expected, sizeof expected) == 0 && hm_sound(&tool) == 1;
}

static void notify(const char *name, unsigned kind)
{
    uint8_t map[HM_SLOTS];
    make_map(map, kind);
    MAPPED(HM_INPUT_CARRIER_NOTIFICATION, 0, name, map);
}

static void maps_move_with_their_records(void)
{
    uint8_t map[HM_SLOTS];

    CHECK(hm_setup(&tool, 1, 1, 0, 0) == HM_ACCEPTED);
    notify("A", 1);
    notify("B", 2);
    notify("C", 3);
    CHECK(maps_are(1, 2, 3));
    PLAIN(HM_INPUT_CANCEL_CARRIER_NOTIFICATION, 0, "B");
    CHECK(maps_are(1, 3, 0) && is_name(tool.carriers[1].name, "C"));
    PLAIN(HM_INPUT_CARRIER_NOTIFICATION, 0, "B"); /* the map that it had before isn't remembered */
    CHECK(maps_are(1, 3, 0) && tool.count == 3);
    PLAIN(HM_INPUT_CANCEL_CARRIER_NOTIFICATION, 0, "A");
    CHECK(maps_are(3, 0, 0) && tool.count == 2);
    PLAIN(HM_INPUT_CANCEL_CARRIER_NOTIFICATION, 0, "B");
    make_map(map, 4);
    MAPPED(HM_INPUT_BIND, 1, "D", map);
    CHECK(maps_are(3, 4, 0));
    PLAIN(HM_INPUT_LOAD_START, 1, "");
    PLAIN(HM_INPUT_LOAD_DONE, 1, "");
    PLAIN(HM_INPUT_ID_READ, 1, "C"); /* D's record goes with its map; C keeps its own */
    CHECK(maps_are(3, 0, 0) && tool.count == 1 && is_name(tool.ports[0].tie, "C"));
}

/* Rows 5, 6 and 16 make records without a map, whatever codes come with them. */
static void other_inputs_bring_no_map(void)
{
    uint8_t map[HM_SLOTS];

    make_map(map, 1);
    CHECK(hm_setup(&tool, 3, 1, 0, 0) == HM_ACCEPTED);
    MAPPED(HM_INPUT_LOAD_START, 1, "", map);
    MAPPED(HM_INPUT_LOAD_DONE, 1, "", map);
    MAPPED(HM_INPUT_ID_READ, 1, "A", map);
    MAPPED(HM_INPUT_LOAD_START, 2, "", map);
    MAPPED(HM_INPUT_LOAD_DONE, 2, "", map);
    MAPPED(HM_INPUT_ID_READ_FAILED, 2, "", map);
    MAPPED(HM_INPUT_PROCEED_WITH_CARRIER, 2, "B", map);
    MAPPED(HM_INPUT_LOAD_START, 3, "", map);
    MAPPED(HM_INPUT_LOAD_DONE, 3, "", map);
    MAPPED(HM_INPUT_ID_READ_FAILED, 3, "", map);
    MAPPED(HM_INPUT_CANCEL_CARRIER, 3, "C", map);
    CHECK(maps_are(0, 0, 0) && tool.count == 3);
}

/* Each byte between document 01's tool and the clock with each value below 8: sound are what was there and another map
   alone. predict.c has the bytes from the clock on. */
static void damage_is_seen(void)
{
    hm_tool good;
    size_t at;
    unsigned sound = 0;

    CHECK(hm_setup(&tool, 1, 0, 0, 0) == HM_ACCEPTED);
    notify("A", 1);
    PLAIN(HM_INPUT_CARRIER_NOTIFICATION, 0, "B");
    good = tool;
    for (at = BASE_BYTES * 8u; at < offsetof(hm_tool, clock) * 8u; at++) {
        tool = good;
        ((uint8_t *)&tool)[at / 8] = (uint8_t)(at % 8);
        sound += hm_sound(&tool);
    }
    /* every byte as it was; each code of A may be the other */
    CHECK(sound == (offsetof(hm_tool, clock) - BASE_BYTES) + HM_SLOTS);
    tool = good;
    tool.spare[HM_SPARE_BYTES - 1] = 1;
    CHECK(is_refused(HM_INPUT_CARRIER_NOTIFICATION, "C", HM_NOTHING, 0));
}

int main(void)
{
    maps_are_kept(HM_INPUT_BIND);
    maps_are_kept(HM_INPUT_CARRIER_NOTIFICATION);
    other_maps_are_refused(HM_INPUT_BIND);
    other_maps_are_refused(HM_INPUT_CARRIER_NOTIFICATION);
    an_equal_map_is_ok_at_once();
    another_map_waits_for_the_host();
    no_map_never_equals();
    maps_move_with_their_records();
    other_inputs_bring_no_map();
    damage_is_seen();
    return result("maps");
}
