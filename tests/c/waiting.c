/*
 * Is anyone waiting (request P2), through the C interface: tables of every length up to 80 and of any bytes, lent
 * exactly as long as stated, where nothing may be written and nothing beside them read; and the tool of a run.
 */
#define _DEFAULT_SOURCE
#include "check.h"
#include "draw.h"
#include "lend.h"

#define MOST 80 /* records that fit into a page beside the guards */

static struct room table_room, found_room;
static hm_carrier table[MOST];

/* Asks with memory placed so; 1 when answer, position and count are these and every byte is as it was. */
static int finds(enum placing placing, uint64_t count, uint32_t answer, uint64_t position, uint64_t read)
{
    hm_found found = {0xA5A5A5A5A5A5A5A5u, 0xA5A5A5A5A5A5A5A5u};
    struct lent t = lend(&table_room, placing, table, count * sizeof *table);
    struct lent f = lend(&found_room, placing, &found, sizeof found);
    uint32_t said = hm_waiting((const hm_carrier *)(const void *)t.readable, count, (hm_found *)(void *)f.writable);
    int kept = memcmp(t.readable, table, count * sizeof *table) == 0;

    memcpy(&found, f.writable, sizeof found);
    kept = give_back(&t) & give_back(&f) & kept;
    return kept && said == answer && found.position == position && found.read == read;
}

static int finds_everywhere(uint64_t count, uint32_t answer, uint64_t position, uint64_t read)
{
    return finds(AT_END, count, answer, position, read) && finds(AT_START, count, answer, position, read) &&
           finds(ON_HEAP, count, answer, position, read);
}

/* Bytes of which none is a status that waits; the other fields may be twos. */
static void nobody_waits(void)
{
    unsigned i;
    any_bytes((uint8_t *)table, sizeof table);
    for (i = 0; i < MOST; i++) {
        table[i].id = (uint8_t)(table[i].id == HM_STATUS_WAITING_FOR_HOST ? 0x82 : table[i].id);
        table[i].slot = (uint8_t)(table[i].slot == HM_STATUS_WAITING_FOR_HOST ? 0xFF : table[i].slot);
    }
}

/* One that waits, at every place of every table; and a second after it, which is never read. */
static void every_place(void)
{
    unsigned count, place;
    for (count = 0; count <= MOST; count++) {
        nobody_waits();
        CHECK(finds_everywhere(count, 0, count, count));
        for (place = count; place-- > 0;) {
            *(below(2) ? &table[place].id : &table[place].slot) = HM_STATUS_WAITING_FOR_HOST;
            CHECK(finds(place % 2 ? AT_END : AT_START, count, 1, place, place + 1u));
        }
    }
}

/* Each field in turn is 2 in all records, the others not: only the two statuses count. */
static void every_byte(void)
{
    size_t offset, byte;
    for (offset = 0; offset < sizeof *table; offset++) {
        int waits = offset == offsetof(hm_carrier, id) || offset == offsetof(hm_carrier, slot);
        for (byte = 0; byte < 256; byte++) {
            memset(table, 0, sizeof table);
            ((uint8_t *)&table[2])[offset] = (uint8_t)byte;
            CHECK(finds(AT_END, 5, waits && byte == 2, waits && byte == 2 ? 2 : 5, waits && byte == 2 ? 3 : 5));
        }
    }
}

/* Of a thousand tables by chance, the answer is that of a plain loop. */
static void by_chance(void)
{
    unsigned turn, met[2] = {0, 0};
    for (turn = 0; turn < 1000; turn++) {
        unsigned count = below(MOST + 1), first = 0, waits;
        any_bytes((uint8_t *)table, sizeof table);
        while (first < count && table[first].id != 2 && table[first].slot != 2) {
            first++;
        }
        waits = first < count;
        CHECK(finds((enum placing)below(PLACINGS), count, waits, first, first + waits));
        met[waits]++;
    }
    CHECK(met[0] > 100 && met[1] > 50);
}

/* What follows the first that waits isn't read: it stands in a page that can't be touched. */
static void stops_there(void)
{
    hm_found found;
    struct lent t;
    nobody_waits();
    table[6].slot = HM_STATUS_WAITING_FOR_HOST;
    t = lend(&table_room, AT_END, table, 7 * sizeof *table);
    CHECK(hm_waiting((const hm_carrier *)(const void *)t.readable, 1000, &found) == 1);
    CHECK(found.position == 6 && found.read == 7);
    CHECK(give_back(&t));
}

/* A panel passes the tool's table and count. */
static void a_tool(void)
{
    static const uint8_t codes[HM_SLOTS] = {1};
    static const struct {
        uint32_t number, port;
        const char *name;
        uint32_t waits;
        uint64_t position, read;
    } run[] = {
        {HM_INPUT_CARRIER_NOTIFICATION, 0, "E", 0, 1, 1}, {HM_INPUT_BIND, 1, "A", 0, 2, 2},
        {HM_INPUT_LOAD_START, 1, "", 0, 2, 2},            {HM_INPUT_LOAD_DONE, 1, "", 0, 2, 2},
        {HM_INPUT_ID_READ_FAILED, 1, "", 1, 1, 2},        {HM_INPUT_PROCEED_WITH_CARRIER, 0, "A", 0, 2, 2},
        {HM_INPUT_OPEN, 0, "A", 0, 2, 2},                 {HM_INPUT_SLOT_MAP, 0, "A", 1, 1, 2},
        {HM_INPUT_CANCEL_CARRIER_NOTIFICATION, 0, "E", 1, 0, 1}, {HM_INPUT_CANCEL_CARRIER, 0, "A", 0, 1, 1},
    };
    hm_tool tool;
    hm_reports reports;
    hm_found found;
    size_t i;

    CHECK(hm_setup(&tool, 1, 0, 0, 0) == HM_ACCEPTED);
    CHECK(hm_waiting(tool.carriers, tool.count, &found) == 0 && found.position == 0 && found.read == 0);
    for (i = 0; i < sizeof run / sizeof run[0]; i++) {
        const char *name = run[i].name;
        uint64_t length = run[i].number == HM_INPUT_SLOT_MAP ? HM_SLOTS : 0;
        CHECK(hm_step(&tool, &reports, run[i].number, run[i].port, 0, (const uint8_t *)name, strlen(name), codes,
                      length) == HM_ACCEPTED);
        CHECK(hm_waiting(tool.carriers, tool.count, &found) == run[i].waits);
        CHECK(found.position == run[i].position && found.read == run[i].read);
        /* the unused records wait for nobody, and are read where they are lent */
        CHECK(hm_waiting(tool.carriers, HM_RECORDS, &found) == run[i].waits);
        CHECK(found.read == (run[i].waits ? run[i].read : HM_RECORDS));
    }
}

int main(void)
{
    make_room(&table_room);
    make_room(&found_room);
    chance_state = 2;
    every_place();
    every_byte();
    by_chance();
    stops_there();
    a_tool();
    return result("waiting");
}
