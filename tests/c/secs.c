/*
 * Messages from the host bridge (request P3) through the C interface: the four actions against hm_step, each refusal
 * with the place where it is met, and messages that are cut, damaged and hostile. Every message is lent to the byte,
 * so that one read too far is seen.
 */
#define _DEFAULT_SOURCE
#include "check.h"
#include "lend.h"
#include "secs.h"

#define ODD 0xA5A5A5A5u

static struct room room;
static hm_tool tool;
static hm_reports reports;
static const hm_reports no_reports;

struct said {
    uint32_t answer, items;
    uint64_t at;
};

/* One call, with the message placed so; the message and what stands around it and around the count stay. */
static struct said call(const uint8_t *bytes, size_t length, enum placing placing)
{
    struct lent lent = lend(&room, placing, bytes, length);
    uint32_t items[3] = {ODD, ODD, ODD};
    struct said said;
    int kept;

    memset(&reports, 0xA5, sizeof reports); /* what stood there before must be gone */
    said.answer = hm_secs_step(&tool, &reports, lent.readable, length, &items[1]);
    said.items = items[1];
    said.at = hm_secs_at(lent.readable, length);
    kept = memcmp(lent.readable, bytes, length) == 0 && items[0] == ODD && items[2] == ODD;
    if (!(give_back(&lent) && kept)) {
        CHECK(!"message and neighbours as they were");
    }
    return said;
}

/* The same wherever the message stands. */
static struct said send(const uint8_t *bytes, size_t length)
{
    const hm_tool before = tool;
    struct said first = call(bytes, length, (enum placing)0), other;
    const hm_tool after = tool;
    const hm_reports told = reports;
    int placing, same = 1;

    for (placing = 1; placing < PLACINGS; placing++) {
        tool = before;
        other = call(bytes, length, (enum placing)placing);
        same = same && other.answer == first.answer && other.items == first.items && other.at == first.at;
        same = same && memcmp(&tool, &after, sizeof tool) == 0 && memcmp(&reports, &told, sizeof told) == 0;
    }
    if (!same || first.items > HM_SECS_ITEMS || first.at > length) {
        CHECK(!"the same in every place, at most 128 items, and stopped inside the message");
    }
    return first;
}

/* Refused by the reader with this number, after so many items, at this place; the tool got no input. */
static int is_refused(const uint8_t *bytes, size_t length, uint32_t refusal, uint32_t items, uint64_t at)
{
    const hm_tool before = tool;
    struct said said = send(bytes, length);
    return said.answer == refusal && said.items == items && said.at == at &&
           memcmp(&tool, &before, sizeof tool) == 0 && memcmp(&reports, &no_reports, sizeof reports) == 0;
}

/* Port 1 free, at port 2 CD waits for the host, AE is expected. */
static void set_up(void)
{
    CHECK(hm_setup(&tool, 2, 0, 0, 0) == HM_ACCEPTED);
    CHECK(give(&tool, &reports, HM_INPUT_CARRIER_NOTIFICATION, 0, 0, "AE") == HM_ACCEPTED);
    CHECK(give(&tool, &reports, HM_INPUT_LOAD_START, 2, 0, "") == HM_ACCEPTED);
    CHECK(give(&tool, &reports, HM_INPUT_LOAD_DONE, 2, 0, "") == HM_ACCEPTED);
    CHECK(give(&tool, &reports, HM_INPUT_ID_READ, 2, 0, "CD") == HM_ACCEPTED);
}

static const struct {
    const char *text;
    uint32_t number;
} actions[] = {{"Bind", HM_INPUT_BIND},
               {"CarrierNotification", HM_INPUT_CARRIER_NOTIFICATION},
               {"ProceedWithCarrier", HM_INPUT_PROCEED_WITH_CARRIER},
               {"CancelCarrier", HM_INPUT_CANCEL_CARRIER}};

#define ACTIONS (sizeof actions / sizeof actions[0])

/* A message and the input that it stands for give the same answer, tool and reports; `code` 0 is no map. */
static uint32_t same_as_step(size_t action, const char *name, uint8_t port, uint8_t code)
{
    const uint32_t number = actions[action].number;
    const int mapped = code != 0 && (number == HM_INPUT_BIND || number == HM_INPUT_CARRIER_NOTIFICATION);
    const uint32_t port_used = number == HM_INPUT_CARRIER_NOTIFICATION ? 0 : port;
    const uint8_t *text = (const uint8_t *)name;
    uint8_t codes[HM_SLOTS];
    struct message m;
    struct said said;
    hm_reports told;
    hm_tool other;

    memset(codes, code, sizeof codes);
    begin(&m, actions[action].text, text, strlen(name), port, code == 0 ? 0 : 1);
    if (code != 0) {
        put_map(&m, codes);
    }
    set_up();
    other = tool;
    said = send(m.bytes, m.length);
    CHECK(said.answer == hm_step(&other, &told, number, port_used, 0, text, strlen(name), mapped ? codes : HM_NOTHING,
                                 mapped ? HM_SLOTS : 0));
    CHECK(memcmp(&tool, &other, sizeof tool) == 0 && memcmp(&reports, &told, sizeof told) == 0);
    CHECK(said.items == m.items && said.at == m.length && m.items == (code == 0 ? 6u : 34u));
    return said.answer;
}

static void actions_are_steps(void)
{
    static const char *const names[] = {"AB", "AE", "CD", "CD  ", "", "A B", "AB                               "};
    static const uint8_t ports[] = {0, 1, 2, 3, 255}, codes[] = {0, HM_CODE_CORRECTLY_OCCUPIED, HM_CODE_NOT_EMPTY};
    unsigned accepted[ACTIONS] = {0}, answers[HM_REFUSED_PLACE_OR_OPENER_TAKEN + 1] = {0};
    size_t a, i, k;

    for (a = 0; a < ACTIONS; a++) {
        for (i = 0; i < sizeof names / sizeof names[0] * sizeof ports; i++) {
            for (k = 0; k < sizeof codes; k++) {
                uint32_t answer = same_as_step(a, names[i / sizeof ports], ports[i % sizeof ports], codes[k]);
                accepted[a] += answer == HM_ACCEPTED;
                answers[answer]++;
            }
        }
        CHECK(accepted[a] > 0);
    }
    CHECK(answers[1] > 0 && answers[2] > 0 && answers[3] > 0 && answers[4] > 0 && answers[5] > 0);
}

/* Items in hex: format byte, length byte, data. */
#define ID "A50101"
#define BIND "410442696E64"
#define NAME "41024142"
#define PORT "A50101"
#define NONE "0100"
#define U1_3 "A50103"
#define FIVE_U1 U1_3 U1_3 U1_3 U1_3 U1_3
#define CODES "0119" FIVE_U1 FIVE_U1 FIVE_U1 FIVE_U1 FIVE_U1
#define SLOT_MAP "4107536C6F744D6170"
#define X "410158"
#define FIRST "0105" ID BIND NAME PORT /* 18 bytes, five items; the attributes follow */
#define WITH(attributes) FIRST "0101" attributes
#define PAIR(value) WITH("0102" X value)
#define SIX_DEEP "010101010101010101010101"

static size_t from_hex(const char *text, uint8_t *bytes)
{
    size_t length = strlen(text) / 2, i;
    unsigned byte;
    for (i = 0; i < length && sscanf(text + 2 * i, "%2x", &byte) == 1; i++) {
        bytes[i] = (uint8_t)byte;
    }
    return i == length ? length : 0;
}

struct refused {
    const char *message;
    uint32_t refusal, items;
    uint64_t at;
};

/* 20 to 25, and that the lowest is given at one item. */
static const struct refused walked[] = {
    {"", 20, 0, 0}, {"01", 20, 0, 0}, {"0200", 20, 0, 0}, {"030000", 20, 0, 0}, {"0105", 20, 1, 2},
    {"0102" NONE, 20, 2, 4}, {"4102" "41", 20, 0, 0}, {"01054105426E64", 20, 1, 2}, {"FFFFFFFF", 20, 0, 0},
    {"450541", 20, 0, 0}, {"A90341", 20, 0, 0}, {"03FFFFFF", 20, 1, 4}, {"01FF" ID ID, 20, 3, 8},
    {"44", 21, 0, 0}, {"450141", 21, 0, 0}, {"FD00", 21, 0, 0}, {"0101" "4400", 21, 1, 2},
    {"00", 22, 0, 0}, {"40", 22, 0, 0}, {"0102" ID "A4", 22, 2, 5}, {"A903414141", 22, 0, 0},
    {"B1020102", 22, 0, 0}, {"A10701020304050607", 22, 0, 0}, {PAIR("A90101"), 22, 8, 25},
    {SIX_DEEP "00", 22, 6, 12}, {SIX_DEEP "01", 20, 6, 12}, {SIX_DEEP NONE, 23, 6, 12}, {SIX_DEEP "0105", 23, 6, 12},
    {SIX_DEEP "44", 21, 6, 12}, {PAIR("0101" "0101" "0101" NONE), 23, 11, 31},
    {NONE "00", 25, 1, 2}, {ID "FF", 25, 1, 3}, {FIRST NONE "00", 25, 6, 20}, {FIRST NONE FIRST NONE, 25, 6, 20},
    {"0102" ID ID "01", 25, 3, 8}};

/* 26: read to the end, and another shape or action. */
static const char *const shapes[] = {
    NONE, ID, BIND, "4100", "2100", SIX_DEEP ID, "0104" ID BIND NAME PORT, "0106" ID BIND NAME PORT NONE NONE,
    /* data id */
    "0105" "A500" BIND NAME PORT NONE, "0105" "A5020101" BIND NAME PORT NONE, "0105" "650101" BIND NAME PORT NONE,
    "0105" "210101" BIND NAME PORT NONE, "0105" X BIND NAME PORT NONE, "0105" NONE BIND NAME PORT NONE,
    "0105" "910400000000" BIND NAME PORT NONE,
    /* action */
    "0105" ID "4100" NAME PORT NONE, "0105" ID "410362696E" NAME PORT NONE, "0105" ID "410462696E64" NAME PORT NONE,
    "0105" ID "410542696E6420" NAME PORT NONE, "0105" ID "210442696E64" NAME PORT NONE,
    "0105" ID "410A43616E63656C42696E64" NAME PORT NONE, "0105" ID ID NAME PORT NONE,
    /* name and port */
    "0105" ID BIND ID PORT NONE, "0105" ID BIND "21024142" PORT NONE, "0105" ID BIND NONE PORT NONE,
    "0105" ID BIND NAME "A500" NONE, "0105" ID BIND NAME "A5020101" NONE, "0105" ID BIND NAME "A9020001" NONE,
    "0105" ID BIND NAME "650101" NONE, "0105" ID BIND NAME "210101" NONE, "0105" ID BIND NAME X NONE,
    /* attributes */
    FIRST ID, FIRST X, WITH(X), WITH(NONE), WITH("0101" X), WITH("0103" X X X), WITH("0102" ID X),
    WITH("0102" "210158" X), PAIR("A500"), PAIR("A5020102"), PAIR("2500"), PAIR("25020101"), PAIR("0101" "A900"),
    PAIR("0102" X "91080000000000000000"), WITH("0102" SLOT_MAP ID), WITH("0102" SLOT_MAP NONE),
    WITH("0102" SLOT_MAP "0118" FIVE_U1 FIVE_U1 FIVE_U1 FIVE_U1 U1_3 U1_3 U1_3 U1_3),
    WITH("0102" SLOT_MAP "011A" FIVE_U1 FIVE_U1 FIVE_U1 FIVE_U1 FIVE_U1 U1_3),
    WITH("0102" SLOT_MAP "0119" FIVE_U1 FIVE_U1 FIVE_U1 FIVE_U1 U1_3 U1_3 U1_3 U1_3 "A9020003"),
    FIRST "0102" "0102" SLOT_MAP CODES X};

/* Each binds AB to port 1: other formats and length bytes, attributes that are dropped, a later SlotMap of any kind. */
static const char *const bindings[] = {
    FIRST NONE, FIRST "020000", FIRST "03000000", "0105" "A9020001" BIND NAME PORT NONE,
    "0105" "B10400000001" BIND NAME PORT NONE, "0105" "A10800000000000000FF" BIND NAME PORT NONE,
    "03000005" "A6000101" "4300000442696E64" "4200024142" "A700000101" "020000", PAIR(ID), PAIR(NONE), PAIR("4100"),
    PAIR("2100"), PAIR("2103010203"), PAIR("250101"), PAIR("650180"), PAIR("69028000"), PAIR("710480000000"),
    PAIR("61088000000000000000"), PAIR("91047FC00001"), PAIR("81087FF8000000000001"), PAIR("A9020001"),
    PAIR("0101" "0101" "0101" ID), WITH("0102" SLOT_MAP CODES), FIRST "0102" "0102" X ID "0102" SLOT_MAP ID,
    FIRST "0102" "0102" SLOT_MAP CODES "0102" SLOT_MAP NONE, WITH("0102" "4107736C6F746D6170" ID)};

static void each_refusal(void)
{
    uint8_t bytes[LONGEST_MESSAGE];
    unsigned met[27] = {0};
    uint32_t items;
    size_t i, length;

    set_up();
    for (i = 0; i < sizeof walked / sizeof walked[0]; i++) {
        length = from_hex(walked[i].message, bytes);
        met[walked[i].refusal]++;
        check(is_refused(bytes, length, walked[i].refusal, walked[i].items, walked[i].at), __FILE__, __LINE__,
              walked[i].message);
    }
    CHECK(met[20] > 0 && met[21] > 0 && met[22] > 0 && met[23] > 0 && met[25] > 0);
    for (i = 0; i < sizeof shapes / sizeof shapes[0]; i++) {
        length = from_hex(shapes[i], bytes);
        items = send(bytes, length).items;
        check(is_refused(bytes, length, HM_REFUSED_SHAPE_OR_ACTION, items, length) && items > 0, __FILE__, __LINE__,
              shapes[i]);
    }
}

static void each_binding(void)
{
    uint8_t bytes[LONGEST_MESSAGE];
    size_t i, length;

    for (i = 0; i < sizeof bindings / sizeof bindings[0]; i++) {
        struct said said;
        set_up();
        length = from_hex(bindings[i], bytes);
        said = send(bytes, length);
        check(said.answer == HM_ACCEPTED && said.at == length && is_name(tool.ports[0].tie, "AB"), __FILE__, __LINE__,
              bindings[i]);
    }
}

/* A list of U1: 128 items are read to their end, the 129th is refused, unless something lower holds there. */
static void at_most_128_items(void)
{
    struct message m;
    unsigned elements;

    set_up();
    for (elements = 1; elements <= 255; elements++) {
        m.length = m.items = 0;
        put_head(&m, LIST, elements);
        while (m.items < elements + 1) {
            put_u1(&m, 3);
        }
        if (m.items <= HM_SECS_ITEMS) {
            CHECK(is_refused(m.bytes, m.length, HM_REFUSED_SHAPE_OR_ACTION, m.items, m.length));
        } else {
            CHECK(is_refused(m.bytes, m.length, HM_REFUSED_TOO_MANY_ITEMS, HM_SECS_ITEMS, 2 + 3 * 127));
            CHECK(is_refused(m.bytes, 2 + 3 * 127, HM_REFUSED_CUT_SHORT, HM_SECS_ITEMS, 2 + 3 * 127));
            m.bytes[2 + 3 * 127] = JIS8 << 2 | 1;
            CHECK(is_refused(m.bytes, m.length, HM_REFUSED_UNKNOWN_CODE, HM_SECS_ITEMS, 2 + 3 * 127));
        }
    }
}

/* Lists in lists, as many as there are bytes for: the seventh is refused. */
static void at_most_six_deep(void)
{
    struct message m;
    unsigned lists;

    set_up();
    for (lists = 1; lists <= 1000; lists++) {
        m.length = m.items = 0;
        while (m.items < lists) {
            put_head(&m, LIST, 1);
        }
        put_u1(&m, 3);
        CHECK(lists <= HM_SECS_DEPTH
                  ? is_refused(m.bytes, m.length, HM_REFUSED_SHAPE_OR_ACTION, lists + 1, m.length)
                  : is_refused(m.bytes, m.length, HM_REFUSED_TOO_DEEP, HM_SECS_DEPTH, 2 * HM_SECS_DEPTH));
    }
}

/* Nothing but one byte, of each value and many lengths. */
static void hostile_messages(void)
{
    uint8_t bytes[LONGEST_MESSAGE];
    unsigned byte, wrong = 0;
    size_t length;

    set_up();
    for (byte = 0; byte < 256; byte++) {
        memset(bytes, (int)byte, sizeof bytes);
        for (length = 0; length < sizeof bytes; length = length < 20 ? length + 1 : length * 2 + 1) {
            const hm_tool before = tool;
            struct said said = send(bytes, length);
            wrong += said.answer < 20 || said.answer > 26 || memcmp(&tool, &before, sizeof tool) != 0;
            wrong += memcmp(&reports, &no_reports, sizeof reports) != 0 || (byte == 0xFF && said.answer != 20);
        }
    }
    CHECK(wrong == 0);
}

/* A message with SlotMap and an attribute of six lists: every beginning of it is cut short. */
static void cut_and_damaged(void)
{
    const uint8_t map[HM_SLOTS] = {3, 3, 1, 3, 3, 3, 1, 3, 3, 3, 3, 3, 3, 3, 3, 3, 3, 3, 3, 3, 3, 3, 3, 3, 1};
    struct message m;
    size_t i;
    uint32_t items = 0;
    unsigned byte, wrong = 0, read = 0;

    begin(&m, "Bind", (const uint8_t *)"AB", 2, 1, 2);
    put_map(&m, map);
    m.length += from_hex("0102" X "0101" "0101" "0101" ID, m.bytes + m.length);
    set_up();
    for (i = 0; i < m.length; i++) {
        struct said said = send(m.bytes, i);
        CHECK(said.items >= items && is_refused(m.bytes, i, HM_REFUSED_CUT_SHORT, said.items, said.at));
        items = said.items;
    }
    for (i = 0; i < m.length * 256; i++) {
        const uint8_t was = m.bytes[i / 256];
        const hm_tool before = tool;
        m.bytes[i / 256] = (uint8_t)(i % 256);
        byte = send(m.bytes, m.length).answer;
        wrong += hm_sound(&tool) != 1 || (byte != 0 && memcmp(&tool, &before, sizeof tool) != 0);
        wrong += (byte != 0 && memcmp(&reports, &no_reports, sizeof reports) != 0) || byte > 26;
        read += byte < 20;
        m.bytes[i / 256] = was;
        tool = before;
    }
    CHECK(wrong == 0 && read > 0 && send(m.bytes, m.length).answer == HM_ACCEPTED);
    CHECK(memcmp(tool.expected_maps[2], map, HM_SLOTS) == 0);
}

/* The reader's refusal comes before the tool's; a good message to no tool is the tool's 1. */
static void without_a_tool(void)
{
    uint8_t bytes[LONGEST_MESSAGE];
    size_t length = from_hex(FIRST NONE, bytes);
    struct said said;

    memset(&tool, 0, sizeof tool);
    CHECK(is_refused(bytes, length - 1, HM_REFUSED_CUT_SHORT, 5, 18));
    CHECK(is_refused(HM_NOTHING, 0, HM_REFUSED_CUT_SHORT, 0, 0));
    said = send(bytes, length);
    CHECK(said.answer == HM_REFUSED_OUT_OF_RANGE && said.items == 6 && said.at == length);
}

int main(void)
{
    make_room(&room);
    actions_are_steps();
    each_refusal();
    each_binding();
    at_most_128_items();
    at_most_six_deep();
    hostile_messages();
    cut_and_damaged();
    without_a_tool();
    return result("secs");
}
