/*
 * Logs of another maker's tool (request P14) through the C interface: a log written out byte by byte, each verdict, the
 * log cut at every place and changed at every place. Every log is lent to the byte, so that one read too far is seen.
 */
#define _DEFAULT_SOURCE
#include "check.h"
#include "lend.h"

#define HEAD 7

static const uint8_t good[] = {
    'C', 'M', 'T', 0, 1, /* mark, version 1 with its high byte first */
    2, 0,                /* P, B: two ports, no buffer */
    /* entry 0, at 7: CarrierNotification(AB), accepted, three reports: models 5, 6 and 7 of AB from 0 to 1 */
    3, 0, 0, 2, 'A', 'B', 0, 3, 5, 2, 'A', 'B', 0, 1, 6, 2, 'A', 'B', 0, 1, 7, 2, 'A', 'B', 0, 1,
    /* entry 1, at 33: LoadStart(1), accepted, transfer state of port 1 from READY TO LOAD to BLOCKED */
    13, 1, 0, 0, 0, 1, 1, 1, 1, 3,
    /* entry 2, at 43: SlotMap(AB) with 25 codes, refused with 5, no reports */
    20, 0, 0, 2, 'A', 'B', 3, 3, 3, 3, 3, 3, 3, 3, 3, 3, 3, 3, 3, 3, 3, 3, 3, 3, 3, 3, 3, 3, 3, 3, 3, 5, 0,
    /* entry 3, at 76: LoadStart(1) once more, refused with 5 */
    13, 1, 0, 0, 5, 0,
};

static const size_t begins[] = {7, 33, 43, 76, sizeof good};

#define ENTRIES (sizeof begins / sizeof begins[0] - 1)

static struct room room;
static hm_tool_01 tool;
static hm_reports reports;
static hm_judged judged;

/* One call with the log placed so; what was there before must be gone, and the log and its neighbours stay. */
static uint32_t call(const uint8_t *bytes, size_t length, enum placing placing)
{
    struct lent lent = lend(&room, placing, bytes, length);
    uint32_t says;
    int kept;

    memset(&tool, 0xA5, sizeof tool);
    memset(&reports, 0xA5, sizeof reports);
    memset(&judged, 0xA5, sizeof judged);
    says = hm_judge(lent.readable, length, &tool, &reports, &judged);
    kept = memcmp(lent.readable, bytes, length) == 0;
    if (!(give_back(&lent) && kept)) {
        CHECK(!"log and neighbours as they were");
    }
    return says;
}

/* The same wherever the log stands. */
static uint32_t judge(const uint8_t *bytes, size_t length)
{
    const uint32_t says = call(bytes, length, (enum placing)0);
    const hm_tool_01 left = tool;
    const hm_reports told = reports;
    const hm_judged first = judged;
    int placing, same = 1;

    for (placing = 1; placing < PLACINGS; placing++) {
        same = same && call(bytes, length, (enum placing)placing) == says;
        same = same && memcmp(&tool, &left, sizeof tool) == 0 && memcmp(&reports, &told, sizeof told) == 0;
        same = same && memcmp(&judged, &first, sizeof first) == 0;
    }
    if (!same || judged.at > length || judged.answer > HM_REFUSED_PLACE_OR_OPENER_TAKEN) {
        CHECK(!"the same in every place, ended inside the log, and an answer of document 01");
    }
    return says;
}

static int is_judged(const uint8_t *bytes, size_t length, uint32_t says, uint64_t entry, uint64_t at, uint64_t answer)
{
    return judge(bytes, length) == says && judged.entry == entry && judged.at == at && judged.answer == answer;
}

static int all_zero(const void *bytes, size_t length)
{
    const uint8_t *byte = (const uint8_t *)bytes;
    while (length > 0 && *byte == 0) {
        byte++;
        length--;
    }
    return length == 0;
}

static void heads(void)
{
    static const struct {
        uint8_t bytes[HEAD];
        size_t length;
        uint32_t says;
        uint64_t at;
    } cases[] = {
        {{'c'}, 1, HM_REFUSED_MARK_OR_VERSION, 0},
        {{'C', 'X'}, 2, HM_REFUSED_MARK_OR_VERSION, 1},
        {{'C', 'M'}, 2, HM_REFUSED_LOG_CUT_SHORT, 2},
        {{'C', 'M', 'T', 1, 0, 1, 0}, 7, HM_REFUSED_MARK_OR_VERSION, 3},
        {{'C', 'M', 'T', 0, 0, 1, 0}, 7, HM_REFUSED_MARK_OR_VERSION, 4},
        {{'C', 'M', 'T', 0, 1, 0}, 6, HM_REFUSED_SET_UP, 5},
        {{'C', 'M', 'T', 0, 1, 5, 0}, 7, HM_REFUSED_SET_UP, 5},
        {{'C', 'M', 'T', 0, 1, 4}, 6, HM_REFUSED_LOG_CUT_SHORT, 6},
        {{'C', 'M', 'T', 0, 1, 4, 17}, 7, HM_REFUSED_SET_UP, 6},
    };
    static const uint8_t none[] = {'C', 'M', 'T', 0, 1, 4, 16};
    size_t i;

    for (i = 0; i < sizeof cases / sizeof cases[0]; i++) {
        CHECK(is_judged(cases[i].bytes, cases[i].length, cases[i].says, 0, cases[i].at, 0));
        CHECK(all_zero(&tool, sizeof tool) && all_zero(&reports, sizeof reports));
    }
    CHECK(is_judged(HM_NOTHING, 0, HM_REFUSED_LOG_CUT_SHORT, 0, 0, 0));
    CHECK(is_judged(none, sizeof none, HM_LOG_AGREES, 0, HEAD, 0));
    CHECK(tool.used == 4 && tool.places == 16 && tool.count == 0 && all_zero(&reports, sizeof reports));
}

/* Tool, reports and answer are those of the last input. */
static void what_is_left(void)
{
    uint8_t log[sizeof good];

    CHECK(is_judged(good, sizeof good, HM_LOG_AGREES, ENTRIES, sizeof good, HM_REFUSED_CONDITIONS));
    CHECK(tool.count == 1 && is_name(tool.carriers[0].name, "AB") && all_zero(&reports, sizeof reports));
    CHECK(tool.ports[0].transfer == HM_TRANSFER_BLOCKED && tool.ports[0].movement == HM_MOVEMENT_LOADING);
    CHECK(is_judged(good, begins[2], HM_LOG_AGREES, 2, begins[2], HM_ACCEPTED));
    CHECK(reports.count == 1 && reports.items[0].model == HM_MODEL_TRANSFER && reports.items[0].port == 1);

    memcpy(log, good, sizeof good);
    log[42] = HM_TRANSFER_READY_TO_UNLOAD; /* entry 1: new state */
    CHECK(is_judged(log, sizeof log, HM_LOG_ENTRY_DISAGREES, 1, begins[1], HM_ACCEPTED));
    CHECK(reports.count == 1 && reports.items[0].new_state == HM_TRANSFER_BLOCKED);
    CHECK(is_judged(log, begins[2], HM_LOG_ENTRY_DISAGREES, 1, begins[1], HM_ACCEPTED));
    CHECK(is_judged(log, begins[2] - 1, HM_REFUSED_LOG_CUT_SHORT, 1, begins[1], HM_ACCEPTED));
    CHECK(tool.ports[0].transfer == HM_TRANSFER_READY_TO_LOAD && reports.count == 3);
}

/* No request reaches a log: a name with a blank at its end is refused as document 01 does. */
static void no_request(void)
{
    static const uint8_t padded[] = {'C', 'M', 'T', 0, 1, 1, 0, 3, 0, 0, 2, 'A', ' ', HM_REFUSED_OUT_OF_RANGE, 0};
    CHECK(is_judged(padded, sizeof padded, HM_LOG_AGREES, 1, sizeof padded, HM_REFUSED_OUT_OF_RANGE));
    CHECK(hm_name(padded + 11, 2) == 1);
}

/* Nor has document 01 a queue: CarrierOut moves the carrier at once, and 27 and 30 are no inputs. */
static void no_queue(void)
{
    static const uint8_t out[] = {
        'C', 'M', 'T', 0, 1, 1, 1,
        HM_INPUT_LOAD_START, 1, 0, 0, 0, 1, 1, 1, 1, 3,
        HM_INPUT_LOAD_DONE, 1, 0, 0, 0, 0,
        HM_INPUT_ID_READ, 1, 0, 1, 'A', 0, 4, 4, 1, 0, 1, 5, 1, 'A', 0, 2, 6, 1, 'A', 0, 1, 7, 1, 'A', 0, 1,
        HM_INPUT_PROCEED_WITH_CARRIER, 0, 0, 1, 'A', 0, 1, 5, 1, 'A', 2, 3,
        HM_INPUT_MOVE_IN, 1, 1, 0, 0, 2, 1, 1, 3, 1, 4, 1, 1, 0,
        HM_INPUT_CARRIER_OUT, 1, 0, 1, 'A', 0, 2, 1, 1, 1, 2, 4, 1, 0, 1,
        HM_INPUT_OUT_START, 1, 0, 0, HM_REFUSED_OUT_OF_RANGE, 0,
        HM_INPUT_CANCEL_ALL_CARRIER_OUT, 0, 0, 0, HM_REFUSED_OUT_OF_RANGE, 0,
    };
    CHECK(is_judged(out, sizeof out, HM_LOG_AGREES, 8, sizeof out, HM_REFUSED_OUT_OF_RANGE));
    CHECK(tool.ports[0].transfer == HM_TRANSFER_READY_TO_UNLOAD && tool.carriers[0].came_out == 1);
}

/* Nor predictions: 31 and 34 are no inputs, and a record that is made or goes has no report of model 8, which in a log
   would have a port. */
static void no_predictions(void)
{
    static const uint8_t told[] = {
        'C', 'M', 'T', 0, 1, 1, 0,
        HM_INPUT_CARRIER_NOTIFICATION, 0, 0, 1, 'A', 0, 3, 5, 1, 'A', 0, 1, 6, 1, 'A', 0, 1, 7, 1, 'A', 0, 1,
        HM_INPUT_CLOCK, 0, 0, 0, HM_REFUSED_OUT_OF_RANGE, 0,
        HM_INPUT_NO_PREDICTION, 0, 0, 1, 'A', HM_REFUSED_OUT_OF_RANGE, 0,
        HM_INPUT_CANCEL_CARRIER_NOTIFICATION, 0, 0, 1, 'A', 0, 1, HM_MODEL_PREDICTION, 1, 2, 0,
    };
    const size_t last = sizeof told - 11;

    CHECK(is_judged(told, last, HM_LOG_AGREES, 3, last, HM_REFUSED_OUT_OF_RANGE));
    CHECK(is_judged(told, sizeof told, HM_LOG_ENTRY_DISAGREES, 3, last, HM_ACCEPTED));
}

/* Nor does it ask who starts: in MANUAL and in AUTO the second number of LoadStart may be any, no alarm is told, no pod
   is held, 36 is no input, and 13 no answer. */
static void no_hands(void)
{
    static const uint8_t told[] = {
        'C', 'M', 'T', 0, 1, 1, 0,
        HM_INPUT_LOAD_START, 1, HM_START_AUTOMATIC, 0, 0, 1, 1, 1, 1, 3,
        HM_INPUT_LOAD_FAIL, 1, 0, 0, 0, 1, 1, 1, 3, 1,
        HM_INPUT_CHANGE_ACCESS, 1, HM_ACCESS_AUTO, 0, 0, 1, 2, 1, 0, 1,
        HM_INPUT_LOAD_START, 1, 255, 0, 0, 1, 1, 1, 1, 3,
        HM_INPUT_LOAD_FAIL, 1, 0, 0, 0, 1, 1, 1, 3, 1,
        HM_INPUT_LOAD_START, 1, HM_START_MANUAL, 0, 0, 1, 1, 1, 1, 3,
        HM_INPUT_CONTINUE, 1, 0, 0, HM_REFUSED_OUT_OF_RANGE, 0,
        HM_INPUT_LOAD_DONE, 1, 0, 0, 0, 0,
        HM_INPUT_ID_READ_FAILED, 1, 0, 0, 0, 0,
        HM_INPUT_UNLOAD_START, 1, HM_START_AUTOMATIC, 0, HM_REFUSED_AUTOMATIC_IN_MANUAL, 0,
    };
    const size_t last = sizeof told - 6;

    CHECK(is_judged(told, last, HM_LOG_AGREES, 9, last, HM_ACCEPTED));
    CHECK(tool.ports[0].pod == HM_POD_PRESENT && tool.ports[0].tag == HM_TAG_FAILED);
    CHECK(is_judged(told, sizeof told, HM_LOG_ENTRY_DISAGREES, 9, last, HM_REFUSED_CONDITIONS));
}

static size_t entry_of(size_t at)
{
    size_t entry = 0;
    while (entry < ENTRIES && begins[entry + 1] <= at) {
        entry++;
    }
    return entry;
}

static void cut_at_every_place(void)
{
    size_t length;

    for (length = HEAD; length < sizeof good; length++) {
        const size_t entry = entry_of(length);
        const uint32_t says = judge(good, length);
        CHECK(says == (begins[entry] == length ? HM_LOG_AGREES : HM_REFUSED_LOG_CUT_SHORT));
        CHECK(judged.entry == entry && judged.at == begins[entry]);
    }
}

/* Every byte of the entries becomes every other: no entry before it is touched, and each verdict is met. */
static void changed_at_every_place(void)
{
    unsigned long met[HM_REFUSED_LOG_CUT_SHORT + 1] = {0};
    uint8_t log[sizeof good];
    size_t place;
    unsigned change, wrong = 0;

    for (place = HEAD; place < sizeof good; place++) {
        for (change = 1; change < 256; change++) {
            uint32_t says;
            memcpy(log, good, sizeof good);
            log[place] = (uint8_t)(log[place] ^ change);
            says = judge(log, sizeof log);
            wrong += judged.entry < entry_of(place) || says > HM_REFUSED_LOG_CUT_SHORT;
            met[says > HM_REFUSED_LOG_CUT_SHORT ? 0 : says]++;
        }
    }
    CHECK(wrong == 0);
    CHECK(met[HM_LOG_AGREES] > 100 && met[HM_LOG_ENTRY_DISAGREES] > 100 && met[HM_REFUSED_LOG_CUT_SHORT] > 100);
    CHECK(met[HM_REFUSED_MARK_OR_VERSION] == 0 && met[HM_REFUSED_SET_UP] == 0);
}

int main(void)
{
    make_room(&room);
    heads();
    what_is_left();
    no_request();
    no_queue();
    no_predictions();
    no_hands();
    cut_at_every_place();
    changed_at_every_place();
    return result("judge");
}
