/*
 * Where the predicted time comes from (request P8) through the C interface: which times are good, what they come to,
 * what is refused, and every byte.
 */
#include "check.h"

#define PART (1.0 / HM_WAFER_PARTS)
#define LONGEST (HM_WAFER_SECONDS - PART)

static hm_tool accessed, tool; /* A IN ACCESS, and a copy that gets the input */
static hm_reports reports;
static const hm_reports no_reports;

static void prepare(void)
{
    static const uint32_t visit[] = {HM_INPUT_LOAD_START, HM_INPUT_LOAD_DONE, HM_INPUT_ID_READ,
                                     HM_INPUT_PROCEED_WITH_CARRIER, HM_INPUT_OPEN, HM_INPUT_SLOT_MAP,
                                     HM_INPUT_PROCEED_WITH_CARRIER, HM_INPUT_ACCESS_START};
    static const uint8_t codes[HM_SLOTS] = {HM_CODE_EMPTY};
    unsigned i;

    CHECK(hm_setup(&accessed, 1, 0, 60, 120) == HM_ACCEPTED);
    for (i = 0; i < sizeof visit / sizeof visit[0]; i++) {
        CHECK(hm_step(&accessed, &reports, visit[i], 1, 0, BYTES("A"), 1, codes, HM_SLOTS) == HM_ACCEPTED);
    }
}

static uint32_t send(uint32_t clock, const char *name, const hm_wafer *wafers, uint64_t count)
{
    memset(&reports, 0xA5, sizeof reports); /* what stood there before must be gone */
    return hm_wafers(&tool, &reports, clock, BYTES(name), strlen(name), wafers, count);
}

/* Refused with this number, and nothing has changed. */
static int is_refused(uint32_t clock, const char *name, const hm_wafer *wafers, uint64_t count, uint32_t answer)
{
    const hm_tool before = tool;
    return send(clock, name, wafers, count) == answer && memcmp(&tool, &before, sizeof tool) == 0 &&
           memcmp(&reports, &no_reports, sizeof reports) == 0;
}

/* All is as a PredictedTime of this Tp leaves it, byte for byte. */
static int is_predicted(uint32_t clock, const hm_wafer *wafers, uint64_t count, uint32_t tp)
{
    hm_tool other = accessed;
    hm_reports told;

    tool = accessed;
    return hm_time_step(&other, &told, HM_INPUT_PREDICTED_TIME, clock, BYTES("A"), 1, tp) == HM_ACCEPTED &&
           send(clock, "A", wafers, count) == HM_ACCEPTED && memcmp(&tool, &other, sizeof tool) == 0 &&
           memcmp(&reports, &told, sizeof told) == 0;
}

/* A time as process and as handling, of the first wafer and of the last of so many. */
static int is_taken(double time, uint64_t count, uint32_t tp)
{
    hm_wafer wafers[HM_WAFERS];
    double *const times[] = {&wafers[0].process, &wafers[0].handling, &wafers[count - 1].process,
                             &wafers[count - 1].handling};
    unsigned i;
    int taken = 1;

    for (i = 0; i < 4; i++) {
        memset(wafers, 0, sizeof wafers);
        *times[i] = time;
        tool = accessed;
        taken = taken && (tp == 0 ? is_refused(1000, "A", wafers, count, HM_REFUSED_TIME_OUT_OF_RANGE)
                                  : is_predicted(1000, wafers, count, tp));
    }
    return taken;
}

static int is_bad(double time)
{
    return is_taken(time, 1, 0) && is_taken(time, HM_WAFERS, 0);
}

static double with_bits(uint64_t bits)
{
    double time;
    memcpy(&time, &bits, sizeof time);
    return time;
}

static uint64_t bits_of(double time)
{
    uint64_t bits;
    memcpy(&bits, &time, sizeof bits);
    return bits;
}

static void good_times(void)
{
    static const double good[] = {0, -0.0, PART, 1 - PART, 1, 1 + PART, 90.5, 1023, 1024.25, 524288, LONGEST};
    unsigned i;

    for (i = 0; i < sizeof good / sizeof good[0]; i++) {
        const uint32_t whole = (uint32_t)good[i], tp = 1000 + whole + (whole < good[i] ? 1 : 0);
        CHECK(is_taken(good[i], 1, tp) && is_taken(good[i], HM_WAFERS, tp));
    }
}

/* What differs from a good time in the last bit alone, signs, what is too short or too long, and no numbers. */
static void bad_times(void)
{
    double time;
    unsigned shift;

    for (time = PART; time < HM_WAFER_SECONDS; time *= 2) {
        CHECK(is_taken(time, 1, 1000 + (time < 1 ? 1 : (uint32_t)time)) && is_bad(-time));
        CHECK(is_bad(with_bits(bits_of(time) + 1)) && is_bad(with_bits(bits_of(time) - 1)));
    }
    CHECK(time == HM_WAFER_SECONDS && is_bad(time) && is_bad(LONGEST + PART / 2) && is_bad(PART / 2));
    CHECK(is_bad(0.1) && is_bad(1e300) && is_bad(with_bits(1)) && is_bad(-with_bits(1)));
    for (shift = 0; shift < 52; shift++) { /* infinities, and NaN of every kind */
        CHECK(is_bad(with_bits(0x7FF0000000000000u)) && is_bad(with_bits(0x7FF0000000000000u | 1ull << shift)));
        CHECK(is_bad(with_bits(0xFFF0000000000000u)) && is_bad(with_bits(0xFFF0000000000000u | 1ull << shift)));
    }
}

/* The total is rounded up, and no time by itself. */
static void totals(void)
{
    hm_wafer wafers[HM_WAFERS];
    uint32_t count, parts;

    CHECK(is_predicted(1000, NULL, 0, 1000) && is_predicted(UINT32_MAX, NULL, 0, UINT32_MAX));
    for (parts = 1; parts <= 3 * HM_WAFER_PARTS; parts += 41) {
        for (count = 1; count <= HM_WAFERS; count++) {
            const uint32_t total = count * (parts + HM_WAFER_PARTS / 4);
            wafers[count - 1].process = parts * PART;
            wafers[count - 1].handling = 0.25;
            CHECK(is_predicted(9, wafers, count, 9 + (total + HM_WAFER_PARTS - 1) / HM_WAFER_PARTS));
        }
    }
    for (count = 0; count < HM_WAFERS; count++) {
        wafers[count].process = wafers[count].handling = LONGEST;
    }
    CHECK(is_predicted(UINT32_MAX - 50 * HM_WAFER_SECONDS, wafers, HM_WAFERS, UINT32_MAX));
    tool = accessed;
    CHECK(is_refused(UINT32_MAX - 50 * HM_WAFER_SECONDS + 1, "A", wafers, HM_WAFERS, HM_REFUSED_TIME_OUT_OF_RANGE));
    wafers[0].process = PART;
    wafers[0].handling = 0;
    CHECK(is_refused(UINT32_MAX, "A", wafers, 1, HM_REFUSED_TIME_OUT_OF_RANGE));
    CHECK(is_predicted(UINT32_MAX - 1, wafers, 1, UINT32_MAX));
}

/* Too many are never read, so that one is enough to point to; doubles come in pairs. */
static void counts(void)
{
    static const uint64_t many[] = {26, 27, 255, 256, 1ull << 31, (1ull << 32) + 1, 1ull << 63, UINT64_MAX};
    static const uint64_t doubles[] = {1, 3, 25, 49, 51, 52, 256, (1ull << 32) + 2, 1ull << 63, UINT64_MAX};
    const hm_wafer wafers[HM_WAFERS] = {{1, 1}};
    unsigned i;

    tool = accessed;
    for (i = 0; i < sizeof many / sizeof many[0]; i++) {
        CHECK(is_refused(1000, "A", wafers, many[i], HM_REFUSED_OUT_OF_RANGE));
    }
    for (i = 0; i < sizeof doubles / sizeof doubles[0]; i++) {
        const double *const times = &wafers[0].process;
        CHECK(hm_wafers_step(&tool, &reports, 1000, BYTES("A"), 1, times, doubles[i]) == HM_REFUSED_OUT_OF_RANGE);
        CHECK(memcmp(&tool, &accessed, sizeof tool) == 0 && memcmp(&reports, &no_reports, sizeof reports) == 0);
    }
    CHECK(is_predicted(1000, wafers, HM_WAFERS, 1002));
}

/* The lowest that applies: 1, 2, 5, 11, 12. */
static void refusals(void)
{
    static const hm_wafer bad = {0.1, 0}, good = {500, 0};

    tool = accessed;
    CHECK(send(1000, "A  ", &good, 1) == HM_ACCEPTED); /* blanks are dropped; now it has a Tp */
    CHECK(is_refused(999, "A", &bad, 1, HM_REFUSED_CONDITIONS));
    CHECK(is_refused(1000, "A", &good, 1, HM_REFUSED_CONDITIONS));
    tool = accessed;
    CHECK(hm_time_step(&tool, &reports, HM_INPUT_CLOCK, 1000, HM_NOTHING, 0, 0) == HM_ACCEPTED);
    CHECK(give(&tool, &reports, HM_INPUT_CARRIER_NOTIFICATION, 0, 0, "B") == HM_ACCEPTED);
    CHECK(is_refused(1000, "A", &bad, 1, HM_REFUSED_TIME_OUT_OF_RANGE));
    CHECK(is_refused(999, "A", &bad, 1, HM_REFUSED_CLOCK_EARLIER) && is_refused(0, "A", NULL, 0, 11));
    CHECK(is_refused(999, "B", &bad, 1, HM_REFUSED_CONDITIONS)); /* it waits for its carrier */
    CHECK(is_refused(999, "Z", &bad, 1, HM_REFUSED_NO_RECORD));
    CHECK(is_refused(999, "Z", &bad, HM_WAFERS + 1, HM_REFUSED_OUT_OF_RANGE));
    CHECK(is_refused(1000, "A B", &good, 1, HM_REFUSED_OUT_OF_RANGE) && is_refused(1000, "", &good, 1, 1));
    CHECK(hm_setup(&tool, 1, 1, 60, 120) == HM_ACCEPTED);
    CHECK(give(&tool, &reports, HM_INPUT_CARRIER_NOTIFICATION, 0, 0, "A") == HM_ACCEPTED);
    CHECK(is_refused(9, "A", NULL, 0, HM_REFUSED_CONDITIONS)); /* a tool with a buffer predicts nothing */
    memset(&tool, 0, sizeof tool);
    CHECK(is_refused(9, "A", NULL, 0, HM_REFUSED_OUT_OF_RANGE));
}

/* hm_step has no argument for wafers: it takes the input with clock 0 and none. hm_time_step doesn't take it. */
static void by_other_functions(void)
{
    hm_tool other = accessed;

    CHECK(is_predicted(0, NULL, 0, 0));
    CHECK(give(&other, &reports, HM_INPUT_WAFERS, 9, 9, "A") == HM_ACCEPTED);
    CHECK(memcmp(&tool, &other, sizeof tool) == 0);
    tool = accessed;
    CHECK(hm_time_step(&tool, &reports, HM_INPUT_WAFERS, 9, BYTES("A"), 1, 9) == HM_REFUSED_OUT_OF_RANGE);
    CHECK(memcmp(&tool, &accessed, sizeof tool) == 0);
    CHECK(hm_time_step(&tool, &reports, HM_INPUT_CLOCK, 1, HM_NOTHING, 0, 0) == HM_ACCEPTED);
    CHECK(give(&tool, &reports, HM_INPUT_WAFERS, 0, 0, "A") == HM_REFUSED_CLOCK_EARLIER);
}

int main(void)
{
    prepare();
    good_times();
    bad_times();
    totals();
    counts();
    refusals();
    by_other_functions();
    return result("wafers");
}
