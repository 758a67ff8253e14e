/*
 * The prediction of ready to unload (request P7) through the C interface: what is judged and when, what is refused, and
 * every byte.
 */
#include "check.h"
#include "hawsermole_words.h"

#define SETTING 60u /* the times of document 000's scenarios */
#define TIMEOUT 120u

static hm_tool tool;
static hm_reports reports;
static const hm_reports no_reports;
static const hm_prediction *const first = &tool.predictions[0];

static uint32_t send(uint32_t number, uint32_t port, const char *name)
{
    static const uint8_t codes[HM_SLOTS] = {HM_CODE_EMPTY};
    const uint64_t count = number == HM_INPUT_SLOT_MAP ? HM_SLOTS : 0;
    memset(&reports, 0xA5, sizeof reports); /* what stood there before must be gone */
    return hm_step(&tool, &reports, number, port, 0, BYTES(name), strlen(name), codes, count);
}

static uint32_t tell(uint32_t number, uint32_t clock, const char *name, uint32_t time)
{
    memset(&reports, 0xA5, sizeof reports);
    return hm_time_step(&tool, &reports, number, clock, BYTES(name), strlen(name), time);
}

#define ACCEPTED(number, port, name) CHECK(send((number), (port), (name)) == HM_ACCEPTED)
#define TOLD(number, clock, name, time) CHECK(tell((number), (clock), (name), (time)) == HM_ACCEPTED)

/* The reports of model 8 are these, in turn, as "A 3>4; B 3>5", and no others are there. */
static int is_foretold(const char *text)
{
    hm_reports expected = no_reports;
    char name[HM_NAME_BYTES + 1];
    unsigned old_state, new_state;

    while (text != NULL && sscanf(text, "%16s %u>%u", name, &old_state, &new_state) == 3) {
        hm_report *r = &expected.items[expected.count++];
        r->model = HM_MODEL_PREDICTION;
        memcpy(r->name, name, strlen(name));
        r->old_state = (uint8_t)old_state;
        r->new_state = (uint8_t)new_state;
        text = strchr(text, ';');
        text = text == NULL ? NULL : text + 1;
    }
    return memcmp(&reports, &expected, sizeof reports) == 0;
}

/* The last report is this one of model 8. */
static int ends_with(const char *name, uint8_t old_state, uint8_t new_state)
{
    const hm_report *r = &reports.items[reports.count - 1];
    return r->model == HM_MODEL_PREDICTION && r->port == 0 && is_name(r->name, name) && r->old_state == old_state &&
           r->new_state == new_state;
}

/* Refused with this number, and nothing has changed. */
static int is_refused(uint32_t number, uint32_t clock, const char *name, uint32_t time, uint32_t answer)
{
    const hm_tool before = tool;
    return tell(number, clock, name, time) == answer && memcmp(&tool, &before, sizeof tool) == 0 &&
           memcmp(&reports, &no_reports, sizeof reports) == 0;
}

static void put_seconds(hm_time *to, uint32_t seconds)
{
    unsigned i;
    for (i = 0; i < sizeof to->bytes; i++, seconds >>= 8) {
        to->bytes[i] = (uint8_t)(seconds & 0xFF);
    }
}

/* A pod with this name is loaded at the port, and its wafers are accessed. */
static void access_pod(const char *name, uint32_t port)
{
    ACCEPTED(HM_INPUT_LOAD_START, port, "");
    ACCEPTED(HM_INPUT_LOAD_DONE, port, "");
    ACCEPTED(HM_INPUT_ID_READ, port, name);
    ACCEPTED(HM_INPUT_PROCEED_WITH_CARRIER, port, name);
    ACCEPTED(HM_INPUT_OPEN, 0, name);
    ACCEPTED(HM_INPUT_SLOT_MAP, 0, name);
    ACCEPTED(HM_INPUT_PROCEED_WITH_CARRIER, port, name);
    ACCEPTED(HM_INPUT_ACCESS_START, 0, name);
}

static void close_pod(const char *name)
{
    ACCEPTED(HM_INPUT_ACCESS_END, 0, name);
    ACCEPTED(HM_INPUT_CLOSE, 0, name);
}

/* Two ports, and A IN ACCESS at the first. */
static void a_is_accessed(void)
{
    CHECK(hm_setup(&tool, 2, 0, SETTING, TIMEOUT) == HM_ACCEPTED);
    access_pod("A", 1);
    CHECK(ends_with("A", HM_PREDICTION_WAITING_FOR_CARRIER, HM_PREDICTION_WAITING_FOR_PREDICTION));
}

static void set_ups(void)
{
    static const hm_tool zero;
    static const uint32_t spans[] = {0, 1, 255, 256, 65536, 86400, 86401, 0x80000000u, UINT32_MAX};
    const unsigned count = sizeof spans / sizeof spans[0];
    unsigned i;

    for (i = 0; i < count * count; i++) {
        const uint32_t setting = spans[i / count], timeout = spans[i % count];
        const int good = setting <= HM_SECONDS_GREATEST && timeout <= HM_SECONDS_GREATEST;
        hm_tool expected, usual;
        CHECK(hm_setup(&usual, 2, 3, 0, 0) == HM_ACCEPTED);
        expected = good ? usual : zero;
        put_seconds(&expected.setting, good ? setting : 0);
        put_seconds(&expected.timeout, good ? timeout : 0);
        memset(&tool, 0xA5, sizeof tool);
        CHECK(hm_setup(&tool, 2, 3, setting, timeout) == (good ? 0u : 1u));
        CHECK(memcmp(&tool, &expected, sizeof tool) == 0 && hm_sound(&tool) == (good ? 1u : 0u));
    }
}

/* Each input changes of the tool its own bytes alone. */
static void every_byte_that_changes(void)
{
    hm_tool expected;

    a_is_accessed();
    expected = tool;
    TOLD(HM_INPUT_CLOCK, 0x04030201, "ignored", 7);
    put_seconds(&expected.clock, 0x04030201);
    CHECK(memcmp(&tool, &expected, sizeof tool) == 0 && is_foretold(""));
    TOLD(HM_INPUT_PREDICTED_TIME, 0x04030201, "A   ", 0x0A090807);
    expected.predictions[0].has_predicted = 1;
    put_seconds(&expected.predictions[0].predicted, 0x0A090807);
    CHECK(memcmp(&tool, &expected, sizeof tool) == 0 && is_foretold(""));
    TOLD(HM_INPUT_ESTIMATE, 0x04030202, "A", 0x0A090806);
    put_seconds(&expected.clock, 0x04030202);
    expected.predictions[0].has_estimate = 1;
    put_seconds(&expected.predictions[0].estimate, 0x0A090806);
    CHECK(memcmp(&tool, &expected, sizeof tool) == 0 && is_foretold(""));
    TOLD(HM_INPUT_NO_PREDICTION, 0x04030203, "A", UINT32_MAX);
    put_seconds(&expected.clock, 0x04030203);
    expected.predictions[0].state = HM_PREDICTION_ABORTED;
    CHECK(memcmp(&tool, &expected, sizeof tool) == 0 && is_foretold("A 3>5"));
    CHECK(hm_find_prediction(&tool, BYTES("A "), 2) == first && hm_seconds(&first->predicted) == 0x0A090807);
}

/* What Tp at `clock` gives, and what a later clock or an estimate gives then; "" is nothing. */
static void is_judged(uint32_t clock, uint32_t tp, const char *at_once, uint32_t number, uint32_t then, uint32_t te,
                      const char *later)
{
    a_is_accessed();
    TOLD(HM_INPUT_PREDICTED_TIME, clock, "A", tp);
    CHECK(is_foretold(at_once));
    TOLD(number, then, "A", te);
    CHECK(is_foretold(later));
}

static void what_is_judged(void)
{
    const uint32_t clock = HM_INPUT_CLOCK, estimate = HM_INPUT_ESTIMATE, most = UINT32_MAX;

    is_judged(1000, 1100, "", clock, 1039, 0, "");
    is_judged(1000, 1100, "", clock, 1040, 0, "A 3>4"); /* Tp minus now is the setting time */
    is_judged(1000, 1060, "A 3>4", clock, 1179, 0, "");
    is_judged(1000, 1060, "A 3>4", clock, 1180, 0, "A 4>5"); /* Te is now once Tp has passed */
    is_judged(1000, 1060, "A 3>4", estimate, 1000, 1179, "");
    is_judged(1000, 1060, "A 3>4", estimate, 1000, 1180, "A 4>5");
    is_judged(1000, 9000, "", estimate, 1000, 9120, "A 3>5"); /* from WAITING FOR PREDICTION too */
    is_judged(1000, 1061, "", estimate, 1001, 1181, "A 3>5"); /* abort is looked at first */
    is_judged(1000, 1000, "A 3>4", clock, 1000, 0, "");
    is_judged(1000, 881, "A 3>4", clock, 1000, 0, "");
    is_judged(1000, 880, "A 3>5", clock, most, 0, ""); /* Tp before now is fine, and too late at once */
    is_judged(1000, 0, "A 3>5", clock, 1000, 0, "");
    is_judged(0, 60, "A 3>4", clock, 60, 0, "");
    is_judged(0, most, "", clock, most - 61, 0, "");
    is_judged(0, most, "", clock, most - 60, 0, "A 3>4");
    is_judged(most, most, "A 3>4", estimate, most, most, ""); /* no sum goes round */
    is_judged(most, most - 120, "A 3>5", clock, most, 0, "");
}

/* The estimate stays, and is taken instead of the clock. */
static void estimates_stay(void)
{
    is_judged(1000, 1060, "A 3>4", HM_INPUT_ESTIMATE, 1000, 1070, "");
    TOLD(HM_INPUT_CLOCK, 5000, "", 0);
    CHECK(is_foretold("") && first->state == HM_PREDICTION_PREDICTED);
    TOLD(HM_INPUT_ESTIMATE, 5000, "A", 1179);
    CHECK(is_foretold(""));
    TOLD(HM_INPUT_ESTIMATE, 5000, "A", 1180);
    CHECK(is_foretold("A 4>5"));
    TOLD(HM_INPUT_ESTIMATE, 5000, "A", 0); /* taken in every state, without effect here */
    CHECK(is_foretold("") && hm_seconds(&first->estimate) == 0);
}

/* A timeout of 0 aborts nothing, and a setting time of 0 predicts nothing. */
static void times_of_0(void)
{
    CHECK(hm_setup(&tool, 1, 0, SETTING, 0) == HM_ACCEPTED);
    access_pod("A", 1);
    TOLD(HM_INPUT_PREDICTED_TIME, 1000, "A", 1000);
    TOLD(HM_INPUT_ESTIMATE, UINT32_MAX, "A", UINT32_MAX);
    CHECK(is_foretold("") && first->state == HM_PREDICTION_PREDICTED);
    CHECK(hm_setup(&tool, 1, 0, 0, TIMEOUT) == HM_ACCEPTED);
    access_pod("A", 1);
    CHECK(ends_with("A", HM_PREDICTION_WAITING_FOR_CARRIER, HM_PREDICTION_DISABLED));
    CHECK(is_refused(HM_INPUT_PREDICTED_TIME, 0, "A", 0, HM_REFUSED_CONDITIONS));
    CHECK(is_refused(HM_INPUT_NO_PREDICTION, 0, "A", 0, HM_REFUSED_CONDITIONS));
}

/* Records stand B, A, C, and B and C are ready to unload while they wait: all are judged at once, in that order, and
   those that are ready are COMPLETED in the same input. */
static void all_are_judged_in_record_order(void)
{
    CHECK(hm_setup(&tool, 3, 0, SETTING, TIMEOUT) == HM_ACCEPTED);
    access_pod("B", 3);
    access_pod("A", 1);
    access_pod("C", 2);
    close_pod("B");
    CHECK(reports.count == 1); /* ready while it waits: nothing yet */
    close_pod("C");
    TOLD(HM_INPUT_PREDICTED_TIME, 0, "A", 1000);
    TOLD(HM_INPUT_PREDICTED_TIME, 0, "B", 1000);
    TOLD(HM_INPUT_PREDICTED_TIME, 0, "C", 1000);
    TOLD(HM_INPUT_ESTIMATE, 0, "C", 1119);
    TOLD(HM_INPUT_CLOCK, 940, "", 0);
    CHECK(is_foretold("B 3>4; B 4>6; A 3>4; C 3>4; C 4>6"));
}

/* Nine reports: the most that any input gives. */
static void cancelled_from_waiting(void)
{
    CHECK(hm_setup(&tool, 1, 0, SETTING, TIMEOUT) == HM_ACCEPTED);
    TOLD(HM_INPUT_CLOCK, 77, "", 0);
    ACCEPTED(HM_INPUT_LOAD_START, 1, "");
    ACCEPTED(HM_INPUT_LOAD_DONE, 1, "");
    ACCEPTED(HM_INPUT_ID_READ_FAILED, 1, "");
    ACCEPTED(HM_INPUT_CANCEL_CARRIER, 1, "A");
    CHECK(reports.count == HM_REPORTS - 1 && reports.items[4].model == HM_MODEL_ACCESSING);
    memmove(&reports.items[0], &reports.items[5], 4 * sizeof reports.items[0]);
    memset(&reports.items[4], 0, 6 * sizeof reports.items[0]);
    reports.count = 4;
    CHECK(is_foretold("A 0>2; A 2>3; A 3>4; A 4>6"));
    CHECK(first->has_predicted == 1 && hm_seconds(&first->predicted) == 77 && first->has_estimate == 0);
}

static void refusals(void)
{
    const uint32_t clock = HM_INPUT_CLOCK, tp = HM_INPUT_PREDICTED_TIME, te = HM_INPUT_ESTIMATE;
    const uint32_t none = HM_INPUT_NO_PREDICTION;
    uint32_t number;

    a_is_accessed();
    ACCEPTED(HM_INPUT_CARRIER_NOTIFICATION, 0, "B");
    TOLD(clock, 1000, "", 0);
    CHECK(is_refused(clock, 999, "", 0, HM_REFUSED_CLOCK_EARLIER) && is_refused(clock, 0, "", 0, 11));
    CHECK(is_refused(tp, 999, "A", 0, HM_REFUSED_CLOCK_EARLIER) && is_refused(none, 999, "A", 0, 11));
    for (number = tp; number <= none; number++) { /* the lowest that applies: 1, 2, 5, 11 */
        CHECK(is_refused(number, 0, "A B", 0, HM_REFUSED_OUT_OF_RANGE) && is_refused(number, 0, "", 0, 1));
        CHECK(is_refused(number, 0, "Z", 0, HM_REFUSED_NO_RECORD));
        CHECK(is_refused(number, 0, "B", 0, HM_REFUSED_CONDITIONS)); /* it waits for its carrier */
    }
    CHECK(is_refused(te, 1000, "A", 0, HM_REFUSED_CONDITIONS)); /* without Tp */
    TOLD(tp, 1000, "A", 5000);
    CHECK(is_refused(tp, 1000, "A", 5000, HM_REFUSED_CONDITIONS)); /* a second Tp */
    CHECK(is_refused(te, 999, "A", 0, HM_REFUSED_CLOCK_EARLIER));
    TOLD(none, 1000, "A", 0); /* with a Tp too */
    CHECK(is_refused(none, 1000, "A", 0, HM_REFUSED_CONDITIONS));
    for (number = 0; number < 64; number++) {
        CHECK((number >= clock && number <= none) || is_refused(number, 2000, "A", 0, HM_REFUSED_OUT_OF_RANGE));
    }
    CHECK(is_refused(256 + clock, 2000, "", 0, 1) && is_refused(UINT32_MAX, 2000, "", 0, 1));
}

/* hm_step has no argument for the clock: it takes the four with clock 0 and time 0. */
static void by_hm_step(void)
{
    hm_tool other;
    hm_reports told;
    uint32_t number, answer;

    for (number = HM_INPUT_CLOCK; number <= HM_INPUT_NO_PREDICTION; number++) {
        a_is_accessed();
        other = tool;
        answer = hm_time_step(&other, &told, number, 0, BYTES("A"), 1, 0);
        CHECK(answer == (number == HM_INPUT_ESTIMATE ? 5u : 0u) && send(number, 9, "A") == answer);
        CHECK(memcmp(&tool, &other, sizeof tool) == 0 && memcmp(&reports, &told, sizeof told) == 0);
        a_is_accessed();
        TOLD(HM_INPUT_PREDICTED_TIME, 1, "A", 5000);
        answer = number == HM_INPUT_PREDICTED_TIME ? HM_REFUSED_CONDITIONS : HM_REFUSED_CLOCK_EARLIER;
        CHECK(send(number, 0, "A") == answer);
    }
}

/* A tool with a buffer has a clock, and no model 8. */
static void a_buffer_predicts_nothing(void)
{
    uint32_t number;
    hm_tool expected;

    CHECK(hm_setup(&tool, 2, 2, SETTING, TIMEOUT) == HM_ACCEPTED);
    ACCEPTED(HM_INPUT_CARRIER_NOTIFICATION, 0, "A");
    CHECK(reports.count == 3 && first->state == 0);
    expected = tool;
    put_seconds(&expected.clock, 9);
    TOLD(HM_INPUT_CLOCK, 9, "", 0);
    CHECK(memcmp(&tool, &expected, sizeof tool) == 0 && is_foretold(""));
    for (number = HM_INPUT_PREDICTED_TIME; number <= HM_INPUT_NO_PREDICTION; number++) {
        CHECK(is_refused(number, 9, "A", 9, HM_REFUSED_CONDITIONS) && is_refused(number, 0, "Z", 9, 2));
    }
}

static int sound_with(size_t at, uint8_t value)
{
    const uint8_t was = ((const uint8_t *)&tool)[at];
    int sound;
    ((uint8_t *)&tool)[at] = value;
    sound = hm_sound(&tool) == 1;
    ((uint8_t *)&tool)[at] = was;
    return sound;
}

/* Each byte from the clock to the last prediction with each value. */
static unsigned sound_values(void)
{
    size_t at;
    unsigned sound = 0;

    for (at = offsetof(hm_tool, clock) * 256u; at < offsetof(hm_tool, hands) * 256u; at++) {
        sound += sound_with(at / 256, (uint8_t)(at % 256)) ? 1u : 0u;
    }
    return sound;
}

/* Any clock. Setting time and timeout up to 86,400: any low byte, any second one, 0 and 1 as the third, no fourth. */
#define OF_TIMES (4u * 256 + 2 * (256 + 256 + 2 + 1))
#define UNUSED (34u * sizeof(hm_prediction))

static void every_byte_that_is_damaged(void)
{
    a_is_accessed();
    ACCEPTED(HM_INPUT_CARRIER_NOTIFICATION, 0, "B");
    /* A: states 1 to 6, a Tp and a Te of 0 may be there. B isn't at a port: no other state. */
    CHECK(sound_values() == OF_TIMES + (6 + 2 + 2 + 8) + (1 + 2 + 2 + 8) + UNUSED);
    TOLD(HM_INPUT_PREDICTED_TIME, 1000, "A", 1000);
    TOLD(HM_INPUT_ESTIMATE, 1000, "A", 1000);
    /* Tp and Te are any, and can't be taken away. */
    CHECK(sound_values() == OF_TIMES + (6 + 1 + 1 + 8 * 256) + (1 + 2 + 2 + 8) + UNUSED);
    close_pod("A");
    /* COMPLETED, and its port READY TO UNLOAD: neither PREDICTED nor ABORTED. */
    CHECK(first->state == HM_PREDICTION_COMPLETED);
    CHECK(sound_values() == OF_TIMES + (4 + 1 + 1 + 8 * 256) + (1 + 2 + 2 + 8) + UNUSED);
    CHECK(hm_setup(&tool, 1, 1, SETTING, TIMEOUT) == HM_ACCEPTED);
    ACCEPTED(HM_INPUT_CARRIER_NOTIFICATION, 0, "A");
    CHECK(sound_values() == OF_TIMES + 2 * sizeof(hm_prediction) + UNUSED); /* with a buffer there is none */
}

int main(void)
{
    set_ups();
    every_byte_that_changes();
    what_is_judged();
    estimates_stay();
    times_of_0();
    all_are_judged_in_record_order();
    cancelled_from_waiting();
    refusals();
    by_hm_step();
    a_buffer_predicts_nothing();
    every_byte_that_is_damaged();
    return result("predict");
}
