/*
 * A firmware loop on Hawsermole: two load ports, no buffer, inputs from a queue, reports to the host, a pod that a hand
 * puts where vehicles should, and a prediction of when a carrier is ready to unload. No heap.
 */
#include <stdio.h>
#include <string.h>

#include "hawsermole.h"
#include "hawsermole_words.h"

struct input {
    const char *text;
    uint32_t number, port, value;
    const char *name;
    const uint8_t *codes;
    uint64_t codes_length;
};

static const uint8_t wafers[HM_SLOTS] = {3, 3, 3, 3, 3, 3, 3, 3, 3, 3, 3, 3, 3, 3, 3, 3, 3, 3, 3, 3, 3, 3, 3, 3, 3};

#define PLAIN HM_NOTHING, 0

/*
 * What host, sensors and tag reader would put in: document 01's run to check by hand, and then a carrier whose slot map
 * the host knows. It comes with Bind as the expected map, the slot map read is equal to it, and so AD may be accessed
 * without asking the host. Where one slot differs, or where no map is expected as for AC, the host is asked.
 * Port 2 is in AUTO, and somebody puts AD there by hand: the alarm is on, and the pod is held until Continue.
 */
static const struct input queue[] = {
    {"Bind(1, AB)", HM_INPUT_BIND, 1, 0, "AB", PLAIN},
    {"LoadStart(1, manual)", HM_INPUT_LOAD_START, 1, HM_START_MANUAL, "", PLAIN},
    {"LoadDone(1)", HM_INPUT_LOAD_DONE, 1, 0, "", PLAIN},
    {"IdRead(1, AC)", HM_INPUT_ID_READ, 1, 0, "AC", PLAIN},
    {"Open(AC)", HM_INPUT_OPEN, 0, 0, "AC", PLAIN},
    {"ProceedWithCarrier(AC, 0)", HM_INPUT_PROCEED_WITH_CARRIER, 0, 0, "AC", PLAIN},
    {"Open(AC)", HM_INPUT_OPEN, 0, 0, "AC", PLAIN},
    {"SlotMap(AC, 25 threes)", HM_INPUT_SLOT_MAP, 0, 0, "AC", wafers, sizeof wafers},
    {"AccessStart(AC)", HM_INPUT_ACCESS_START, 0, 0, "AC", PLAIN},
    {"ProceedWithCarrier(AC, 0)", HM_INPUT_PROCEED_WITH_CARRIER, 0, 0, "AC", PLAIN},
    {"AccessStart(AC)", HM_INPUT_ACCESS_START, 0, 0, "AC", PLAIN},
    {"CancelCarrier(AC, 0)", HM_INPUT_CANCEL_CARRIER, 0, 0, "AC", PLAIN},

    {"ChangeAccess(2, AUTO)", HM_INPUT_CHANGE_ACCESS, 2, HM_ACCESS_AUTO, "", PLAIN},
    {"Bind(2, AD, 25 threes)", HM_INPUT_BIND, 2, 0, "AD", wafers, sizeof wafers},
    {"LoadStart(2, manual)", HM_INPUT_LOAD_START, 2, HM_START_MANUAL, "", PLAIN},
    {"LoadDone(2)", HM_INPUT_LOAD_DONE, 2, 0, "", PLAIN},
    {"Continue(2)", HM_INPUT_CONTINUE, 2, 0, "", PLAIN},
    {"IdRead(2, AD)", HM_INPUT_ID_READ, 2, 0, "AD", PLAIN},
    {"Open(AD)", HM_INPUT_OPEN, 0, 0, "AD", PLAIN},
    {"SlotMap(AD, 25 threes)", HM_INPUT_SLOT_MAP, 0, 0, "AD", wafers, sizeof wafers},
    {"AccessStart(AD)", HM_INPUT_ACCESS_START, 0, 0, "AD", PLAIN},
};

static const struct input *const last_of_the_run = &queue[11];

/* The host is told 60 seconds before a carrier can be picked up; a prediction that is 120 seconds late is given up. */
#define SETTING 60
#define TIMEOUT 120

static hm_tool tool;       /* the tool that the firmware runs */
static hm_tool kept;       /* its last good copy: battery-backed memory with a checksum in a real controller */
static hm_reports reports;

/* A real controller sends an event to the host here, and of HM_MODEL_ALARM its alarm. */
static void tell(const hm_report *r)
{
    if (r->port != 0) {
        printf("    port %u", r->port);
    } else {
        printf("    carrier %.*s", HM_NAME_BYTES, (const char *)r->name); /* not ended by a zero at 16 bytes */
    }
    printf(", %s: %s to %s\n", hm_model_text(r->model), hm_state_text(r->model, r->old_state),
           hm_state_text(r->model, r->new_state));
}

/* The tool isn't sound: take the kept copy, or, where that isn't sound either, start with nothing known. */
static void recover(void)
{
    if (hm_sound(&kept)) {
        tool = kept;
        printf("    the tool is taken back from its kept copy\n");
    } else if (hm_setup(&tool, 2, 0, SETTING, TIMEOUT) == HM_ACCEPTED) {
        kept = tool;
        printf("    no sound tool is kept: set up anew, the host has to announce its carriers again\n");
    }
}

/* What is done about an answer; 1 when it was accepted. */
static int answered(const char *text, uint32_t answer)
{
    unsigned i;

    if (answer == HM_REFUSED_OUT_OF_RANGE && !hm_sound(&tool)) {
        printf("%s: refused, the tool isn't sound\n", text);
        recover();
        return 0;
    }
    if (answer != HM_ACCEPTED) {
        /* Nothing has changed and there is nothing to undo: move nothing, and give the number to the host. */
        printf("%s: refused, %u: %s\n", text, (unsigned)answer, hm_answer_text(answer));
        return 0;
    }
    printf("%s: accepted\n", text);
    kept = tool; /* before the reports go out, so that the copy has all that the host was told */
    for (i = 0; i < reports.count; i++) {
        tell(&reports.items[i]);
    }
    return 1;
}

static int feed(const struct input *in)
{
    const uint32_t answer = hm_step(&tool, &reports, in->number, in->port, in->value, (const uint8_t *)in->name,
                                    strlen(in->name), in->codes, in->codes_length);
    const int accepted = answered(in->text, answer);

    if (accepted && in->number == HM_INPUT_LOAD_DONE && tool.hands[in->port - 1].held == HM_HELD) {
        /* A panel asks here: HM_INPUT_CONTINUE if the pod stays, HM_INPUT_LOAD_FAIL once it is taken off again. */
        printf("    a hand put it there, and the port is for vehicles: it is held\n");
    }
    return accepted;
}

/* An input that brings the clock: a real controller gives HM_INPUT_CLOCK every second, with its seconds since start. */
static int feed_time(const char *text, uint32_t number, uint32_t clock, const char *name, uint32_t time)
{
    return answered(text, hm_time_step(&tool, &reports, number, clock, (const uint8_t *)name, strlen(name), time));
}

/*
 * The process module knows its recipe: three and a half seconds for each wafer of AD, and half a second to and fro. So
 * AD is ready at 1100, and a minute before, the host may send a vehicle.
 */
static void predict(void)
{
    hm_wafer recipe[HM_WAFERS];
    const hm_prediction *prediction;
    unsigned i;

    for (i = 0; i < HM_WAFERS; i++) {
        recipe[i].process = 3.5;
        recipe[i].handling = 0.5;
    }
    answered("Wafers(1000, AD, 25 wafers)",
             hm_wafers(&tool, &reports, 1000, (const uint8_t *)"AD", 2, recipe, HM_WAFERS));
    feed_time("Clock(1039)", HM_INPUT_CLOCK, 1039, "", 0);
    feed_time("Clock(1040)", HM_INPUT_CLOCK, 1040, "", 0);
    prediction = hm_find_prediction(&tool, (const uint8_t *)"AD", 2);
    if (prediction != NULL && prediction->state == HM_PREDICTION_PREDICTED) {
        printf("    AD is ready to unload in %u seconds\n",
               (unsigned)(hm_seconds(&prediction->predicted) - hm_seconds(&tool.clock)));
    }
}

int main(void)
{
    unsigned accepted = 0;
    size_t i;

    if (hm_version() != HM_VERSION || hm_tool_size() != sizeof tool || hm_reports_size() != sizeof reports) {
        fprintf(stderr, "the archive is of version %06x, hawsermole.h of %06x\n", (unsigned)hm_version(), HM_VERSION);
        return 1;
    }
    recover(); /* at start the battery-backed copy decides; here it is empty */

    for (i = 0; i < sizeof queue / sizeof queue[0]; i++) {
        accepted += (unsigned)feed(&queue[i]);
    }

    predict();

    printf("one byte of the tool is damaged\n");
    tool.ports[0].transfer ^= 0x40;
    if (!feed(last_of_the_run)) {
        feed(last_of_the_run); /* again, now to the tool that was taken back */
    }
    printf("%u of %u inputs accepted, carriers known: %u\n", accepted, (unsigned)i, tool.count);
    return 0;
}
