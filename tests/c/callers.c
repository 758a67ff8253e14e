/*
 * Callers by chance: inputs of every kind to tools of every kind, sound, damaged and made of any bytes.
 *   callers [INPUTS [SEED]]
 * What the library may not do is stated in `judge`; memory that it may not touch is kept from it by lend.h.
 */
#define _DEFAULT_SOURCE
#include <signal.h>

#include "chance.h"
#include "hawsermole_words.h"
#include "lend.h"

#define ENOUGH 50000 /* inputs after which every row must have been accepted and every answer met */

static struct room tool_room, reports_room, name_room, codes_room, wafers_room;
static unsigned long inputs, seed, at, failures, set_ups, unsound_tools, damaged_tools, slot_maps[HM_STATUS_FAILED + 1];
static unsigned long answers[HM_REFUSED_AUTOMATIC_IN_MANUAL + 1], accepted_rows[HM_INPUTS + 1];
static unsigned long alarms[HM_ALARM_ON + 1], held_pods;
static unsigned long accepted_padded, refused_texts, predictions[HM_PREDICTION_COMPLETED + 1];
static unsigned most_records, most_requests;

struct outcome {
    uint32_t sound_before, name_bytes, answer, sound_after;
    hm_tool tool;
    hm_reports reports;
    int kept; /* guards, name, codes and wafers are as they were */
};

static void wrong(const struct input *in, const char *what)
{
    failures++;
    fprintf(stderr, "input %lu of seed %lu (number %u, port %u, value %u, name of %u, codes of %u, ", at, seed,
            in->number, in->port, in->value, in->name_length, in->codes_length);
    fprintf(stderr, "clock %u, time %u, wafers %llu): %s\n", in->clock, in->time, (unsigned long long)in->wafers, what);
    if (failures == 10) {
        exit(1);
    }
}

static void touched(int signal_number)
{
    fprintf(stderr, "input %lu of seed %lu: memory was touched that isn't the library's (signal %d)\n", at, seed,
            signal_number);
    _exit(1);
}

static int all_zero(const void *bytes, size_t length)
{
    const uint8_t *byte = (const uint8_t *)bytes;
    uint8_t any = 0;
    while (length-- > 0) {
        any |= *byte++;
    }
    return any == 0;
}

/* Of the function that takes the input. */
static uint32_t answer_of(hm_tool *tool, hm_reports *reports, const struct input *in, const uint8_t *name,
                          const uint8_t *codes, const hm_wafer *wafers)
{
    if (for_time_step(in)) {
        return hm_time_step(tool, reports, in->number, in->clock, name, in->name_length, in->time);
    }
    if (for_wafers(in)) {
        return hm_wafers(tool, reports, in->clock, name, in->name_length, wafers, in->wafers);
    }
    return hm_step(tool, reports, in->number, in->port, in->value, name, in->name_length, codes, in->codes_length);
}

/* Gives the input to a copy of the tool, in memory placed so. */
static struct outcome call(const hm_tool *tool, const struct input *in, enum placing placing)
{
    struct outcome out;
    struct lent t, r, n, c, w;
    size_t wafers = for_wafers(in) && in->wafers <= HM_WAFERS ? (size_t)in->wafers * sizeof(hm_wafer) : 0;

    any_bytes((uint8_t *)&out.reports, sizeof out.reports); /* what stood there before must be gone */
    t = lend(&tool_room, placing, tool, sizeof *tool);
    r = lend(&reports_room, placing, &out.reports, sizeof out.reports);
    n = lend(&name_room, placing, in->name, in->name_length);
    c = lend(&codes_room, placing, in->rest.codes, in->codes_length);
    w = lend(&wafers_room, wafers == 0 ? AT_END : placing, in->rest.wafers, wafers); /* on the heap none is aligned */

    out.sound_before = hm_sound((const hm_tool *)t.readable);
    out.name_bytes = hm_name(n.readable, in->name_length);
    out.answer = answer_of((hm_tool *)t.writable, (hm_reports *)r.writable, in, n.readable, c.readable,
                           (const hm_wafer *)(const void *)w.readable);
    out.sound_after = hm_sound((const hm_tool *)t.readable);

    memcpy(&out.tool, t.writable, sizeof out.tool);
    memcpy(&out.reports, r.writable, sizeof out.reports);
    out.kept = memcmp(n.readable, in->name, in->name_length) == 0;
    out.kept &= memcmp(c.readable, in->rest.codes, in->codes_length) == 0;
    out.kept &= memcmp(w.readable, in->rest.wafers, wafers) == 0;
    out.kept &= give_back(&t) & give_back(&r) & give_back(&n) & give_back(&c) & give_back(&w);
    return out;
}

/* Models in order, each with its own kind of subject, a difference or a tie that passes on. */
static int well_formed(const hm_report *r, uint8_t model_before, unsigned ports)
{
    int of_port = r->model <= HM_MODEL_TIE || r->model == HM_MODEL_ALARM;
    int subject = of_port ? r->port >= 1 && r->port <= ports && all_zero(r->name, sizeof r->name)
                          : r->port == 0 && r->name[0] != 0;
    int differs = r->old_state != r->new_state || (r->model == HM_MODEL_TIE && r->new_state == HM_TIED);
    return r->model >= model_before && r->model <= HM_MODEL_ALARM && subject && differs;
}

static void judge_reports(const struct input *in, const hm_reports *reports, unsigned ports)
{
    uint8_t model = HM_MODEL_TRANSFER;
    unsigned i;

    if (reports->count >= HM_REPORTS) {
        wrong(in, "more than nine reports");
        return;
    }
    for (i = 0; i < reports->count; i++) {
        if (!well_formed(&reports->items[i], model, ports)) {
            wrong(in, "a report that can't be");
        }
        model = reports->items[i].model;
    }
    if (!all_zero(&reports->items[i], (HM_REPORTS - i) * sizeof(hm_report))) {
        wrong(in, "entries past the count aren't zero");
    }
}

/* The carrier whose slot status changed at this SlotMap is OK where the map is the expected one, and else waits. */
static void judge_slot_map(const hm_tool *before, const struct input *in, const struct outcome *out)
{
    unsigned i = 0;
    uint8_t expected;

    while (i < HM_RECORDS - 1 && before->carriers[i].slot == out->tool.carriers[i].slot) {
        i++;
    }
    expected = memcmp(before->expected_maps[i], in->rest.codes, HM_SLOTS) == 0 && before->expected_maps[i][0] != 0
                   ? HM_STATUS_OK
                   : HM_STATUS_WAITING_FOR_HOST;
    if (out->tool.carriers[i].slot != expected || memcmp(out->tool.carriers[i].map, in->rest.codes, HM_SLOTS) != 0) {
        wrong(in, "a slot map that wasn't kept, or was judged wrongly");
    }
    slot_maps[expected]++;
}

/* The rows with a name; in CancelBind it may be missing. */
static int needs_name(const struct input *in)
{
    int takes = (in->number >= HM_INPUT_BIND && in->number <= HM_INPUT_CARRIER_IN) || in->number == HM_INPUT_ID_READ ||
                (in->number >= HM_INPUT_OPEN && in->number <= HM_INPUT_CLOSE) ||
                in->number == HM_INPUT_CANCEL_CARRIER_OUT ||
                (in->number >= HM_INPUT_PREDICTED_TIME && in->number <= HM_INPUT_WAFERS);
    return takes && !(in->number == HM_INPUT_CANCEL_BIND && in->name_length == 0);
}

/* A text that is no name is 1 where a name is needed. */
static void judge_name(const struct input *in, const struct outcome *out)
{
    if (out->name_bytes > HM_NAME_BYTES || out->name_bytes > in->name_length) {
        wrong(in, "a name of more bytes than there are");
    }
    if (needs_name(in) && out->name_bytes == 0 && out->answer != HM_REFUSED_OUT_OF_RANGE) {
        wrong(in, "a text that is no name has to be answered 1");
    }
    refused_texts += needs_name(in) && out->name_bytes == 0;
    accepted_padded += needs_name(in) && out->answer == HM_ACCEPTED && out->name_bytes < in->name_length;
}

/* Only these inputs change the queue: CarrierOut adds one, OutStart changes one, and the others take some out. */
static void judge_queue(const hm_tool *before, const struct input *in, const hm_tool *after)
{
    const int added = after->queued - before->queued;
    const int same = memcmp(before->queue, after->queue, sizeof after->queue) == 0 && added == 0;
    int good = same;

    switch (in->number) {
    case HM_INPUT_CARRIER_OUT: good = added == 1; break;
    case HM_INPUT_OUT_START: good = added == 0 && !same; break;
    case HM_INPUT_OUT_DONE:
    case HM_INPUT_CANCEL_CARRIER_OUT: good = added == -1; break;
    case HM_INPUT_CANCEL_CARRIER: good = same || added == -1; break;
    case HM_INPUT_CANCEL_ALL_CARRIER_OUT: good = same || added < 0; break;
    default: break;
    }
    if (!good) {
        wrong(in, "a queue that this input doesn't leave");
    }
}

/* The clock is the input's where it brings one, and else stands; the times of the set-up stay. Without a buffer each
   carrier has a prediction, and with one there is none. */
static void judge_times(const hm_tool *before, const struct input *in, const hm_tool *after)
{
    const uint32_t was = hm_seconds(&before->clock), is = hm_seconds(&after->clock);
    unsigned i;

    if (is != (for_time_step(in) || for_wafers(in) ? in->clock : was) || is < was) {
        wrong(in, "a clock that this input doesn't leave");
    }
    if (memcmp(&before->setting, &after->setting, 2 * sizeof after->setting) != 0) {
        wrong(in, "setting time or timeout changed");
    }
    for (i = 0; i < HM_RECORDS; i++) {
        if ((after->predictions[i].state != 0) != (after->places == 0 && i < after->count)) {
            wrong(in, "a prediction without a carrier, or a carrier without one");
        }
    }
}

/* Alarm and held pod of a port after an accepted input, by the request's words. */
static hm_hands hands_after(const hm_tool *before, const struct input *in, const hm_tool *after, unsigned i)
{
    const hm_port *port = &before->ports[i];
    hm_hands hands = before->hands[i];

    if (in->port == i + 1) {
        switch (in->number) {
        case HM_INPUT_LOAD_START:
        case HM_INPUT_UNLOAD_START:
            hands.alarm |= in->value == HM_START_MANUAL && port->access == HM_ACCESS_AUTO;
            break;
        case HM_INPUT_LOAD_DONE: hands.held = hands.alarm; break;
        case HM_INPUT_CONTINUE: hands.alarm = hands.held = 0; break;
        case HM_INPUT_LOAD_FAIL: hands.held = 0; break;
        default: break;
        }
    }
    if (after->ports[i].transfer == HM_TRANSFER_READY_TO_LOAD) {
        hands.alarm = HM_ALARM_OFF;
    }
    return hands;
}

/* Alarms and held pods are as they should be, and those that changed are the last reports. */
static void judge_hands(const hm_tool *before, const struct input *in, const struct outcome *out)
{
    unsigned i, told = out->reports.count;

    for (i = HM_PORTS; i-- > 0;) {
        const hm_hands expected = hands_after(before, in, &out->tool, i);
        const uint8_t was = before->hands[i].alarm, is = out->tool.hands[i].alarm;
        const hm_report *last = &out->reports.items[told == 0 ? 0 : told - 1];
        if (memcmp(&expected, &out->tool.hands[i], sizeof expected) != 0) {
            wrong(in, "an alarm or a held pod that this input doesn't leave");
        }
        if (was != is && (told-- == 0 || last->model != HM_MODEL_ALARM || last->port != i + 1 ||
                          last->old_state != was || last->new_state != is)) {
            wrong(in, "an alarm that isn't told last");
            return;
        }
        alarms[is] += was != is;
        held_pods += out->tool.hands[i].held > before->hands[i].held;
    }
    if (told > 0 && out->reports.items[told - 1].model == HM_MODEL_ALARM) {
        wrong(in, "an alarm is told that didn't change");
    }
}

/* A whole number of parts, or too many of them for any time. */
static uint64_t parts_of(double time)
{
    const uint64_t none = (uint64_t)HM_WAFER_PARTS * HM_WAFER_SECONDS;
    const int within = time >= 0 && time < HM_WAFER_SECONDS;
    const uint64_t parts = within ? (uint64_t)(time * HM_WAFER_PARTS) : none;
    return (double)parts == time * HM_WAFER_PARTS ? parts : none;
}

/* The predicted time that wafers come to; past 2^32 - 1 where there is none. */
static uint64_t predicted_by(const struct input *in)
{
    const uint64_t none = parts_of(-1);
    uint64_t total = 0, i;

    for (i = 0; i < in->wafers; i++) {
        const uint64_t process = parts_of(in->rest.wafers[i].process), handling = parts_of(in->rest.wafers[i].handling);
        if (process == none || handling == none) {
            return UINT64_MAX;
        }
        total += process + handling;
    }
    return in->clock + (total + HM_WAFER_PARTS - 1) / HM_WAFER_PARTS;
}

/* 1 for too many; 12 for what gives no time, and for nothing else; accepted, it is the time that they give. */
static void judge_wafers(const struct input *in, const struct outcome *out)
{
    const hm_prediction *own;
    uint64_t tp;

    if (in->wafers > HM_WAFERS) {
        if (out->answer != HM_REFUSED_OUT_OF_RANGE) {
            wrong(in, "too many wafers have to be answered 1");
        }
        return;
    }
    tp = predicted_by(in);
    if (out->answer == HM_REFUSED_TIME_OUT_OF_RANGE ? tp <= UINT32_MAX : out->answer == HM_ACCEPTED && tp > UINT32_MAX) {
        wrong(in, "times that were judged wrongly");
    }
    own = hm_find_prediction(&out->tool, in->name, in->name_length);
    if (out->answer == HM_ACCEPTED && (own == NULL || hm_seconds(&own->predicted) != tp)) {
        wrong(in, "a predicted time that isn't the wafers'");
    }
}

/* A row has the answers that its text names. */
static int may_answer(const struct input *in, uint32_t answer)
{
    switch (in->number) {
    case HM_INPUT_CLOCK: return answer <= 1 || answer == HM_REFUSED_CLOCK_EARLIER;
    case HM_INPUT_PREDICTED_TIME:
    case HM_INPUT_ESTIMATE:
    case HM_INPUT_NO_PREDICTION: return answer <= 2 || answer == 5 || answer == HM_REFUSED_CLOCK_EARLIER;
    case HM_INPUT_WAFERS: return answer <= 2 || answer == 5 || answer == HM_REFUSED_CLOCK_EARLIER || answer == 12;
    case HM_INPUT_LOAD_START: return answer <= 1 || answer == 4 || answer == 5 || answer == 13;
    case HM_INPUT_UNLOAD_START: return answer <= 1 || answer == 5 || answer == HM_REFUSED_AUTOMATIC_IN_MANUAL;
    case HM_INPUT_CONTINUE: return answer <= 1 || answer == HM_REFUSED_CONDITIONS;
    default: return answer < HM_REFUSED_CLOCK_EARLIER;
    }
}

static void judge(const hm_tool *before, const struct input *in, const struct outcome *out)
{
    if (out->answer > HM_REFUSED_AUTOMATIC_IN_MANUAL || out->sound_before > 1 || !may_answer(in, out->answer)) {
        wrong(in, "an answer that the documents don't have");
        return;
    }
    if (!out->kept) {
        wrong(in, "name, codes, wafers or a guard byte changed");
    }
    judge_name(in, out);
    if (for_wafers(in)) {
        judge_wafers(in, out);
    }
    if (out->answer == HM_ACCEPTED) {
        if (out->sound_before != 1 || in->number < 1 || in->number > HM_INPUTS) {
            wrong(in, "accepted, but not an input to a sound tool");
        }
        if (out->sound_after != 1) {
            wrong(in, "accepted, and the tool isn't sound");
        }
        judge_reports(in, &out->reports, out->tool.used);
        judge_queue(before, in, &out->tool);
        judge_times(before, in, &out->tool);
        judge_hands(before, in, out);
        if (in->number == HM_INPUT_SLOT_MAP) {
            judge_slot_map(before, in, out);
        }
        return;
    }
    if (out->sound_before == 0 && out->answer != HM_REFUSED_OUT_OF_RANGE) {
        wrong(in, "a tool that isn't sound has to be answered 1");
    }
    if (memcmp(before, &out->tool, sizeof *before) != 0 || out->sound_after != out->sound_before) {
        wrong(in, "refused, and the tool changed");
    }
    if (!all_zero(&out->reports, sizeof out->reports)) {
        wrong(in, "refused, and the reports aren't all zero");
    }
}

static void count(const struct input *in, const struct outcome *out)
{
    unsigned i;

    answers[out->answer <= HM_REFUSED_AUTOMATIC_IN_MANUAL ? out->answer : 1]++;
    for (i = 0; i < HM_REPORTS; i++) {
        const hm_report *r = &out->reports.items[i];
        predictions[r->model == HM_MODEL_PREDICTION && r->new_state <= HM_PREDICTION_COMPLETED ? r->new_state : 0]++;
    }
    unsound_tools += out->sound_before == 0;
    if (out->answer == HM_ACCEPTED && in->number <= HM_INPUTS) {
        accepted_rows[in->number]++;
        most_records = out->tool.count > most_records ? out->tool.count : most_records;
        most_requests = out->tool.queued > most_requests ? out->tool.queued : most_requests;
    }
}

/* The same input to the same tool; of a name, with other blanks after it. */
static void once_more(const hm_tool *tool, const struct input *in, const struct outcome *out)
{
    struct input same = *in;
    struct outcome again;

    if (out->name_bytes != 0) {
        memset(same.name + out->name_bytes, HM_BLANK, HM_TEXT_BYTES - out->name_bytes);
        same.name_length = out->name_bytes + below(HM_TEXT_BYTES - out->name_bytes + 1);
    }
    again = call(tool, &same, (enum placing)below(PLACINGS));
    if (again.answer != out->answer || memcmp(&again.tool, &out->tool, sizeof out->tool) != 0 ||
        memcmp(&again.reports, &out->reports, sizeof out->reports) != 0) {
        wrong(in, "the same input to the same tool came out differently");
    }
}

/* This input to this tool, which becomes the one that follows; now and then given twice, which must not matter. */
static void give(hm_tool *tool, const struct input *in)
{
    struct outcome out = call(tool, in, (enum placing)below(PLACINGS));

    judge(tool, in, &out);
    count(in, &out);
    if (below(8) == 0) {
        once_more(tool, in, &out);
    }
    *tool = out.tool;
}

static void one_input(hm_tool *tool)
{
    struct input in;

    next_input(&in, tool);
    give(tool, &in);
}

/* An input of a tool that fills, with a name of its own for each place. */
static void plain_input(hm_tool *tool, uint32_t number, uint32_t port, uint32_t place)
{
    struct input in;

    memset(&in, 0, sizeof in);
    in.number = number;
    in.port = port;
    in.value = number == HM_INPUT_LOAD_START ? 0u + HM_START_MANUAL : place;
    in.name_length = 1;
    in.name[0] = (uint8_t)('a' + place);
    in.codes_length = number == HM_INPUT_SLOT_MAP ? HM_SLOTS : 0;
    in.clock = hm_seconds(&tool->clock);
    in.time = in.clock + SETTING + 1;
    if (for_wafers(&in)) {
        fitting_wafers(&in);
        odd_wafers(&in);
    }
    at++;
    give(tool, &in);
}

/* A full buffer, and a full queue, to which one more request is sent: by chance runs hardly come here. */
static void fill_queue(hm_tool *tool)
{
    uint32_t place, port;

    hm_setup(tool, 1 + below(HM_PORTS), HM_PLACES, SETTING, TIMEOUT);
    for (place = 1; place <= HM_PLACES; place++) {
        port = 1 + place % tool->used;
        plain_input(tool, HM_INPUT_LOAD_START, port, place);
        plain_input(tool, HM_INPUT_LOAD_DONE, port, place);
        plain_input(tool, HM_INPUT_ID_READ, port, place);
        plain_input(tool, HM_INPUT_PROCEED_WITH_CARRIER, port, place);
        plain_input(tool, HM_INPUT_MOVE_IN, port, place);
        plain_input(tool, HM_INPUT_CARRIER_OUT, port, place);
    }
    plain_input(tool, HM_INPUT_CARRIER_OUT, 1, 1);
}

/* A tool without a buffer, a carrier IN ACCESS at each port: wafers that are odd, the predicted time of most, and an
   estimate. */
static void predict_all(hm_tool *tool)
{
    static const uint32_t visit[] = {HM_INPUT_LOAD_START, HM_INPUT_LOAD_DONE, HM_INPUT_ID_READ,
                                     HM_INPUT_PROCEED_WITH_CARRIER, HM_INPUT_OPEN, HM_INPUT_SLOT_MAP,
                                     HM_INPUT_PROCEED_WITH_CARRIER, HM_INPUT_ACCESS_START};
    uint32_t port, i;

    hm_setup(tool, 1 + below(HM_PORTS), 0, SETTING, TIMEOUT);
    for (port = 1; port <= tool->used; port++) {
        for (i = 0; i < sizeof visit / sizeof visit[0]; i++) {
            plain_input(tool, visit[i], port, port);
        }
        plain_input(tool, HM_INPUT_WAFERS, port, port);
        plain_input(tool, below(4) ? HM_INPUT_PREDICTED_TIME : HM_INPUT_NO_PREDICTION, port, port);
        plain_input(tool, HM_INPUT_ESTIMATE, port, port);
    }
}

static void put_seconds(hm_time *to, uint32_t seconds)
{
    unsigned i;

    for (i = 0; i < sizeof to->bytes; i++, seconds >>= 8) {
        to->bytes[i] = (uint8_t)seconds;
    }
}

/* Setting time or timeout: the usual one, none, the most; seldom one more than that, or any number. */
static uint32_t some_span(uint32_t usual)
{
    if (below(4)) {
        return usual;
    }
    if (below(8)) {
        return below(2) ? 0 : HM_SECONDS_GREATEST;
    }
    return below(2) ? HM_SECONDS_GREATEST + 1 : (uint32_t)draw();
}

/* A set-up of any size; out of range it must leave all zeros. */
static void set_up(hm_tool *tool)
{
    static const struct input none;
    uint32_t ports = below(16) ? 1 + below(HM_PORTS) : odd_number();
    uint32_t places = below(16) ? (below(2) ? below(HM_PLACES + 1) : 0) : odd_number();
    uint32_t setting = some_span(SETTING), timeout = some_span(TIMEOUT);
    int times = setting <= HM_SECONDS_GREATEST && timeout <= HM_SECONDS_GREATEST;
    int good = ports >= 1 && ports <= HM_PORTS && places <= HM_PLACES && times;
    enum placing placing = (enum placing)below(PLACINGS);
    struct lent t;
    hm_tool expected;
    unsigned i;

    memset(&expected, 0, sizeof expected);
    for (i = 0; good && i < ports; i++) {
        expected.used = (uint8_t)ports;
        expected.places = (uint8_t)places;
        expected.ports[i].transfer = HM_TRANSFER_READY_TO_LOAD;
        put_seconds(&expected.setting, setting);
        put_seconds(&expected.timeout, timeout);
    }
    t = lend(&tool_room, placing, tool, sizeof *tool);
    if (hm_setup((hm_tool *)t.writable, ports, places, setting, timeout) != (good ? 0u : 1u) ||
        memcmp(t.readable, &expected, sizeof expected) != 0 ||
        hm_sound((const hm_tool *)t.readable) != (uint32_t)good) {
        wrong(&none, "set-up");
    }
    *tool = expected;
    set_ups++;
    if (!give_back(&t)) {
        wrong(&none, "set-up changed a guard byte");
    }
}

/* A damaged copy gets a few inputs of its own. */
static void damaged(const hm_tool *sound)
{
    hm_tool tool = *sound;
    uint32_t inputs_left = 1 + below(4);

    damage(&tool);
    damaged_tools++;
    while (inputs_left-- > 0 && at < inputs) {
        at++;
        one_input(&tool);
    }
}

/* How often each state of model 8 was reported: 0 where one never was. */
static int print_predictions(void)
{
    unsigned i, all = 1;

    for (i = HM_PREDICTION_DISABLED; i <= HM_PREDICTION_COMPLETED; i++) {
        printf("%s%u: %lu", i == HM_PREDICTION_DISABLED ? "predictions " : ", ", i, predictions[i]);
        all = all && predictions[i] > 0;
    }
    printf("\n");
    return all != 0;
}

static void summary(void)
{
    unsigned i, rows = 0, met = 0;
    int predicted;

    printf("callers: %lu inputs of seed %lu, %lu set-ups, %lu damaged tools, %lu inputs to a tool that isn't sound\n",
           at, seed, set_ups, damaged_tools, unsound_tools);
    predicted = print_predictions();
    for (i = 0; i <= HM_REFUSED_AUTOMATIC_IN_MANUAL; i++) {
        printf("%s%u: %lu", i == 0 ? "answers " : ", ", i, answers[i]);
        met += answers[i] > 0;
    }
    for (i = 1; i <= HM_INPUTS; i++) {
        rows += accepted_rows[i] > 0;
    }
    printf("\nrows accepted %u of %u, most records %u, most requests %u, ", rows, HM_INPUTS, most_records,
           most_requests);
    printf("slot maps OK at once %lu, for the host %lu, ", slot_maps[HM_STATUS_OK],
           slot_maps[HM_STATUS_WAITING_FOR_HOST]);
    printf("alarms set %lu, cleared %lu, pods held %lu, ", alarms[HM_ALARM_ON], alarms[HM_ALARM_OFF], held_pods);
    printf("padded names accepted %lu, texts that are no name %lu, %lu failed\n", accepted_padded, refused_texts,
           failures);
    if (inputs >= ENOUGH && (rows < HM_INPUTS || met <= HM_REFUSED_AUTOMATIC_IN_MANUAL || unsound_tools == 0 ||
                             alarms[HM_ALARM_OFF] == 0 || held_pods == 0 || !predicted ||
                             most_requests < HM_REQUESTS || slot_maps[HM_STATUS_OK] == 0 ||
                             slot_maps[HM_STATUS_WAITING_FOR_HOST] == 0 || accepted_padded == 0 ||
                             refused_texts == 0)) {
        fprintf(stderr, "too little was met for this to mean anything\n");
        failures++;
    }
}

int main(int argc, char **argv)
{
    hm_tool tool;

    inputs = argc > 1 ? strtoul(argv[1], NULL, 10) : 100000;
    seed = argc > 2 ? strtoul(argv[2], NULL, 10) : 1;
    chance_state = seed;
    make_room(&tool_room);
    make_room(&reports_room);
    make_room(&name_room);
    make_room(&codes_room);
    make_room(&wafers_room);
    signal(SIGSEGV, touched);
    signal(SIGBUS, touched);

    memset(&tool, 0, sizeof tool);
    while (at < inputs) {
        if (set_ups == 0 || below(500) == 0) {
            set_up(&tool);
        } else if (below(2000) == 0) {
            fill_queue(&tool);
        } else if (below(2000) == 0) {
            predict_all(&tool);
        } else if (below(20) == 0) {
            damaged(&tool);
        } else {
            at++;
            one_input(&tool);
        }
    }
    summary();
    return failures != 0 || at == 0;
}
