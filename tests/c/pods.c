/*
 * Pods in, pods out (request P11) through the C interface: a count by inputs and answers alone, and hm_pods_here, which
 * looks at the tool. They are equal after every input of a run.
 */
#include "chance.h"
#include "check.h"

static hm_tool tool;
static hm_reports reports;
static const uint32_t hand = HM_START_MANUAL, vehicle = HM_START_AUTOMATIC;

/* What a run has shown: pods that came and went, and of each port its mode and whether LoadDone there holds the pod. */
struct shown {
    uint32_t came, went, held, continued, moved_in, moved_out;
    uint8_t automatic[HM_PORTS], holds[HM_PORTS];
};

static struct shown run, all; /* this one, and the sums of all runs by chance */

/* An accepted input names a port of the tool, where its row has one. */
static void note(uint32_t number, uint32_t port, uint32_t value, uint32_t answer)
{
    const uint32_t p = port - 1;

    if (answer != HM_ACCEPTED) {
        return;
    }
    switch (number) {
    case HM_INPUT_CHANGE_ACCESS: run.automatic[p] = value == HM_ACCESS_AUTO; break;
    case HM_INPUT_LOAD_START: run.holds[p] = run.automatic[p] && value == HM_START_MANUAL; break;
    case HM_INPUT_LOAD_DONE:
        run.came += !run.holds[p];
        run.held += run.holds[p];
        break;
    case HM_INPUT_CONTINUE:
        run.came++;
        run.continued++;
        break;
    case HM_INPUT_UNLOAD_DONE: run.went++; break;
    case HM_INPUT_MOVE_IN: run.moved_in++; break;
    case HM_INPUT_OUT_DONE: run.moved_out++; break;
    default: break;
    }
}

static void set_up(uint32_t ports, uint32_t places)
{
    memset(&run, 0, sizeof run);
    CHECK(hm_setup(&tool, ports, places, 0, 0) == HM_ACCEPTED && hm_pods_here(&tool) == 0);
}

static uint32_t send(uint32_t number, uint32_t port, uint32_t value, const char *name)
{
    const uint32_t answer = give(&tool, &reports, number, port, value, name);

    note(number, port, value, answer);
    CHECK(run.came - run.went == hm_pods_here(&tool));
    return answer;
}

#define ACCEPTED(number, port, value, name) CHECK(send((number), (port), (value), (name)) == HM_ACCEPTED)

static int counts(uint32_t came, uint32_t went)
{
    return run.came == came && run.went == went;
}

static void loads_and_unloads(uint32_t port)
{
    set_up(HM_PORTS, 0);
    ACCEPTED(HM_INPUT_LOAD_START, port, hand, "");
    ACCEPTED(HM_INPUT_LOAD_FAIL, port, 0, "");
    ACCEPTED(HM_INPUT_LOAD_START, port, hand, "");
    CHECK(counts(0, 0));
    ACCEPTED(HM_INPUT_LOAD_DONE, port, 0, "");
    CHECK(counts(1, 0) && send(HM_INPUT_LOAD_DONE, port, 0, "") == HM_REFUSED_CONDITIONS);
    ACCEPTED(HM_INPUT_ID_READ, port, 0, "A ");
    ACCEPTED(HM_INPUT_CANCEL_CARRIER, 0, 0, "A");
    ACCEPTED(HM_INPUT_UNLOAD_START, port, hand, "");
    ACCEPTED(HM_INPUT_UNLOAD_FAIL, port, 0, "");
    ACCEPTED(HM_INPUT_UNLOAD_START, port, hand, "");
    CHECK(counts(1, 0) && hm_pods_here(&tool) == 1);
    ACCEPTED(HM_INPUT_UNLOAD_DONE, port, 0, "");
    CHECK(counts(1, 1) && hm_pods_here(&tool) == 0);
}

/* Held, continued; held, taken off again; and by vehicle, which isn't held. */
static void held(uint32_t port)
{
    set_up(HM_PORTS, 0);
    ACCEPTED(HM_INPUT_CHANGE_ACCESS, port, HM_ACCESS_AUTO, "");
    ACCEPTED(HM_INPUT_LOAD_START, port, hand, "");
    CHECK(send(HM_INPUT_CHANGE_ACCESS, port, HM_ACCESS_MANUAL, "") == HM_REFUSED_CONDITIONS);
    ACCEPTED(HM_INPUT_LOAD_DONE, port, 0, "");
    CHECK(counts(0, 0) && run.held == 1 && tool.hands[port - 1].held == HM_HELD);
    ACCEPTED(HM_INPUT_LOAD_FAIL, port, 0, "");
    ACCEPTED(HM_INPUT_LOAD_START, port, hand, "");
    ACCEPTED(HM_INPUT_LOAD_DONE, port, 0, "");
    ACCEPTED(HM_INPUT_CONTINUE, port, 0, "");
    CHECK(counts(1, 0) && run.held == 2 && send(HM_INPUT_CONTINUE, port, 0, "") == HM_REFUSED_CONDITIONS);
    set_up(HM_PORTS, 0);
    ACCEPTED(HM_INPUT_CHANGE_ACCESS, port, HM_ACCESS_AUTO, "");
    ACCEPTED(HM_INPUT_LOAD_START, port, vehicle, "");
    ACCEPTED(HM_INPUT_LOAD_DONE, port, 0, "");
    CHECK(counts(1, 0) && run.held == 0);
}

/* Into the buffer, out, in again, out and away. */
static void through_the_buffer(void)
{
    unsigned i;

    set_up(2, HM_PLACES);
    ACCEPTED(HM_INPUT_LOAD_START, 1, hand, "");
    ACCEPTED(HM_INPUT_LOAD_DONE, 1, 0, "");
    ACCEPTED(HM_INPUT_ID_READ, 1, 0, "A");
    ACCEPTED(HM_INPUT_PROCEED_WITH_CARRIER, 0, 0, "A");
    for (i = 0; i < 2; i++) {
        ACCEPTED(HM_INPUT_MOVE_IN, 1, HM_PLACES - i, "");
        CHECK(tool.ports[0].pod == HM_NO_POD && hm_pods_here(&tool) == 1);
        ACCEPTED(HM_INPUT_CARRIER_OUT, 1, 0, "A");
        ACCEPTED(HM_INPUT_OUT_START, 1, 0, "");
        ACCEPTED(HM_INPUT_OUT_DONE, 1, 0, "");
        CHECK(tool.ports[0].pod == HM_POD_PRESENT && hm_pods_here(&tool) == 1);
        if (i == 0) {
            ACCEPTED(HM_INPUT_CARRIER_IN, 0, 0, "A");
        }
    }
    ACCEPTED(HM_INPUT_UNLOAD_START, 1, hand, "");
    ACCEPTED(HM_INPUT_UNLOAD_DONE, 1, 0, "");
    CHECK(counts(1, 1) && hm_pods_here(&tool) == 0);
}

/* What is answered isn't looked at: only that hm_pods_here reads any bytes, and no others. */
static void any_bytes_may_be_asked(void)
{
    memset(&tool, 0, sizeof tool);
    CHECK(hm_pods_here(&tool) == 0);
    memset(&tool, 0xFF, sizeof tool);
    CHECK(hm_pods_here(&tool) == HM_PORTS);
    memset(&tool, HM_PLACE_BUFFER, sizeof tool);
    CHECK(hm_pods_here(&tool) == HM_PORTS + HM_RECORDS);
}

static uint32_t step(const struct input *in)
{
    if (for_time_step(in)) {
        return hm_time_step(&tool, &reports, in->number, in->clock, in->name, in->name_length, in->time);
    }
    if (for_wafers(in)) {
        return hm_wafers(&tool, &reports, in->clock, in->name, in->name_length, in->rest.wafers, in->wafers);
    }
    return hm_step(&tool, &reports, in->number, in->port, in->value, in->name, in->name_length, in->rest.codes,
                   in->codes_length);
}

static void add(void)
{
    all.came += run.came;
    all.went += run.went;
    all.held += run.held;
    all.continued += run.continued;
    all.moved_in += run.moved_in;
    all.moved_out += run.moved_out;
}

#define RUNS 30
#define LENGTH 1000 /* some pods stay where they are for good: a new run goes further than a longer one */

/* Both sides are equal after every input. */
static void by_chance(uint32_t ports, uint32_t places)
{
    struct input in;
    uint32_t k, i, unequal = 0, most = 0;

    memset(&in, 0, sizeof in);
    for (k = 0; k < RUNS; k++) {
        set_up(ports, places);
        for (i = 0; i < LENGTH; i++) {
            next_input(&in, &tool);
            note(in.number, in.port, in.value, step(&in));
            unequal += run.came - run.went != hm_pods_here(&tool);
            most = hm_pods_here(&tool) > most ? hm_pods_here(&tool) : most;
        }
        add();
    }
    CHECK(unequal == 0 && most >= ports + places / 2);
}

/* Each thing that counts was met, so that the runs aren't equal for nothing. */
static void all_was_met(void)
{
    CHECK(all.came > 2000 && all.went > 1000 && all.held > 150 && all.continued > 100);
    CHECK(all.moved_in > 1000 && all.moved_out > 400);
    printf("pods: along the runs %u came in, %u of them by Continue after %u were held, %u went out, "
           "%u went into the buffer, %u came out of it\n",
           all.came, all.continued, all.held, all.went, all.moved_in, all.moved_out);
}

int main(void)
{
    uint32_t port;

    for (port = 1; port <= HM_PORTS; port++) {
        loads_and_unloads(port);
        held(port);
        chance_state = port;
        by_chance(port, 0);
        by_chance(port, 3);
        by_chance(port, HM_PLACES);
    }
    all_was_met();
    through_the_buffer();
    any_bytes_may_be_asked();
    return result("pods");
}
