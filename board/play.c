/*
 * The firmware that `make board` runs on every board and, linked with the proved archive, on x86-64: it plays inputs
 * and messages by chance, the same everywhere, and prints digests of what was given and of what came back. What is
 * given depends on what came back before, so that one difference is followed by many.
 * A request that adds a function adds its caller here, and a line to `one_of_each`.
 */
#define LONGEST_MESSAGE 1500

#include "digest.h"
#include "letters.h"

#ifndef INPUTS
#define INPUTS 100000u /* by chance, with the messages beside them */
#endif
#ifndef BROKEN_AT
#define BROKEN_AT 0u /* the input one of whose reports is changed, to see that it is noticed; 0: none */
#endif
#define EACH 1000u /* inputs of one line of digests */

#define WORDS_APART __attribute__((aligned(4)))

static hm_tool tool WORDS_APART;
static struct input in;

#include "full.h"

static hm_tool kept; /* a sound tool, while a damaged copy of it is played; before that the full one */
static hm_reports reports WORDS_APART;
static struct message message WORDS_APART;
static hm_found found;
static uint32_t answer, items, ports, places, setting, timeout;
static uint64_t stopped;

static struct digest given, answered, reported, held;
static uint32_t inputs, messages, set_ups, damaged_tools, unsound_tools, most_records, most_requests, paint_every = 1;
static uint32_t answers[HM_REFUSED_SHAPE_OR_ACTION + 1], accepted_rows[HM_INPUTS + 1];

/* A caller for each function, so that its instructions and its stack can be told from all others. */
#define CALLER static __attribute__((noinline)) void

CALLER caller_of_hm_setup(void)
{
    answer = hm_setup(&tool, ports, places, setting, timeout);
}

CALLER caller_of_hm_step(void)
{
    answer = hm_step(&tool, &reports, in.number, in.port, in.value, in.name, in.name_length, in.rest.codes, in.codes_length);
}

CALLER caller_of_hm_time_step(void)
{
    answer = hm_time_step(&tool, &reports, in.number, in.clock, in.name, in.name_length, in.time);
}

CALLER caller_of_hm_wafers_step(void)
{
    answer = hm_wafers(&tool, &reports, in.clock, in.name, in.name_length, in.rest.wafers, in.wafers);
}

CALLER caller_of_hm_secs_step(void)
{
    answer = hm_secs_step(&tool, &reports, message.bytes, message.length, &items);
}

CALLER caller_of_hm_secs_at(void)
{
    stopped = hm_secs_at(message.bytes, message.length);
}

CALLER caller_of_hm_sound(void)
{
    answer = hm_sound(&tool);
}

CALLER caller_of_hm_name(void)
{
    answer = hm_name(in.name, in.name_length);
}

CALLER caller_of_hm_waiting(void)
{
    answer = hm_waiting(tool.carriers, HM_RECORDS, &found);
}

static struct function {
    const char *name;
    void (*call)(void);
    uint32_t calls, stack;
} functions[] = {{"hm_step", caller_of_hm_step, 0, 0},
                 {"hm_time_step", caller_of_hm_time_step, 0, 0},
                 {"hm_wafers_step", caller_of_hm_wafers_step, 0, 0},
                 {"hm_secs_step", caller_of_hm_secs_step, 0, 0},
                 {"hm_sound", caller_of_hm_sound, 0, 0},
                 {"hm_secs_at", caller_of_hm_secs_at, 0, 0},
                 {"hm_setup", caller_of_hm_setup, 0, 0},
                 {"hm_waiting", caller_of_hm_waiting, 0, 0},
                 {"hm_name", caller_of_hm_name, 0, 0}};

#define FUNCTIONS (sizeof functions / sizeof functions[0])

enum { STEP, TIME_STEP, WAFERS_STEP, SECS_STEP, SOUND, SECS_AT, SETUP, WAITING, NAME };

/* Calls the function; the answer goes into the digest. */
static void run(struct function *f)
{
    if (f->calls++ % paint_every == 0) {
        uint32_t stack = stack_of(f->call);
        f->stack = stack > f->stack ? stack : f->stack;
    } else {
        f->call();
    }
    add(&answered, answer);
}

/* Everything that the call could have written. */
static void note(void)
{
    answers[answer <= HM_REFUSED_SHAPE_OR_ACTION ? answer : HM_REFUSED_OUT_OF_RANGE]++;
    most_records = answer == HM_ACCEPTED && tool.count > most_records ? tool.count : most_records;
    most_requests = answer == HM_ACCEPTED && tool.queued > most_requests ? tool.queued : most_requests;
    if (BROKEN_AT != 0 && inputs == BROKEN_AT) {
        reports.items[0].new_state ^= 1;
    }
    add_all(&reported, &reports, sizeof reports);
    add_all(&held, &tool, sizeof tool);
}

static void set_up_with(uint32_t setting_wanted, uint32_t timeout_wanted)
{
    setting = setting_wanted;
    timeout = timeout_wanted;
    set_ups++;
    add(&given, ports);
    add(&given, places);
    add(&given, setting);
    add(&given, timeout);
    run(&functions[SETUP]);
    add_all(&held, &tool, sizeof tool);
}

static void set_up(uint32_t ports_wanted, uint32_t places_wanted)
{
    ports = ports_wanted;
    places = places_wanted;
    set_up_with(SETTING, TIMEOUT);
}

static void add_input(void)
{
    add(&given, in.number);
    add(&given, in.port);
    add(&given, in.value);
    add(&given, in.clock);
    add(&given, in.time);
    add_all(&given, in.name, in.name_length);
    add_all(&given, in.rest.codes, in.codes_length);
    if (for_wafers(&in)) {
        add(&given, (uint32_t)in.wafers);
        add_all(&given, in.rest.wafers, in.wafers <= HM_WAFERS ? (uint32_t)in.wafers * sizeof in.rest.wafers[0] : 0);
    }
}

/* Gives the input `in` to the tool. */
static void step(void)
{
    inputs++;
    add_input();
    memset(&reports, 0xA5, sizeof reports); /* what stood there before must be gone */
    run(&functions[for_time_step(&in) ? TIME_STEP : for_wafers(&in) ? WAFERS_STEP : STEP]);
    accepted_rows[answer == HM_ACCEPTED && in.number <= HM_INPUTS ? in.number : 0]++;
    note();
}

/* Gives the message to the tool. */
static void secs_step(void)
{
    messages++;
    add_all(&given, message.bytes, message.length);
    memset(&reports, 0xA5, sizeof reports);
    run(&functions[SECS_STEP]);
    note();
    add(&answered, items);
    run(&functions[SECS_AT]);
    add(&answered, (uint32_t)stopped);
    add(&answered, (uint32_t)(stopped >> 32));
}

/* What may be asked at any time. */
static void look(void)
{
    run(&functions[NAME]);
    run(&functions[WAITING]);
    add(&answered, (uint32_t)found.position);
    add(&answered, (uint32_t)found.read);
    if (inputs % 16 == 0) {
        run(&functions[SOUND]);
        unsound_tools += answer == 0;
    }
}

/* A tool that takes one more carrier gets what costs the most; then a name that it knows. */
static void costly_messages(void)
{
    in.number = HM_INPUT_CANCEL_CARRIER_NOTIFICATION;
    known_name(&in, &tool.carriers[HM_RECORDS - 1]);
    step();
    put_costly(&message, "CarrierNotification", in.name, in.name_length);
    secs_step();
    secs_step();
}

/* The next tool: the one that is there, the sound one after some inputs to a damaged one, a damaged one, a new one. */
static void next_tool(void)
{
    static uint32_t left;

    if (left > 0) {
        left--;
        if (left == 0) {
            tool = kept;
        }
    } else if (below(20) == 0) {
        kept = tool;
        left = 2 + below(4);
        damaged_tools++;
        damage(&tool);
    } else if (below(tool.used == 0 ? 10 : 500) == 0) {
        uint32_t wanted = below(8) ? SETTING : below(2) ? 0 : HM_SECONDS_GREATEST + below(2);
        ports = below(16) ? 1 + below(HM_PORTS) : odd_number();
        places = below(2) ? 0 : below(16) ? below(HM_PLACES + 1) : odd_number();
        set_up_with(wanted, below(8) ? TIMEOUT : 0);
    }
}

static void one_of_each(void)
{
    next_tool();
    next_input(&in, &tool);
    look();
    if (below(6) == 0) {
        next_message(&message, &in);
        secs_step();
    } else {
        step();
    }
}

static void print_digests(void)
{
    put_number(inputs);
    put_words(" inputs, ");
    put_number(messages);
    put_words(" messages");
    put_digest(": given ", &given);
    put_digest(", answers ", &answered);
    put_digest(", reports ", &reported);
    put_digest(", tools ", &held);
    end_line();
}

static void print_stack(void)
{
    uint32_t i;
    for (i = 0; i < FUNCTIONS && functions[i].stack > 0; i++) {
        put_words("stack ");
        put_words(functions[i].name);
        put_words(" ");
        put_number(functions[i].stack);
        end_line();
        if (functions[i].stack > HM_STACK_BYTES) {
            say("that is more than HM_STACK_BYTES\n");
            finish(1);
        }
    }
}

/* How often each answer came; 0 where one never did. */
static int print_answers(void)
{
    uint32_t i, all = 1;

    for (i = 0; i <= HM_REFUSED_SHAPE_OR_ACTION; i++) {
        if (i <= HM_REFUSED_AUTOMATIC_IN_MANUAL || i >= HM_REFUSED_CUT_SHORT) {
            put_words(i == 0 ? "answers " : ", ");
            put_number(i);
            put_words(": ");
            put_number(answers[i]);
            all = all && answers[i] > 0;
        }
    }
    end_line();
    return all != 0;
}

/* What was met; 0 where it is too little for the digests to mean anything. */
static int met_enough(void)
{
    int enough = print_answers() && unsound_tools > 0 && damaged_tools > 0 && most_records == HM_RECORDS &&
                 most_requests == HM_REQUESTS;
    uint32_t i;

    for (i = 1; i <= HM_INPUTS; i++) {
        enough = enough && accepted_rows[i] > 0;
    }
    put_number(set_ups);
    put_words(" set-ups, ");
    put_number(damaged_tools);
    put_words(" damaged tools, most records ");
    put_number(most_records);
    put_words(", most requests ");
    put_number(most_requests);
    put_words(enough ? ", every row accepted and every answer met" : ", too little was met");
    end_line();
    return enough;
}

int main(void)
{
    uint32_t end, last;

    chance_state = 1;
    every_row_to_full_tools(&kept);
    costly_messages();
    print_digests();
    paint_every = 8;
    end = inputs + INPUTS;
    for (last = inputs; inputs < end;) {
        one_of_each();
        if ((inputs % EACH == 0 || inputs == end) && inputs != last) {
            print_digests();
            last = inputs;
        }
    }
    print_stack();
    return met_enough() ? 0 : 1;
}
