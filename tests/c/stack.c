/*
 * The stack that one call uses, greatest over many: each call runs on a stack of its own that was painted before, and
 * the lowest place where the paint is gone tells. Build with -Wl,-z,now, so that no call pays for the linker's work.
 *   stack [INPUTS]
 * Counted from the frame of the function that calls the library, so with the arguments and the return address.
 */
#define _DEFAULT_SOURCE
#include <stdio.h>
#include <stdlib.h>
#include <sys/mman.h>
#include <ucontext.h>

#include "chance.h"
#include "secs.h"

#define STACK_BYTES (256u * 1024u)
#define WORDS (STACK_BYTES / sizeof(uint64_t))

struct painted {
    const char *function;
    uint64_t *words;
    const char *frame; /* of the caller of the library */
};

static struct painted for_step = {"hm_step", NULL, NULL};
static struct painted for_timed = {"hm_time_step", NULL, NULL};
static struct painted for_wafers_step = {"hm_wafers_step", NULL, NULL};
static struct painted for_setup = {"hm_setup", NULL, NULL};
static struct painted for_sound = {"hm_sound", NULL, NULL};
static struct painted for_name = {"hm_name", NULL, NULL};
static struct painted for_waiting = {"hm_waiting", NULL, NULL};
static struct painted for_secs_step = {"hm_secs_step", NULL, NULL};
static struct painted for_secs_at = {"hm_secs_at", NULL, NULL};
static struct painted for_exchange = {"hm_secs_exchange", NULL, NULL};
static struct painted for_reply = {"hm_reply", NULL, NULL};
static struct painted for_judge = {"hm_judge", NULL, NULL};
static struct painted *const all[] = {&for_step, &for_timed, &for_wafers_step, &for_setup, &for_sound, &for_name,
                                      &for_waiting, &for_secs_step, &for_secs_at, &for_exchange, &for_reply,
                                      &for_judge};

#define FUNCTIONS (sizeof all / sizeof all[0])

static ucontext_t here, there;
static hm_tool tool;
static hm_reports reports;
static struct input in;
static struct message message;
static uint32_t answer, items, length;
static uint8_t room[HM_REPLY_ROOM];
static uint8_t entries[16384]; /* of the run that fills the tool */
static size_t log_length;
static void (*after_step)(void); /* what is done with each step */
static unsigned long agreed, disagreed;
static unsigned long accepted, refused, removed, removed_from_full, most_records, at_once, bridged, unread;
static unsigned long replied, most_reports;

#include "full.h"

static uint64_t paint(size_t i)
{
    return 0x9E3779B97F4A7C15u * (i + 1);
}

static void prepare(struct painted *p)
{
    size_t i;
    p->words = (uint64_t *)mmap(NULL, STACK_BYTES, PROT_READ | PROT_WRITE, MAP_PRIVATE | MAP_ANONYMOUS, -1, 0);
    if (p->words == MAP_FAILED) {
        perror("mmap");
        exit(2);
    }
    for (i = 0; i < WORDS; i++) {
        p->words[i] = paint(i);
    }
}

static void call_step(void)
{
    for_step.frame = (const char *)__builtin_frame_address(0);
    answer = hm_step(&tool, &reports, in.number, in.port, in.value, in.name, in.name_length, in.rest.codes, in.codes_length);
}

static void call_time_step(void)
{
    for_timed.frame = (const char *)__builtin_frame_address(0);
    answer = hm_time_step(&tool, &reports, in.number, in.clock, in.name, in.name_length, in.time);
}

static void call_wafers_step(void)
{
    for_wafers_step.frame = (const char *)__builtin_frame_address(0);
    answer = hm_wafers(&tool, &reports, in.clock, in.name, in.name_length, in.rest.wafers, in.wafers);
}

static void call_setup(void)
{
    for_setup.frame = (const char *)__builtin_frame_address(0);
    answer = hm_setup(&tool, in.port, in.value, SETTING, TIMEOUT);
}

static void call_sound(void)
{
    for_sound.frame = (const char *)__builtin_frame_address(0);
    answer = hm_sound(&tool);
}

static void call_name(void)
{
    for_name.frame = (const char *)__builtin_frame_address(0);
    answer = hm_name(in.name, in.name_length);
}

static void call_waiting(void)
{
    hm_found found;
    for_waiting.frame = (const char *)__builtin_frame_address(0);
    answer = hm_waiting(tool.carriers, HM_RECORDS, &found);
}

static void call_secs_step(void)
{
    for_secs_step.frame = (const char *)__builtin_frame_address(0);
    answer = hm_secs_step(&tool, &reports, message.bytes, message.length, &items);
}

static void call_secs_at(void)
{
    for_secs_at.frame = (const char *)__builtin_frame_address(0);
    items = (uint32_t)hm_secs_at(message.bytes, message.length);
}

static void call_exchange(void)
{
    for_exchange.frame = (const char *)__builtin_frame_address(0);
    answer = hm_secs_exchange(&tool, &reports, message.bytes, message.length, &items, room, sizeof room, &length);
}

static void call_reply(void)
{
    for_reply.frame = (const char *)__builtin_frame_address(0);
    answer = hm_reply(in.number, room, sizeof room, &length);
}

static void call_judge(void)
{
    static hm_tool_01 base;
    static hm_reports given;
    static hm_judged judged;
    for_judge.frame = (const char *)__builtin_frame_address(0);
    answer = hm_judge(entries, log_length, &base, &given, &judged);
}

static void run_on(const struct painted *p, void (*call)(void))
{
    getcontext(&there);
    there.uc_stack.ss_sp = p->words;
    there.uc_stack.ss_size = STACK_BYTES;
    there.uc_link = &here;
    makecontext(&there, call, 0);
    swapcontext(&here, &there);
}

/* Bytes from the caller's frame down to the lowest word whose paint is gone. */
static size_t used(const struct painted *p)
{
    size_t i = 0;
    while (i < WORDS && p->words[i] == paint(i)) {
        i++;
    }
    return (size_t)(p->frame - (const char *)&p->words[i]);
}

static void set_up(uint32_t ports, uint32_t places)
{
    in.port = ports;
    in.value = places;
    run_on(&for_setup, call_setup);
}

/* The input that `in` holds. */
static void step(void)
{
    unsigned before = tool.count;
    if (for_time_step(&in)) {
        run_on(&for_timed, call_time_step);
    } else if (for_wafers(&in)) {
        run_on(&for_wafers_step, call_wafers_step);
    } else {
        run_on(&for_step, call_step);
    }
    most_reports = reports.count > most_reports ? reports.count : most_reports;
    at_once += answer == HM_ACCEPTED && in.number == HM_INPUT_SLOT_MAP && reports.items[0].new_state == HM_STATUS_OK;
    accepted += answer == HM_ACCEPTED;
    refused += answer != HM_ACCEPTED;
    removed += tool.count < before;
    removed_from_full += tool.count < before && before == HM_RECORDS;
    most_records = tool.count > most_records ? tool.count : most_records;
    if (after_step != NULL) {
        after_step();
    }
}

static void put(const void *bytes, size_t size)
{
    if (size > sizeof entries - log_length) {
        fprintf(stderr, "the log is longer than its room\n");
        exit(2);
    }
    memcpy(entries + log_length, bytes, size);
    log_length += size;
}

/* The input that `in` holds and what it gave, as an entry. */
static void put_entry(void)
{
    const uint8_t input[] = {(uint8_t)in.number, (uint8_t)in.port, (uint8_t)in.value, (uint8_t)in.name_length};
    const uint8_t shown[] = {(uint8_t)answer, reports.count};
    static const uint8_t codes[HM_SLOTS];
    unsigned i;

    put(input, sizeof input);
    put(in.name, in.name_length);
    put(in.codes_length == HM_SLOTS ? in.rest.codes : codes, in.number == HM_INPUT_SLOT_MAP ? HM_SLOTS : 0);
    put(shown, sizeof shown);
    for (i = 0; i < reports.count; i++) {
        const hm_report *r = &reports.items[i];
        const uint8_t text = (uint8_t)strnlen((const char *)r->name, HM_NAME_BYTES);
        const int on_name = r->model >= HM_MODEL_ID;
        put(&r->model, 1);
        put(on_name ? &text : &r->port, 1);
        put(r->name, on_name ? text : 0);
        put(&r->old_state, 2);
    }
}

/* The run that filled the tool and the last step, as a log; and the same with a wrong answer. One port is enough. */
static void judge_step(void)
{
    const size_t before = log_length;
    const uint32_t answers[] = {answer, answer + 1};
    int i;

    for (i = 0; i < 2 && in.port == 1; i++) {
        answer = answers[i];
        put_entry();
        run_on(&for_judge, call_judge);
        agreed += answer == HM_LOG_AGREES;
        disagreed += answer == HM_LOG_ENTRY_DISAGREES;
        log_length = before;
    }
}

/* So many lists, one in another, as the value of an attribute: it stands at depth four. */
static void put_nested(uint32_t lists)
{
    put_head(&message, LIST, 2);
    put_text(&message, "X");
    while (lists-- > 0) {
        put_head(&message, LIST, 1);
    }
    put_u1(&message, 0);
}

/* The name, port and codes of `in` as a message, to a copy of the tool: as deep as may be, and a list deeper. */
static void secs_step(void)
{
    static const char *const actions[] = {"Bind", "CarrierNotification", "ProceedWithCarrier", "CancelCarrier"};
    const int mapped = in.codes_length == HM_SLOTS;
    hm_tool before = tool;
    uint32_t action, lists;

    for (action = 0; action < 4; action++) {
        for (lists = HM_SECS_DEPTH - 3; lists <= HM_SECS_DEPTH - 2; lists++) {
            begin(&message, actions[action], in.name, in.name_length, (uint8_t)in.port, mapped ? 2 : 1);
            if (mapped) {
                put_map(&message, in.rest.codes);
            }
            put_nested(lists);
            run_on(&for_secs_step, call_secs_step);
            run_on(&for_secs_at, call_secs_at);
            bridged += answer == HM_ACCEPTED;
            unread += answer == HM_REFUSED_TOO_DEEP;
            tool = before;
            run_on(&for_exchange, call_exchange);
            replied += answer == HM_ACCEPTED && length > 0;
            run_on(&for_reply, call_reply);
            tool = before;
        }
    }
}

/* A run that fills a tool as a log, and every row after it. */
static void judged_rows(hm_tool *kept_tool)
{
    static const uint8_t head[] = {'C', 'M', 'T', 0, 1, HM_PORTS, HM_PLACES};

    put(head, sizeof head);
    after_step = put_entry;
    fill();
    after_step = judge_step;
    every_row(kept_tool);
    after_step = NULL;
}

/* Runs by chance from a full tool and from set-up, now and then with a damaged byte. */
static void by_chance(const hm_tool *full, unsigned long inputs)
{
    while (inputs-- > 0) {
        if (below(100) == 0) {
            tool = *full;
        } else if (below(300) == 0) {
            set_up(1 + below(HM_PORTS + 1), below(HM_PLACES + 2));
        } else if (below(300) == 0) {
            ((uint8_t *)&tool)[below(sizeof tool)] ^= 0x55;
        }
        next_input(&in, &tool);
        secs_step();
        step();
        run_on(&for_sound, call_sound);
        run_on(&for_name, call_name);
        run_on(&for_waiting, call_waiting);
    }
}

static int figure(const struct painted *p)
{
    size_t bytes = used(p);
    printf("stack %s %zu bytes\n", p->function, bytes);
    if (bytes > HM_STACK_BYTES) {
        fprintf(stderr, "that is more than HM_STACK_BYTES, %u\n", HM_STACK_BYTES);
        return 1;
    }
    return 0;
}

/* What was met; 0 where it is too little for the figures to mean anything. */
static int met_enough(void)
{
    printf("over %lu accepted and %lu refused inputs, %lu records removed, %lu of them from a full tool of %lu, ",
           accepted, refused, removed, removed_from_full, most_records);
    printf("%lu slot maps OK at once, %lu messages accepted, %lu too deep, %lu accepted with a reply, ", at_once,
           bridged, unread, replied);
    printf("most reports %lu, %lu logs that agree, %lu that don't\n", most_reports, agreed, disagreed);
    return accepted > 0 && refused > 0 && removed_from_full > 0 && most_records == HM_RECORDS && at_once > 0 &&
           bridged > 0 && unread > 0 && replied == bridged && most_reports == HM_REPORTS - 1 && agreed > 0 &&
           disagreed > 0;
}

int main(int argc, char **argv)
{
    static hm_tool full;
    int failed = 0;
    size_t i;

    for (i = 0; i < FUNCTIONS; i++) {
        prepare(all[i]);
    }
    chance_state = 1;
    every_row_to_full_tools(&full);
    judged_rows(&full);
    by_chance(&full, argc > 1 ? strtoul(argv[1], NULL, 10) : 50000);
    for (i = 0; i < FUNCTIONS; i++) {
        failed += figure(all[i]);
    }
    if (!met_enough()) {
        fprintf(stderr, "too little was met for this to mean anything\n");
        failed++;
    }
    return failed != 0;
}
