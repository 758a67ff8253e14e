/*
 * Lengths are 64 bits in the proved functions, and a caller on a board has them in 32: each function is called with
 * lengths of every narrow type, with garbage in the registers around, and with everything it is lent at addresses of
 * every alignment. C99 and C++17.
 *
 * HALF shows that this can fail: 1 and 2 are callers that would pass 32 bits, which no compiler takes with the
 * warnings on; 1 is then compiled without them, and has to be noticed when it runs. So has an access of its own that
 * isn't aligned.
 */
#define LONGEST_MESSAGE 900

#include "letters.h"
#include "line.h"

#ifndef HALF
#define HALF 0
#endif

#if HALF == 2
uint32_t hm_name(const uint8_t *text, size_t length); /* right for x86-64, where size_t has 64 bits */
#endif

static uint32_t checks, failures;
static struct input in;
static struct message sent;

static void check(int holds, const char *what)
{
    checks++;
    if (!holds) {
        failures++;
        say("not so: ");
        say(what);
        say("\n");
    }
}

/* Leaves ones in every register in which an argument may travel, but for the first. */
static __attribute__((noinline)) void garbage(void)
{
#if defined(__arm__)
    __asm__ volatile("mvn r1, %0\nmvn r2, %0\nmvn r3, %0" : : "r"(0) : "r1", "r2", "r3", "cc");
#elif defined(__riscv)
    __asm__ volatile("li a1, -1\nli a2, -1\nli a3, -1\nli a4, -1\nli a5, -1\nli a6, -1\nli a7, -1" : : :
                     "a1", "a2", "a3", "a4", "a5", "a6", "a7");
#endif
}

static __attribute__((noinline)) uint32_t name_of(const uint8_t *text, uint32_t length)
{
#if HALF == 1
    uint32_t (*volatile half)(const uint8_t *, uint32_t) = (uint32_t (*)(const uint8_t *, uint32_t))hm_name;
    garbage();
    return half(text, length);
#else
    garbage();
    return hm_name(text, length);
#endif
}

/* So many letters and so many blanks. */
static void names(void)
{
    uint8_t text[HM_TEXT_BYTES + 4];
    uint32_t letters, length;

    for (letters = 0; letters <= sizeof text; letters++) {
        for (length = letters; length <= sizeof text; length++) {
            uint32_t named = letters >= 1 && letters <= HM_NAME_BYTES && length <= HM_TEXT_BYTES ? letters : 0;
            uint16_t narrow = (uint16_t)length;
            memset(text, 'A', letters);
            memset(text + letters, HM_BLANK, sizeof text - letters);
            check(name_of(text, length) == named, "a name is as long as it is");
            check(hm_name(text, narrow) == named, "a name is as long as it is, by 16 bits");
        }
    }
}

static void waiting_tables(hm_carrier *carriers)
{
    uint8_t count, first;
    hm_found found;

    for (count = 0; count <= HM_RECORDS; count++) {
        for (first = 0; first <= count; first++) {
            uint32_t waits = first < count, answer;
            memset(carriers, 0, HM_RECORDS * sizeof *carriers);
            if (waits) {
                carriers[first].slot = HM_STATUS_WAITING_FOR_HOST;
            }
            memset(&found, 0xA5, sizeof found);
            garbage();
            answer = hm_waiting(carriers, count, &found);
            check(answer == waits && found.position == first && found.read == first + waits, "the first that waits");
        }
    }
}

/* A list of numbers, cut everywhere: reading stops where the number begins that isn't whole. */
static void cut_messages(hm_tool *tool, hm_reports *reports)
{
    uint16_t length;
    uint32_t answer, items, whole;

    sent.length = sent.items = 0;
    put_head(&sent, LIST, 100);
    while (sent.items < 101) {
        put_u1(&sent, 3);
    }
    for (length = 0; length <= sent.length; length++) {
        whole = length < 2 ? 0 : (length - 2u) / 3;
        items = 0xA5A5A5A5u;
        garbage();
        check(hm_secs_at(sent.bytes, length) == (length < 2 ? 0 : 2 + 3 * (uint64_t)whole), "where reading stopped");
        garbage();
        answer = hm_secs_step(tool, reports, sent.bytes, length, &items);
        check(answer == (whole == 100 ? HM_REFUSED_SHAPE_OR_ACTION : HM_REFUSED_CUT_SHORT), "cut short, or whole");
        check(items == (length < 2 ? 0 : 1 + whole), "as many items as are whole");
    }
}

/* Every length of a name, and of codes around the right ones. */
static void inputs_of_every_length(hm_tool *tool, hm_reports *reports)
{
    static const uint8_t name[HM_NAME_BYTES + 1] = {'A', 'B', 'C', 'D', 'E', 'F', 'G', 'H', 'I',
                                                    'J', 'K', 'L', 'M', 'N', 'O', 'P', 'Q'};
    static uint8_t codes[HM_SLOTS + 2];
    uint8_t bytes, count;

    memset(codes, HM_CODE_EMPTY, sizeof codes);
    for (bytes = 0; bytes <= sizeof name; bytes++) {
        for (count = 0; count <= sizeof codes; count++) {
            int good = bytes >= 1 && bytes <= HM_NAME_BYTES && (count == 0 || count == HM_SLOTS);
            uint32_t answer;
            check(hm_setup(tool, 1, 0, SETTING, TIMEOUT) == HM_ACCEPTED, "set up");
            garbage();
            answer = hm_step(tool, reports, HM_INPUT_CARRIER_NOTIFICATION, 1, 0, name, bytes, codes, count);
            check(answer == (good ? 0u : 1u), "a name and codes of the right length, and no other");
            check(tool->count == (good ? 1 : 0) && reports->count == (good ? 4 : 0), "a record and four reports");
            check(!good || (memcmp(tool->carriers[0].name, name, bytes) == 0), "the name as it was given");
        }
    }
}

/* A carrier of this name is IN ACCESS. */
static void visit(hm_tool *tool, hm_reports *reports, const uint8_t *name, uint8_t bytes)
{
    static const uint8_t inputs[] = {HM_INPUT_LOAD_START, HM_INPUT_LOAD_DONE, HM_INPUT_ID_READ,
                                     HM_INPUT_PROCEED_WITH_CARRIER, HM_INPUT_OPEN, HM_INPUT_SLOT_MAP,
                                     HM_INPUT_PROCEED_WITH_CARRIER, HM_INPUT_ACCESS_START};
    static const uint8_t codes[HM_SLOTS] = {HM_CODE_EMPTY};
    uint8_t i;

    check(hm_setup(tool, 1, 0, SETTING, TIMEOUT) == HM_ACCEPTED, "set up");
    for (i = 0; i < sizeof inputs; i++) {
        check(hm_step(tool, reports, inputs[i], 1, 0, name, bytes, codes, HM_SLOTS) == HM_ACCEPTED, "a visit");
    }
}

/* A time after a length of 64 bits and one before it, of an accepted input, with names of every length. */
static void times_of_every_length(hm_tool *tool, hm_reports *reports)
{
    const uint32_t clock = 0x01020304, time = 0xF5060708;
    uint8_t name[HM_NAME_BYTES], bytes;

    memset(name, 'T', sizeof name);
    for (bytes = 1; bytes <= sizeof name; bytes++) {
        visit(tool, reports, name, bytes);
        check(hm_seconds(&tool->setting) == SETTING && hm_seconds(&tool->timeout) == TIMEOUT, "the set-up's times");
        garbage();
        check(hm_time_step(tool, reports, HM_INPUT_PREDICTED_TIME, clock, name, bytes, time) == HM_ACCEPTED, "a Tp");
        check(hm_seconds(&tool->clock) == clock && hm_seconds(&tool->predictions[0].predicted) == time, "both times");
        garbage();
        check(hm_time_step(tool, reports, HM_INPUT_CLOCK, clock - 1, name, bytes, time) == HM_REFUSED_CLOCK_EARLIER,
              "an earlier clock");
    }
}

/* Two lengths of 64 bits, a pointer between them: every number of wafers, of doubles, and some that wrap in 32 bits. */
static void wafers_of_every_number(hm_tool *tool, hm_reports *reports)
{
    static const uint8_t name[] = {'W', 'A', 'F', 'E', 'R', 'S'};
    const uint32_t clock = 0x01020304;
    uint8_t count;

    for (count = 0; count < HM_WAFERS; count++) {
        in.rest.wafers[count].process = 256.25;
        in.rest.wafers[count].handling = 0.5;
    }
    for (count = 0; count <= 2 * HM_WAFERS + 2; count++) {
        const int good = count <= 2 * HM_WAFERS && count % 2 == 0;
        const uint32_t tp = clock + (count / 2 * 1027u + 3) / 4; /* 256.75 seconds each */
        const double *times = &in.rest.wafers[0].process;
        visit(tool, reports, name, sizeof name);
        garbage();
        check(hm_wafers_step(tool, reports, clock, name, sizeof name, times, count) == (good ? 0u : 1u), "so many");
        check(hm_seconds(&tool->predictions[0].predicted) == (good ? tp : 0), "what they come to");
    }
    visit(tool, reports, name, sizeof name);
    garbage();
    check(hm_wafers(tool, reports, clock, name, sizeof name, in.rest.wafers, (1ull << 32) + 1) == 1, "far too many");
    garbage();
    check(hm_wafers_step(tool, reports, clock, name, sizeof name, &in.rest.wafers[0].process, (1ull << 32) + 2) == 1,
          "far too many doubles");
}

/* An input that has neither name nor codes. */
static uint32_t plain(hm_tool *tool, hm_reports *reports, uint32_t number, uint32_t port, uint32_t value)
{
    garbage();
    return hm_step(tool, reports, number, port, value, HM_NOTHING, 0, HM_NOTHING, 0);
}

/* Who starts, for whom the port is: which start is refused, and whose pod is held until Continue. */
static void hands_on_every_port(hm_tool *tool, hm_reports *reports)
{
    uint32_t port, access, start;

    for (port = 1; port <= HM_PORTS; port++) {
        for (access = HM_ACCESS_MANUAL; access <= HM_ACCESS_AUTO; access++) {
            for (start = HM_START_MANUAL; start <= HM_START_AUTOMATIC + 1; start++) {
                const uint32_t held = access == HM_ACCESS_AUTO && start == HM_START_MANUAL;
                const uint32_t good = start == HM_START_MANUAL || (start == HM_START_AUTOMATIC && access == 1);
                const uint32_t refusal = start <= 1 ? HM_REFUSED_AUTOMATIC_IN_MANUAL : HM_REFUSED_OUT_OF_RANGE;
                const hm_hands *const own = &tool->hands[port - 1];
                check(hm_setup(tool, HM_PORTS, 0, SETTING, TIMEOUT) == HM_ACCEPTED, "set up");
                check(plain(tool, reports, HM_INPUT_CHANGE_ACCESS, port, access) == HM_ACCEPTED, "for whom it is");
                check(plain(tool, reports, HM_INPUT_LOAD_START, port, start) == (good ? 0 : refusal), "who starts");
                check(own->alarm == held && reports->count == good + held, "a hand on an AUTO port");
                check(plain(tool, reports, HM_INPUT_LOAD_DONE, port, 0) == (good ? 0u : 5u), "done");
                check(own->held == held && tool->ports[port - 1].pod == (good && !held), "a pod is held");
                check(plain(tool, reports, HM_INPUT_CONTINUE, port, 0) == (held ? 0u : 5u), "continued");
                check(own->alarm == 0 && own->held == 0 && tool->ports[port - 1].pod == good, "a pod stays");
            }
        }
    }
}

static uint32_t give(hm_tool *tool, hm_reports *reports, const uint8_t *name, const uint8_t *codes)
{
    if (for_time_step(&in)) {
        return hm_time_step(tool, reports, in.number, in.clock, name, in.name_length, in.time);
    }
    if (for_wafers(&in)) {
        return hm_wafers(tool, reports, in.clock, name, in.name_length, in.rest.wafers, in.wafers);
    }
    return hm_step(tool, reports, in.number, in.port, in.value, name, in.name_length, codes, in.codes_length);
}

/* What a call is lent, at any distance from a multiple of eight. */
#define APART __attribute__((aligned(8)))

static uint8_t tool_room[sizeof(hm_tool) + 3] APART, reports_room[sizeof(hm_reports) + 3] APART;
static uint8_t codes_room[LONGEST + 3] APART, message_room[LONGEST_MESSAGE + 3] APART; /* a name, and then a message */

/* The same input and the same message to the tool and to a copy at this distance. */
static void at_distance(uint32_t distance, hm_tool *tool, hm_reports *reports)
{
    hm_tool *odd_tool = (hm_tool *)(void *)(tool_room + distance);
    hm_reports *odd_reports = (hm_reports *)(void *)(reports_room + distance);
    uint32_t answer, items, odd_items;

    memcpy(odd_tool, tool, sizeof *tool);
    memcpy(message_room + distance, in.name, in.name_length);
    memcpy(codes_room + distance, in.rest.codes, in.codes_length);
    answer = give(tool, reports, in.name, in.rest.codes);
    check(answer == give(odd_tool, odd_reports, message_room + distance, codes_room + distance),
          "the same answer at every alignment");
    check(memcmp(odd_reports, reports, sizeof *reports) == 0, "the same reports at every alignment");
    memcpy(message_room + distance, sent.bytes, sent.length);
    answer = hm_secs_step(tool, reports, sent.bytes, sent.length, &items);
    check(answer == hm_secs_step(odd_tool, odd_reports, message_room + distance, sent.length, &odd_items),
          "the same answer to a message at every alignment");
    check(memcmp(odd_reports, reports, sizeof *reports) == 0, "the same reports of a message at every alignment");
    check(memcmp(odd_tool, tool, sizeof *tool) == 0 && items == odd_items, "the same tool at every alignment");
}

static void every_alignment(hm_tool *tool, hm_reports *reports)
{
    uint32_t k;
    for (k = 0; k < 1200; k++) {
        if (k % 600 == 0) { /* with a buffer, and without one */
            check(hm_setup(tool, HM_PORTS, k == 0 ? HM_PLACES : 0, SETTING, TIMEOUT) == HM_ACCEPTED, "set up");
        }
        next_input(&in, tool);
        next_message(&sent, &in);
        at_distance(k % 4, tool, reports);
    }
}

#if HALF == 1
static __attribute__((noinline)) void word_at(void *odd)
{
    void *volatile hidden = odd;
    (void)*(volatile uint32_t *)hidden;
}
#endif

int main(void)
{
    static hm_tool tool;
    static hm_reports reports;

    chance_state = 1;
    names();
    waiting_tables(tool.carriers);
    inputs_of_every_length(&tool, &reports);
    times_of_every_length(&tool, &reports);
    wafers_of_every_number(&tool, &reports);
    hands_on_every_port(&tool, &reports);
    cut_messages(&tool, &reports);
    check(hm_tool_size() == sizeof tool && hm_reports_size() == sizeof reports, "sizes");
    every_alignment(&tool, &reports);
#if HALF == 1
    word_at(tool_room + 1);
#endif
    put_words("abi: ");
    put_number(checks);
    put_words(" checks, ");
    put_number(failures);
    put_words(" failed");
    end_line();
    return failures != 0 || checks == 0;
}
