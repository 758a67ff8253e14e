/*
 * hawsermole_events.h against docs/events.tsv, line by line: the same reports, tables, transitions and events, and no
 * other. Then a few accepted inputs, from their reports to events.
 *   events docs/events.tsv
 */
#include "check.h"
#include "hawsermole_events.h"

/* The numbers of a field, as "10 5" or "-", are those of an entry, zeros after the last. */
static int same_numbers(const uint8_t numbers[3], const char *field)
{
    unsigned i, number, wanted;
    int used;

    for (i = 0; i < 3; i++) {
        wanted = 0;
        if (sscanf(field, "%u%n", &number, &used) == 1) {
            wanted = number;
            field += used;
        }
        if (numbers[i] != wanted) {
            return 0;
        }
    }
    return *field == '\0' || strcmp(field, "-") == 0;
}

static void check_line(const char *line, const hm_event *event)
{
    unsigned input, model, old_state, new_state, table;
    char passed[16], events[16];

    CHECK(sscanf(line, "%u\t%*[^\t]\t%u\t%u\t%u\t%u\t%15[^\t]\t%15[^\t]\t", &input, &model, &old_state, &new_state,
                 &table, passed, events) == 7);
    CHECK(event->input == input && event->model == model && event->table == table);
    CHECK(event->old_state == old_state && event->new_state == new_state);
    CHECK(same_numbers(event->passed, passed) && same_numbers(event->events, events));
}

static void check_table(const char *path)
{
    FILE *file = fopen(path, "r");
    char line[512];
    unsigned lines = 0;

    CHECK(file != NULL);
    while (file != NULL && fgets(line, sizeof line, file) != NULL) {
        if (line[0] != '#' && lines < HM_EVENTS) {
            check_line(line, &hm_events()[lines]);
        }
        lines += line[0] != '#';
    }
    CHECK(lines == HM_EVENTS);
    if (file != NULL) {
        fclose(file);
    }
}

static void check_step(hm_tool *tool, uint32_t input, uint32_t port, const char *name, unsigned first, unsigned last)
{
    hm_reports reports;
    const hm_event *event;

    CHECK(give(tool, &reports, input, port, 0, name) == HM_ACCEPTED && reports.count > 0);
    event = hm_event_of(input, &reports.items[0]);
    CHECK(event != NULL && event->events[0] == first);
    event = hm_event_of(input, &reports.items[reports.count - 1]);
    CHECK(event != NULL && event->passed[0] == last);
}

static void check_steps(void)
{
    static const hm_report bound = {HM_MODEL_ID, 0, {'A'}, HM_NO_STATE, HM_STATUS_NOT_READ};
    hm_report odd = bound;
    hm_tool tool;

    CHECK(hm_setup(&tool, 1, 1, 0, 0) == HM_ACCEPTED);
    check_step(&tool, HM_INPUT_BIND, 1, "A", 2, 17);
    check_step(&tool, HM_INPUT_LOAD_START, 1, "", 6, 3);
    check_step(&tool, HM_INPUT_LOAD_FAIL, 1, "", 10, 10);
    check_step(&tool, HM_INPUT_CANCEL_BIND, 1, "A", 3, 21);
    CHECK(hm_event_of_message(&bound) == hm_event_of(HM_INPUT_BIND, &bound) && hm_event_of_message(&bound) != NULL);
    CHECK(hm_event_of(HM_INPUT_LOAD_DONE, &bound) == NULL && hm_event_of(HM_INPUTS + 1, &bound) == NULL);
    odd.new_state = 5;
    CHECK(hm_event_of(HM_INPUT_BIND, &odd) == NULL && hm_event_of_message(&odd) == NULL);
}

/* Without a buffer: a prediction that waits, and is given up. */
static void check_prediction(void)
{
    static const uint8_t codes[HM_SLOTS] = {HM_CODE_EMPTY};
    hm_tool tool;
    hm_reports reports;
    const hm_event *event;

    CHECK(hm_setup(&tool, 1, 0, 60, 120) == HM_ACCEPTED);
    CHECK(give(&tool, &reports, HM_INPUT_LOAD_START, 1, 0, "") == HM_ACCEPTED);
    CHECK(give(&tool, &reports, HM_INPUT_LOAD_DONE, 1, 0, "") == HM_ACCEPTED);
    check_step(&tool, HM_INPUT_ID_READ, 1, "A", 2, 0); /* a new record has no number in model 8 */
    CHECK(give(&tool, &reports, HM_INPUT_PROCEED_WITH_CARRIER, 1, 0, "A") == HM_ACCEPTED);
    CHECK(give(&tool, &reports, HM_INPUT_OPEN, 0, 0, "A") == HM_ACCEPTED);
    CHECK(hm_step(&tool, &reports, HM_INPUT_SLOT_MAP, 0, 0, BYTES("A"), 1, codes, HM_SLOTS) == HM_ACCEPTED);
    CHECK(give(&tool, &reports, HM_INPUT_PROCEED_WITH_CARRIER, 1, 0, "A") == HM_ACCEPTED);
    check_step(&tool, HM_INPUT_ACCESS_START, 0, "A", 18, 23);
    CHECK(hm_time_step(&tool, &reports, HM_INPUT_NO_PREDICTION, 9, BYTES("A"), 1, 0) == HM_ACCEPTED);
    event = hm_event_of(HM_INPUT_NO_PREDICTION, &reports.items[0]);
    CHECK(event != NULL && event->table == 7 && event->events[0] == 27);
}

/* A hand at a port in AUTO: an alarm is set, which is no transition, beside one that is; and cleared. */
static void check_alarm(void)
{
    hm_tool tool;
    hm_reports reports;
    const hm_event *event;

    CHECK(hm_setup(&tool, 1, 0, 0, 0) == HM_ACCEPTED);
    CHECK(give(&tool, &reports, HM_INPUT_CHANGE_ACCESS, 1, HM_ACCESS_AUTO, "") == HM_ACCEPTED);
    check_step(&tool, HM_INPUT_LOAD_START, 1, "", 6, 0);
    CHECK(give(&tool, &reports, HM_INPUT_LOAD_DONE, 1, 0, "") == HM_ACCEPTED && reports.count == 0);
    CHECK(give(&tool, &reports, HM_INPUT_CONTINUE, 1, 0, "") == HM_ACCEPTED && reports.count == 1);
    event = hm_event_of(HM_INPUT_CONTINUE, &reports.items[0]);
    CHECK(event != NULL && event->model == HM_MODEL_ALARM && event->table == 38 && event->events[0] == 0);
}

int main(int count, char **words)
{
    if (count != 2) {
        fprintf(stderr, "usage: events events.tsv\n");
        return 2;
    }
    check_table(words[1]);
    check_steps();
    check_prediction();
    check_alarm();
    return result("events");
}
