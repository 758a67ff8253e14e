/*
 * Document 01's run to check by hand, through the C interface: every answer and every byte of the reports. Model 8 is
 * request P7's: the tool has no buffer. Its setting time is 0, so that nothing is predicted.
 */
#include "check.h"

struct row {
    uint32_t number, port;
    const char *name;
    uint64_t codes_length;
    uint32_t answer;
    const char *reports; /* as document 01 writes them: model subject old>new; .. */
};

static const struct row rows[] = {
    {1, 1, "AB", 0, 0, "3 1 0>1; 4 1 0>1; 5 AB 0>1; 6 AB 0>1; 7 AB 0>1; 8 AB 0>2"},
    {13, 1, "", 0, 0, "1 1 1>3; 3 1 1>0"},
    {14, 1, "", 0, 0, "none"},
    {16, 1, "AC", 0, 0, "4 1 1>1; 5 AB 1>0; 5 AC 0>2; 6 AB 1>0; 6 AC 0>1; 7 AB 1>0; 7 AC 0>1; 8 AB 2>0; 8 AC 0>2"},
    {19, 0, "AC", 0, 7, "none"},
    {5, 0, "AC", 0, 0, "5 AC 2>3"},
    {19, 0, "AC", 0, 0, "none"},
    {20, 0, "AC", 25, 0, "6 AC 1>2"},
    {21, 0, "AC", 0, 7, "none"},
    {5, 0, "AC", 0, 0, "6 AC 2>3"},
    {21, 0, "AC", 0, 0, "7 AC 1>2; 8 AC 2>1"},
    {6, 0, "AC", 0, 5, "none"},
};

/* The reports that a text of document 01 stands for, all 201 bytes. */
static hm_reports reports_of(const char *text)
{
    hm_reports out;
    unsigned model, old_state, new_state, port;
    char subject[HM_NAME_BYTES + 1];

    memset(&out, 0, sizeof out);
    while (text != NULL && sscanf(text, "%u %16s %u>%u", &model, subject, &old_state, &new_state) == 4) {
        hm_report *r = &out.items[out.count++];
        r->model = (uint8_t)model;
        r->old_state = (uint8_t)old_state;
        r->new_state = (uint8_t)new_state;
        if (model > HM_MODEL_TIE) {
            memcpy(r->name, subject, strlen(subject));
        } else if (sscanf(subject, "%u", &port) == 1) {
            r->port = (uint8_t)port;
        }
        text = strchr(text, ';');
        text = text == NULL ? NULL : text + 1;
    }
    return out;
}

static void play(hm_tool *tool, const struct row *row)
{
    static const uint8_t threes[HM_SLOTS] = {3, 3, 3, 3, 3, 3, 3, 3, 3, 3, 3, 3, 3,
                                             3, 3, 3, 3, 3, 3, 3, 3, 3, 3, 3, 3};
    const hm_tool before = *tool;
    const hm_reports expected = reports_of(row->reports);
    hm_reports reports;
    uint32_t answer;

    memset(&reports, 0xA5, sizeof reports); /* what stood there before must be gone */
    answer = hm_step(tool, &reports, row->number, row->port, 0, (const uint8_t *)row->name, strlen(row->name), threes,
                     row->codes_length);
    printf("%u %u: %u  %s\n", row->number, row->port, answer, row->reports);
    CHECK(answer == row->answer);
    CHECK(memcmp(&reports, &expected, sizeof reports) == 0);
    CHECK(hm_sound(tool) == 1);
    CHECK(answer == 0 || memcmp(tool, &before, sizeof before) == 0);
}

int main(void)
{
    hm_tool tool;
    size_t i;

    CHECK(reports_of(rows[3].reports).count == HM_REPORTS - 1); /* the texts are read to their ends */
    CHECK(hm_setup(&tool, 2, 0, 0, 0) == 0);
    for (i = 0; i < sizeof rows / sizeof rows[0]; i++) {
        play(&tool, &rows[i]);
    }
    CHECK(i == 12);
    return result("twelve");
}
