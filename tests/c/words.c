/*
 * hawsermole_words.h, as C99, C11 and C++17 without an old cast: every word printed, to be held against words.txt,
 * which the Rust crate is held to as well; and carriers by name.
 */
#include "check.h"
#include "hawsermole_words.h"

/* Each table to one number past its last word. */
static void print(const char *what, const char *(*text)(uint32_t), uint32_t first, uint32_t last)
{
    uint32_t number;
    for (number = first; number <= last; number++) {
        printf("%s %u: %s\n", what, number, text(number));
    }
}

static void print_all(void)
{
    uint32_t model, state;

    print("answer", hm_answer_text, 0, 27);
    print("verdict", hm_verdict_text, 0, 30);
    print("input", hm_input_text, 0, 37);
    print("model", hm_model_text, 0, 10);
    for (model = HM_MODEL_TRANSFER; model <= HM_MODEL_ALARM; model++) {
        for (state = 0; state <= 7; state++) {
            printf("state %u %u: %s\n", model, state, hm_state_text(model, state));
        }
    }
    print("movement", hm_movement_text, 0, 3);
    print("tag", hm_tag_text, 0, 3);
    print("place", hm_place_text, 0, 3);
    print("request", hm_started_text, 0, 2);
    print("start", hm_start_text, 0, 2);
    print("held", hm_held_text, 0, 2);
    print("code", hm_code_text, 0, 6);
}

static void far_numbers(void)
{
    const char *out = "out of range";

    CHECK(strcmp(hm_answer_text(UINT32_MAX), out) == 0 && strcmp(hm_answer_text(256 + 7), out) == 0);
    CHECK(strcmp(hm_input_text(UINT32_MAX), out) == 0 && strcmp(hm_model_text(UINT32_MAX), out) == 0);
    CHECK(strcmp(hm_state_text(0, 0), out) == 0 && strcmp(hm_state_text(UINT32_MAX, 0), out) == 0);
    CHECK(strcmp(hm_state_text(HM_MODEL_ID, 257), out) == 0 && strcmp(hm_code_text(UINT32_MAX), out) == 0);
    CHECK(strcmp(hm_started_text(UINT32_MAX), out) == 0 && strcmp(hm_start_text(256), out) == 0);
    CHECK(strcmp(hm_held_text(UINT32_MAX), out) == 0 && strcmp(hm_state_text(HM_MODEL_ALARM, 257), out) == 0);
}

static void carriers_by_name(void)
{
    static hm_tool tool;
    static hm_reports reports;
    static const char full[] = "SIXTEEN-BYTES-16", almost[] = "SIXTEEN-BYTES-1", padded[] = "AB      ";

    CHECK(hm_setup(&tool, 1, 0, 0, 0) == HM_ACCEPTED && hm_find(&tool, BYTES("AB"), 2) == NULL);
    CHECK(give(&tool, &reports, HM_INPUT_CARRIER_NOTIFICATION, 0, 0, "A") == HM_ACCEPTED);
    CHECK(give(&tool, &reports, HM_INPUT_CARRIER_NOTIFICATION, 0, 0, full) == HM_ACCEPTED);
    CHECK(give(&tool, &reports, HM_INPUT_CARRIER_NOTIFICATION, 0, 0, padded) == HM_ACCEPTED);
    CHECK(hm_find(&tool, BYTES("A"), 1) == &tool.carriers[0]);
    CHECK(hm_find(&tool, BYTES(full), 16) == &tool.carriers[1] && hm_find(&tool, BYTES(almost), 15) == NULL);
    CHECK(hm_find(&tool, BYTES("AB"), 2) == &tool.carriers[2]);
    CHECK(hm_find(&tool, BYTES(padded), 8) == &tool.carriers[2]);
    CHECK(hm_find(&tool, tool.carriers[2].name, 2) == &tool.carriers[2]);
    CHECK(hm_find(&tool, BYTES("B"), 1) == NULL && hm_find(&tool, BYTES("ABC"), 3) == NULL);
    CHECK(hm_find(&tool, HM_NOTHING, 0) == NULL && hm_find(&tool, BYTES(" A"), 2) == NULL);
    CHECK(hm_find_prediction(&tool, BYTES(padded), 8) == &tool.predictions[2]);
    CHECK(hm_find_prediction(&tool, BYTES(almost), 15) == NULL);
    CHECK(hm_find_prediction(&tool, BYTES(full), 16)->state == HM_PREDICTION_WAITING_FOR_CARRIER);
    /* A damaged count is followed no further than the table. */
    tool.count = 255;
    CHECK(hm_find(&tool, BYTES("ABC"), 3) == NULL && hm_find(&tool, BYTES("A"), 1) == &tool.carriers[0]);
    CHECK(hm_find_prediction(&tool, BYTES("ABC"), 3) == NULL);
    /* A tool with a buffer predicts nothing. */
    CHECK(hm_setup(&tool, 1, 1, 60, 120) == HM_ACCEPTED);
    CHECK(give(&tool, &reports, HM_INPUT_CARRIER_NOTIFICATION, 0, 0, "A") == HM_ACCEPTED);
    CHECK(hm_find(&tool, BYTES("A"), 1) != NULL && hm_find_prediction(&tool, BYTES("A"), 1) == NULL);
}

int main(void)
{
    print_all();
    far_numbers();
    carriers_by_name();
    return result("words");
}
