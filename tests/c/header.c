/* The header by its names, as C99, C11 and C++17: the documents' numbers, and all inputs played by name. */
#include "check.h"

/* A run can't tell these numbers from each other or doesn't reach them, so they are held against the documents here. */
HM_HOLDS(limits_of_a_tool, HM_PORTS == 4 && HM_PLACES == 16 && HM_EXPECTED == 16 && HM_RECORDS == 36);
HM_HOLDS(limits_of_an_input, HM_INPUTS == 36 && HM_SLOTS == 25 && HM_REPORTS == 10 && HM_NAME_BYTES == 16);
HM_HOLDS(records_at_once, HM_RECORDS == HM_EXPECTED + HM_PLACES + HM_PORTS);
HM_HOLDS(bytes_of_a_name, HM_NAME_BYTE_LEAST == 0x21 && HM_NAME_BYTE_GREATEST == 0x7E);
HM_HOLDS(bytes_of_a_text, HM_TEXT_BYTES == 32 && HM_BLANK == 0x20 && HM_BLANK < HM_NAME_BYTE_LEAST);
HM_HOLDS(models_of_ports, HM_MODEL_TRANSFER == 1 && HM_MODEL_ACCESS == 2 && HM_MODEL_RESERVATION == 3);
HM_HOLDS(more_models_of_ports, HM_MODEL_TIE == 4 && HM_MODEL_ALARM == 9);
HM_HOLDS(models_of_carriers, HM_MODEL_ID == 5 && HM_MODEL_SLOT == 6 && HM_MODEL_ACCESSING == 7);
HM_HOLDS(last_model_of_carriers, HM_MODEL_PREDICTION == 8);
HM_HOLDS(ends, HM_INPUT_BIND == 1 && HM_INPUT_UNLOAD_FAIL == 26 && HM_REFUSED_PLACE_OR_OPENER_TAKEN == 8);
HM_HOLDS(inputs_of_the_queue, HM_INPUT_OUT_START == 27 && HM_INPUT_CANCEL_ALL_CARRIER_OUT == 30);
HM_HOLDS(inputs_with_a_clock, HM_INPUT_CLOCK == 31 && HM_INPUT_PREDICTED_TIME == 32 && HM_INPUT_ESTIMATE == 33);
HM_HOLDS(last_with_a_time, HM_INPUT_NO_PREDICTION == 34 && HM_REFUSED_CLOCK_EARLIER == 11);
HM_HOLDS(input_with_wafers, HM_INPUT_WAFERS == 35 && HM_REFUSED_TIME_OUT_OF_RANGE == 12);
HM_HOLDS(last_input, HM_INPUT_CONTINUE == HM_INPUTS && HM_REFUSED_AUTOMATIC_IN_MANUAL == 13);
HM_HOLDS(who_starts, HM_START_MANUAL == 0 && HM_START_AUTOMATIC == 1);
HM_HOLDS(alarm_and_held, HM_ALARM_OFF == 0 && HM_ALARM_ON == 1 && HM_NOT_HELD == 0 && HM_HELD == 1);
HM_HOLDS(wafers, HM_WAFERS == 25 && HM_WAFER_PARTS == 1024 && HM_WAFER_SECONDS == 1048576);
HM_HOLDS(states_before_tp, HM_PREDICTION_DISABLED == 1 && HM_PREDICTION_WAITING_FOR_CARRIER == 2);
HM_HOLDS(states_with_tp, HM_PREDICTION_WAITING_FOR_PREDICTION == 3 && HM_PREDICTION_PREDICTED == 4);
HM_HOLDS(states_after_tp, HM_PREDICTION_ABORTED == 5 && HM_PREDICTION_COMPLETED == 6);
HM_HOLDS(a_day, HM_SECONDS_GREATEST == 24 * 60 * 60);
HM_HOLDS(the_queue, HM_REQUESTS == 16 && HM_REFUSED_QUEUE_FULL == 9 && HM_REFUSED_QUEUED_ALREADY == 10);
HM_HOLDS(codes, HM_CODE_UNDEFINED == 0 && HM_CODE_EMPTY == 1 && HM_CODE_NOT_EMPTY == 2);
HM_HOLDS(more_codes, HM_CODE_CORRECTLY_OCCUPIED == 3 && HM_CODE_DOUBLE_SLOTTED == 4 && HM_CODE_CROSS_SLOTTED == 5);
HM_HOLDS(greatest_code, HM_CODE_CROSS_SLOTTED == HM_CODE_GREATEST);
HM_HOLDS(limits_of_a_message, HM_SECS_ITEMS == 128 && HM_SECS_DEPTH == 6);
HM_HOLDS(refusals_at_an_item, HM_REFUSED_CUT_SHORT == 20 && HM_REFUSED_UNKNOWN_CODE == 21);
HM_HOLDS(more_at_an_item, HM_REFUSED_BAD_LENGTH == 22 && HM_REFUSED_TOO_DEEP == 23 && HM_REFUSED_TOO_MANY_ITEMS == 24);
HM_HOLDS(refusals_of_a_message, HM_REFUSED_BYTES_LEFT_OVER == 25 && HM_REFUSED_SHAPE_OR_ACTION == 26);
HM_HOLDS(a_reply, HM_REPLY_ROOM == 15 + 80 && HM_REFUSED_ROOM_TOO_SMALL == 14);
HM_HOLDS(refusals_of_a_log, HM_REFUSED_MARK_OR_VERSION == 27 && HM_REFUSED_SET_UP == 28);
HM_HOLDS(verdicts, HM_LOG_AGREES == 0 && HM_LOG_ENTRY_DISAGREES == 1 && HM_REFUSED_LOG_CUT_SHORT == 29);
HM_HOLDS(bytes_of_document_01, HM_TOOL_01_BYTES == 1891);
HM_HOLDS(bytes_of_a_tool, HM_TOOL_BYTES == 2 * 1891);
HM_HOLDS(bytes_to_spare, HM_SPARE_BYTES == 1891 - HM_RECORDS * HM_SLOTS - 1 - HM_REQUESTS * sizeof(hm_request) -
                                             3 * sizeof(hm_time) - HM_RECORDS * sizeof(hm_prediction) -
                                             HM_PORTS * sizeof(hm_hands));
HM_HOLDS(bytes_of_reports, HM_REPORTS_BYTES == 1 + HM_REPORTS * sizeof(hm_report));

static hm_tool tool;
static hm_reports reports;
static const hm_port *const one = &tool.ports[0];
static const hm_carrier *const first = &tool.carriers[0];

#define GIVE(number, port, value, name) give(&tool, &reports, (number), (port), (value), (name))
#define ACCEPTED(number, port, value, name) CHECK(GIVE(number, port, value, name) == HM_ACCEPTED)

static void set_up(void)
{
    const uint32_t most = HM_SECONDS_GREATEST;

    CHECK(hm_version() == HM_VERSION && hm_tool_size() == sizeof tool && hm_reports_size() == sizeof reports);
    CHECK(hm_setup(&tool, HM_PORTS + 1, 0, 0, 0) == HM_REFUSED_OUT_OF_RANGE && !hm_sound(&tool) && tool.used == 0);
    CHECK(hm_setup(&tool, 1, HM_PLACES + 1, 0, 0) == HM_REFUSED_OUT_OF_RANGE && !hm_sound(&tool));
    CHECK(hm_setup(&tool, 1, 0, most + 1, most) == HM_REFUSED_OUT_OF_RANGE && !hm_sound(&tool) && tool.used == 0);
    CHECK(hm_setup(&tool, 1, 0, most, most + 1) == HM_REFUSED_OUT_OF_RANGE && !hm_sound(&tool));
    CHECK(GIVE(HM_INPUT_LOAD_START, 1, 0, "") == HM_REFUSED_OUT_OF_RANGE);
    CHECK(hm_setup(&tool, HM_PORTS, HM_PLACES, 0, 0) == HM_ACCEPTED && hm_sound(&tool) == 1);
    CHECK(tool.used == HM_PORTS && tool.places == HM_PLACES && tool.count == 0);
    CHECK(one->transfer == HM_TRANSFER_READY_TO_LOAD && one->access == HM_ACCESS_MANUAL);
    CHECK(one->reserved == HM_NOT_RESERVED && is_name(one->tie, "") && one->movement == HM_MOVEMENT_NONE);
    CHECK(one->pod == HM_NO_POD && one->tag == HM_TAG_UNREAD);
}

static void bookings_and_service(void)
{
    ACCEPTED(HM_INPUT_BIND, 1, 0, "A");
    CHECK(one->reserved == HM_RESERVED && is_name(one->tie, "A") && first->place == HM_PLACE_EXPECTED);
    CHECK(reports.count == 5 && reports.items[1].model == HM_MODEL_TIE && reports.items[1].port == 1);
    CHECK(reports.items[1].old_state == HM_NOT_TIED && reports.items[1].new_state == HM_TIED);
    CHECK(reports.items[2].model == HM_MODEL_ID && is_name(reports.items[2].name, "A"));
    CHECK(reports.items[2].old_state == HM_NO_STATE && reports.items[2].new_state == HM_STATUS_NOT_READ);
    ACCEPTED(HM_INPUT_CANCEL_BIND, HM_PORT_NOT_GIVEN, 0, "A");
    CHECK(tool.count == 0 && one->reserved == HM_NOT_RESERVED);
    ACCEPTED(HM_INPUT_CARRIER_NOTIFICATION, 0, 0, "A");
    CHECK(tool.count == 1 && is_name(first->name, "A") && first->port == 0);
    ACCEPTED(HM_INPUT_CANCEL_CARRIER_NOTIFICATION, 0, 0, "A");
    CHECK(tool.count == 0);
    ACCEPTED(HM_INPUT_CHANGE_ACCESS, 1, HM_ACCESS_AUTO, "");
    CHECK(one->access == HM_ACCESS_AUTO && reports.items[0].model == HM_MODEL_ACCESS);
    ACCEPTED(HM_INPUT_CHANGE_SERVICE_STATUS, 1, HM_SERVICE_OUT, "");
    CHECK(one->transfer == HM_TRANSFER_OUT_OF_SERVICE && reports.items[0].model == HM_MODEL_TRANSFER);
    ACCEPTED(HM_INPUT_CHANGE_SERVICE_STATUS, 1, HM_SERVICE_IN, "");
    CHECK(one->transfer == HM_TRANSFER_READY_TO_LOAD);
    ACCEPTED(HM_INPUT_RESERVE_AT_PORT, 1, 0, "");
    CHECK(one->reserved == HM_RESERVED && reports.items[0].model == HM_MODEL_RESERVATION);
    ACCEPTED(HM_INPUT_CANCEL_RESERVATION_AT_PORT, 1, 0, "");
    CHECK(one->reserved == HM_NOT_RESERVED);
}

static void a_pod_comes_in(void)
{
    hm_found found;

    ACCEPTED(HM_INPUT_LOAD_START, 1, HM_START_AUTOMATIC, "");
    CHECK(one->transfer == HM_TRANSFER_BLOCKED && one->movement == HM_MOVEMENT_LOADING);
    ACCEPTED(HM_INPUT_LOAD_FAIL, 1, 0, "");
    CHECK(one->transfer == HM_TRANSFER_READY_TO_LOAD && one->movement == HM_MOVEMENT_NONE);
    ACCEPTED(HM_INPUT_LOAD_START, 1, HM_START_MANUAL, "");
    CHECK(reports.items[1].model == HM_MODEL_ALARM && reports.items[1].new_state == HM_ALARM_ON);
    CHECK(tool.hands[0].alarm == HM_ALARM_ON && tool.hands[0].held == HM_NOT_HELD);
    ACCEPTED(HM_INPUT_LOAD_DONE, 1, 0, "");
    CHECK(tool.hands[0].held == HM_HELD && one->pod == HM_NO_POD && one->movement == HM_MOVEMENT_LOADING);
    ACCEPTED(HM_INPUT_CONTINUE, 1, 0, "");
    CHECK(tool.hands[0].alarm == HM_ALARM_OFF && tool.hands[0].held == HM_NOT_HELD && reports.count == 1);
    CHECK(one->pod == HM_POD_PRESENT && one->tag == HM_TAG_UNREAD);
    ACCEPTED(HM_INPUT_ID_READ, 1, 0, "A");
    CHECK(one->tag == HM_TAG_READ && first->place == HM_PLACE_PORT && first->port == 1);
    CHECK(first->id == HM_STATUS_WAITING_FOR_HOST && first->slot == HM_STATUS_NOT_READ);
    CHECK(hm_waiting(tool.carriers, tool.count, &found) == 1 && found.position == 0 && found.read == 1);
    ACCEPTED(HM_INPUT_PROCEED_WITH_CARRIER, HM_PORT_NOT_GIVEN, 0, "A");
    CHECK(first->id == HM_STATUS_OK);
    CHECK(hm_waiting(tool.carriers, tool.count, &found) == 0 && found.position == 1 && found.read == 1);
    ACCEPTED(HM_INPUT_MOVE_IN, 1, HM_PLACES, "");
    CHECK(first->place == HM_PLACE_BUFFER && first->spot == HM_PLACES && first->port == 0);
}

static void a_pod_is_worked_on(uint32_t end, uint8_t ended)
{
    static const uint8_t codes[HM_SLOTS] = {0, 1, 2, 3, 4, 5, 0, 1, 2, 3, 4, 5, 0, 1, 2, 3, 4, 5, 0, 1, 2, 3, 4, 5, 0};

    ACCEPTED(HM_INPUT_OPEN, 0, 0, "A");
    CHECK(first->open == 1);
    CHECK(hm_step(&tool, &reports, HM_INPUT_SLOT_MAP, 0, 0, BYTES("A"), 1, codes, HM_SLOTS) == HM_ACCEPTED);
    CHECK(memcmp(first->map, codes, HM_SLOTS) == 0 && first->slot == HM_STATUS_WAITING_FOR_HOST);
    CHECK(reports.items[0].model == HM_MODEL_SLOT);
    ACCEPTED(HM_INPUT_PROCEED_WITH_CARRIER, HM_PORT_NOT_GIVEN, 0, "A");
    CHECK(first->slot == HM_STATUS_OK && first->accessing == HM_ACCESSING_NOT_ACCESSED);
    ACCEPTED(HM_INPUT_ACCESS_START, 0, 0, "A");
    CHECK(first->accessing == HM_ACCESSING_IN_ACCESS && reports.items[0].model == HM_MODEL_ACCESSING);
    ACCEPTED(HM_INPUT_ACCESS_END, 0, end, "A");
    CHECK(first->accessing == ended);
    ACCEPTED(HM_INPUT_CLOSE, 0, 0, "A");
    CHECK(first->open == 0);
}

static void a_pod_goes_out(void)
{
    ACCEPTED(HM_INPUT_CARRIER_OUT, 1, 0, "A");
    CHECK(tool.queued == 1 && is_name(tool.queue[0].name, "A") && tool.queue[0].started == HM_NOT_STARTED);
    ACCEPTED(HM_INPUT_CANCEL_CARRIER_OUT, 0, 0, "A");
    CHECK(tool.queued == 0);
    ACCEPTED(HM_INPUT_CARRIER_OUT, 2, 0, "A");
    ACCEPTED(HM_INPUT_CANCEL_ALL_CARRIER_OUT, 0, 0, "");
    CHECK(tool.queued == 0);
    ACCEPTED(HM_INPUT_CARRIER_OUT, 1, 0, "A");
    CHECK(GIVE(HM_INPUT_CARRIER_OUT, 2, 0, "A") == HM_REFUSED_QUEUED_ALREADY && tool.queue[0].port == 1);
    ACCEPTED(HM_INPUT_OUT_START, 1, 0, "");
    CHECK(tool.queue[0].started == HM_STARTED && one->reserved == HM_RESERVED && first->place == HM_PLACE_BUFFER);
    ACCEPTED(HM_INPUT_OUT_DONE, 1, 0, "");
    CHECK(tool.queued == 0 && one->transfer == HM_TRANSFER_READY_TO_UNLOAD && first->came_out == 1);
    ACCEPTED(HM_INPUT_CARRIER_IN, 0, 0, "A");
    CHECK(one->transfer == HM_TRANSFER_BLOCKED && first->came_out == 0);
    ACCEPTED(HM_INPUT_CANCEL_CARRIER, 1, 0, "A");
    CHECK(one->transfer == HM_TRANSFER_READY_TO_UNLOAD && first->cancelled == 1);
    ACCEPTED(HM_INPUT_UNLOAD_START, 1, HM_START_MANUAL, "");
    CHECK(one->movement == HM_MOVEMENT_UNLOADING && tool.hands[0].alarm == HM_ALARM_ON);
    ACCEPTED(HM_INPUT_UNLOAD_FAIL, 1, 0, "");
    CHECK(one->movement == HM_MOVEMENT_NONE && one->transfer == HM_TRANSFER_READY_TO_UNLOAD);
    ACCEPTED(HM_INPUT_UNLOAD_START, 1, HM_START_AUTOMATIC, "");
    CHECK(tool.hands[0].alarm == HM_ALARM_ON);
    ACCEPTED(HM_INPUT_UNLOAD_DONE, 1, 0, "");
    CHECK(one->pod == HM_NO_POD && tool.count == 0 && tool.hands[0].alarm == HM_ALARM_OFF);
}

static void a_pod_without_a_name(void)
{
    ACCEPTED(HM_INPUT_LOAD_START, 1, HM_START_AUTOMATIC, "");
    ACCEPTED(HM_INPUT_LOAD_DONE, 1, 0, "");
    ACCEPTED(HM_INPUT_ID_READ_FAILED, 1, 0, "");
    CHECK(one->tag == HM_TAG_FAILED);
    ACCEPTED(HM_INPUT_CANCEL_CARRIER, 1, 0, "Y");
    CHECK(first->id == HM_STATUS_FAILED && is_name(one->tie, "Y"));
}

static void names(void)
{
    const uint32_t notify = HM_INPUT_CARRIER_NOTIFICATION;
    uint8_t text[HM_TEXT_BYTES];

    memset(text, HM_BLANK, sizeof text);
    CHECK(hm_name(HM_NOTHING, 0) == 0 && hm_name(text, HM_TEXT_BYTES) == 0);
    text[0] = HM_NAME_BYTE_LEAST;
    CHECK(hm_name(text, HM_TEXT_BYTES) == 1);
    memset(text, HM_NAME_BYTE_GREATEST, HM_NAME_BYTES);
    CHECK(hm_name(text, HM_TEXT_BYTES) == HM_NAME_BYTES && hm_name(text, HM_NAME_BYTES) == HM_NAME_BYTES);
    CHECK(hm_step(&tool, &reports, notify, 0, 0, text, HM_TEXT_BYTES, HM_NOTHING, 0) == HM_ACCEPTED);
    CHECK(memcmp(reports.items[0].name, text, HM_NAME_BYTES) == 0);
}

/* The text of S3F17, CarrierNotification of a name of one byte. */
static uint8_t notify[] = {0x01, 5, 0xA5, 1, 0, 0x41, 19, 'C', 'a', 'r', 'r', 'i', 'e', 'r', 'N', 'o', 't',
                           'i', 'f', 'i', 'c', 'a', 't', 'i', 'o', 'n', 0x41, 1, '?', 0xA5, 1, 9, 0x01, 0};
#define NAME_AT 28

static void messages(void)
{
    uint32_t items = 0;
    const uint8_t records = tool.count;

    notify[NAME_AT] = 'M';
    CHECK(hm_secs_step(&tool, &reports, notify, sizeof notify, &items) == HM_ACCEPTED && items == 6);
    CHECK(tool.count == records + 1 && reports.count == 3 && is_name(reports.items[0].name, "M"));
    CHECK(hm_secs_at(notify, sizeof notify) == sizeof notify);
    CHECK(hm_secs_step(&tool, &reports, notify, sizeof notify, &items) == HM_REFUSED_NAME_TAKEN && items == 6);
    CHECK(hm_secs_step(&tool, &reports, notify, 5, &items) == HM_REFUSED_CUT_SHORT && items == 2);
    CHECK(hm_secs_at(notify, 5) == 5 && hm_secs_at(HM_NOTHING, 0) == 0 && reports.count == 0);
    CHECK(hm_secs_step(&tool, &reports, HM_NOTHING, 0, &items) == HM_REFUSED_CUT_SHORT && items == 0);
}

static void replies(void)
{
    static const uint8_t accepted[] = {0x01, 2, 0xA5, 1, 0, 0x01, 0};
    const uint8_t records = tool.count;
    uint8_t room[HM_REPLY_ROOM], other[HM_REPLY_ROOM];
    uint32_t items = 0, length = 1, other_length = 1;

    notify[NAME_AT] = 'R';
    CHECK(hm_reply(HM_ACCEPTED, room, sizeof accepted - 1, &length) == HM_REFUSED_ROOM_TOO_SMALL && length == 0);
    CHECK(hm_reply(HM_ACCEPTED, room, sizeof accepted, &length) == HM_ACCEPTED && length == sizeof accepted);
    CHECK(memcmp(room, accepted, sizeof accepted) == 0);
    CHECK(hm_secs_exchange(&tool, &reports, notify, sizeof notify, &items, room, sizeof accepted - 1, &length) ==
              HM_REFUSED_ROOM_TOO_SMALL && items == 6 && length == 0 && tool.count == records && reports.count == 0);
    CHECK(hm_secs_exchange(&tool, &reports, notify, sizeof notify, &items, room, sizeof room, &length) == HM_ACCEPTED);
    CHECK(items == 6 && tool.count == records + 1 && reports.count == 3 && length == sizeof accepted);
    CHECK(memcmp(room, accepted, sizeof accepted) == 0);
    CHECK(hm_secs_exchange(&tool, &reports, notify, sizeof notify, &items, room, sizeof room, &length) ==
          HM_REFUSED_NAME_TAKEN);
    CHECK(hm_reply(HM_REFUSED_NAME_TAKEN, other, sizeof other, &other_length) == HM_ACCEPTED);
    CHECK(length == other_length && memcmp(room, other, length) == 0 && room[4] == 5 && room[12] == 3);
}

static void logs(void)
{
    static const uint8_t log[] = {'C', 'M', 'T', 0, 1, 1, 0, HM_INPUT_OPEN, 0, 0, 1, 'A', HM_REFUSED_NO_RECORD, 0};
    hm_tool_01 base;
    hm_judged judged;

    CHECK(hm_judge(log, sizeof log, &base, &reports, &judged) == HM_LOG_AGREES && judged.entry == 1);
    CHECK(judged.at == sizeof log && judged.answer == HM_REFUSED_NO_RECORD && base.used == 1 && reports.count == 0);
    CHECK(hm_judge(HM_NOTHING, 0, &base, &reports, &judged) == HM_REFUSED_LOG_CUT_SHORT && base.used == 0);
}

static void refusals(void)
{
    char name[2] = "a";
    unsigned i;

    CHECK(hm_setup(&tool, 2, 1, 0, 0) == HM_ACCEPTED);
    CHECK(GIVE(HM_INPUT_LOAD_START, 3, 0, "") == HM_REFUSED_OUT_OF_RANGE);
    CHECK(GIVE(HM_INPUT_OPEN, 0, 0, "Z") == HM_REFUSED_NO_RECORD);
    for (i = 0; i < HM_EXPECTED; i++, name[0]++) {
        ACCEPTED(HM_INPUT_CARRIER_NOTIFICATION, 0, 0, name);
    }
    CHECK(GIVE(HM_INPUT_CARRIER_NOTIFICATION, 0, 0, "a") == HM_REFUSED_NAME_TAKEN);
    CHECK(GIVE(HM_INPUT_CARRIER_NOTIFICATION, 0, 0, name) == HM_REFUSED_EXPECTED_FULL);
    ACCEPTED(HM_INPUT_RESERVE_AT_PORT, 1, 0, "");
    CHECK(GIVE(HM_INPUT_RESERVE_AT_PORT, 1, 0, "") == HM_REFUSED_RESERVED_OR_TIED);
    CHECK(GIVE(HM_INPUT_LOAD_DONE, 1, 0, "") == HM_REFUSED_CONDITIONS);
    CHECK(GIVE(HM_INPUT_LOAD_START, 1, HM_START_AUTOMATIC, "") == HM_REFUSED_AUTOMATIC_IN_MANUAL);
    ACCEPTED(HM_INPUT_LOAD_START, 1, HM_START_MANUAL, "");
    ACCEPTED(HM_INPUT_LOAD_DONE, 1, 0, "");
    CHECK(GIVE(HM_INPUT_MOVE_IN, 1, 1, "") == HM_REFUSED_NOT_VERIFIED);
    ACCEPTED(HM_INPUT_ID_READ, 1, 0, "a");
    ACCEPTED(HM_INPUT_MOVE_IN, 1, 1, "");
    ACCEPTED(HM_INPUT_LOAD_START, 1, 0, "");
    ACCEPTED(HM_INPUT_LOAD_DONE, 1, 0, "");
    ACCEPTED(HM_INPUT_ID_READ, 1, 0, "b");
    CHECK(GIVE(HM_INPUT_MOVE_IN, 1, 1, "") == HM_REFUSED_PLACE_OR_OPENER_TAKEN && reports.count == 0);
}

#define TIMED(number, clock, name, time) \
    hm_time_step(&tool, &reports, (number), (clock), BYTES(name), strlen(name), (time))

/* A fixed buffer tool: the carrier is predicted, late, and away. Its wafers are told of to a copy. */
static void predictions(void)
{
    static const uint8_t codes[HM_SLOTS] = {HM_CODE_EMPTY};
    const hm_prediction *const own = &tool.predictions[0];
    const hm_wafer wafers[] = {{90.5, 12.25}, {90.5, 12.25}};
    hm_tool copy;

    CHECK(hm_setup(&tool, 1, 0, 60, HM_SECONDS_GREATEST) == HM_ACCEPTED && hm_seconds(&tool.clock) == 0);
    CHECK(hm_seconds(&tool.setting) == 60 && hm_seconds(&tool.timeout) == 86400);
    ACCEPTED(HM_INPUT_LOAD_START, 1, 0, "");
    CHECK(hm_pods_here(&tool) == 0);
    ACCEPTED(HM_INPUT_LOAD_DONE, 1, 0, "");
    CHECK(hm_pods_here(&tool) == 1);
    ACCEPTED(HM_INPUT_ID_READ, 1, 0, "A");
    CHECK(own->state == HM_PREDICTION_WAITING_FOR_CARRIER && own->has_predicted == 0 && own->has_estimate == 0);
    CHECK(reports.count == 5 && reports.items[4].model == HM_MODEL_PREDICTION && is_name(reports.items[4].name, "A"));
    ACCEPTED(HM_INPUT_PROCEED_WITH_CARRIER, 1, 0, "A");
    ACCEPTED(HM_INPUT_OPEN, 0, 0, "A");
    CHECK(hm_step(&tool, &reports, HM_INPUT_SLOT_MAP, 0, 0, BYTES("A"), 1, codes, HM_SLOTS) == HM_ACCEPTED);
    ACCEPTED(HM_INPUT_PROCEED_WITH_CARRIER, 1, 0, "A");
    ACCEPTED(HM_INPUT_ACCESS_START, 0, 0, "A");
    CHECK(own->state == HM_PREDICTION_WAITING_FOR_PREDICTION);
    copy = tool;
    CHECK(hm_wafers(&copy, &reports, 1000, BYTES("A"), 1, wafers, 2) == HM_ACCEPTED && reports.count == 0);
    CHECK(hm_seconds(&copy.clock) == 1000 && hm_seconds(&copy.predictions[0].predicted) == 1206);
    CHECK(hm_wafers(&copy, &reports, 1000, BYTES("A"), 1, NULL, 0) == HM_REFUSED_CONDITIONS);
    CHECK(TIMED(HM_INPUT_PREDICTED_TIME, 0x01020304, "A", 0x05060708) == HM_ACCEPTED && reports.count == 0);
    CHECK(own->has_predicted == 1 && hm_seconds(&own->predicted) == 0x05060708);
    CHECK(hm_seconds(&tool.clock) == 0x01020304 && tool.clock.bytes[0] == 4 && tool.clock.bytes[3] == 1);
    CHECK(TIMED(HM_INPUT_CLOCK, 0x01020303, "", 0) == HM_REFUSED_CLOCK_EARLIER);
    CHECK(TIMED(HM_INPUT_CLOCK, 0x05060708 - 60, "", 0) == HM_ACCEPTED && own->state == HM_PREDICTION_PREDICTED);
    CHECK(TIMED(HM_INPUT_ESTIMATE, 0x05060708, "A ", 0x05060708 + 86400) == HM_ACCEPTED);
    CHECK(own->has_estimate == 1 && hm_seconds(&own->estimate) == 0x05060708 + 86400);
    CHECK(own->state == HM_PREDICTION_ABORTED && reports.count == 1);
    CHECK(TIMED(HM_INPUT_NO_PREDICTION, 0x05060708, "A", 0) == HM_REFUSED_CONDITIONS);
    ACCEPTED(HM_INPUT_ACCESS_END, 0, HM_ACCESS_END_COMPLETE, "A");
    ACCEPTED(HM_INPUT_CLOSE, 0, 0, "A");
    CHECK(own->state == HM_PREDICTION_COMPLETED && reports.count == 2 && reports.items[1].old_state == 5);
}

int main(void)
{
    set_up();
    bookings_and_service();
    a_pod_comes_in();
    a_pod_is_worked_on(HM_ACCESS_END_COMPLETE, HM_ACCESSING_COMPLETE);
    a_pod_goes_out();
    a_pod_comes_in();
    a_pod_is_worked_on(HM_ACCESS_END_STOPPED, HM_ACCESSING_STOPPED);
    a_pod_goes_out();
    a_pod_without_a_name();
    names();
    messages();
    replies();
    logs();
    refusals();
    predictions();
    return result("header");
}
