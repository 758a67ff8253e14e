/*
 * Names padded with blanks (request P4) through the C interface: what hm_name gives by each clause of the rule, and a
 * run of all rows that is the same for plain and for padded names. Every text is lent to the byte, so that one read
 * too far is seen.
 */
#define _DEFAULT_SOURCE
#include "check.h"
#include "lend.h"

#define LONGEST 1000

static struct room room;
static hm_tool tool;
static hm_reports reports;

/* What hm_name gives, wherever the text stands; it stays as it was. */
static uint32_t name_of(const uint8_t *text, size_t length)
{
    uint32_t first = 0, given;
    int placing;

    for (placing = 0; placing < PLACINGS; placing++) {
        struct lent lent = lend(&room, (enum placing)placing, text, length);
        given = hm_name(lent.readable, length);
        first = placing == 0 ? given : first;
        if (given != first || memcmp(lent.readable, text, length) != 0 || !give_back(&lent)) {
            CHECK(!"the same name in every place, and the text as it was");
        }
    }
    return first;
}

/* Letters, then blanks, up to 40 of each. */
static void trailing_blanks_are_dropped(void)
{
    uint8_t text[80];
    uint32_t letters, blanks, name;

    for (letters = 0; letters <= 40; letters++) {
        for (blanks = 0; blanks <= 40; blanks++) {
            name = letters >= 1 && letters <= 16 && letters + blanks <= 32 ? letters : 0;
            memset(text, 'A', letters);
            memset(text + letters, HM_BLANK, blanks);
            CHECK(name_of(text, letters + blanks) == name);
        }
    }
}

/* One letter and blanks: 32 bytes are judged before blanks are dropped, and no length is cut to fewer bits. */
static void long_texts_are_refused(void)
{
    uint8_t text[LONGEST];
    uint32_t length;

    memset(text, HM_BLANK, sizeof text);
    text[0] = 'A';
    for (length = 1; length <= LONGEST; length++) {
        CHECK(name_of(text, length) == (length <= 32 ? 1u : 0u));
    }
}

/* What remains of a text of so many letters with this byte at this place. */
static uint32_t with_byte(uint32_t letters, uint32_t place, uint32_t byte)
{
    if (byte == 0x20) {
        return place == letters - 1 ? letters - 1 : 0;
    }
    return byte >= 0x21 && byte <= 0x7E ? letters : 0;
}

/* Each byte at each place of names of each length, plain and padded to 32: one blank at the end is dropped, all else
   that isn't 0x21 to 0x7E is refused, zeros at the end too. */
static void every_byte_at_every_place(void)
{
    uint8_t text[HM_TEXT_BYTES];
    uint32_t letters, place, byte, wrong = 0;

    for (letters = 1; letters <= HM_NAME_BYTES; letters++) {
        for (place = 0; place < letters; place++) {
            for (byte = 0; byte < 256; byte++) {
                memset(text, HM_BLANK, sizeof text);
                memset(text, 'A', letters);
                text[place] = (uint8_t)byte;
                wrong += name_of(text, letters) != with_byte(letters, place, byte);
                wrong += name_of(text, HM_TEXT_BYTES) != with_byte(letters, place, byte);
            }
        }
    }
    CHECK(wrong == 0);
}

struct line {
    uint32_t number, port, value;
    const char *name; /* of a row that takes one; else "" */
    uint32_t answer;
};

/* On a tool of two ports and two places; every row is accepted once at least, but for those of predictions, which are
   for tools without a buffer. */
static const struct line run[] = {
    {HM_INPUT_BIND, 1, 0, "LOT-A", 0}, {HM_INPUT_BIND, 2, 0, "LOT-A", 3},
    {HM_INPUT_CANCEL_BIND, 1, 0, "LOT-B", 2}, {HM_INPUT_CANCEL_BIND, 0, 0, "LOT-A", 0},
    {HM_INPUT_CARRIER_NOTIFICATION, 0, 0, "LOT-A", 0}, {HM_INPUT_CANCEL_CARRIER_NOTIFICATION, 0, 0, "LOT-A", 0},
    {HM_INPUT_CANCEL_CARRIER_NOTIFICATION, 0, 0, "LOT-A", 2}, {HM_INPUT_CARRIER_NOTIFICATION, 0, 0, "LOT-A", 0},
    {HM_INPUT_LOAD_START, 1, 0, "", 0}, {HM_INPUT_LOAD_DONE, 1, 0, "", 0},
    {HM_INPUT_ID_READ, 1, 0, "LOT-A", 0}, {HM_INPUT_MOVE_IN, 1, 1, "", 0},
    {HM_INPUT_OPEN, 0, 0, "LOT-A", 0}, {HM_INPUT_SLOT_MAP, 0, 0, "LOT-A", 0},
    {HM_INPUT_ACCESS_START, 0, 0, "LOT-A", 0}, {HM_INPUT_ACCESS_END, 0, 1, "LOT-A", 0},
    {HM_INPUT_CLOSE, 0, 0, "LOT-A", 0}, {HM_INPUT_CARRIER_OUT, 2, 0, "LOT-A", 0},
    {HM_INPUT_CARRIER_OUT, 1, 0, "LOT-A", 10}, {HM_INPUT_OUT_START, 2, 0, "", 0},
    {HM_INPUT_OPEN, 0, 0, "LOT-A", 5}, {HM_INPUT_OUT_DONE, 2, 0, "", 0},
    {HM_INPUT_CARRIER_IN, 0, 0, "LOT-A", 0}, {HM_INPUT_MOVE_IN, 2, 2, "", 0},
    {HM_INPUT_CARRIER_OUT, 1, 0, "LOT-A", 0}, {HM_INPUT_CANCEL_ALL_CARRIER_OUT, 0, 0, "", 0},
    {HM_INPUT_CANCEL_CARRIER_OUT, 0, 0, "LOT-A", 5}, {HM_INPUT_CARRIER_OUT, 2, 0, "LOT-A", 0},
    {HM_INPUT_CANCEL_CARRIER_OUT, 0, 0, "LOT-A", 0}, {HM_INPUT_CARRIER_OUT, 1, 0, "LOT-A", 0},
    {HM_INPUT_OUT_START, 1, 0, "", 0}, {HM_INPUT_OUT_DONE, 1, 0, "", 0},
    {HM_INPUT_CANCEL_RESERVATION_AT_PORT, 1, 0, "", 4}, {HM_INPUT_UNLOAD_START, 1, 0, "", 0},
    {HM_INPUT_UNLOAD_FAIL, 1, 0, "", 0}, {HM_INPUT_UNLOAD_START, 1, 0, "", 0},
    {HM_INPUT_UNLOAD_DONE, 1, 0, "", 0}, {HM_INPUT_LOAD_START, 1, 0, "", 0},
    {HM_INPUT_LOAD_FAIL, 1, 0, "", 0}, {HM_INPUT_CHANGE_ACCESS, 1, 1, "", 0},
    {HM_INPUT_CHANGE_SERVICE_STATUS, 1, 0, "", 0}, {HM_INPUT_CHANGE_SERVICE_STATUS, 1, 1, "", 0},
    {HM_INPUT_RESERVE_AT_PORT, 1, 0, "", 0}, {HM_INPUT_CANCEL_RESERVATION_AT_PORT, 1, 0, "", 0},
    {HM_INPUT_BIND, 2, 0, "LOT-D", 0}, {HM_INPUT_LOAD_START, 2, 0, "", 0},
    {HM_INPUT_LOAD_DONE, 2, 0, "", 0}, {HM_INPUT_ID_READ, 2, 0, "LOT-EFGHIJKLMNOP", 0},
    {HM_INPUT_PROCEED_WITH_CARRIER, 2, 0, "LOT-EFGHIJKLMNOP", 0}, {HM_INPUT_LOAD_START, 1, 0, "", 0},
    {HM_INPUT_LOAD_DONE, 1, 0, "", 0}, {HM_INPUT_CONTINUE, 1, 0, "", 0}, {HM_INPUT_ID_READ_FAILED, 1, 0, "", 0},
    {HM_INPUT_CANCEL_CARRIER, 1, 0, "LOT-C", 0}, {HM_INPUT_CLOCK, 0, 0, "", 0},
    {HM_INPUT_PREDICTED_TIME, 0, 0, "LOT-C", 5}, {HM_INPUT_ESTIMATE, 0, 0, "LOT-C", 5},
    {HM_INPUT_NO_PREDICTION, 0, 0, "LOT-C", 5}};

#define LINES (sizeof run / sizeof run[0])

/* Gives a line with this text for a name; CarrierNotification and SlotMap have one and the same map. */
static uint32_t give_line(hm_tool *to, hm_reports *told, const struct line *line, const uint8_t *text, size_t length)
{
    uint8_t map[HM_SLOTS];
    int mapped = line->number == HM_INPUT_CARRIER_NOTIFICATION || line->number == HM_INPUT_SLOT_MAP;
    struct lent lent = lend(&room, ON_HEAP, text, length);
    uint32_t answer;

    memset(map, HM_CODE_CORRECTLY_OCCUPIED, sizeof map);
    memset(told, 0xA5, sizeof *told); /* what stood there before must be gone */
    answer = hm_step(to, told, line->number, line->port, line->value, lent.readable, length,
                     mapped ? map : HM_NOTHING, mapped ? HM_SLOTS : 0);
    give_back(&lent);
    return answer;
}

static void same_with_blanks(size_t blanks)
{
    hm_tool padded;
    hm_reports told;
    uint8_t text[HM_TEXT_BYTES];
    uint64_t rows = 0;
    size_t i, length;

    CHECK(hm_setup(&tool, 2, 2, 0, 0) == HM_ACCEPTED && hm_setup(&padded, 2, 2, 0, 0) == HM_ACCEPTED);
    for (i = 0; i < LINES; i++) {
        length = strlen(run[i].name);
        memset(text, HM_BLANK, sizeof text);
        memcpy(text, run[i].name, length);
        length = length + blanks > HM_TEXT_BYTES ? HM_TEXT_BYTES : length + blanks;
        CHECK(give_line(&tool, &reports, &run[i], (const uint8_t *)run[i].name, strlen(run[i].name)) == run[i].answer);
        CHECK(give_line(&padded, &told, &run[i], text, length) == run[i].answer);
        CHECK(memcmp(&tool, &padded, sizeof tool) == 0 && memcmp(&reports, &told, sizeof told) == 0);
        rows |= run[i].answer == HM_ACCEPTED ? UINT64_C(1) << (run[i].number - 1) : 0u;
    }
    CHECK(rows == (((UINT64_C(1) << HM_INPUT_CLOCK) - 1) | (UINT64_C(1) << (HM_INPUT_CONTINUE - 1))));
    CHECK(is_name(tool.carriers[0].name, "LOT-EFGHIJKLMNOP"));
}

#define TEXT(bytes) {bytes, sizeof bytes - 1}

/* By each clause of the rule: too long, a blank elsewhere, nothing left, too much left, a byte that no name has. */
static const struct {
    const char *bytes;
    size_t length;
} refused[] = {TEXT("LOT-A                            "), TEXT("LOT-A B"), TEXT(" LOT-A"), TEXT(" "),
               TEXT("                                "), TEXT("LOT-EFGHIJKLMNOPQ"), TEXT("LOT-EFGHIJKLMNOPQ  "),
               TEXT("LOT-A\0"), TEXT("LOT-A\0\0 "), TEXT("LOT-A\t"), TEXT("LOT-A\x7F"), TEXT("LOT-A\xA0")};

/* Before each line of the run, the same line with a text that is refused: 1 where the row takes a name, and nothing
   has changed; another row doesn't look at it. */
static void refused_texts(void)
{
    static const hm_reports none;
    hm_tool copy;
    hm_reports told;
    uint32_t answer;
    size_t i, k;

    CHECK(hm_setup(&tool, 2, 2, 0, 0) == HM_ACCEPTED);
    for (i = 0; i < LINES; i++) {
        hm_tool before = tool;
        CHECK(give_line(&tool, &reports, &run[i], (const uint8_t *)run[i].name, strlen(run[i].name)) == run[i].answer);
        for (k = 0; k < sizeof refused / sizeof refused[0]; k++) {
            copy = before;
            answer = give_line(&copy, &told, &run[i], (const uint8_t *)refused[k].bytes, refused[k].length);
            if (run[i].name[0] != 0) {
                CHECK(answer == HM_REFUSED_OUT_OF_RANGE && memcmp(&copy, &before, sizeof copy) == 0);
                CHECK(memcmp(&told, &none, sizeof told) == 0);
            } else {
                CHECK(answer == run[i].answer && memcmp(&copy, &tool, sizeof copy) == 0);
                CHECK(memcmp(&told, &reports, sizeof told) == 0);
            }
        }
    }
}

/* In CancelBind length 0 alone is a name that is missing; blanks are 1, however many, with a port or without. */
static void blanks_are_not_missing(void)
{
    const struct line cancel = {HM_INPUT_CANCEL_BIND, 1, 0, "", 0};
    const struct line cancel_nothing = {HM_INPUT_CANCEL_BIND, 0, 0, "", 1};
    uint8_t text[HM_TEXT_BYTES + 1];
    size_t length;

    memset(text, HM_BLANK, sizeof text);
    CHECK(hm_setup(&tool, 2, 0, 0, 0) == HM_ACCEPTED);
    CHECK(give(&tool, &reports, HM_INPUT_BIND, 1, 0, "LOT-A") == HM_ACCEPTED);
    for (length = 1; length <= sizeof text; length++) {
        CHECK(give_line(&tool, &reports, &cancel, text, length) == HM_REFUSED_OUT_OF_RANGE && tool.count == 1);
        CHECK(give_line(&tool, &reports, &cancel_nothing, text, length) == HM_REFUSED_OUT_OF_RANGE);
    }
    CHECK(give_line(&tool, &reports, &cancel_nothing, text, 0) == HM_REFUSED_OUT_OF_RANGE);
    CHECK(give_line(&tool, &reports, &cancel, text, 0) == HM_ACCEPTED && tool.count == 0);
}

int main(void)
{
    size_t blanks;

    make_room(&room);
    trailing_blanks_are_dropped();
    long_texts_are_refused();
    every_byte_at_every_place();
    for (blanks = 0; blanks <= HM_TEXT_BYTES; blanks++) {
        same_with_blanks(blanks);
    }
    refused_texts();
    blanks_are_not_missing();
    return result("names");
}
