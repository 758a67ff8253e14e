/*
 * Words for the numbers of hawsermole.h, E87's where it has one, and a carrier by its name. All of it is static inline:
 * nothing of it is in the archive, and what isn't used costs nothing. Each function takes any number; what has no word
 * is "out of range".
 */
#ifndef HAWSERMOLE_WORDS_H
#define HAWSERMOLE_WORDS_H

#include "hawsermole.h"

static inline const char *hm_word(const char *const *words, uint32_t count, uint32_t number)
{
    return number < count ? words[number] : "out of range";
}

#define HM_WORD(words, number) hm_word((words), sizeof(words) / sizeof((words)[0]), (number))

/* An answer of hm_step, hm_time_step, hm_wafers, hm_setup or hm_secs_step. */
static inline const char *hm_answer_text(uint32_t answer)
{
    static const char *const of_tool[] = {
        "accepted",
        "a port, place, value or name is outside its range, the input number isn't 1 to 36, or the state isn't sound",
        "the name has no record",
        "the name is taken",
        "the port is reserved or tied",
        "the row's conditions on state don't hold",
        "16 carriers are expected already",
        "not verified",
        "the buffer place is taken, or the opener is in use",
        "the queue for CarrierOut is full",
        "CarrierOut is queued already",
        "the clock is earlier than the last accepted",
        "a wafer's time or the predicted time is out of range",
        "an automatic start in MANUAL",
    };
    static const char *const of_message[] = {
        "the message is cut short",
        "unknown format code",
        "no length byte, or a length no multiple of the element size",
        "lists too deep",
        "too many items",
        "bytes left over",
        "another shape or action",
    };
    if (answer == HM_REFUSED_ROOM_TOO_SMALL) {
        return "the room lent is too small";
    }
    return answer < HM_REFUSED_CUT_SHORT ? HM_WORD(of_tool, answer)
                                         : HM_WORD(of_message, answer - HM_REFUSED_CUT_SHORT);
}

/* What hm_judge says of a log, enum hm_verdict. */
static inline const char *hm_verdict_text(uint32_t verdict)
{
    static const char *const words[] = {"agrees", "an entry disagrees"};
    static const char *const of_file[] = {"another mark or version", "no such set-up", "the log is cut short"};
    return verdict < HM_REFUSED_MARK_OR_VERSION ? HM_WORD(words, verdict)
                                                : HM_WORD(of_file, verdict - HM_REFUSED_MARK_OR_VERSION);
}

/* An input by its number, enum hm_input: document 01's name. */
static inline const char *hm_input_text(uint32_t number)
{
    static const char *const names[] = {
        "Bind", "CancelBind", "CarrierNotification", "CancelCarrierNotification", "ProceedWithCarrier",
        "CancelCarrier", "CarrierOut", "CarrierIn", "ChangeAccess", "ChangeServiceStatus", "ReserveAtPort",
        "CancelReservationAtPort", "LoadStart", "LoadDone", "LoadFail", "IdRead", "IdReadFailed", "MoveIn", "Open",
        "SlotMap", "AccessStart", "AccessEnd", "Close", "UnloadStart", "UnloadDone", "UnloadFail", "OutStart",
        "OutDone", "CancelCarrierOut", "CancelAllCarrierOut", "Clock", "PredictedTime", "Estimate", "NoPrediction",
        "Wafers", "Continue",
    };
    return HM_WORD(names, number - 1);
}

/* A model of reports, enum hm_model. */
static inline const char *hm_model_text(uint32_t model)
{
    static const char *const models[] = {
        "transfer state", "access mode", "reservation state", "association state",
        "ID status", "slot map status", "accessing status", "ready to unload prediction status",
        "AccessModeViolation alarm",
    };
    return HM_WORD(models, model - 1);
}

/* A state of a model: old_state or new_state of a report, or a field of a port, carrier, prediction or of hands. */
static inline const char *hm_state_text(uint32_t model, uint32_t state)
{
    static const char *const transfer[] = {"OUT OF SERVICE", "READY TO LOAD", "READY TO UNLOAD", "TRANSFER BLOCKED"};
    static const char *const access[] = {"MANUAL", "AUTO"};
    static const char *const reservation[] = {"NOT RESERVED", "RESERVED"};
    static const char *const tie[] = {"NOT ASSOCIATED", "ASSOCIATED"};
    static const char *const id[] = {
        "no state", "ID NOT READ", "ID WAITING FOR HOST", "ID VERIFICATION OK", "ID VERIFICATION FAILED",
    };
    static const char *const slot[] = {
        "no state", "SLOT MAP NOT READ", "SLOT MAP WAITING FOR HOST", "SLOT MAP VERIFICATION OK",
        "SLOT MAP VERIFICATION FAILED",
    };
    static const char *const accessing[] = {
        "no state", "NOT ACCESSED", "IN ACCESS", "CARRIER COMPLETE", "CARRIER STOPPED",
    };
    static const char *const prediction[] = {
        "no state", "PREDICTION DISABLED", "WAITING FOR CARRIER", "WAITING FOR PREDICTION", "PREDICTED",
        "PREDICTION ABORTED", "PREDICTION COMPLETED",
    };
    static const char *const alarm[] = {"off", "on"};
    switch (model) {
    case HM_MODEL_TRANSFER: return HM_WORD(transfer, state);
    case HM_MODEL_ACCESS: return HM_WORD(access, state);
    case HM_MODEL_RESERVATION: return HM_WORD(reservation, state);
    case HM_MODEL_TIE: return HM_WORD(tie, state);
    case HM_MODEL_ID: return HM_WORD(id, state);
    case HM_MODEL_SLOT: return HM_WORD(slot, state);
    case HM_MODEL_ACCESSING: return HM_WORD(accessing, state);
    case HM_MODEL_PREDICTION: return HM_WORD(prediction, state);
    case HM_MODEL_ALARM: return HM_WORD(alarm, state);
    default: return "out of range";
    }
}

/*
 * What no report shows: enum hm_movement, hm_tag, hm_place, hm_started, hm_start, hm_held; and a code of a slot map,
 * enum hm_code.
 */
static inline const char *hm_movement_text(uint32_t movement)
{
    static const char *const words[] = {"idle", "loading", "unloading"};
    return HM_WORD(words, movement);
}

static inline const char *hm_tag_text(uint32_t tag)
{
    static const char *const words[] = {"unread", "read", "failed"};
    return HM_WORD(words, tag);
}

static inline const char *hm_place_text(uint32_t place)
{
    static const char *const words[] = {"expected", "at a port", "in the buffer"};
    return HM_WORD(words, place);
}

static inline const char *hm_started_text(uint32_t started)
{
    static const char *const words[] = {"queued", "started"};
    return HM_WORD(words, started);
}

static inline const char *hm_start_text(uint32_t start)
{
    static const char *const words[] = {"manual", "automatic"};
    return HM_WORD(words, start);
}

static inline const char *hm_held_text(uint32_t held)
{
    static const char *const words[] = {"not held", "held"};
    return HM_WORD(words, held);
}

static inline const char *hm_code_text(uint32_t code)
{
    static const char *const words[] = {
        "UNDEFINED", "EMPTY", "NOT EMPTY", "CORRECTLY OCCUPIED", "DOUBLE SLOTTED", "CROSS SLOTTED",
    };
    return HM_WORD(words, code);
}

/*
 * The record of a name, or NULL where it has none. The name is given as to hm_step: its own bytes and length, and
 * blanks at its end are dropped. It may stand in this same tool: nothing is changed. The tool may hold any bytes.
 */
static inline const hm_carrier *hm_find(const hm_tool *tool, const uint8_t *name, uint64_t length)
{
    const uint32_t kept = hm_name(name, length);
    uint32_t i, j, count = tool->count;

    if (count > HM_RECORDS) {
        count = HM_RECORDS;
    }
    for (i = 0; kept != 0 && i < count; i++) {
        const uint8_t *own = tool->carriers[i].name;
        for (j = 0; j < kept && own[j] == name[j]; j++) {
        }
        if (j == kept && (kept == HM_NAME_BYTES || own[kept] == 0)) {
            return &tool->carriers[i];
        }
    }
    return NULL;
}

/*
 * The prediction of a name, or NULL where it has no record, or the tool has a buffer and predicts nothing. Name and
 * tool are given as to hm_find; hm_seconds reads its times.
 */
static inline const hm_prediction *hm_find_prediction(const hm_tool *tool, const uint8_t *name, uint64_t length)
{
    const hm_carrier *carrier = tool->places == 0 ? hm_find(tool, name, length) : NULL;

    return carrier == NULL ? NULL : &tool->predictions[carrier - tool->carriers];
}

#endif
