/*
 * From a report to SEMI E87-0312: the numbered transitions that the report of an accepted input stands for, and those
 * of them that want a collection event. Those of model 8 are document 000's, which revises E87-0921. Model 9 is an
 * alarm, and has neither. Made from docs/events.tsv by `make diagrams`; docs/EVENTS.md says how to read it.
 */
#ifndef HAWSERMOLE_EVENTS_H
#define HAWSERMOLE_EVENTS_H

#include "hawsermole.h"

typedef struct hm_event {
    uint8_t input;     /* enum hm_input */
    uint8_t model;     /* enum hm_model */
    uint8_t old_state;
    uint8_t new_state;
    uint8_t table;     /* the standard's table of the transitions: 5, 7, 9, 10 or 11; of alarms for model 9: 38 */
    uint8_t passed[3]; /* transitions of that table in the order in which they are passed; zeros after the last */
    uint8_t events[3]; /* those of them that want a collection event; zeros after the last */
} hm_event;

#define HM_EVENTS 132

/* Every report that a run can give, HM_EVENTS of them. */
static inline const hm_event *hm_events(void)
{
    static const hm_event events[HM_EVENTS] = {
        {1, 3, 0, 1, 10, {2, 0, 0}, {2, 0, 0}}, /* Bind */
        {1, 4, 0, 1, 11, {2, 0, 0}, {2, 0, 0}}, /* Bind */
        {1, 5, 0, 1, 7, {1, 2, 0}, {2, 0, 0}}, /* Bind */
        {1, 6, 0, 1, 7, {12, 0, 0}, {0, 0, 0}}, /* Bind */
        {1, 7, 0, 1, 7, {17, 0, 0}, {0, 0, 0}}, /* Bind */
        {1, 8, 0, 2, 7, {0, 0, 0}, {0, 0, 0}}, /* Bind */
        {2, 3, 1, 0, 10, {3, 0, 0}, {3, 0, 0}}, /* CancelBind */
        {2, 4, 1, 0, 11, {3, 0, 0}, {3, 0, 0}}, /* CancelBind */
        {2, 5, 1, 0, 7, {21, 0, 0}, {21, 0, 0}}, /* CancelBind */
        {2, 6, 1, 0, 7, {21, 0, 0}, {0, 0, 0}}, /* CancelBind */
        {2, 7, 1, 0, 7, {21, 0, 0}, {0, 0, 0}}, /* CancelBind */
        {2, 8, 2, 0, 7, {21, 0, 0}, {0, 0, 0}}, /* CancelBind */
        {3, 5, 0, 1, 7, {1, 2, 0}, {2, 0, 0}}, /* CarrierNotification */
        {3, 6, 0, 1, 7, {12, 0, 0}, {0, 0, 0}}, /* CarrierNotification */
        {3, 7, 0, 1, 7, {17, 0, 0}, {0, 0, 0}}, /* CarrierNotification */
        {3, 8, 0, 2, 7, {0, 0, 0}, {0, 0, 0}}, /* CarrierNotification */
        {4, 5, 1, 0, 7, {21, 0, 0}, {21, 0, 0}}, /* CancelCarrierNotification */
        {4, 6, 1, 0, 7, {21, 0, 0}, {0, 0, 0}}, /* CancelCarrierNotification */
        {4, 7, 1, 0, 7, {21, 0, 0}, {0, 0, 0}}, /* CancelCarrierNotification */
        {4, 8, 2, 0, 7, {21, 0, 0}, {0, 0, 0}}, /* CancelCarrierNotification */
        {5, 4, 0, 1, 11, {2, 0, 0}, {2, 0, 0}}, /* ProceedWithCarrier */
        {5, 5, 0, 3, 7, {1, 4, 0}, {4, 0, 0}}, /* ProceedWithCarrier */
        {5, 5, 1, 3, 7, {6, 0, 0}, {6, 0, 0}}, /* ProceedWithCarrier */
        {5, 5, 2, 3, 7, {8, 0, 0}, {8, 0, 0}}, /* ProceedWithCarrier */
        {5, 6, 0, 1, 7, {12, 0, 0}, {0, 0, 0}}, /* ProceedWithCarrier */
        {5, 6, 2, 3, 7, {15, 0, 0}, {15, 0, 0}}, /* ProceedWithCarrier */
        {5, 7, 0, 1, 7, {17, 0, 0}, {0, 0, 0}}, /* ProceedWithCarrier */
        {5, 8, 0, 2, 7, {0, 0, 0}, {0, 0, 0}}, /* ProceedWithCarrier */
        {6, 1, 3, 2, 5, {9, 0, 0}, {9, 0, 0}}, /* CancelCarrier */
        {6, 4, 0, 1, 11, {2, 0, 0}, {2, 0, 0}}, /* CancelCarrier */
        {6, 5, 0, 4, 7, {1, 5, 0}, {5, 0, 0}}, /* CancelCarrier */
        {6, 5, 1, 4, 7, {0, 0, 0}, {0, 0, 0}}, /* CancelCarrier */
        {6, 5, 2, 4, 7, {9, 0, 0}, {9, 0, 0}}, /* CancelCarrier */
        {6, 6, 0, 1, 7, {12, 0, 0}, {0, 0, 0}}, /* CancelCarrier */
        {6, 6, 2, 4, 7, {16, 0, 0}, {16, 0, 0}}, /* CancelCarrier */
        {6, 7, 0, 1, 7, {17, 0, 0}, {0, 0, 0}}, /* CancelCarrier */
        {6, 8, 0, 2, 7, {0, 0, 0}, {0, 0, 0}}, /* CancelCarrier */
        {6, 8, 2, 1, 7, {26, 0, 0}, {26, 0, 0}}, /* CancelCarrier */
        {6, 8, 2, 3, 7, {23, 0, 0}, {23, 0, 0}}, /* CancelCarrier */
        {6, 8, 3, 4, 7, {24, 0, 0}, {24, 0, 0}}, /* CancelCarrier */
        {6, 8, 4, 6, 7, {25, 0, 0}, {25, 0, 0}}, /* CancelCarrier */
        {6, 8, 5, 6, 7, {29, 0, 0}, {29, 0, 0}}, /* CancelCarrier */
        {8, 1, 2, 3, 5, {7, 0, 0}, {7, 0, 0}}, /* CarrierIn */
        {9, 2, 0, 1, 9, {2, 0, 0}, {2, 0, 0}}, /* ChangeAccess */
        {9, 2, 1, 0, 9, {3, 0, 0}, {3, 0, 0}}, /* ChangeAccess */
        {10, 1, 0, 1, 5, {2, 4, 5}, {2, 4, 5}}, /* ChangeServiceStatus */
        {10, 1, 1, 0, 5, {3, 0, 0}, {3, 0, 0}}, /* ChangeServiceStatus */
        {11, 3, 0, 1, 10, {2, 0, 0}, {2, 0, 0}}, /* ReserveAtPort */
        {12, 3, 1, 0, 10, {3, 0, 0}, {3, 0, 0}}, /* CancelReservationAtPort */
        {13, 1, 1, 3, 5, {6, 0, 0}, {6, 0, 0}}, /* LoadStart */
        {13, 3, 1, 0, 10, {3, 0, 0}, {3, 0, 0}}, /* LoadStart */
        {13, 9, 0, 1, 38, {0, 0, 0}, {0, 0, 0}}, /* LoadStart */
        {15, 1, 3, 1, 5, {10, 5, 0}, {10, 5, 0}}, /* LoadFail */
        {15, 9, 1, 0, 38, {0, 0, 0}, {0, 0, 0}}, /* LoadFail */
        {16, 4, 0, 1, 11, {2, 0, 0}, {2, 0, 0}}, /* IdRead */
        {16, 4, 1, 1, 11, {4, 0, 0}, {4, 0, 0}}, /* IdRead */
        {16, 5, 0, 2, 7, {1, 3, 0}, {3, 0, 0}}, /* IdRead */
        {16, 5, 1, 0, 7, {21, 0, 0}, {21, 0, 0}}, /* IdRead */
        {16, 5, 1, 2, 7, {0, 0, 0}, {0, 0, 0}}, /* IdRead */
        {16, 5, 1, 3, 7, {6, 0, 0}, {6, 0, 0}}, /* IdRead */
        {16, 6, 0, 1, 7, {12, 0, 0}, {0, 0, 0}}, /* IdRead */
        {16, 6, 1, 0, 7, {21, 0, 0}, {0, 0, 0}}, /* IdRead */
        {16, 7, 0, 1, 7, {17, 0, 0}, {0, 0, 0}}, /* IdRead */
        {16, 7, 1, 0, 7, {21, 0, 0}, {0, 0, 0}}, /* IdRead */
        {16, 8, 0, 2, 7, {0, 0, 0}, {0, 0, 0}}, /* IdRead */
        {16, 8, 2, 0, 7, {21, 0, 0}, {0, 0, 0}}, /* IdRead */
        {17, 5, 1, 2, 7, {7, 0, 0}, {7, 0, 0}}, /* IdReadFailed */
        {18, 1, 3, 1, 5, {8, 0, 0}, {8, 0, 0}}, /* MoveIn */
        {18, 4, 1, 0, 11, {3, 0, 0}, {3, 0, 0}}, /* MoveIn */
        {18, 9, 1, 0, 38, {0, 0, 0}, {0, 0, 0}}, /* MoveIn */
        {20, 6, 1, 2, 7, {14, 0, 0}, {14, 0, 0}}, /* SlotMap */
        {20, 6, 1, 3, 7, {13, 0, 0}, {13, 0, 0}}, /* SlotMap */
        {21, 7, 1, 2, 7, {18, 0, 0}, {18, 0, 0}}, /* AccessStart */
        {21, 8, 2, 1, 7, {26, 0, 0}, {26, 0, 0}}, /* AccessStart */
        {21, 8, 2, 3, 7, {23, 0, 0}, {23, 0, 0}}, /* AccessStart */
        {22, 7, 2, 3, 7, {19, 0, 0}, {19, 0, 0}}, /* AccessEnd */
        {22, 7, 2, 4, 7, {20, 0, 0}, {20, 0, 0}}, /* AccessEnd */
        {23, 1, 3, 2, 5, {9, 0, 0}, {9, 0, 0}}, /* Close */
        {23, 8, 4, 6, 7, {25, 0, 0}, {25, 0, 0}}, /* Close */
        {23, 8, 5, 6, 7, {29, 0, 0}, {29, 0, 0}}, /* Close */
        {24, 1, 2, 3, 5, {7, 0, 0}, {7, 0, 0}}, /* UnloadStart */
        {24, 9, 0, 1, 38, {0, 0, 0}, {0, 0, 0}}, /* UnloadStart */
        {25, 1, 3, 1, 5, {8, 0, 0}, {8, 0, 0}}, /* UnloadDone */
        {25, 4, 1, 0, 11, {3, 0, 0}, {3, 0, 0}}, /* UnloadDone */
        {25, 5, 3, 0, 7, {21, 0, 0}, {21, 0, 0}}, /* UnloadDone */
        {25, 5, 4, 0, 7, {21, 0, 0}, {21, 0, 0}}, /* UnloadDone */
        {25, 6, 1, 0, 7, {21, 0, 0}, {0, 0, 0}}, /* UnloadDone */
        {25, 6, 2, 0, 7, {21, 0, 0}, {0, 0, 0}}, /* UnloadDone */
        {25, 6, 3, 0, 7, {21, 0, 0}, {0, 0, 0}}, /* UnloadDone */
        {25, 6, 4, 0, 7, {21, 0, 0}, {0, 0, 0}}, /* UnloadDone */
        {25, 7, 1, 0, 7, {21, 0, 0}, {0, 0, 0}}, /* UnloadDone */
        {25, 7, 3, 0, 7, {21, 0, 0}, {0, 0, 0}}, /* UnloadDone */
        {25, 7, 4, 0, 7, {21, 0, 0}, {0, 0, 0}}, /* UnloadDone */
        {25, 8, 1, 0, 7, {21, 0, 0}, {0, 0, 0}}, /* UnloadDone */
        {25, 8, 3, 0, 7, {21, 0, 0}, {0, 0, 0}}, /* UnloadDone */
        {25, 8, 4, 0, 7, {21, 0, 0}, {0, 0, 0}}, /* UnloadDone */
        {25, 8, 5, 0, 7, {21, 0, 0}, {0, 0, 0}}, /* UnloadDone */
        {25, 8, 6, 0, 7, {21, 0, 0}, {0, 0, 0}}, /* UnloadDone */
        {25, 9, 1, 0, 38, {0, 0, 0}, {0, 0, 0}}, /* UnloadDone */
        {26, 1, 3, 2, 5, {10, 5, 0}, {10, 5, 0}}, /* UnloadFail */
        {26, 8, 4, 6, 7, {25, 0, 0}, {25, 0, 0}}, /* UnloadFail */
        {26, 8, 5, 6, 7, {29, 0, 0}, {29, 0, 0}}, /* UnloadFail */
        {27, 3, 0, 1, 10, {2, 0, 0}, {2, 0, 0}}, /* OutStart */
        {28, 1, 1, 2, 5, {6, 9, 0}, {6, 9, 0}}, /* OutDone */
        {28, 3, 1, 0, 10, {3, 0, 0}, {3, 0, 0}}, /* OutDone */
        {28, 4, 0, 1, 11, {2, 0, 0}, {2, 0, 0}}, /* OutDone */
        {31, 8, 3, 4, 7, {24, 0, 0}, {24, 0, 0}}, /* Clock */
        {31, 8, 3, 5, 7, {27, 0, 0}, {27, 0, 0}}, /* Clock */
        {31, 8, 4, 5, 7, {28, 0, 0}, {28, 0, 0}}, /* Clock */
        {31, 8, 4, 6, 7, {25, 0, 0}, {25, 0, 0}}, /* Clock */
        {31, 8, 5, 6, 7, {29, 0, 0}, {29, 0, 0}}, /* Clock */
        {32, 8, 3, 4, 7, {24, 0, 0}, {24, 0, 0}}, /* PredictedTime */
        {32, 8, 3, 5, 7, {27, 0, 0}, {27, 0, 0}}, /* PredictedTime */
        {32, 8, 4, 5, 7, {28, 0, 0}, {28, 0, 0}}, /* PredictedTime */
        {32, 8, 4, 6, 7, {25, 0, 0}, {25, 0, 0}}, /* PredictedTime */
        {32, 8, 5, 6, 7, {29, 0, 0}, {29, 0, 0}}, /* PredictedTime */
        {33, 8, 3, 4, 7, {24, 0, 0}, {24, 0, 0}}, /* Estimate */
        {33, 8, 3, 5, 7, {27, 0, 0}, {27, 0, 0}}, /* Estimate */
        {33, 8, 4, 5, 7, {28, 0, 0}, {28, 0, 0}}, /* Estimate */
        {33, 8, 4, 6, 7, {25, 0, 0}, {25, 0, 0}}, /* Estimate */
        {33, 8, 5, 6, 7, {29, 0, 0}, {29, 0, 0}}, /* Estimate */
        {34, 8, 3, 4, 7, {24, 0, 0}, {24, 0, 0}}, /* NoPrediction */
        {34, 8, 3, 5, 7, {27, 0, 0}, {27, 0, 0}}, /* NoPrediction */
        {34, 8, 4, 5, 7, {28, 0, 0}, {28, 0, 0}}, /* NoPrediction */
        {34, 8, 4, 6, 7, {25, 0, 0}, {25, 0, 0}}, /* NoPrediction */
        {34, 8, 5, 6, 7, {29, 0, 0}, {29, 0, 0}}, /* NoPrediction */
        {35, 8, 3, 4, 7, {24, 0, 0}, {24, 0, 0}}, /* Wafers */
        {35, 8, 3, 5, 7, {27, 0, 0}, {27, 0, 0}}, /* Wafers */
        {35, 8, 4, 5, 7, {28, 0, 0}, {28, 0, 0}}, /* Wafers */
        {35, 8, 4, 6, 7, {25, 0, 0}, {25, 0, 0}}, /* Wafers */
        {35, 8, 5, 6, 7, {29, 0, 0}, {29, 0, 0}}, /* Wafers */
        {36, 9, 1, 0, 38, {0, 0, 0}, {0, 0, 0}}, /* Continue */
    };
    return events;
}

/* What a report of an accepted input stands for; NULL where the input gives no such report. */
static inline const hm_event *hm_event_of(uint32_t input, const hm_report *report)
{
    const hm_event *event = hm_events();
    unsigned i;

    for (i = 0; i < HM_EVENTS; i++, event++) {
        if (event->input == input && event->model == report->model && event->old_state == report->old_state
            && event->new_state == report->new_state) {
            return event;
        }
    }
    return NULL;
}

/*
 * The same for an input that came by hm_secs_step, whose number the caller needn't know: among Bind,
 * CarrierNotification, ProceedWithCarrier and CancelCarrier a report alone tells its transitions.
 */
static inline const hm_event *hm_event_of_message(const hm_report *report)
{
    static const uint8_t rows[] = {
        HM_INPUT_BIND, HM_INPUT_CARRIER_NOTIFICATION, HM_INPUT_PROCEED_WITH_CARRIER, HM_INPUT_CANCEL_CARRIER,
    };
    const hm_event *event = NULL;
    unsigned i;

    for (i = 0; event == NULL && i < sizeof rows; i++) {
        event = hm_event_of(rows[i], report);
    }
    return event;
}

#endif
