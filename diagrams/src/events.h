/*
 * From a report to SEMI E87-0312: the numbered transitions that the report of an accepted input stands for, and those
 * of them that want a collection event. Those of model 8 are document 000's, which revises E87-0921. Model 9 is an
 * alarm, and has neither. Made from docs/events.tsv by `make diagrams`; docs/EVENTS.md says how to read it.
 */
#ifndef HAWSERMOLE_EVENTS_H
#define HAWSERMOLE_EVENTS_H

#include "hawsermole.h"

typedef struct hm_event {
    uint8_t input;     /* enum hm_input */
    uint8_t model;     /* enum hm_model */
    uint8_t old_state;
    uint8_t new_state;
    uint8_t table;     /* the standard's table of the transitions: 5, 7, 9, 10 or 11; of alarms for model 9: 38 */
    uint8_t passed[3]; /* transitions of that table in the order in which they are passed; zeros after the last */
    uint8_t events[3]; /* those of them that want a collection event; zeros after the last */
} hm_event;

#define HM_EVENTS COUNT

/* Every report that a run can give, HM_EVENTS of them. */
static inline const hm_event *hm_events(void)
{
    static const hm_event events[HM_EVENTS] = {
        ENTRIES
    };
    return events;
}

/* What a report of an accepted input stands for; NULL where the input gives no such report. */
static inline const hm_event *hm_event_of(uint32_t input, const hm_report *report)
{
    const hm_event *event = hm_events();
    unsigned i;

    for (i = 0; i < HM_EVENTS; i++, event++) {
        if (event->input == input && event->model == report->model && event->old_state == report->old_state
            && event->new_state == report->new_state) {
            return event;
        }
    }
    return NULL;
}

/*
 * The same for an input that came by hm_secs_step, whose number the caller needn't know: among Bind,
 * CarrierNotification, ProceedWithCarrier and CancelCarrier a report alone tells its transitions.
 */
static inline const hm_event *hm_event_of_message(const hm_report *report)
{
    static const uint8_t rows[] = {
        HM_INPUT_BIND, HM_INPUT_CARRIER_NOTIFICATION, HM_INPUT_PROCEED_WITH_CARRIER, HM_INPUT_CANCEL_CARRIER,
    };
    const hm_event *event = NULL;
    unsigned i;

    for (i = 0; event == NULL && i < sizeof rows; i++) {
        event = hm_event_of(rows[i], report);
    }
    return event;
}

#endif
