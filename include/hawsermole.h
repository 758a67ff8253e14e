/*
 * Hawsermole: SEMI E87 carrier management for load ports, pods and the buffer of one wafer tool.
 * Verify the pod before you open it.
 *
 * Three steps: hm_setup once, hm_step for every input, and after each accepted input pass the reports on. A fixed
 * buffer tool that predicts when a carrier is ready to unload calls hm_time_step, too, with the clock, or hm_wafers
 * with the clock and the times that its wafers take.
 * A host's S3F17 goes to hm_secs_exchange as it came: the text is read, what it asks for is stepped, and the text of
 * S3F18, the answer to the host, is written into room that you lend. hm_secs_step is the same without the reply.
 * The rules are document 01's, with document 02's requests P1, expected maps, P3, SECS-II from the host bridge,
 * P4, names padded with blanks, P5, a queue for CarrierOut, P7, prediction of ready to unload, P8, where the predicted
 * time comes from, P9, hands on an AUTO port, P2: hm_waiting, P11: hm_pods_here, and P13, answers to the bridge.
 * hm_judge, P14, judges a log by document 01 without any request. What P10 says of hm_step: a booking, as HM_INPUT_BIND,
 * that was accepted is taken back by its cancel, as HM_INPUT_CANCEL_BIND, and every byte of the tool is as it was; the
 * manual has the pairs.
 * C99, C11 and C++17.
 * Link with libhawsermole.a; see examples/firmware.c and examples/host_bridge.c. hawsermole_words.h has words for the
 * numbers, and a carrier by its name; hawsermole_events.h SEMI E87's numbers of what a report tells.
 * docs/LANDINGS.md is the list of changes.
 *
 * WHAT THE LIBRARY ANSWERS FOR
 * Every input is answered. The number, the port, the value and times may be any 32-bit number, the times of wafers any
 * doubles, in any number, NaN and infinities too, the name, the codes, a message and a log any bytes of any length, and
 * the tool may hold any bytes. A refused input changes nothing in the tool.
 * A tool is plain bytes without pointers: it may be copied, compared with memcmp, kept in battery-backed memory
 * and handed back after a restart. A damaged one that is no longer sound is refused, never acted on. Sound is
 * not the same as true: damage that leaves a sound tool can't be seen, so keep a checksum beside a stored one.
 *
 * WHAT THE CALLER ANSWERS FOR (nothing checks these)
 * - Every pointer is valid for the whole of what it points to, and none is NULL, also where a length is 0:
 *   HM_NOTHING, with length 0, stands for no name, no codes, no message or no log. hm_wafers alone takes NULL for no
 *   wafers.
 * - What a call writes (the tool, the reports, the count of items, the room, the reply's length, what was found or
 *   judged) doesn't overlap, and none of it overlaps what it reads: the name, the codes, the wafers, the message, the
 *   log. So don't pass a name that stands in that same tool or in those reports: copy it out first. Nor is a reply
 *   written over the message that it answers.
 * - One caller at a time for one tool, and nobody else reads or writes what a call was handed while it runs.
 *   Different tools may be used at the same time: the library keeps no state.
 * - An accepted input has had its whole effect in the record, whatever the machine has done so far. So it is sent when
 *   the thing is done, and its reports are passed on no earlier. HM_INPUT_CANCEL_CARRIER closes an open pod's record at
 *   once: another may be opened, its port is READY TO UNLOAD. Shut the pod first (ask a copy of the tool before that);
 *   docs/MANUAL.md, "Where the record is ahead", has every such input.
 * - HM_INPUT_LOAD_START and HM_INPUT_UNLOAD_START say who moves the pod as it is: the library sees no hand.
 * - HM_STACK_BYTES of stack are free for each call.
 * - The program is for the archive's target: x86-64 Linux, System V ABI, or one of the boards that `make board` names.
 *   An archive uses no heap and no file, and needs from the C library memcpy, memset and memcmp at most; on a board,
 *   the compiler's own runtime too, libgcc. That for x86-64 is position independent.
 * - The functions are declared by this file alone. Lengths are 64 bits on every machine: a size_t of 32 is widened at
 *   the call, but a declaration of one's own with size_t would pass half of one.
 */
#ifndef HAWSERMOLE_H
#define HAWSERMOLE_H

#include <stddef.h>
#include <stdint.h>

#ifdef __cplusplus
extern "C" {
#endif

/* The version of this header, 0x00MMmmpp: 0.14.0. hm_version is the archive's; compare the two once at start. */
#define HM_VERSION 0x000E00

/* Limits. */
#define HM_PORTS 4                 /* a tool has 1 to 4 ports */
#define HM_PLACES 16               /* and 0 to 16 buffer places; 0 means that pods open at the port */
#define HM_EXPECTED 16             /* carriers that may be expected at once */
#define HM_RECORDS 36              /* carrier records at once: 16 expected, 16 in the buffer, 4 at ports */
#define HM_REQUESTS 16             /* requests of CarrierOut that may be queued at once, for all ports together */
#define HM_SLOTS 25                /* codes of a slot map */
#define HM_CODE_GREATEST 5         /* each code is 0 to 5 */
#define HM_REPORTS 10              /* reports of one input */
#define HM_INPUTS 36               /* inputs are numbered 1 to 36 */
#define HM_SECONDS_GREATEST 86400  /* setting time and timeout of predictions are 0 to 86,400 seconds each: a day */
#define HM_WAFERS 25               /* wafers of one input, */
#define HM_WAFER_PARTS 1024        /* each time of theirs a whole multiple of 1/1024 seconds */
#define HM_WAFER_SECONDS 1048576   /* from 0 up to but not including 1,048,576 */
#define HM_NAME_BYTES 16           /* a name is 1 to 16 bytes, */
#define HM_NAME_BYTE_LEAST 0x21    /* each from 0x21 */
#define HM_NAME_BYTE_GREATEST 0x7E /* to 0x7E */
#define HM_TEXT_BYTES 32           /* as it is sent it may have blanks at its end, up to 32 bytes in all */
#define HM_BLANK 0x20              /* the only byte that is a blank */
#define HM_SECS_ITEMS 128          /* items of a message */
#define HM_SECS_DEPTH 6            /* lists of a message, one in another, the outermost at one */
#define HM_REPLY_ROOM 95           /* bytes of room that every reply fits into: 15 and a text of at most 80 */
#define HM_SPARE_BYTES 286         /* bytes of a tool that hold nothing yet */
#define HM_TOOL_BYTES 3782
#define HM_TOOL_01_BYTES 1891      /* the first of them: document 01's tool, without the requests */
#define HM_REPORTS_BYTES 201

/* Stack that one call may need, with room to spare; tests/c/stack.c measures it, and on boards `make board`. */
#define HM_STACK_BYTES 4096

/* Port 0 means "not given", in the inputs whose port may be left out (2, 5 and 6). */
#define HM_PORT_NOT_GIVEN 0

/* For a name, codes, a message or a log of length 0. */
#ifdef __cplusplus
#define HM_NOTHING (reinterpret_cast<const uint8_t *>(""))
#else
#define HM_NOTHING ((const uint8_t *)"")
#endif

/*
 * The inputs, and the parts that each one reads; other parts are ignored.
 * A carrier leaves the buffer in three steps. HM_INPUT_CARRIER_OUT queues a request, which may be sent while the port
 * is busy; HM_INPUT_OUT_START starts the oldest one for a port whose carrier is closed and not IN ACCESS, and reserves
 * the port; HM_INPUT_OUT_DONE puts the carrier on the port. From OUT_START to OUT_DONE the carrier keeps its buffer
 * place and isn't opened, and the port is kept for it: no other pod is loaded there. Nothing but OUT_DONE ends a
 * request that is started.
 * A port in AUTO is for vehicles. HM_INPUT_LOAD_START and HM_INPUT_UNLOAD_START say who moves the pod: a hand in AUTO
 * is accepted and raises the port's AccessModeViolation alarm, a vehicle in MANUAL is refused with 13.
 * HM_INPUT_LOAD_DONE on a port whose alarm is on holds the pod: the port counts as still loading until
 * HM_INPUT_CONTINUE, or HM_INPUT_LOAD_FAIL where the pod was taken off again. Both clear the alarm, and so does
 * everything that makes the port READY TO LOAD; nothing else does.
 */
enum hm_input {
    HM_INPUT_BIND = 1,                         /* port, name, codes: the expected map, or none */
    HM_INPUT_CANCEL_BIND = 2,                  /* port or 0, name or none; not both missing */
    HM_INPUT_CARRIER_NOTIFICATION = 3,         /* name, codes: the expected map, or none */
    HM_INPUT_CANCEL_CARRIER_NOTIFICATION = 4,  /* name */
    HM_INPUT_PROCEED_WITH_CARRIER = 5,         /* name, port or 0 */
    HM_INPUT_CANCEL_CARRIER = 6,               /* name, port or 0; shut an open pod first: its record is at once.
                                                  Drops the carrier's request, unless that is started */
    HM_INPUT_CARRIER_OUT = 7,                  /* name, port: queues a request, and moves nothing */
    HM_INPUT_CARRIER_IN = 8,                   /* name */
    HM_INPUT_CHANGE_ACCESS = 9,                /* port, value: HM_ACCESS_MANUAL or HM_ACCESS_AUTO */
    HM_INPUT_CHANGE_SERVICE_STATUS = 10,       /* port, value: HM_SERVICE_OUT or HM_SERVICE_IN */
    HM_INPUT_RESERVE_AT_PORT = 11,             /* port */
    HM_INPUT_CANCEL_RESERVATION_AT_PORT = 12,  /* port; 4 where a request is started to it */
    HM_INPUT_LOAD_START = 13,                  /* port, value: HM_START_MANUAL or HM_START_AUTOMATIC; 4 where a request
                                                  is started to it */
    HM_INPUT_LOAD_DONE = 14,                   /* port; with its alarm on the pod is held: see CONTINUE */
    HM_INPUT_LOAD_FAIL = 15,                   /* port; a held pod is let go */
    HM_INPUT_ID_READ = 16,                     /* port, name */
    HM_INPUT_ID_READ_FAILED = 17,              /* port */
    HM_INPUT_MOVE_IN = 18,                     /* port, value: a buffer place from 1 */
    HM_INPUT_OPEN = 19,                        /* name; 5 where its request is started */
    HM_INPUT_SLOT_MAP = 20,                    /* name, codes: equal to the expected map, OK without the host */
    HM_INPUT_ACCESS_START = 21,                /* name */
    HM_INPUT_ACCESS_END = 22,                  /* name, value: HM_ACCESS_END_COMPLETE or _STOPPED */
    HM_INPUT_CLOSE = 23,                       /* name */
    HM_INPUT_UNLOAD_START = 24,                /* port, value: HM_START_MANUAL or HM_START_AUTOMATIC */
    HM_INPUT_UNLOAD_DONE = 25,                 /* port */
    HM_INPUT_UNLOAD_FAIL = 26,                 /* port */
    HM_INPUT_OUT_START = 27,                   /* port: starts the oldest request that is ready for it */
    HM_INPUT_OUT_DONE = 28,                    /* port: the carrier of the request started to it stands there */
    HM_INPUT_CANCEL_CARRIER_OUT = 29,          /* name: drops its request; 5 where that is started */
    HM_INPUT_CANCEL_ALL_CARRIER_OUT = 30,      /* nothing: drops all requests that aren't started, also none */
    HM_INPUT_CLOCK = 31,                       /* clock; this one and the next three go to hm_time_step */
    HM_INPUT_PREDICTED_TIME = 32,              /* clock, name, time: when the carrier will be ready to unload, Tp */
    HM_INPUT_ESTIMATE = 33,                    /* clock, name, time: when it is expected to be by now, Te */
    HM_INPUT_NO_PREDICTION = 34,               /* clock, name: no time can be predicted */
    HM_INPUT_WAFERS = 35,                      /* clock, name, wafers: Tp by their times; it goes to hm_wafers */
    HM_INPUT_CONTINUE = 36                     /* port: what LoadDone does, for the pod that is held there */
};

/*
 * The answers of hm_step, hm_time_step and hm_wafers: accepted, or the lowest refusal, 1 to 13, that applies. hm_setup
 * answers 0 or 1. The last one is of the functions that write a reply, hm_reply and hm_secs_exchange, alone.
 */
enum hm_answer {
    HM_ACCEPTED = 0,
    HM_REFUSED_OUT_OF_RANGE = 1,          /* a port, place, value or name is outside its range, there are more than 25
                                             wafers, the input number isn't 1 to 36, or the tool isn't sound: hm_sound
                                             tells which */
    HM_REFUSED_NO_RECORD = 2,             /* the name has no record */
    HM_REFUSED_NAME_TAKEN = 3,            /* the name is taken */
    HM_REFUSED_RESERVED_OR_TIED = 4,      /* the port is reserved or tied, or a request is started to it */
    HM_REFUSED_CONDITIONS = 5,            /* the row's conditions on state don't hold */
    HM_REFUSED_EXPECTED_FULL = 6,         /* 16 carriers are expected already */
    HM_REFUSED_NOT_VERIFIED = 7,          /* not verified */
    HM_REFUSED_PLACE_OR_OPENER_TAKEN = 8, /* the buffer place is taken, or the opener is in use */
    HM_REFUSED_QUEUE_FULL = 9,            /* 16 requests of CarrierOut are queued already, this carrier's too */
    HM_REFUSED_QUEUED_ALREADY = 10,       /* this carrier's CarrierOut is queued already, to whatever port */
    HM_REFUSED_CLOCK_EARLIER = 11,        /* the clock is earlier than the last that was accepted */
    HM_REFUSED_TIME_OUT_OF_RANGE = 12,    /* a wafer's time isn't one that hm_wafer may hold, or Tp is past 2^32 - 1 */
    HM_REFUSED_AUTOMATIC_IN_MANUAL = 13,  /* HM_START_AUTOMATIC, and the port's access mode is MANUAL */
    HM_REFUSED_ROOM_TOO_SMALL = 14        /* the reply is longer than the room lent for it: nothing was written */
};

/*
 * What hm_secs_step and hm_secs_exchange answer, besides enum hm_answer, to a message that isn't the text of an S3F17:
 * the first that is met, and the lowest at one item. Items are met in the order in which they begin, a list before its
 * elements.
 */
enum hm_secs_refusal {
    HM_REFUSED_CUT_SHORT = 20,       /* the message ends inside an item, or before one that a list counts */
    HM_REFUSED_UNKNOWN_CODE = 21,    /* a format code that isn't one of the fourteen; JIS-8 too */
    HM_REFUSED_BAD_LENGTH = 22,      /* no length byte, or a length no multiple of the element size */
    HM_REFUSED_TOO_DEEP = 23,        /* a list inside a list at depth HM_SECS_DEPTH, even an empty one */
    HM_REFUSED_TOO_MANY_ITEMS = 24,  /* an item after the first HM_SECS_ITEMS */
    HM_REFUSED_BYTES_LEFT_OVER = 25, /* the item ends before the message does */
    HM_REFUSED_SHAPE_OR_ACTION = 26  /* another shape, or an action text that isn't one of the four */
};

/* What hm_judge says of a log. */
enum hm_verdict {
    HM_LOG_AGREES = 0,               /* every entry shows what document 01 gives */
    HM_LOG_ENTRY_DISAGREES = 1,      /* one doesn't: hm_judged has which, and where it begins */
    HM_REFUSED_MARK_OR_VERSION = 27, /* the mark isn't CMT, or the version isn't 1 */
    HM_REFUSED_SET_UP = 28,          /* P isn't 1 to 4, or B isn't 0 to 16 */
    HM_REFUSED_LOG_CUT_SHORT = 29    /* the file ends inside its head, or inside an entry */
};

/* The models of reports. The subject is a port in 1 to 4 and in 9, and a name in 5 to 8. */
enum hm_model {
    HM_MODEL_TRANSFER = 1,    /* states: enum hm_transfer */
    HM_MODEL_ACCESS = 2,      /* enum hm_access */
    HM_MODEL_RESERVATION = 3, /* enum hm_reservation */
    HM_MODEL_TIE = 4,         /* enum hm_tie; 1 to 1: the tie passed to another carrier */
    HM_MODEL_ID = 5,          /* enum hm_status */
    HM_MODEL_SLOT = 6,        /* enum hm_status */
    HM_MODEL_ACCESSING = 7,   /* enum hm_accessing */
    HM_MODEL_PREDICTION = 8,  /* enum hm_prediction_state; of fixed buffer tools alone */
    HM_MODEL_ALARM = 9        /* enum hm_alarm: the AccessModeViolation alarm; the last report of an input */
};

/* In models 5 to 8: the carrier had no record before, or has none any more. */
#define HM_NO_STATE 0

enum hm_transfer {
    HM_TRANSFER_OUT_OF_SERVICE = 0,
    HM_TRANSFER_READY_TO_LOAD = 1,
    HM_TRANSFER_READY_TO_UNLOAD = 2,
    HM_TRANSFER_BLOCKED = 3
};

enum hm_access { HM_ACCESS_MANUAL = 0, HM_ACCESS_AUTO = 1 };

enum hm_reservation { HM_NOT_RESERVED = 0, HM_RESERVED = 1 };

enum hm_tie { HM_NOT_TIED = 0, HM_TIED = 1 };

enum hm_movement { HM_MOVEMENT_NONE = 0, HM_MOVEMENT_LOADING = 1, HM_MOVEMENT_UNLOADING = 2 };

/* The AccessModeViolation alarm of a port. */
enum hm_alarm { HM_ALARM_OFF = 0, HM_ALARM_ON = 1 };

/* Whether a pod that was put there by hand waits for HM_INPUT_CONTINUE or HM_INPUT_LOAD_FAIL. */
enum hm_held { HM_NOT_HELD = 0, HM_HELD = 1 };

/* Of a request of CarrierOut. */
enum hm_started { HM_NOT_STARTED = 0, HM_STARTED = 1 };

enum hm_pod { HM_NO_POD = 0, HM_POD_PRESENT = 1 };

enum hm_tag { HM_TAG_UNREAD = 0, HM_TAG_READ = 1, HM_TAG_FAILED = 2 };

enum hm_place { HM_PLACE_EXPECTED = 0, HM_PLACE_PORT = 1, HM_PLACE_BUFFER = 2 };

/* ID status and slot status. */
enum hm_status {
    HM_STATUS_NOT_READ = 1,
    HM_STATUS_WAITING_FOR_HOST = 2,
    HM_STATUS_OK = 3,
    HM_STATUS_FAILED = 4
};

enum hm_accessing {
    HM_ACCESSING_NOT_ACCESSED = 1,
    HM_ACCESSING_IN_ACCESS = 2,
    HM_ACCESSING_COMPLETE = 3,
    HM_ACCESSING_STOPPED = 4
};

/*
 * Where the prediction of a carrier stands, in a fixed buffer tool. A new record waits for its carrier. AccessStart
 * makes it wait for a predicted time, Tp, or DISABLED where the setting time is 0. After each accepted input that
 * brings the clock every carrier with a Tp is judged: ABORTED where the timeout isn't 0 and the estimate, Te, is at
 * least Tp plus timeout, from WAITING_FOR_PREDICTION too; else PREDICTED as soon as Tp is no further away than the
 * setting time. Where no estimate was given, it is the clock once Tp has passed. A carrier that is PREDICTED or ABORTED
 * is COMPLETED when its port is READY TO UNLOAD. CancelCarrier of one that waits for its carrier goes through to
 * COMPLETED at once, or to DISABLED.
 */
enum hm_prediction_state {
    HM_PREDICTION_DISABLED = 1,
    HM_PREDICTION_WAITING_FOR_CARRIER = 2,
    HM_PREDICTION_WAITING_FOR_PREDICTION = 3,
    HM_PREDICTION_PREDICTED = 4,
    HM_PREDICTION_ABORTED = 5,
    HM_PREDICTION_COMPLETED = 6
};

/* Values of ChangeServiceStatus and of AccessEnd. */
enum hm_service { HM_SERVICE_OUT = 0, HM_SERVICE_IN = 1 };

enum hm_access_end { HM_ACCESS_END_COMPLETE = 0, HM_ACCESS_END_STOPPED = 1 };

/*
 * Values of LoadStart and UnloadStart: who moves the pod, a hand or a vehicle. Not to be taken for enum hm_access: that
 * says for whom the port is.
 */
enum hm_start { HM_START_MANUAL = 0, HM_START_AUTOMATIC = 1 };

/*
 * Codes of a slot map, in E87's words. Bind and CarrierNotification may carry the map that the host expects: 25
 * codes, each HM_CODE_EMPTY or HM_CODE_CORRECTLY_OCCUPIED, or none (length 0); anything else is refused with 1.
 * A SlotMap that equals it at all 25 slots is OK at once: one report, model 6 from NOT READ to OK. With any other map,
 * and where none is expected, the library keeps the codes and the host judges them.
 */
enum hm_code {
    HM_CODE_UNDEFINED = 0,
    HM_CODE_EMPTY = 1,
    HM_CODE_NOT_EMPTY = 2,
    HM_CODE_CORRECTLY_OCCUPIED = 3,
    HM_CODE_DOUBLE_SLOTTED = 4,
    HM_CODE_CROSS_SLOTTED = 5
};

/*
 * The structs are bytes alone: no padding, alignment 1. A name has zeros after its last byte and, when it fills
 * all 16, no zero at all: it is not a C string. All zeros is no name.
 */
typedef struct hm_port {
    uint8_t transfer;            /* enum hm_transfer */
    uint8_t access;              /* enum hm_access */
    uint8_t reserved;            /* enum hm_reservation */
    uint8_t tie[HM_NAME_BYTES];  /* the carrier that the port is tied to, or no name */
    uint8_t movement;            /* enum hm_movement */
    uint8_t pod;                 /* enum hm_pod */
    uint8_t tag;                 /* enum hm_tag: read means only that a name came off it, not that it is verified */
} hm_port;

typedef struct hm_carrier {
    uint8_t name[HM_NAME_BYTES];
    uint8_t place;               /* enum hm_place */
    uint8_t spot;                /* the buffer place from 1, or 0 when not in the buffer */
    uint8_t port;                /* the port from 1 that it is tied to, or 0 */
    uint8_t open;                /* 0 or 1, as the next two */
    uint8_t cancelled;
    uint8_t came_out;
    uint8_t map[HM_SLOTS];       /* enum hm_code; all zero before a slot map came */
    uint8_t id;                  /* enum hm_status */
    uint8_t slot;                /* enum hm_status */
    uint8_t accessing;           /* enum hm_accessing */
} hm_carrier;

/* A request of CarrierOut. */
typedef struct hm_request {
    uint8_t name[HM_NAME_BYTES]; /* the carrier, which is in the buffer */
    uint8_t port;                /* the port from 1 that it goes to */
    uint8_t started;             /* enum hm_started */
} hm_request;

/* A number of seconds, the low byte first: hm_seconds reads it. */
typedef struct hm_time {
    uint8_t bytes[4];
} hm_time;

/* The prediction of a carrier. All zero where there is no carrier, and in a tool with a buffer. */
typedef struct hm_prediction {
    uint8_t state;               /* enum hm_prediction_state */
    uint8_t has_predicted;       /* 0 or 1, as the next */
    uint8_t has_estimate;
    hm_time predicted;           /* Tp, when has_predicted is 1; else 0 */
    hm_time estimate;            /* Te, when has_estimate is 1; else 0 */
} hm_prediction;

/* What hands did at a port in AUTO. */
typedef struct hm_hands {
    uint8_t alarm;               /* enum hm_alarm; never on at READY TO LOAD */
    uint8_t held;                /* enum hm_held; the port is loading then, without a pod, and its alarm is on */
} hm_hands;

/*
 * The times of a wafer, in seconds: each a whole multiple of 1/HM_WAFER_PARTS from 0 up to but not including
 * HM_WAFER_SECONDS. Such times are added without any rounding, and minus zero counts as zero.
 */
typedef struct hm_wafer {
    double process;
    double handling;
} hm_wafer;

/* Read it as you like; change it through hm_step, hm_time_step and hm_wafers alone. Port number N is ports[N - 1]. */
typedef struct hm_tool {
    uint8_t used;                                /* ports of this tool */
    uint8_t places;                              /* buffer places of this tool */
    uint8_t count;                               /* carrier records, in the order they were made */
    hm_port ports[HM_PORTS];                     /* all zero past used */
    hm_carrier carriers[HM_RECORDS];             /* all zero past count */
    uint8_t expected_maps[HM_RECORDS][HM_SLOTS]; /* of the carrier with the same index; all zero: none */
    uint8_t queued;                              /* requests of CarrierOut in the queue */
    hm_request queue[HM_REQUESTS];               /* the oldest first; all zero past queued */
    hm_time clock;                               /* the last that was accepted; 0 at first */
    hm_time setting;                             /* a carrier is PREDICTED so long before Tp; 0: never */
    hm_time timeout;                             /* a prediction is ABORTED so long after Tp; 0: never */
    hm_prediction predictions[HM_RECORDS];       /* of the carrier with the same index */
    hm_hands hands[HM_PORTS];                    /* of the port with the same index; all zero past used */
    uint8_t spare[HM_SPARE_BYTES];               /* all zero */
} hm_tool;

/* Document 01's tool alone, as a tool begins: what hm_judge leaves. */
typedef struct hm_tool_01 {
    uint8_t used;
    uint8_t places;
    uint8_t count;
    hm_port ports[HM_PORTS];
    hm_carrier carriers[HM_RECORDS];
} hm_tool_01;

typedef struct hm_report {
    uint8_t model;               /* enum hm_model */
    uint8_t port;                /* models 1 to 4 and 9: the port; else 0 */
    uint8_t name[HM_NAME_BYTES]; /* models 5 to 8: the carrier; else no name */
    uint8_t old_state;
    uint8_t new_state;
} hm_report;

typedef struct hm_reports {
    uint8_t count;
    hm_report items[HM_REPORTS]; /* by model, a removed carrier before the others; in model 8 each transition in turn;
                                    all zero past count */
} hm_reports;

/* What hm_waiting found. */
typedef struct hm_found {
    uint64_t position; /* of the first carrier that waits, from 0; the count where none waits */
    uint64_t read;     /* records that were read to know: the position plus one, or all of them */
} hm_found;

/* How far hm_judge came. */
typedef struct hm_judged {
    uint64_t entry;  /* entries that agree, so the number, from 0, of the one that disagrees or is cut short */
    uint64_t at;     /* bytes from the log's first: where that entry begins, the wrong or missing byte of the head, or
                        the end of the log */
    uint64_t answer; /* enum hm_answer: what document 01 answered last; 0 where it was given no input */
} hm_judged;

/*
 * Sets up a tool of 1 to 4 ports and 0 to 16 buffer places, with the setting time and the timeout of its predictions,
 * 0 to HM_SECONDS_GREATEST seconds each; 0 and 0 for a tool that predicts nothing. Whatever the tool held before is
 * gone. 0: every port READY TO LOAD and MANUAL, no carrier, clock 0. 1: out of range; the tool is all zeros, which is
 * no tool: it isn't sound, and every input to it is answered 1 until a set-up succeeds.
 */
uint32_t hm_setup(hm_tool *tool, uint32_t ports, uint32_t places, uint32_t setting, uint32_t timeout);

/*
 * Gives one input to the tool and answers it, by enum hm_answer. What the reports held before is gone.
 * 0: the tool is the one that follows, and the reports are its differences from the one before.
 * Else refused: the tool is as it was, byte for byte, and the reports are all zero.
 * A name is given by its own bytes and its own length, without the zeros that pad it inside the structs. Blanks at its
 * end are dropped before the row sees it: record, comparison and report have the name that hm_name tells. A text
 * that is no name is refused with 1 by every input that reads a name; length 0 alone is no name given.
 * Inputs 31 to 35 bring a clock, for which hm_step has no argument: it takes them with clock 0, time 0 and no wafers,
 * so that they are refused with 11 once a later clock was accepted. hm_time_step and hm_wafers are the ones to call.
 */
uint32_t hm_step(hm_tool *tool, hm_reports *reports, uint32_t number, uint32_t port, uint32_t value,
                 const uint8_t *name, uint64_t name_length, const uint8_t *codes, uint64_t codes_length);

/*
 * Gives the tool an input that brings the clock, HM_INPUT_CLOCK to HM_INPUT_NO_PREDICTION; any other number is
 * answered 1. Answer, tool and reports are as hm_step leaves them, and the name is taken in the same way.
 * Send Clock as often as predictions are to be judged: once a second is enough. Send PredictedTime once for a carrier
 * that is WAITING FOR PREDICTION, as soon as you know when it will be ready to unload, or the times of its wafers by
 * hm_wafers; Estimate whenever you have calculated that time anew, or never; NoPrediction where it can't be known.
 * Clock and time are whole seconds of one clock of yours, which may begin anywhere and never goes back: one earlier
 * than the last that was accepted is refused with 11, an equal one isn't. The time is Tp or Te, and may be earlier than
 * the clock. Clock reads neither name nor time, NoPrediction no time. For the inputs of hm_step it is the last clock
 * accepted that counts.
 * 2: the name has no record. 5: the tool has a buffer; Tp or NoPrediction for a carrier that isn't WAITING FOR
 * PREDICTION; a second Tp; an estimate without a Tp.
 */
uint32_t hm_time_step(hm_tool *tool, hm_reports *reports, uint32_t number, uint32_t clock,
                      const uint8_t *name, uint64_t name_length, uint32_t time);

/*
 * What hm_wafers, below, calls: HM_INPUT_WAFERS with the times as they stand one after the other, process, handling,
 * process, handling and so on. times_count counts doubles: an odd one, and one above 2 * HM_WAFERS, is answered 1, and
 * no time is read then.
 */
uint32_t hm_wafers_step(hm_tool *tool, hm_reports *reports, uint32_t clock, const uint8_t *name, uint64_t name_length,
                        const double *times, uint64_t times_count);

/*
 * How many bytes of a text, from its first, are the name that an input with it has: 1 to 16. 0: refused, since it has
 * more than 32 bytes, a blank elsewhere than at the end, nothing left without the blanks at the end, more than 16 left,
 * or a byte that no name has. A tag reader's text may be asked of before it is sent; hm_step does so by itself.
 */
uint32_t hm_name(const uint8_t *text, uint64_t length);

/*
 * Reads the text of a host's S3F17, as SEMI E5 lays it out and without the ten bytes of header before it, and gives
 * the tool the input that it asks for: a list of five, being the data id (U1, U2, U4 or U8), the action (ASCII: "Bind",
 * "CarrierNotification", "ProceedWithCarrier" or "CancelCarrier"), the carrier's name (ASCII), the port (U1, 0: not
 * given) and a list of attributes, each a list of a name (ASCII) and a value. A first attribute named "SlotMap" is a
 * list of 25 U1, in Bind and CarrierNotification the expected map. The rest is read and dropped, and so is the port
 * of CarrierNotification. Each number or boolean item holds one value.
 * 20 to 26, by enum hm_secs_refusal: refused, and the tool gets no input: it is as it was, byte for byte, and the
 * reports are all zero. Else the tool's own answer, with tool and reports as hm_step leaves them.
 * In both cases *items is the count of items begun that met none of 20 to 24: at most HM_SECS_ITEMS.
 * The message is read where it stands, and no byte outside it.
 */
uint32_t hm_secs_step(hm_tool *tool, hm_reports *reports, const uint8_t *message, uint64_t length, uint32_t *items);

/*
 * Where the reading of a message stopped, in bytes from its first: for 20 to 24 where the refused item begins, for 25
 * the first byte left over, else the end of the message. For a log; hm_secs_step doesn't need it.
 */
uint64_t hm_secs_at(const uint8_t *message, uint64_t length);

/*
 * The bridge's whole way: the text of S3F17 in, the text of S3F18 out. Answer, tool, reports and *items are those of
 * hm_secs_step, and the room has the reply to that answer, as hm_reply writes it: *length bytes from its first.
 * But HM_REFUSED_ROOM_TOO_SMALL exactly when that reply is longer than the room: then the tool gets no input, whatever
 * the message asked for, and is as it was, byte for byte; the reports are all zero, no byte of the room is written, and
 * *length is 0. Lend more and send the same message again. HM_REPLY_ROOM bytes are always enough.
 */
uint32_t hm_secs_exchange(hm_tool *tool, hm_reports *reports, const uint8_t *message, uint64_t message_length,
                          uint32_t *items, uint8_t *room, uint64_t room_length, uint32_t *length);

/*
 * Writes the text of S3F18 for an answer of any function here: a list of the acknowledge byte (U1: 0 accepted, 3 for
 * 1 and 20 to 26, 5 for any other number) and a list of errors, which is empty for 0 and else holds one pair, the
 * number (U2) and its text (ASCII, 1 to 80 bytes; docs/REPLIES.md has them all). Length bytes are the shortest.
 * The number may be any: one that no refusal has is an "Unknown refusal", and past 65,535 its code is 65,535.
 * 0: the text stands at the room's start, *length is how many bytes it has (7 for 0), and all bytes after it are as
 * they were. HM_REFUSED_ROOM_TOO_SMALL, exactly when the text is longer than the room: no byte of it is written, and
 * *length is 0. HM_REPLY_ROOM bytes are always enough. What *length held before is gone.
 */
uint32_t hm_reply(uint32_t number, uint8_t *room, uint64_t room_length, uint32_t *length);

/* 1 when the tool, whatever its bytes, is sound, else 0. Changes nothing. hm_step asks it for every input. */
uint32_t hm_sound(const hm_tool *tool);

/*
 * Is anyone waiting? Looks in a table of carrier records for the first that waits for the host, which is
 * HM_STATUS_WAITING_FOR_HOST as ID status or as slot status; nothing else of a record decides. For a panel that asks
 * every frame: if (hm_waiting(tool.carriers, tool.count, &found)) { .. tool.carriers[found.position] .. }
 * 1: found->position is the first that waits, and nothing after it was read. 0: none waits, and all were read.
 * The records may hold any bytes, there may be any number of them, also none, and nothing in them is changed. Of a tool
 * that may be damaged don't lend more than HM_RECORDS, whatever its count says. What found held before is gone; it
 * doesn't overlap the records.
 */
uint32_t hm_waiting(const hm_carrier *carriers, uint64_t count, hm_found *found);

/*
 * Judges the log of another maker's tool by document 01, as it stands before any request: no expected map, no blank at
 * the end of a name, no prediction, no alarm, and no queue: CarrierOut moves the carrier at once; inputs are 1 to 26,
 * models 1 to 7, and the second number of LoadStart and UnloadStart isn't looked at. The log: the mark CMT; a version
 * of two bytes, the high one first: 1; P and B; then entries. Every other number is one byte. An entry is input number,
 * port, second number, name length, name, 25 codes for input 20 only, answer, report count, reports; a report is model,
 * subject (for models 5 to 7 name length and name, for every other number a port), old, new. Answers by enum
 * hm_verdict, the first that is met in the order of the file; an entry is read to its end before it is judged, and
 * nothing is read after one that disagrees.
 * What tool, reports and judged held before is gone. The tool is document 01's after the last input that it was given,
 * the reports are that input's, and judged->answer its answer: for HM_LOG_ENTRY_DISAGREES what the entry should show.
 * All zero where the head is refused. A log of any length is read once, where it stands, and no byte outside it.
 */
uint32_t hm_judge(const uint8_t *log, uint64_t length, hm_tool_01 *tool, hm_reports *reports, hm_judged *judged);

/*
 * HM_VERSION, sizeof(hm_tool) and sizeof(hm_reports) as the archive has them: compare once at start. An archive of
 * another version may lay a tool out otherwise, or write past the bytes that it is lent.
 */
uint32_t hm_version(void);
uint32_t hm_tool_size(void);
uint32_t hm_reports_size(void);

#ifdef __cplusplus
}
#endif

/* Seconds as a number, on every machine. */
static inline uint32_t hm_seconds(const hm_time *time)
{
    uint32_t seconds = 0, i;

    for (i = sizeof time->bytes; i > 0; i--) {
        seconds = seconds << 8 | time->bytes[i - 1];
    }
    return seconds;
}

/*
 * How many pods are here: those at ports, and the carriers in the buffer. A held pod isn't yet, one on its way out of
 * the buffer still is. After every input of a run from hm_setup on it is what came in (LoadDone without those that were
 * held, and Continue) less what went out (UnloadDone): docs/MANUAL.md, "Pods in, pods out". Any bytes may be asked.
 */
static inline uint32_t hm_pods_here(const hm_tool *tool)
{
    uint32_t here = 0, i;

    for (i = 0; i < HM_PORTS; i++) {
        here += tool->ports[i].pod != HM_NO_POD;
    }
    for (i = 0; i < HM_RECORDS; i++) {
        here += tool->carriers[i].place == HM_PLACE_BUFFER;
    }
    return here;
}

/*
 * Gives the tool the times of the wafers that a carrier still waits for, as the process module knows them: all is as
 * with PredictedTime, and Tp is the clock plus the total of both times of all wafers, rounded up once to a second.
 * No wafers: Tp is the clock; their pointer may be NULL then.
 * 1: more than HM_WAFERS; none of them is read. 2, 5, 11: as PredictedTime. 12: some time isn't one that hm_wafer may
 * hold, as NaN and -1.0 aren't, or Tp would be past 2^32 - 1. Times of another kind are brought to whole parts by
 * ceil(seconds * HM_WAFER_PARTS) / HM_WAFER_PARTS, which is exact below HM_WAFER_SECONDS.
 */
static inline uint32_t hm_wafers(hm_tool *tool, hm_reports *reports, uint32_t clock, const uint8_t *name,
                                 uint64_t name_length, const hm_wafer *wafers, uint64_t count)
{
    static const double nothing = 0;
    const double *const times = count == 0 ? &nothing : &wafers->process;
    const uint64_t sent = count > HM_WAFERS ? HM_WAFERS + 1 : count; /* twice any count would wrap */

    return hm_wafers_step(tool, reports, clock, name, name_length, times, 2 * sent);
}

/* The layout that the archive was made for. C99 has no static assertion: an array of -1 bytes stops it there. */
#if defined(__cplusplus)
#define HM_HOLDS(name, fact) static_assert(fact, #name)
#elif defined(__STDC_VERSION__) && __STDC_VERSION__ >= 201112L
#define HM_HOLDS(name, fact) _Static_assert(fact, #name)
#else
#define HM_HOLDS(name, fact) typedef char hm_holds_##name[(fact) ? 1 : -1]
#endif
#define HM_AT(type, field, offset) HM_HOLDS(type##_##field, offsetof(type, field) == (offset))

HM_HOLDS(hm_port_size, sizeof(hm_port) == 22);
HM_AT(hm_port, transfer, 0);
HM_AT(hm_port, access, 1);
HM_AT(hm_port, reserved, 2);
HM_AT(hm_port, tie, 3);
HM_AT(hm_port, movement, 19);
HM_AT(hm_port, pod, 20);
HM_AT(hm_port, tag, 21);

HM_HOLDS(hm_carrier_size, sizeof(hm_carrier) == 50);
HM_AT(hm_carrier, name, 0);
HM_AT(hm_carrier, place, 16);
HM_AT(hm_carrier, spot, 17);
HM_AT(hm_carrier, port, 18);
HM_AT(hm_carrier, open, 19);
HM_AT(hm_carrier, cancelled, 20);
HM_AT(hm_carrier, came_out, 21);
HM_AT(hm_carrier, map, 22);
HM_AT(hm_carrier, id, 47);
HM_AT(hm_carrier, slot, 48);
HM_AT(hm_carrier, accessing, 49);

HM_HOLDS(hm_request_size, sizeof(hm_request) == 18);
HM_AT(hm_request, name, 0);
HM_AT(hm_request, port, 16);
HM_AT(hm_request, started, 17);

HM_HOLDS(hm_time_size, sizeof(hm_time) == 4);
HM_AT(hm_time, bytes, 0);

HM_HOLDS(hm_prediction_size, sizeof(hm_prediction) == 11);
HM_AT(hm_prediction, state, 0);
HM_AT(hm_prediction, has_predicted, 1);
HM_AT(hm_prediction, has_estimate, 2);
HM_AT(hm_prediction, predicted, 3);
HM_AT(hm_prediction, estimate, 7);

HM_HOLDS(hm_hands_size, sizeof(hm_hands) == 2);
HM_AT(hm_hands, alarm, 0);
HM_AT(hm_hands, held, 1);

HM_HOLDS(hm_wafer_size, sizeof(hm_wafer) == 16);
HM_AT(hm_wafer, process, 0);
HM_AT(hm_wafer, handling, 8);

HM_HOLDS(hm_found_size, sizeof(hm_found) == 16);
HM_AT(hm_found, position, 0);
HM_AT(hm_found, read, 8);

HM_HOLDS(hm_tool_size, sizeof(hm_tool) == HM_TOOL_BYTES);
HM_AT(hm_tool, used, 0);
HM_AT(hm_tool, places, 1);
HM_AT(hm_tool, count, 2);
HM_AT(hm_tool, ports, 3);
HM_AT(hm_tool, carriers, 91);
HM_AT(hm_tool, expected_maps, 1891);
HM_AT(hm_tool, queued, 2791);
HM_AT(hm_tool, queue, 2792);
HM_AT(hm_tool, clock, 3080);
HM_AT(hm_tool, setting, 3084);
HM_AT(hm_tool, timeout, 3088);
HM_AT(hm_tool, predictions, 3092);
HM_AT(hm_tool, hands, 3488);
HM_AT(hm_tool, spare, 3496);

HM_HOLDS(hm_tool_01_size, sizeof(hm_tool_01) == HM_TOOL_01_BYTES);
HM_AT(hm_tool_01, used, 0);
HM_AT(hm_tool_01, places, 1);
HM_AT(hm_tool_01, count, 2);
HM_AT(hm_tool_01, ports, 3);
HM_AT(hm_tool_01, carriers, 91);

HM_HOLDS(hm_judged_size, sizeof(hm_judged) == 24);
HM_AT(hm_judged, entry, 0);
HM_AT(hm_judged, at, 8);
HM_AT(hm_judged, answer, 16);

HM_HOLDS(hm_report_size, sizeof(hm_report) == 20);
HM_AT(hm_report, model, 0);
HM_AT(hm_report, port, 1);
HM_AT(hm_report, name, 2);
HM_AT(hm_report, old_state, 18);
HM_AT(hm_report, new_state, 19);

HM_HOLDS(hm_reports_size, sizeof(hm_reports) == HM_REPORTS_BYTES);
HM_AT(hm_reports, count, 0);
HM_AT(hm_reports, items, 1);

#endif
