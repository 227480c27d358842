/* heidezirkel.h: broadcast call control of GSM 04.69 (version 7.2.0) and group call control of 24.068 (version 3.1.0) for a mobile station, as a C
 * library, libcontroller.a.
 *
 * A broadcast call carries the fire and rockfall warning to the radios of a crew; in a group call the crew can answer. This library decides what a radio
 * does in such a call: a host (the firmware) tells it each event as it happens, and it answers with what is to be done and what is to be sent. The host
 * has the clock, the lower layers and the memory; the library has the rules. It is written in Rattle and proved: what stands below holds for all inputs.
 *
 * HOW A HOST USES IT
 *
 *   1. Once: keep HEIDEZIRKEL_SETTINGS_OCTETS octets that begin as zeros, and fill them with heidezirkel_read_settings. Keep joining_ms and
 *      invitation_ms too.
 *   2. Once: keep HEIDEZIRKEL_CONTEXT_OCTETS octets, and clear them with heidezirkel_clear. This is the one context of the radio's one call.
 *   3. At each event: call heidezirkel_step. Carry out the actions that it gives, send the reply if it has octets, and look at the timers (below).
 *   4. If a log is wanted: heidezirkel_begin_log once, heidezirkel_record after each step, whatever its answer 0 to 3.
 * examples/host.c is a whole small host, to read and to begin from; examples/group-host.c is one of a group call.
 *
 * GROUP CALLS have functions of their own, heidezirkel_group_.., for what differs: the step, messages, and the log that a call is recorded in. They take
 * what their namesakes take. A host that calls none of them keeps broadcast calls and need not read on about group calls. Clearing, settings and the judge
 * serve both. A context belongs to one kind of call until it is cleared: tell its events to one of the two steps, and record them in a log of that kind.
 *
 * ANSWERS. Every function answers a number of the table below, for every input, and never fails in another way. A refused call (answers 1 and 3 to
 * 13) changes nothing that was lent to it: no octet of a context, of settings, of a reply buffer or of a log. What it returns besides the answer is
 * fixed too: zeros, but for what is said at the function.
 *
 * BUFFERS. Every buffer is the caller's. The library keeps no pointer, has no memory of its own, allocates nothing, calls nothing and never waits;
 * a buffer is used only until the function returns, so calls over different buffers may run at the same time. A pointer is never NULL, also
 * where its length is 0, and points to at least as many octets as its length says. A buffer that a call may change (a pointer to uint8_t that is not
 * const) overlaps no other buffer of the same call.
 *
 * TIMERS. The host keeps them. Octet 2 of the context says which of the five run. Compare it before and after each step:
 *   a bit that became set starts that timer, anew, with its whole length;
 *   a bit that was cleared stops it;
 *   a bit that stayed, set or clear, changes nothing: a timer that runs goes on with what is left of it.
 * When a timer has run its length, tell the event of its expiry, at once: a log in which an expiry comes late is not explained by the timer.
 *
 *   bit of octet 2                     length           event of its expiry
 *   HEIDEZIRKEL_T_PRES       16        invitation_ms    HEIDEZIRKEL_EVENT_PRES_EXPIRED        19
 *   HEIDEZIRKEL_T_MM_EST      8         5,000 ms        HEIDEZIRKEL_EVENT_MM_EST_EXPIRED      14
 *   HEIDEZIRKEL_T_TERM        4        10,000 ms        HEIDEZIRKEL_EVENT_TERM_EXPIRED        15
 *   HEIDEZIRKEL_T_CONN_REQ    2        joining_ms       HEIDEZIRKEL_EVENT_CONN_REQ_EXPIRED    16
 *   HEIDEZIRKEL_T_NO_CHANNEL  1         3,000 ms        HEIDEZIRKEL_EVENT_NO_CHANNEL_EXPIRED  17
 *
 * At most one of them runs in a fit context. T_conn req is the joining timer. T_pres is the invitation timer: it runs as long as a call is notified and
 * not joined, in U3, so that no invitation stands for a day after its call has ended. Its expiry has no action: that the state is U0 again says that the
 * invitation is forgotten. A group call has the other four and not T_pres: its invitation stands until it is taken, or the call ends.
 */
#ifndef HEIDEZIRKEL_H
#define HEIDEZIRKEL_H
#include <stddef.h>
#include <stdint.h>
#ifdef __cplusplus
extern "C" {
#endif

/* ---- The answers ------------------------------------------------------------------------------------------------------------------- */

enum {
    HEIDEZIRKEL_TAKEN = 0,             /* taken, as the step table says */
    HEIDEZIRKEL_IGNORED = 1,           /* message ignored: it was not for this call, or nothing may be sent about it; with the reason's number */
    HEIDEZIRKEL_REPORTED = 2,          /* message reported: the reply is a STATUS that says why; the context is unchanged */
    HEIDEZIRKEL_NO_STEP = 3,           /* the event has no step in this state */
    HEIDEZIRKEL_OUT_OF_RANGE = 4,      /* an argument is outside its range */
    HEIDEZIRKEL_SHORT_BUFFER = 5,      /* the buffer for a message is under 255 octets, or that for a copy is shorter than the log */
    HEIDEZIRKEL_LONG_MESSAGE = 6,      /* the received message is over 251 octets */
    HEIDEZIRKEL_NO_CONTEXT = 7,        /* the context is not fit, or no context at all: clear it */
    HEIDEZIRKEL_UNREADABLE_LOG = 8,    /* the log can't be read, with the entry's number */
    HEIDEZIRKEL_UNEXPLAINED = 9,       /* up to an entry no joining and invitation timers explain the log, with the entry's number */
    HEIDEZIRKEL_LONG_LOG = 10,         /* the log is over 65,536 bytes, or would be */
    HEIDEZIRKEL_NO_ROOM = 11,          /* no room for the entry in the log's buffer */
    HEIDEZIRKEL_SETTINGS_REFUSED = 12, /* the settings file is refused, with the line's number */
    HEIDEZIRKEL_UNREADABLE = 13        /* the message can't be read, with the fault's number */
};

#define HEIDEZIRKEL_CONTEXT_OCTETS 16
#define HEIDEZIRKEL_SETTINGS_OCTETS 21
#define HEIDEZIRKEL_REPLY_OCTETS 255   /* the shortest buffer that may be lent for a reply or for a message to be written */
#define HEIDEZIRKEL_MESSAGE_OCTETS 251 /* the longest message, received or sent */
#define HEIDEZIRKEL_LOG_OCTETS 65536   /* the longest log */

/* ---- The context ------------------------------------------------------------------------------------------------------------------- */

/* What the radio knows of its call, 16 octets that the host keeps and lends:
 *
 *   octet    what it is
 *   0        state, HEIDEZIRKEL_U0 to HEIDEZIRKEL_U2NC
 *   1        parameters that are true, added up: 8 ORIG, 4 COMM, 2 D-ATT, 1 U-ATT
 *   2        timers that run, added up: 16 T_pres, 8 T_MM-est, 4 T_term, 2 T_conn req, 1 T_no channel
 *   3        transaction value, 0 to 6
 *   4 to 7   call reference, as it came
 *   8        in U5 the state that the termination was asked from, HEIDEZIRKEL_U1 or HEIDEZIRKEL_U2, in a group call HEIDEZIRKEL_U1 or one of U2SL, U2WR,
 *            U2WS and U2SR; elsewhere zero: nothing is remembered
 *   9        in a group call, added up: which side chose the transaction value (1 this radio, 2 the cell; 0 neither, in U0), 4 a termination request that
 *            waits to be sent, 8 a STATUS that waits to be sent, 16 the value of the next message is awaited; in a broadcast call zero
 *   10 to 15 zero, kept for later
 *
 * Read it as you like; only heidezirkel_clear and the two steps should write it. Octets that no call can lead to are refused with 7 (state 14,
 * parameters 16, timers 32, octet 9 with 3 in its low two bits or of 32 and over, an octet of 10 to 15 that is not zero, a timer that can't run in the
 * state, U3 of a broadcast call without T_pres, U5 without T_term or with nothing remembered). heidezirkel_step refuses states 8 to 13, and
 * heidezirkel_group_step U2 and U6. All 16 octets zero is the cleared context.
 *
 * Octets that an older library has written are contexts still (octet 9 is zero in them, as in every broadcast call), but in two states. In U3, if it had
 * no T_pres: octet 2 is 0 there. Either clear the context, and the invitation is forgotten; or write HEIDEZIRKEL_T_PRES into octet 2, start that timer with
 * its whole length, and go on. In U5, if octet 8 had no use: clear the context. */
enum { /* octet 0. A group call has U0 to U1, U3 to U5 and those from 8 on; a broadcast call those to 7 */
    HEIDEZIRKEL_U0 = 0,   /* NULL: no call */
    HEIDEZIRKEL_U0_P = 1, /* MM CONNECTION PENDING */
    HEIDEZIRKEL_U1 = 2,   /* BROADCAST CALL INITIATED */
    HEIDEZIRKEL_U2 = 3,   /* BROADCAST CALL ACTIVE: this radio speaks */
    HEIDEZIRKEL_U3 = 4,   /* BROADCAST CALL PRESENT: a call is notified, and not joined yet */
    HEIDEZIRKEL_U4 = 5,   /* BROADCAST CALL CONNECTION REQUESTED: joining */
    HEIDEZIRKEL_U5 = 6,   /* TERMINATION REQUESTED */
    HEIDEZIRKEL_U6 = 7,   /* RECEIVE MODE ACTIVE: this radio listens */
    /* GROUP CALL ACTIVE, U2 of a group call, by what the radio does in it: */
    HEIDEZIRKEL_U2SL = 8,  /* SEPARATE LINK: on a link of its own; it talks */
    HEIDEZIRKEL_U2WR = 9,  /* WAIT RECEIVE: it stopped talking, and waits for group receive mode */
    HEIDEZIRKEL_U2R = 10,  /* RECEIVE: it listens */
    HEIDEZIRKEL_U2WS = 11, /* WAIT SEND: it asked to talk, and waits for group transmit mode */
    HEIDEZIRKEL_U2SR = 12, /* SEND AND RECEIVE: it talks on the group's channel */
    HEIDEZIRKEL_U2NC = 13  /* NO CHANNEL: T_no channel runs */
};
enum { /* octet 1 */
    HEIDEZIRKEL_ORIG = 8,  /* this radio is the originator */
    HEIDEZIRKEL_COMM = 4,  /* it may send messages to the network */
    HEIDEZIRKEL_D_ATT = 2, /* attach the user connection in the downlink: let the crew hear */
    HEIDEZIRKEL_U_ATT = 1  /* attach it in the uplink: let the crew speak */
};
enum { /* octet 2 */
    HEIDEZIRKEL_T_PRES = 16,
    HEIDEZIRKEL_T_MM_EST = 8,
    HEIDEZIRKEL_T_TERM = 4,
    HEIDEZIRKEL_T_CONN_REQ = 2,
    HEIDEZIRKEL_T_NO_CHANNEL = 1
};
enum { /* octet 9, of a group call */
    HEIDEZIRKEL_CHOSEN_BY_US = 1,        /* the low two bits: which side chose the transaction value */
    HEIDEZIRKEL_CHOSEN_BY_CELL = 2,
    HEIDEZIRKEL_PENDING_TERMINATION = 4, /* sent as soon as ORIG and COMM are true, unless HEIDEZIRKEL_EVENT_DELETE_REQUEST deletes it before */
    HEIDEZIRKEL_PENDING_STATUS = 8,      /* sent as soon as COMM is true */
    HEIDEZIRKEL_AWAITING_VALUE = 16      /* the next message that is taken gives the call its transaction value */
};

/* Clears the context, whatever it was. Answers 0. */
uint32_t heidezirkel_clear(uint8_t context[16]);

/* ---- The settings ------------------------------------------------------------------------------------------------------------------ */

/* What a radio knows of itself, 21 octets that the host keeps and lends:
 *
 *   octet     what it is
 *   0         ciphering key number, 0 to 7
 *   1 to 3    mobile station classmark
 *   4         how many octets the own identity has, 1 to 8
 *   5 to 12   the own identity; what stands behind it has no effect (heidezirkel_read_settings writes zeros there)
 *   13 to 16  the joining timer, the length of T_conn req in milliseconds, low octet first
 *   17 to 20  the invitation timer, the length of T_pres in milliseconds, low octet first
 *
 * A key number over 7 and an identity of 0 or over 8 octets are refused by every step and every judgement with 4. So are 21 zeros: a host that let its
 * settings begin as zeros and forgot to look at the answer below runs no call on a default. Octets 13 to 20 are for the host, who keeps the timers: they
 * have no effect on a step or a judgement. The 13 octets that an older library has written are too few: read the file anew, with its fifth line. */
struct heidezirkel_settings {
    uint32_t answer;        /* 0 or 12 */
    uint32_t fault;         /* of 12: why the line is refused, one of the numbers below; else 0 */
    size_t line;            /* of 12: the line that is refused, counted from 1; where a line is missing, the count of lines plus 1; else 0 */
    uint32_t joining_ms;    /* of 0: the length of T_conn req, 10,000 to 30,000 ms; else 0 */
    uint32_t invitation_ms; /* of 0: the length of T_pres, 1,000 to 600,000 ms; else 0 */
};
enum { /* fault */
    HEIDEZIRKEL_LINE_NO_LINE_FEED = 1,
    HEIDEZIRKEL_LINE_UNKNOWN_NAME = 2,
    HEIDEZIRKEL_LINE_BAD_KEY = 3,
    HEIDEZIRKEL_LINE_BAD_CLASSMARK = 4,
    HEIDEZIRKEL_LINE_BAD_IDENTITY = 5,
    HEIDEZIRKEL_LINE_BAD_JOINING = 6,
    HEIDEZIRKEL_LINE_REPEATED_NAME = 7,
    HEIDEZIRKEL_LINE_MISSING_KEY = 8,
    HEIDEZIRKEL_LINE_MISSING_CLASSMARK = 9,
    HEIDEZIRKEL_LINE_MISSING_IDENTITY = 10,
    HEIDEZIRKEL_LINE_MISSING_JOINING = 11,
    HEIDEZIRKEL_LINE_BAD_INVITATION = 12,    /* present_ms= is not a number from 1000 to 600000 */
    HEIDEZIRKEL_LINE_MISSING_INVITATION = 13 /* no line present_ms= */
};

/* Reads a settings file, lent whole as `length` bytes: five lines, in any order, each ended by a line feed, as in
 *     cksn=3
 *     classmark=3319a2
 *     identity=f423a1b2
 *     conn_req_ms=12000
 *     present_ms=60000
 * Answers 0 and writes the 21 octets, or 12 and leaves them as they were. No default stands in for a line: a file of four lines, as an older library
 * takes it, is refused at line 5. */
struct heidezirkel_settings heidezirkel_read_settings(const uint8_t *file, size_t length, uint8_t settings[21]);

/* ---- The step ---------------------------------------------------------------------------------------------------------------------- */

enum { /* what happens: the numbers of events */
    HEIDEZIRKEL_EVENT_SET_UP = 1,             /* the user asks for a call, with an MM connection first; carries value and reference */
    HEIDEZIRKEL_EVENT_IMMEDIATE_SET_UP = 2,   /* the user asks for a call at once; carries value and reference */
    HEIDEZIRKEL_EVENT_JOIN = 3,               /* the user takes the call that was notified */
    HEIDEZIRKEL_EVENT_TERMINATE = 4,          /* the user ends the call for everyone */
    HEIDEZIRKEL_EVENT_RELEASE = 5,            /* the user leaves the call */
    HEIDEZIRKEL_EVENT_MM_ESTABLISHED = 6,     /* lower layers: the MM connection is there */
    HEIDEZIRKEL_EVENT_MM_FAILED = 7,          /* lower layers: the MM connection could not be established */
    HEIDEZIRKEL_EVENT_RADIO_LINK_FAILURE = 8, /* lower layers */
    HEIDEZIRKEL_EVENT_ABORT_OR_RELEASE = 9,   /* lower layers: the network's abort or release was detected */
    HEIDEZIRKEL_EVENT_NOTIFIED = 10,          /* lower layers: a broadcast call exists, for the group step a group call; carries value and reference */
    HEIDEZIRKEL_EVENT_GROUP_RECEIVE = 11,     /* lower layers: group receive mode is entered */
    HEIDEZIRKEL_EVENT_NO_CHANNEL = 12,        /* lower layers: no channel */
    HEIDEZIRKEL_EVENT_CHANNEL_AVAILABLE = 13, /* lower layers: a channel is available */
    HEIDEZIRKEL_EVENT_MM_EST_EXPIRED = 14,    /* the host's clock: see TIMERS above */
    HEIDEZIRKEL_EVENT_TERM_EXPIRED = 15,
    HEIDEZIRKEL_EVENT_CONN_REQ_EXPIRED = 16,
    HEIDEZIRKEL_EVENT_NO_CHANNEL_EXPIRED = 17,
    HEIDEZIRKEL_EVENT_RECEIVED = 18,          /* lower layers: a message came; carries mode and octets */
    HEIDEZIRKEL_EVENT_PRES_EXPIRED = 19,      /* the host's clock, as 14 to 17; not of a group call */
    /* Of a group call alone: */
    HEIDEZIRKEL_EVENT_RECEIVE_MODE = 32,      /* the user asks for receive mode: stops talking */
    HEIDEZIRKEL_EVENT_TALK = 33,              /* the user asks to talk */
    HEIDEZIRKEL_EVENT_GROUP_TRANSMIT = 34,    /* lower layers: group transmit mode is entered */
    HEIDEZIRKEL_EVENT_DEDICATED = 35,         /* lower layers: dedicated mode is entered */
    HEIDEZIRKEL_EVENT_DELETE_REQUEST = 36     /* the user takes a termination back that waits to be asked for */
};
enum { /* what the host is to do: the actions, added up */
    HEIDEZIRKEL_DO_INFORM = 1,                /* inform higher layers: tell the user what happened */
    HEIDEZIRKEL_DO_REQUEST_MM = 2,            /* request an MM connection */
    HEIDEZIRKEL_DO_REQUEST_GROUP_RECEIVE = 4, /* request group receive mode */
    HEIDEZIRKEL_DO_ABORT = 8,                 /* ask lower layers to abort the call */
    HEIDEZIRKEL_DO_RELEASE = 16,              /* ask lower layers to release the call */
    HEIDEZIRKEL_DO_TELL_MM_EXISTS = 32,       /* tell lower layers that the MM connection exists implicitly */
    HEIDEZIRKEL_DO_REQUEST_GROUP_TRANSMIT = 64 /* request group transmit mode; of a group call alone */
};

enum { /* why a message was ignored: the reason beside answer 1. Where several apply, the first of them */
    HEIDEZIRKEL_IGNORED_NO_CALL = 1,        /* the radio is in U0 */
    HEIDEZIRKEL_IGNORED_TOO_SHORT = 2,      /* under 2 octets */
    HEIDEZIRKEL_IGNORED_OTHER_PROTOCOL = 3, /* its protocol discriminator is not 1, that of broadcast call control; in a group call not 0 */
    HEIDEZIRKEL_IGNORED_TRANSACTION = 4,    /* its transaction value or flag is not that of this call */
    HEIDEZIRKEL_IGNORED_IDENTITY = 5,       /* received in unacknowledged mode, and it names another radio's identity */
    HEIDEZIRKEL_IGNORED_COMM_FALSE = 6      /* it would be reported with a STATUS, or in a broadcast call asks for one, and the parameter COMM is false; in a
                                             * group call what is asked for waits: heidezirkel_group_step */
};

/* An event and its data. What an event does not carry has no effect and may be anything; zero is a good habit. */
struct heidezirkel_event {
    uint32_t number;      /* 1 to 19; of a group call 1 to 18 and 32 to 36 */
    uint8_t value;        /* of 1, 2 and 10: transaction value, 0 to 6 */
    uint8_t mode;         /* of 18: 0 received in acknowledged mode, 1 in unacknowledged mode */
    uint8_t reference[4]; /* of 1, 2 and 10: call reference */
};
struct heidezirkel_step {
    uint32_t answer;     /* 0 to 7 */
    uint32_t reason;     /* of 1: why the message was ignored, 1 to 6; else 0 */
    uint32_t actions;    /* of 0: the actions, added up; else 0 */
    size_t reply_length; /* of 0 and 2: how many octets at the start of the reply buffer are to be sent; else, and where nothing is to be sent, 0 */
};

/* Takes one step: the event happens to the radio whose call is `context`.
 * `message` is the received message, for event 18; for any other event it has no effect (lend any pointer, and length 0).
 * `reply` has room for at least 255 octets, always. Only the first reply_length octets of it are changed.
 * Tested in this order: 7 the context; 5 the reply buffer; 6 the message's length, for event 18; 4 event number, mode, value, key number, own identity.
 * Then the step: 0 with the context after it, or 1, 2 or 3 with the context as it was. */
struct heidezirkel_step heidezirkel_step(uint8_t context[16], const uint8_t settings[21], struct heidezirkel_event event,
    const uint8_t *message, size_t message_length, uint8_t *reply, size_t reply_room);

/* The same of a group call. Two things are new for a host:
 *
 * The radio's mode. Tell each change of it that the lower layers report, in a call that is active: HEIDEZIRKEL_EVENT_GROUP_RECEIVE, .._GROUP_TRANSMIT,
 * .._DEDICATED, and .._NO_CHANNEL for idle mode. The step has no "channel available" (answer 3): the mode that is entered says it. Whether the crew hears
 * and may speak are D-ATT and U-ATT, as ever.
 *
 * What waits. A termination that the user asks for, and a STATUS that the cell asks for, while COMM is false are taken (0, nothing sent) and kept in octet 9;
 * from U2r the radio asks to talk, so that it can send. They go out with the step that makes COMM true, a termination once ORIG is true too. So the reply of
 * one step may hold two messages, one behind the other: SETUP and STATUS, or STATUS and TERMINATION REQUEST. Each has 6 octets, and no other reply of answer 0
 * has 12: send the two one by one. */
struct heidezirkel_step heidezirkel_group_step(uint8_t context[16], const uint8_t settings[21], struct heidezirkel_event event,
    const uint8_t *message, size_t message_length, uint8_t *reply, size_t reply_room);

/* ---- Messages ---------------------------------------------------------------------------------------------------------------------- */

/* The steps read and write messages themselves: a host needs what stands here only to show messages to people or to make some for a test. */
enum { /* message types, table 9.1 of the standard with bit 7 zero */
    HEIDEZIRKEL_TYPE_IMMEDIATE_SETUP = 0x31,     /* radio to network */
    HEIDEZIRKEL_TYPE_SETUP = 0x32,               /* radio to network */
    HEIDEZIRKEL_TYPE_CONNECT = 0x33,             /* network to radio */
    HEIDEZIRKEL_TYPE_TERMINATION = 0x34,         /* network to radio */
    HEIDEZIRKEL_TYPE_TERMINATION_REQUEST = 0x35, /* radio to network */
    HEIDEZIRKEL_TYPE_TERMINATION_REJECT = 0x36,  /* network to radio */
    HEIDEZIRKEL_TYPE_STATUS = 0x38,              /* radio to network */
    HEIDEZIRKEL_TYPE_GET_STATUS = 0x39,          /* network to radio */
    HEIDEZIRKEL_TYPE_SET_PARAMETER = 0x3a        /* network to radio */
};

/* A message taken apart. A run of octets (identity, cause) is a place and a length: in the octets that were read, or in the source that is lent for
 * writing. What a type does not carry is zero when read and has no effect when written. */
struct heidezirkel_message {
    uint8_t type;           /* 0x31 to 0x3a, as above */
    uint8_t flag;           /* transaction flag, 0 or 1: bit 8 of the first octet */
    uint8_t value;          /* transaction value: 0 to 7 when read, 0 to 6 to be written */
    uint8_t key;            /* IMMEDIATE SETUP: ciphering key number, 0 to 7 */
    uint8_t classmark[3];   /* IMMEDIATE SETUP */
    uint8_t reference[4];   /* CONNECT, IMMEDIATE SETUP, SETUP, TERMINATION REQUEST: call reference */
    uint8_t originator;     /* CONNECT: 1 where this radio is the originator, else 0 */
    uint8_t has_state;      /* STATUS: 1 where the call state is there, else 0 */
    uint8_t state;          /* STATUS: call state as table 9.3 codes it, 0 to 15: U0 to U5 are 0 to 5, U0.p is 6, U6 is 7; of a group call U2sl is 2, U2wr 7,
                               U2r 8, U2ws 9, U2sr 10, U2nc 11 */
    uint8_t has_attributes; /* STATUS: 1 where the state attributes are there, else 0 */
    uint8_t attributes;     /* SET PARAMETER, STATUS: 8 D-ATT, 4 U-ATT, 2 COMM, 1 ORIG (not the order of a context's octet 1) */
    size_t identity_start, identity_length; /* IMMEDIATE SETUP: 1 to 8 octets; GET STATUS: 1 to 8, or length 0 for none */
    size_t cause_start, cause_length;       /* STATUS, TERMINATION, TERMINATION REJECT: the cause's value, 1 to 247 octets; a group call's TERMINATION REJECT
                                               has exactly 4 */
};
struct heidezirkel_reading {
    uint32_t answer;                    /* 0, 6 or 13 */
    uint32_t fault;                     /* of 13: one of the numbers below; else 0 */
    struct heidezirkel_message message; /* of 0; else all zero */
};
enum { /* fault: the first that is found, in this order */
    HEIDEZIRKEL_FAULT_UNDER_TWO_OCTETS = 1,
    HEIDEZIRKEL_FAULT_OTHER_DISCRIMINATOR = 2, /* the low four bits of octet 1 are not 1; of a group call not 0 */
    HEIDEZIRKEL_FAULT_UNKNOWN_TYPE = 3,
    HEIDEZIRKEL_FAULT_BAD_MANDATORY = 4        /* the mandatory part is wrong, or an unknown element asks to be known */
};

/* Reads a message, without a context. Answers 6 for over 251 octets, 0 and the message, or 13 and its first fault. */
struct heidezirkel_reading heidezirkel_read_message(const uint8_t *octets, size_t length);

/* The same of a group call's message. */
struct heidezirkel_reading heidezirkel_group_read_message(const uint8_t *octets, size_t length);

struct heidezirkel_written {
    uint32_t answer; /* 0, 4 or 5 */
    size_t length;   /* of 0: how many octets were written at the start of the buffer; else 0 */
};

/* Writes a message. Answers 5 for a buffer under 255 octets, then 4 for a field beyond its width or length, a run that does not lie within the source,
 * transaction value 7 or a message over 251 octets, else 0. Only the first `length` octets of the buffer are changed. */
struct heidezirkel_written heidezirkel_write_message(struct heidezirkel_message message, const uint8_t *source, size_t source_length,
    uint8_t *buffer, size_t room);

/* The same of a group call's message. */
struct heidezirkel_written heidezirkel_group_write_message(struct heidezirkel_message message, const uint8_t *source, size_t source_length,
    uint8_t *buffer, size_t room);

/* ---- Logs -------------------------------------------------------------------------------------------------------------------------- */

/* A log is what a radio did, for others to judge: a version and then an entry a step. The host keeps its buffer of `room` octets and how many of them
 * are `used`. A file of the used bytes is a log file. */
struct heidezirkel_used {
    uint32_t answer; /* 0, 4, 10 or 11 */
    size_t used;     /* how many bytes are used now; where refused, as many as before */
};

/* Begins a log of broadcast calls: its version, one byte, 3: that of the table which heidezirkel_step follows. Answers 0, or 11 where there is no room. Used is then 1, or 0
 * where refused. A log is judged from a cleared context on, by the version that it begins with: begin it in U0, and add nothing to a log that an older
 * library began. */
struct heidezirkel_used heidezirkel_begin_log(uint8_t *log, size_t room);

/* The same for a log of group calls: its version is 16. */
struct heidezirkel_used heidezirkel_group_begin_log(uint8_t *log, size_t room);

/* Adds an entry behind the bytes used: `delta_ms` after the entry before (of the first: after the log's beginning), up to 86,400,000; the event with
 * its data and message as they were told to the step; what the step gave; the context after it; the first reply_length octets of the reply (lend
 * step.reply_length). Of the step its answer and actions are recorded, of the context its state and parameters (octets 0 and 1); the rest of both has no
 * effect. Only what is added is changed. With 0 used the version is written first.
 * Tested in this order: 4 used over the room, or a number outside its range (an answer over 3 is no step, and not recorded); 10 the log would be over
 * 65,536 bytes; 11 the room. The bytes already used are not looked at, nor whether the entry is true. */
struct heidezirkel_used heidezirkel_record(uint8_t *log, size_t room, size_t used, uint32_t delta_ms, struct heidezirkel_event event,
    const uint8_t *message, size_t message_length, struct heidezirkel_step step, const uint8_t context[16], const uint8_t *reply,
    size_t reply_length);

/* The same for a step of a group call: events 1 to 18 and 32 to 36, states to 13 and actions to 127 are in range, and with 0 used the version is 16. What it
 * adds to a log of broadcast calls the judge may refuse, or take for a step of a broadcast call, since the bytes already used are not looked at. */
struct heidezirkel_used heidezirkel_group_record(uint8_t *log, size_t room, size_t used, uint32_t delta_ms, struct heidezirkel_event event,
    const uint8_t *message, size_t message_length, struct heidezirkel_step step, const uint8_t context[16], const uint8_t *reply,
    size_t reply_length);

struct heidezirkel_judgement {
    uint32_t answer;      /* 0, 4, 8, 9 or 10 */
    size_t entry;         /* of 0: how many entries there are; of 8 and 9: the entry at which the log is refused, counted from 1, 0 the version; else 0 */
    uint32_t least_ms;    /* of 0: the least joining timer that explains the whole log; else 0 */
    uint32_t greatest_ms; /* of 0: the greatest; all between explain it too; else 0 */
    uint32_t invitation_least_ms;    /* of 0, where the log has version 3: the least invitation timer that explains it; else 0 */
    uint32_t invitation_greatest_ms; /* of 0, where the log has version 3: the greatest; all between explain it too; else 0 */
};

/* Judges a log of `length` bytes: whether it is what a radio with these settings does from a cleared context, by the table of the version that the log
 * begins with, 1 to 3 of broadcast calls and 16 of group calls, and with one joining timer from 10,000 to 30,000 ms; in version 3 with one invitation
 * timer from 1,000 to 600,000 ms besides.
 * Answers 10 for over 65,536 bytes, then 4 for settings out of range, then takes the entries in order: 8 at the first that can't be read, 9 at the first
 * up to which no such timers explain the log, else 0. Then every joining timer from the least to the greatest explains it, in version 3 beside every
 * invitation timer from the least to the greatest. Versions 1, 2 and 16 have no invitation timer: both its numbers are 0, and event 19 can't be read
 * there. */
struct heidezirkel_judgement heidezirkel_judge(const uint8_t settings[21], const uint8_t *log, size_t length);

struct heidezirkel_mending {
    uint32_t answer; /* 0, 4, 5 or 10 */
    size_t kept;     /* of 0: how many entries the copy holds; else 0 */
    size_t dropped;  /* of 0: how many bytes of the log it does not hold; else 0 */
    uint32_t ending; /* of 0: the judge's answer on the log, which ended the run: 0, 8 or 9; else 0 */
    size_t length;   /* of 0: how many bytes were written at the start of the copy's buffer; else 0 */
};

/* Mends a damaged log of `length` bytes: writes a copy that holds the longest run of entries from its start that the judge accepts under these settings, byte
 * for byte as they stood. So an accepted log comes back unchanged, with 0 dropped; the copy is always accepted, with `kept` entries and by the version of the
 * log; and mending a copy changes nothing. What ended the run (8 or 9) happened at entry kept + 1 of the log,
 * or at entry 0 where the version can't be read: then, as in a log of 0 bytes, nothing is kept, every byte is dropped, and the copy is the one byte 1.
 * Answers 10 for over 65,536 bytes, then 4 for settings out of range, then 5 for a `room` under `length`, or of 0, each with nothing written; else 0. Only the
 * first mending.length octets of the copy's buffer are changed. The log and the buffer must not overlap: a log is not mended in place. */
struct heidezirkel_mending heidezirkel_mend(const uint8_t settings[21], const uint8_t *log, size_t length, uint8_t *copy, size_t room);

struct heidezirkel_number {
    uint32_t answer; /* 0, or 8 where no number stands there */
    uint32_t value;  /* of 0; else 0 */
    size_t next;     /* of 0: the place behind it; else 0 */
};

/* Reads the log's number at place `at`: seven bits a byte, low group first, the top bit set on all but the last byte, shortest form only, at most
 * 5 bytes. */
struct heidezirkel_number heidezirkel_read_number(const uint8_t *octets, size_t length, size_t at);

#ifdef __cplusplus
}
#endif
#endif
