/* twin_step.c: the step of a call in plain C: document 01's table and what document 02 changes in it, the rules for received messages, and the replies. What
 * group calls alone have is in twin_group.c. */
#include <string.h>
#include "twin_parts.h"

enum {
    IMMEDIATE_SETUP = 0x31,
    SETUP = 0x32,
    CONNECT = 0x33,
    TERMINATION = 0x34,
    TERMINATION_REQUEST = 0x35,
    TERMINATION_REJECT = 0x36,
    STATUS = 0x38,
    GET_STATUS = 0x39,
    SET_PARAMETER = 0x3a,
};

/* Why a message is ignored: document 02, A1. */
enum reason { NO_CALL = 1, TOO_SHORT, OTHER_PROTOCOL, TRANSACTION_MISMATCH, OTHER_IDENTITY, COMM_FALSE };

/* ORIG, COMM, D-ATT, U-ATT of each state: 6.1.2.1.2 to 6.1.2.1.9, in 24.068 to 6.1.2.1.9.6. What a sub-state of U2 keeps is false here. */
static const bool start_rows[14][4] = {
    {false, false, false, false},
    {true, false, false, false},
    {true, true, false, false},
    {true, true, true, true},
    {false, false, false, false},
    {false, false, false, false},
    {true, true, true, true},
    {false, false, true, false},
    {false, true, true, true},
    {false, true, true, false},
    {false, false, true, false},
    {false, false, true, true},
    {false, false, true, true},
    {false, false, true, true},
};

bool twin_own_in_range(const struct twin_own *own)
{
    return own->key <= 7 && own->identity_length >= 1 && own->identity_length <= 8;
}

/* 6.1.2.1.11 of both standards: each has its own states, beside those in which they ask the same. */
static bool is_consistent(enum twin_state state, bool orig, bool comm)
{
    switch (state) {
    case U3:
    case U4:
    case U6:
        return !orig && !comm;
    case U0:
    case U2R:
    case U2NC:
        return !comm;
    default:
        return true;
    }
}

/* T_term, and what is remembered: in U5 the tables ask different things. */
static bool is_asked_fitly(enum twin_table table, const struct twin_context *context)
{
    if (context->state != U5)
        return !context->term && context->from == U0;
    if (table == FIRST)
        return context->from == U0;
    return context->term && (context->from == U1 || context->from == U2);
}

static bool is_fit_broadcast(enum twin_table table, const struct twin_context *context)
{
    if (!is_asked_fitly(table, context))
        return false;
    if (context->no_channel && context->state != U6)
        return false;
    return context->pres == (table == THIRD && context->state == U3);
}

static bool is_fit(enum twin_table table, const struct twin_context *context)
{
    if (!is_consistent(context->state, context->orig, context->comm) || context->value > 6)
        return false;
    if (context->mm_est ? context->state != U0P && context->state != U1 : context->state == U0P)
        return false;
    if (context->conn_req != (context->state == U4))
        return false;
    if (context->state == U0) {
        if (context->orig || context->datt || context->uatt || context->value != 0)
            return false;
        for (int i = 0; i < 4; i++)
            if (context->reference[i] != 0)
                return false;
    }
    return table == GROUP ? twin_is_fit_group(context) : is_fit_broadcast(table, context);
}

/* A sub-state of U2 keeps ORIG, and U2sr keeps COMM. T_no channel runs in U2nc alone. */
static void enter_sub_state(struct twin_context *context, enum twin_state state)
{
    context->state = state;
    if (state != U2SR)
        context->comm = start_rows[state][1];
    context->datt = start_rows[state][2];
    context->uatt = start_rows[state][3];
    context->no_channel = state == U2NC;
    if (state == U2WS && !context->orig)
        context->awaiting_value = true;
}

void twin_enter(struct twin_context *context, enum twin_state state)
{
    if (state == U0) {
        memset(context, 0, sizeof *context);
        return;
    }
    if (twin_is_sub_state(state)) {
        enter_sub_state(context, state);
        return;
    }
    context->state = state;
    context->orig = start_rows[state][0];
    context->comm = start_rows[state][1];
    context->datt = start_rows[state][2];
    context->uatt = start_rows[state][3];
}

static struct heidezirkel_step ignored(enum reason reason)
{
    return (struct heidezirkel_step){.answer = HEIDEZIRKEL_IGNORED, .reason = reason};
}

struct heidezirkel_step twin_end_call(struct twin_context *context, uint32_t actions)
{
    twin_enter(context, U0);
    return taken(actions, 0);
}

static void store(enum twin_table table, struct twin_context *context, const struct heidezirkel_event *event, enum twin_side chooser)
{
    context->value = event->value;
    memcpy(context->reference, event->reference, 4);
    if (table == GROUP)
        context->chooser = chooser;
}

static uint8_t discriminator(enum twin_table table)
{
    return table == GROUP ? 0 : 1;
}

/* The transaction flag that the network's messages carry: 1 where we chose the value, which in a broadcast call the state tells. Ours carry the opposite. */
static bool expected_flag(enum twin_table table, const struct twin_context *context)
{
    if (table == GROUP)
        return context->chooser == US;
    return context->state == U0P || context->state == U1 || context->state == U2 || context->state == U5;
}

static size_t put_head(enum twin_table table, const struct twin_context *context, uint8_t *reply, uint8_t type)
{
    reply[0] = (expected_flag(table, context) ? 0 : 128) + 16 * context->value + discriminator(table);
    reply[1] = type;
    return 2;
}

/* SETUP and TERMINATION REQUEST: tables 8.5 and 8.9. */
static size_t put_reference(enum twin_table table, const struct twin_context *context, uint8_t *reply, uint8_t type)
{
    size_t at = put_head(table, context, reply, type);
    memcpy(reply + at, context->reference, 4);
    return at + 4;
}

/* Table 8.3. */
static size_t put_immediate_setup(enum twin_table table, const struct twin_context *context, const struct twin_own *own, uint8_t *reply)
{
    size_t at = put_head(table, context, reply, IMMEDIATE_SETUP);
    reply[at++] = 16 * own->key;
    reply[at++] = 3;
    memcpy(reply + at, own->classmark, 3);
    at += 3;
    reply[at++] = own->identity_length;
    memcpy(reply + at, own->identity, own->identity_length);
    at += own->identity_length;
    memcpy(reply + at, context->reference, 4);
    return at + 4;
}

/* The code of each state: 9.4.2 of both standards. */
static const uint8_t call_states[14] = {0, 6, 1, 2, 3, 4, 5, 7, 2, 7, 8, 9, 10, 11};

/* Table 8.6, with `count` octets of the message received behind the cause. */
static size_t put_status(enum twin_table table, const struct twin_context *context, uint8_t cause, const uint8_t *message, size_t count, uint8_t *reply)
{
    size_t at = put_head(table, context, reply, STATUS);
    reply[at++] = 1 + count;
    reply[at++] = 128 + cause;
    memcpy(reply + at, message, count);
    at += count;
    reply[at++] = 0xa0 + call_states[context->state];
    reply[at++] = 0xb0 + 8 * context->datt + 4 * context->uatt + 2 * context->comm + context->orig;
    return at;
}

size_t twin_put_answer(enum twin_table table, const struct twin_context *context, uint8_t *reply)
{
    return put_status(table, context, 30, reply, 0, reply);
}

static struct heidezirkel_step report(enum twin_table table, const struct twin_context *context, uint8_t cause, const uint8_t *message, size_t length,
    uint8_t *reply)
{
    if (!context->comm)
        return ignored(COMM_FALSE);
    size_t count = length <= 245 ? length : 0;
    size_t reply_length = put_status(table, context, cause, message, count, reply);
    return (struct heidezirkel_step){.answer = HEIDEZIRKEL_REPORTED, .reply_length = reply_length};
}

/* A message: the identity and its length, 0 where it has none. */
struct identity {
    const uint8_t *octets;
    size_t length;
};

/* The optional elements behind the mandatory part. False where one must be known. */
static bool skip_elements(const uint8_t *message, size_t length, size_t at, struct identity *identity)
{
    bool seen = false;
    while (at < length) {
        uint8_t identifier = message[at];
        if (identifier < 16)
            return false;
        if (identifier >= 128) {
            at++;
            continue;
        }
        if (length - at < 2 || length - at - 2 < message[at + 1])
            return true;
        if (identifier == 0x17 && !seen) {
            seen = true;
            if (message[at + 1] >= 1 && message[at + 1] <= 8) {
                identity->octets = message + at + 2;
                identity->length = message[at + 1];
            }
        }
        at += 2 + message[at + 1];
    }
    return true;
}

/* How long the mandatory part is; 0 where it is wrong. In a group call's TERMINATION REJECT the cause is drawn without a length octet, as four octets. */
static size_t mandatory(enum twin_table table, uint8_t type, const uint8_t *message, size_t length)
{
    if (type == TERMINATION_REJECT && table == GROUP)
        return length >= 6 ? 6 : 0;
    switch (type) {
    case CONNECT:
        return length >= 7 ? 7 : 0;
    case SET_PARAMETER:
        return length >= 3 ? 3 : 0;
    case TERMINATION:
    case TERMINATION_REJECT:
        if (length < 3 || message[2] < 1 || message[2] > 247 || length < 3u + message[2])
            return 0;
        return 3 + message[2];
    default:
        return 2;
    }
}

/* Rule 2: the cause that a type is reported with in a state, 0 where it has a row or a sentence there. */
static uint8_t type_cause(enum twin_state state, uint8_t octet)
{
    if (octet >= 128)
        return 97;
    switch (octet & 63) {
    case TERMINATION:
    case GET_STATUS:
    case SET_PARAMETER:
        return 0;
    case CONNECT:
        return state == U0P || state == U1 ? 0 : 98;
    case TERMINATION_REJECT:
        return state == U5 ? 0 : 98;
    case IMMEDIATE_SETUP:
    case SETUP:
    case TERMINATION_REQUEST:
    case STATUS:
        return 98;
    default:
        return 97;
    }
}

static struct heidezirkel_step set_parameters(enum twin_table table, struct twin_context *context, const uint8_t *message, size_t length, uint8_t *reply)
{
    uint8_t attributes = message[2];
    bool orig = attributes & 1, comm = attributes & 2;
    if (!is_consistent(context->state, orig, comm))
        return report(table, context, 98, message, length, reply);
    context->orig = orig;
    context->comm = comm;
    context->datt = attributes & 8;
    context->uatt = attributes & 4;
    return taken(0, 0);
}

/* In a group call the network may pass us to one that another radio started: then we are not its originator. */
static struct heidezirkel_step connect(enum twin_table table, struct twin_context *context, const uint8_t *message)
{
    uint32_t actions = context->state == U1 && context->mm_est ? IMPLICIT_MM : 0;
    memcpy(context->reference, message + 2, 4);
    context->mm_est = false;
    context->orig = message[6] & 1;
    twin_enter(context, table == GROUP ? U2SL : U2);
    return taken(actions, 0);
}

/* Rule 4, then the sentence on GET STATUS. */
static struct heidezirkel_step get_status(enum twin_table table, struct twin_context *context, const struct twin_own *own, uint8_t mode,
    struct identity identity, uint8_t *reply)
{
    if (mode == 1 && identity.length > 0
        && (identity.length != own->identity_length || memcmp(identity.octets, own->identity, identity.length) != 0))
        return ignored(OTHER_IDENTITY);
    if (context->comm)
        return taken(0, twin_put_answer(table, context, reply));
    return table == GROUP ? twin_answer_later(context) : ignored(COMM_FALSE);
}

/* TERMINATION REJECT in U5: document 01 stays there, without a timer. */
static struct heidezirkel_step rejected(enum twin_table table, struct twin_context *context)
{
    context->term = false;
    if (table != FIRST) {
        twin_enter(context, context->from);
        context->from = U0;
    }
    return taken(INFORM, 0);
}

/* The six rules of received messages, in their order. */
static struct heidezirkel_step hear(enum twin_table table, struct twin_context *context, const struct twin_own *own, uint8_t mode,
    const uint8_t *message, size_t length, uint8_t *reply)
{
    if (context->state == U0)
        return ignored(NO_CALL);
    if (length < 2)
        return ignored(TOO_SHORT);
    if ((message[0] & 15) != discriminator(table))
        return ignored(OTHER_PROTOCOL);
    if (message[0] >> 4 != 8 * expected_flag(table, context) + context->value)
        return ignored(TRANSACTION_MISMATCH);

    uint8_t cause = type_cause(context->state, message[1]);
    if (cause != 0)
        return report(table, context, cause, message, length, reply);

    uint8_t type = message[1] & 63;
    struct identity identity = {NULL, 0};
    size_t end = mandatory(table, type, message, length);
    if (end == 0 || !skip_elements(message, length, end, &identity))
        return report(table, context, 96, message, length, reply);

    switch (type) {
    case GET_STATUS:
        return get_status(table, context, own, mode, identity, reply);
    case CONNECT:
        if ((message[6] & 1) == 0 && table != GROUP)
            return report(table, context, 95, message, length, reply);
        return connect(table, context, message);
    case SET_PARAMETER:
        return set_parameters(table, context, message, length, reply);
    case TERMINATION_REJECT:
        return rejected(table, context);
    default:
        return twin_end_call(context, INFORM + RELEASE);
    }
}

/* Where the value is awaited, that of this message is the call's; and again awaited where the message isn't taken. */
static struct heidezirkel_step hear_call(enum twin_table table, struct twin_context *context, const struct twin_own *own, uint8_t mode,
    const uint8_t *message, size_t length, uint8_t *reply)
{
    bool awaited = context->awaiting_value;
    uint8_t value = context->value;
    if (awaited)
        twin_adopt_value(context, message, length);
    struct heidezirkel_step step = hear(table, context, own, mode, message, length, reply);
    if (awaited && step.answer != HEIDEZIRKEL_TAKEN) {
        context->value = value;
        context->awaiting_value = true;
    }
    return step;
}

static struct heidezirkel_step in_u0(enum twin_table table, struct twin_context *context, const struct twin_own *own,
    const struct heidezirkel_event *event, uint8_t *reply)
{
    switch (event->number) {
    case 1:
        twin_enter(context, U0P);
        store(table, context, event, US);
        context->mm_est = true;
        return taken(REQUEST_MM, 0);
    case 2:
        twin_enter(context, U1);
        store(table, context, event, US);
        context->mm_est = true;
        return taken(0, put_immediate_setup(table, context, own, reply));
    case 10:
        twin_enter(context, U3);
        store(table, context, event, CELL);
        context->pres = table == THIRD;
        return taken(INFORM, 0);
    default:
        return answer(HEIDEZIRKEL_NO_STEP);
    }
}

/* U0.p, and U1 but for set-up and terminate. */
static struct heidezirkel_step while_setting_up(struct twin_context *context, uint32_t event)
{
    switch (event) {
    case 7:
        return context->mm_est ? twin_end_call(context, 0) : answer(HEIDEZIRKEL_NO_STEP);
    case 14:
        return context->mm_est ? twin_end_call(context, ABORT) : answer(HEIDEZIRKEL_NO_STEP);
    case 8:
        return twin_end_call(context, ABORT);
    default:
        return answer(HEIDEZIRKEL_NO_STEP);
    }
}

size_t twin_request_termination(enum twin_table table, struct twin_context *context, uint8_t *reply)
{
    context->mm_est = false;
    context->term = true;
    context->from = table == FIRST ? U0 : context->state;
    twin_enter(context, U5);
    return put_reference(table, context, reply, TERMINATION_REQUEST);
}

static struct heidezirkel_step terminate(enum twin_table table, struct twin_context *context, uint8_t *reply)
{
    if (!context->orig)
        return answer(HEIDEZIRKEL_NO_STEP);
    return taken(0, twin_request_termination(table, context, reply));
}

/* T_pres runs here by the third table alone, which alone has its expiry. */
static struct heidezirkel_step in_u3(struct twin_context *context, uint32_t event)
{
    switch (event) {
    case 3:
        context->pres = false;
        context->conn_req = true;
        twin_enter(context, U4);
        return taken(REQUEST_GROUP_RECEIVE, 0);
    case 19:
        return twin_end_call(context, 0);
    default:
        return answer(HEIDEZIRKEL_NO_STEP);
    }
}

static struct heidezirkel_step in_u4(struct twin_context *context, uint32_t event)
{
    switch (event) {
    case 11:
        context->conn_req = false;
        twin_enter(context, U6);
        return taken(INFORM, 0);
    case 16:
        return twin_end_call(context, INFORM + ABORT);
    default:
        return answer(HEIDEZIRKEL_NO_STEP);
    }
}

static struct heidezirkel_step in_u6(struct twin_context *context, uint32_t event)
{
    switch (event) {
    case 12:
        context->no_channel = true;
        return taken(INFORM, 0);
    case 13:
        context->no_channel = false;
        return taken(INFORM, 0);
    case 17:
        return context->no_channel ? twin_end_call(context, INFORM + ABORT) : answer(HEIDEZIRKEL_NO_STEP);
    default:
        return answer(HEIDEZIRKEL_NO_STEP);
    }
}

static struct heidezirkel_step happen(enum twin_table table, struct twin_context *context, const struct twin_own *own,
    const struct heidezirkel_event *event, uint8_t *reply)
{
    uint32_t number = event->number;
    if (table == GROUP && twin_is_group_event(number))
        return twin_group_happen(context, number, reply);
    if (context->state == U0)
        return in_u0(table, context, own, event, reply);
    if (number == 5)
        return twin_end_call(context, RELEASE);
    if (number == 9 || (number == 8 && context->state >= U2))
        return twin_end_call(context, INFORM + ABORT);

    switch (context->state) {
    case U0P:
        if (number == 6) {
            context->mm_est = false;
            twin_enter(context, U1);
            return taken(0, put_reference(table, context, reply, SETUP));
        }
        return while_setting_up(context, number);
    case U1:
        return number == 4 ? terminate(table, context, reply) : while_setting_up(context, number);
    case U2:
        return number == 4 ? terminate(table, context, reply) : answer(HEIDEZIRKEL_NO_STEP);
    case U3:
        return in_u3(context, number);
    case U4:
        return in_u4(context, number);
    case U5:
        return number == 15 && context->term ? twin_end_call(context, INFORM + ABORT) : answer(HEIDEZIRKEL_NO_STEP);
    case U6:
        return in_u6(context, number);
    default:
        return answer(HEIDEZIRKEL_NO_STEP);
    }
}

static bool event_in_range(enum twin_table table, const struct heidezirkel_event *event)
{
    switch (event->number) {
    case 1:
    case 2:
    case 10:
        return event->value <= 6;
    case 18:
        return event->mode <= 1;
    default:
        return twin_has_event(table, event->number);
    }
}

struct heidezirkel_step twin_take(enum twin_table table, struct twin_context *context, const struct twin_own *own,
    const struct heidezirkel_event *event, const uint8_t *message, size_t length, uint8_t *reply, size_t room)
{
    if (!is_fit(table, context))
        return answer(HEIDEZIRKEL_NO_CONTEXT);
    if (room < 255)
        return answer(HEIDEZIRKEL_SHORT_BUFFER);
    if (event->number == 18 && length > 251)
        return answer(HEIDEZIRKEL_LONG_MESSAGE);
    if (!twin_own_in_range(own) || !event_in_range(table, event))
        return answer(HEIDEZIRKEL_OUT_OF_RANGE);
    struct heidezirkel_step step = event->number == 18 ? hear_call(table, context, own, event->mode, message, length, reply)
                                                       : happen(table, context, own, event, reply);
    if (table == GROUP && step.answer == HEIDEZIRKEL_TAKEN)
        step.reply_length += twin_send_pending(context, reply + step.reply_length);
    return step;
}
