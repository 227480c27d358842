/* twin_group.c: what group calls alone have: the rows of the sub-states of U2, what waits for COMM, and the awaited transaction value (24.068, document 02,
 * A5). */
#include "twin_parts.h"

/* T_term runs and a state is remembered in U5 alone; no request can be sent from U2r and U2nc. */
static bool is_asked_fitly_of_group(const struct twin_context *context)
{
    if (context->term != (context->state == U5))
        return false;
    switch (context->from) {
    case U0:
        return context->state != U5;
    case U1:
    case U2SL:
    case U2WR:
    case U2WS:
    case U2SR:
        return context->state == U5;
    default:
        return false;
    }
}

static bool has_fit_chooser(const struct twin_context *context)
{
    switch (context->state) {
    case U0:
        return context->chooser == NEITHER;
    case U0P:
    case U1:
        return context->chooser == US;
    case U3:
    case U4:
        return context->chooser == CELL;
    default:
        return context->from == U1 ? context->chooser == US : context->chooser != NEITHER;
    }
}

static bool has_fit_pendings(const struct twin_context *context)
{
    enum twin_state state = context->state;
    if (context->pending_termination && ((state != U1 && !twin_is_sub_state(state)) || (context->orig && context->comm)))
        return false;
    if (context->pending_status && (state == U0 || context->comm))
        return false;
    return !context->awaiting_value || (twin_is_sub_state(state) && !context->orig);
}

bool twin_is_fit_group(const struct twin_context *context)
{
    if (context->state == U2 || context->state == U6)
        return false;
    if (context->no_channel != (context->state == U2NC) || context->pres)
        return false;
    return is_asked_fitly_of_group(context) && has_fit_chooser(context) && has_fit_pendings(context);
}

/* 6.3.1.1 and 6.4.1: from U2r the radio asks to talk, so that it can send what waits. */
static struct heidezirkel_step wait_to_send(struct twin_context *context)
{
    if (context->state != U2R)
        return taken(0, 0);
    twin_enter(context, U2WS);
    return taken(REQUEST_GROUP_TRANSMIT, 0);
}

struct heidezirkel_step twin_answer_later(struct twin_context *context)
{
    context->pending_status = true;
    return wait_to_send(context);
}

static struct heidezirkel_step terminate_group(struct twin_context *context, uint8_t *reply)
{
    if ((context->state != U1 && !twin_is_sub_state(context->state)) || !context->orig)
        return answer(HEIDEZIRKEL_NO_STEP);
    if (context->comm)
        return taken(0, twin_request_termination(GROUP, context, reply));
    context->pending_termination = true;
    return wait_to_send(context);
}

static struct heidezirkel_step delete_request(struct twin_context *context)
{
    if (!context->pending_termination)
        return answer(HEIDEZIRKEL_NO_STEP);
    context->pending_termination = false;
    return taken(0, 0);
}

/* Table 6.2: the sub-state of a mode that was entered. Its first entering joins the call, which idle mode can't. */
static struct heidezirkel_step enter_mode(struct twin_context *context, enum twin_state state)
{
    if (context->state == U4 && state != U2NC) {
        context->conn_req = false;
        twin_enter(context, state);
        return taken(INFORM, 0);
    }
    if (!twin_is_sub_state(context->state))
        return answer(HEIDEZIRKEL_NO_STEP);
    if (context->state != state)
        twin_enter(context, state);
    return taken(0, 0);
}

/* 6.3.1.1: the user stops talking, or asks to talk, in one of two sub-states. */
static struct heidezirkel_step change_talk(struct twin_context *context, enum twin_state one, enum twin_state other, enum twin_state next, uint32_t actions)
{
    if (context->state != one && context->state != other)
        return answer(HEIDEZIRKEL_NO_STEP);
    twin_enter(context, next);
    return taken(actions, 0);
}

bool twin_is_group_event(uint32_t event)
{
    return event >= 32 || event == 4 || event == 11 || event == 12 || event == 17;
}

struct heidezirkel_step twin_group_happen(struct twin_context *context, uint32_t event, uint8_t *reply)
{
    switch (event) {
    case 4:
        return terminate_group(context, reply);
    case 11:
        return enter_mode(context, U2R);
    case 12:
        return enter_mode(context, U2NC);
    case 32:
        return change_talk(context, U2SL, U2SR, U2WR, REQUEST_GROUP_RECEIVE);
    case 33:
        return change_talk(context, U2R, U2WR, U2WS, REQUEST_GROUP_TRANSMIT);
    case 34:
        return enter_mode(context, U2SR);
    case 35:
        return enter_mode(context, U2SL);
    case 36:
        return delete_request(context);
    default:
        return context->no_channel ? twin_end_call(context, INFORM + ABORT) : answer(HEIDEZIRKEL_NO_STEP);
    }
}

/* 6.3.1.1: any value but 7, which no call has. */
void twin_adopt_value(struct twin_context *context, const uint8_t *message, size_t length)
{
    uint8_t value = length > 0 ? message[0] >> 4 & 7 : 7;
    context->awaiting_value = false;
    if (value <= 6)
        context->value = value;
}

/* What waited is sent as soon as COMM is true, a termination request only by an originator. The answer to GET STATUS shows the state before U5. */
size_t twin_send_pending(struct twin_context *context, uint8_t *reply)
{
    size_t length = 0;
    if (!context->comm)
        return 0;
    if (context->pending_status) {
        context->pending_status = false;
        length = twin_put_answer(GROUP, context, reply);
    }
    if (context->pending_termination && context->orig) {
        context->pending_termination = false;
        length += twin_request_termination(GROUP, context, reply + length);
    }
    return length;
}
