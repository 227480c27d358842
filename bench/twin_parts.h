/* twin_parts.h: what the step of both protocols (twin_step.c) and what group calls alone have (twin_group.c) take from each other. */
#ifndef TWIN_PARTS_H
#define TWIN_PARTS_H
#include "twin.h"

/* Actions. */
enum {
    INFORM = 1,
    REQUEST_MM = 2,
    REQUEST_GROUP_RECEIVE = 4,
    ABORT = 8,
    RELEASE = 16,
    IMPLICIT_MM = 32,
    REQUEST_GROUP_TRANSMIT = 64,
};

static inline bool twin_is_sub_state(enum twin_state state)
{
    return state >= U2SL;
}

static inline struct heidezirkel_step answer(uint32_t number)
{
    return (struct heidezirkel_step){.answer = number};
}

static inline struct heidezirkel_step taken(uint32_t actions, size_t reply_length)
{
    return (struct heidezirkel_step){.answer = HEIDEZIRKEL_TAKEN, .actions = actions, .reply_length = reply_length};
}

/* Of both protocols. Entering a state sets its start row; ending the call clears the context. */
void twin_enter(struct twin_context *context, enum twin_state state);
struct heidezirkel_step twin_end_call(struct twin_context *context, uint32_t actions);
/* The answer to GET STATUS, and the request that leads to U5, with how long the reply is. */
size_t twin_put_answer(enum twin_table table, const struct twin_context *context, uint8_t *reply);
size_t twin_request_termination(enum twin_table table, struct twin_context *context, uint8_t *reply);

/* Of group calls: what "fit" asks of them beside what it asks of both, their own events, GET STATUS while nothing may be sent, the value of a message where
 * one is awaited, and what waited and may be sent now, with how long it is. */
bool twin_is_fit_group(const struct twin_context *context);
bool twin_is_group_event(uint32_t event);
struct heidezirkel_step twin_group_happen(struct twin_context *context, uint32_t event, uint8_t *reply);
struct heidezirkel_step twin_answer_later(struct twin_context *context);
void twin_adopt_value(struct twin_context *context, const uint8_t *message, size_t length);
size_t twin_send_pending(struct twin_context *context, uint8_t *reply);
#endif
