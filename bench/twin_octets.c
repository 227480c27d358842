/* twin_octets.c: the context and the settings as a host has them, as octets and as what they say, and the step over them. */
#include <string.h>
#include "twin.h"

struct twin_own twin_read_own(const uint8_t settings[21])
{
    struct twin_own own;
    own.key = settings[0];
    memcpy(own.classmark, settings + 1, 3);
    own.identity_length = settings[4];
    memcpy(own.identity, settings + 5, 8);
    return own;
}

int twin_parameters(const struct twin_context *context)
{
    return 8 * context->orig + 4 * context->comm + 2 * context->datt + context->uatt;
}

enum twin_timer twin_running(const struct twin_context *context)
{
    if (context->mm_est)
        return T_MM_EST;
    if (context->term)
        return T_TERM;
    if (context->conn_req)
        return T_CONN_REQ;
    if (context->no_channel)
        return T_NO_CHANNEL;
    if (context->pres)
        return T_PRES;
    return NO_TIMER;
}

/* Whether each octet is a value of its field in a context of this protocol; which values go together is asked by the step. */
static bool are_values(enum twin_table table, const uint8_t octets[16])
{
    if (octets[0] > (table == GROUP ? U2NC : U6) || octets[1] > 15 || octets[2] > 31 || octets[8] > U2NC)
        return false;
    if (table == GROUP ? octets[9] > 31 || (octets[9] & 3) > CELL : octets[9] != 0)
        return false;
    for (int i = 10; i < 16; i++)
        if (octets[i] != 0)
            return false;
    return true;
}

static bool read_context(enum twin_table table, const uint8_t octets[16], struct twin_context *context)
{
    if (!are_values(table, octets))
        return false;
    context->state = octets[0];
    context->orig = octets[1] & 8;
    context->comm = octets[1] & 4;
    context->datt = octets[1] & 2;
    context->uatt = octets[1] & 1;
    context->pres = octets[2] & 16;
    context->mm_est = octets[2] & 8;
    context->term = octets[2] & 4;
    context->conn_req = octets[2] & 2;
    context->no_channel = octets[2] & 1;
    context->value = octets[3];
    memcpy(context->reference, octets + 4, 4);
    context->from = octets[8];
    context->chooser = octets[9] & 3;
    context->pending_termination = octets[9] & 4;
    context->pending_status = octets[9] & 8;
    context->awaiting_value = octets[9] & 16;
    return true;
}

void twin_write_context(const struct twin_context *context, uint8_t octets[16])
{
    octets[0] = context->state;
    octets[1] = twin_parameters(context);
    octets[2] = 16 * context->pres + 8 * context->mm_est + 4 * context->term + 2 * context->conn_req + context->no_channel;
    octets[3] = context->value;
    memcpy(octets + 4, context->reference, 4);
    octets[8] = context->from;
    octets[9] = context->chooser + 4 * context->pending_termination + 8 * context->pending_status + 16 * context->awaiting_value;
}

static struct heidezirkel_step step_octets(enum twin_table table, uint8_t octets[16], const uint8_t settings[21], const struct heidezirkel_event *event,
    const uint8_t *message, size_t length, uint8_t *reply, size_t room)
{
    struct twin_context context;
    if (!read_context(table, octets, &context))
        return (struct heidezirkel_step){.answer = HEIDEZIRKEL_NO_CONTEXT};
    struct twin_own own = twin_read_own(settings);
    struct heidezirkel_step step = twin_take(table, &context, &own, event, message, length, reply, room);
    twin_write_context(&context, octets);
    return step;
}

struct heidezirkel_step twin_step(uint8_t octets[16], const uint8_t settings[21], struct heidezirkel_event event, const uint8_t *message,
    size_t length, uint8_t *reply, size_t room)
{
    return step_octets(NEWEST, octets, settings, &event, message, length, reply, room);
}

struct heidezirkel_step twin_group_step(uint8_t octets[16], const uint8_t settings[21], struct heidezirkel_event event, const uint8_t *message,
    size_t length, uint8_t *reply, size_t room)
{
    return step_octets(GROUP, octets, settings, &event, message, length, reply, room);
}
