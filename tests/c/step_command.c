/* The commands `step` and `gstep`, and the words that other commands share with them. */
#include "commands.h"
#include <stdio.h>
#include <string.h>

uint8_t clipped(uint32_t number) {
    return number > 255 ? 255 : (uint8_t)number;
}

/* An identity over 8 octets is told by its length: there is no room for more of it. */
void settings_words(struct line *line, uint8_t settings[HEIDEZIRKEL_SETTINGS_OCTETS]) {
    for (size_t i = 0; i < HEIDEZIRKEL_SETTINGS_OCTETS; i++)
        settings[i] = (uint8_t)(line_number * 29 + i * 97);
    settings[0] = (uint8_t)number_word(line, 255);
    exact_word(line, settings + 1, 3);
    struct octets identity = octets_word(line);
    settings[4] = clipped((uint32_t)identity.count);
    memcpy(settings + 5, identity.at, identity.count < 8 ? identity.count : 8);
}

struct heidezirkel_event event_words(struct line *line, uint32_t greatest) {
    struct heidezirkel_event event;
    event.number = number_word(line, UINT32_MAX);
    event.value = clipped(number_word(line, greatest));
    exact_word(line, event.reference, 4);
    event.mode = clipped(number_word(line, greatest));
    return event;
}

/* The words CHOOSER PENDING of a group call; 3 says no side, as every number above it does. */
struct talk {
    uint8_t chooser;
    uint8_t pending;
};

static uint8_t talk_octet(struct talk talk) {
    uint8_t side = talk.chooser < 3 ? talk.chooser : 3;
    return (uint8_t)(side + (talk.pending & 4) + (talk.pending & 2 ? 8 : 0) + (talk.pending & 1 ? 16 : 0));
}

static struct talk talk_of(uint8_t octet) {
    return (struct talk){octet & 3, (uint8_t)((octet & 4) + (octet & 8 ? 2 : 0) + (octet & 16 ? 1 : 0))};
}

/* The words STATE PARAMETERS TIMERS VALUE REFERENCE FROM, of a group call CHOOSER PENDING besides, as 16 context octets. */
static struct talk context_words(struct line *line, uint8_t context[16], enum call call) {
    struct talk talk = {0, 0};
    memset(context, 0, 16);
    context[0] = (uint8_t)number_word(line, 255);
    context[1] = (uint8_t)number_word(line, 15);
    context[2] = (uint8_t)number_word(line, call == GROUP ? 15 : 31); /* a group call has no T_pres */
    context[3] = (uint8_t)number_word(line, 255);
    exact_word(line, context + 4, 4);
    context[8] = (uint8_t)number_word(line, 255);
    if (call == GROUP) {
        talk.chooser = (uint8_t)number_word(line, 255);
        talk.pending = (uint8_t)number_word(line, 7);
    }
    context[9] = talk_octet(talk);
    return talk;
}

/* What holds of a fit context, whatever the step came to. */
static void look_at_context(const uint8_t context[16], enum call call) {
    bool group = call == GROUP;
    uint8_t state = context[0], from = context[8];
    bool invited = !group && state == HEIDEZIRKEL_U3;
    promise(invited == !!(context[2] & HEIDEZIRKEL_T_PRES), "step: T_pres does not run in U3 of a broadcast call, or runs elsewhere");
    bool remembers = from == HEIDEZIRKEL_U1
        || (group ? from == HEIDEZIRKEL_U2SL || from == HEIDEZIRKEL_U2WR || from == HEIDEZIRKEL_U2WS || from == HEIDEZIRKEL_U2SR
                  : from == HEIDEZIRKEL_U2);
    promise(state == HEIDEZIRKEL_U5 ? remembers : from == 0, "step: in U5 another state is remembered than can be, or something outside it");
    promise(group ? state <= HEIDEZIRKEL_U2NC && state != HEIDEZIRKEL_U2 && state != HEIDEZIRKEL_U6 : state <= HEIDEZIRKEL_U6,
        "step: a state of the other kind of call");
    promise(group ? context[9] < 32 && (context[9] & 3) != 3 && (state == HEIDEZIRKEL_U0) == !(context[9] & 3) : context[9] == 0,
        "step: octet 9 is not what such a call keeps");
}

/* What holds of every step: which octets are as they were, and what is fixed where there is no answer 0. */
static void look_at_step(struct heidezirkel_step step, const struct lent *context, const struct lent *reply, enum call call) {
    bool takes = step.answer == HEIDEZIRKEL_TAKEN;
    bool sends = takes || step.answer == HEIDEZIRKEL_REPORTED;
    bool ignores = step.answer == HEIDEZIRKEL_IGNORED;
    promise(kept(context, takes ? 16 : 0), "step: a context that is not to change changed");
    promise(step.reply_length <= reply->length, "step: the reply is longer than its buffer");
    promise(kept(reply, step.reply_length), "step: an octet outside the reply changed");
    promise(takes || step.actions == 0, "step: actions without answer 0");
    promise(sends || step.reply_length == 0, "step: a reply without answer 0 or 2");
    promise(step.answer <= HEIDEZIRKEL_NO_CONTEXT, "step: an answer over 7");
    promise(ignores ? step.reason >= 1 && step.reason <= 6 : step.reason == 0, "step: a reason that does not go with the answer");
    for (size_t i = 10; i < 16; i++)
        promise(context->octets[i] == 0, "step: a kept octet of the context is not zero");
    if (step.answer != HEIDEZIRKEL_NO_CONTEXT)
        look_at_context(context->octets, call);
    refusals_seen += !sends;
}

/* A context that is none is printed as it was given. */
static void print_step(struct heidezirkel_step step, const uint8_t *context, const uint8_t *reply, enum call call, struct talk given) {
    struct talk talk = context[9] == talk_octet(given) ? given : talk_of(context[9]);
    printf("%u %u %u %u %u ", step.answer, context[0], context[1], context[2], context[3]);
    print_octets(context + 4, 4);
    printf(" %u ", context[8]);
    if (call == GROUP)
        printf("%u %u ", talk.chooser, talk.pending);
    printf("%u ", step.actions);
    print_octets(reply, step.reply_length);
    printf(" %u", step.reason);
}

bool step_command(struct line *line, enum call call) {
    uint8_t before[16], own[HEIDEZIRKEL_SETTINGS_OCTETS];
    struct talk talk = context_words(line, before, call);
    settings_words(line, own);
    size_t room = number_word(line, UINT32_MAX);
    struct heidezirkel_event event = event_words(line, 255);
    struct octets received = octets_word(line);
    if (!whole(line))
        return false;
    struct lent context = lend_octets(before, 16);
    struct lent settings = lend_octets(own, HEIDEZIRKEL_SETTINGS_OCTETS);
    struct lent message = lend_octets(received.at, received.count);
    struct lent reply = lend(room);
    struct heidezirkel_step step = (call == GROUP ? heidezirkel_group_step : heidezirkel_step)(context.octets, settings.octets, event,
        message.octets, message.length, reply.octets, room);
    look_at_step(step, &context, &reply, call);
    promise(kept(&settings, 0) && kept(&message, 0), "step: settings or message changed");
    print_step(step, context.octets, reply.octets, call, talk);
    give_back(&context);
    give_back(&settings);
    give_back(&message);
    give_back(&reply);
    return true;
}
