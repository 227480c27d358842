/* What is promised of group calls beside the line protocol: which octets are a context, that neither step takes a call of the other kind, and how a log begins. */
#include "played.h"
#include <string.h>

/* The answer of "channel available", which has no step in a group call. */
static uint32_t group_answer(const uint8_t octets[16]) {
    struct lent context = lend_octets(octets, 16);
    struct lent reply = lend(255);
    struct heidezirkel_event event = {.number = HEIDEZIRKEL_EVENT_CHANNEL_AVAILABLE};
    struct heidezirkel_step step = heidezirkel_group_step(context.octets, settings, event, nothing, 0, reply.octets, 255);
    EXPECT(kept(&context, 0) && kept(&reply, 0) && step.reason == 0 && step.actions == 0 && step.reply_length == 0);
    refusals_seen++;
    give_back(&context);
    give_back(&reply);
    return step.answer;
}

static bool is_fit(const uint8_t octets[16]) {
    return group_answer(octets) == HEIDEZIRKEL_NO_STEP;
}

/* U2r of a call whose value the cell chose. Either side may have chosen it, and with ORIG and COMM false anything may wait. */
static const uint8_t listens[16] = {HEIDEZIRKEL_U2R, HEIDEZIRKEL_D_ATT, 0, 6, 1, 2, 3, 4, 0, HEIDEZIRKEL_CHOSEN_BY_CELL};

static void check_octet(size_t place, bool (*fit)(unsigned value)) {
    uint8_t other[16];
    memcpy(other, listens, 16);
    for (unsigned value = 0; value < 256; value++) {
        other[place] = (uint8_t)value;
        EXPECT(group_answer(other) == (fit(value) ? HEIDEZIRKEL_NO_STEP : HEIDEZIRKEL_NO_CONTEXT));
    }
}

/* With the same octets behind it the state may be U3 or any sub-state of U2 but U2nc, in which a timer runs. */
static bool state_fits(unsigned value) { return value == HEIDEZIRKEL_U3 || (value >= HEIDEZIRKEL_U2SL && value <= HEIDEZIRKEL_U2SR); }
static bool talk_fits(unsigned value) { return value < 32 && value % 4 >= 1 && value % 4 <= 2; }
static bool is_zero(unsigned value) { return value == 0; }

/* In U5 the states that a request can be sent from; U1 only in a call whose value we chose. */
static void check_asked(void) {
    uint8_t asked[16] = {HEIDEZIRKEL_U5, 15, HEIDEZIRKEL_T_TERM, 6, 1, 2, 3, 4};
    for (unsigned from = 0; from < 256; from++) {
        bool sends = from == HEIDEZIRKEL_U2SL || from == HEIDEZIRKEL_U2WR || from == HEIDEZIRKEL_U2WS || from == HEIDEZIRKEL_U2SR;
        asked[8] = (uint8_t)from;
        asked[9] = HEIDEZIRKEL_CHOSEN_BY_CELL;
        EXPECT(is_fit(asked) == sends);
        asked[9] = HEIDEZIRKEL_CHOSEN_BY_US;
        EXPECT(is_fit(asked) == (sends || from == HEIDEZIRKEL_U1));
    }
}

/* A call belongs to one of the two steps. */
static void check_kinds(void) {
    static const uint8_t cleared[16];
    static const uint8_t warned[16] = {HEIDEZIRKEL_U6, HEIDEZIRKEL_D_ATT, 0, 6, 1, 2, 3, 4};
    EXPECT(answer_in(listens, HEIDEZIRKEL_EVENT_CHANNEL_AVAILABLE) == HEIDEZIRKEL_NO_CONTEXT);
    EXPECT(group_answer(warned) == HEIDEZIRKEL_NO_CONTEXT);
    EXPECT(is_fit(cleared));
    EXPECT(answer_in(cleared, HEIDEZIRKEL_EVENT_TALK) == HEIDEZIRKEL_OUT_OF_RANGE);
}

/* Join in U0 has no step: begun and recorded, and recorded from nothing, that is a log of one entry. */
static void check_log(void) {
    static const uint8_t expected[] = {0x10, 0x00, 0x03, 0x03, 0x00, 0x00, 0x00, 0x00};
    static const uint8_t cleared[16];
    struct heidezirkel_event join = {.number = HEIDEZIRKEL_EVENT_JOIN};
    struct heidezirkel_step step = {.answer = HEIDEZIRKEL_NO_STEP};
    struct lent log = lend(sizeof expected), other = lend(sizeof expected), none = lend(0);
    EXPECT(heidezirkel_group_begin_log(none.octets, 0).answer == HEIDEZIRKEL_NO_ROOM && kept(&none, 0));
    struct heidezirkel_used begun = heidezirkel_group_begin_log(log.octets, log.length);
    EXPECT(begun.answer == HEIDEZIRKEL_TAKEN && begun.used == 1 && kept(&log, 1));
    EXPECT(heidezirkel_group_record(log.octets, log.length, 1, 0, join, nothing, 0, step, cleared, nothing, 0).used == sizeof expected);
    EXPECT(heidezirkel_group_record(other.octets, other.length, 0, 0, join, nothing, 0, step, cleared, nothing, 0).used == sizeof expected);
    EXPECT(memcmp(log.octets, expected, sizeof expected) == 0 && memcmp(other.octets, expected, sizeof expected) == 0);
    EXPECT(accepts(heidezirkel_judge(settings, log.octets, log.length), 1, 10000, 30000, 0, 0));
    give_back(&log);
    give_back(&other);
    give_back(&none);
}

void check_groups(void) {
    check_octet(0, state_fits);
    check_octet(9, talk_fits);
    for (size_t place = 10; place < 16; place++)
        check_octet(place, is_zero);
    check_asked();
    check_kinds();
    check_log();
}
