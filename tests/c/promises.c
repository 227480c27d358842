/* promises: what the line protocol can't show of the C library: octets that are no context, the octets and the faults of a settings file, a call that is recorded
 * and judged; and what invitations.c, groups.c and mending.c have.
 * The expected values are worked out by hand from documents 01 and 02. Status 1, and a line on standard error for each, where one is not as promised. */
#include "played.h"
#include <stdio.h>
#include <string.h>

static void check_clear(void) {
    static const uint8_t cleared[16];
    struct lent context = lend(16);
    EXPECT(heidezirkel_clear(context.octets) == HEIDEZIRKEL_TAKEN);
    EXPECT(memcmp(context.octets, cleared, 16) == 0);
    EXPECT(kept(&context, 16));
    give_back(&context);
}

/* The answer of "channel available" to 16 octets; nothing may change where it is 7. */
static uint32_t answer_to(const uint8_t octets[16], size_t room) {
    struct lent context = lend_octets(octets, 16);
    struct lent reply = lend(room);
    struct heidezirkel_event event = {.number = HEIDEZIRKEL_EVENT_CHANNEL_AVAILABLE};
    struct heidezirkel_step step = heidezirkel_step(context.octets, settings, event, nothing, 0, reply.octets, room);
    bool refused = step.answer != HEIDEZIRKEL_TAKEN;
    EXPECT(!refused || (kept(&context, 0) && step.actions == 0 && step.reply_length == 0));
    EXPECT(step.reason == 0);
    EXPECT(kept(&reply, 0));
    refusals_seen += refused;
    give_back(&context);
    give_back(&reply);
    return step.answer;
}

/* U6 with D-ATT and T_no channel is fit; with any one octet beyond what its field holds it is no context. */
static void check_contexts(void) {
    static const uint8_t fit[16] = {HEIDEZIRKEL_U6, HEIDEZIRKEL_D_ATT, HEIDEZIRKEL_T_NO_CHANNEL, 6, 1, 2, 3, 4};
    static const unsigned least[16] = {8, 16, 32, 7, 256, 256, 256, 256, 1, 1, 1, 1, 1, 1, 1, 1};
    uint8_t other[16];
    EXPECT(answer_to(fit, 255) == HEIDEZIRKEL_TAKEN);
    for (size_t place = 0; place < 16; place++)
        for (unsigned value = least[place]; value < 256; value++) {
            memcpy(other, fit, 16);
            other[place] = (uint8_t)value;
            EXPECT(answer_to(other, 255) == HEIDEZIRKEL_NO_CONTEXT);
        }
    /* 7 comes before 5. */
    EXPECT(answer_to(other, 0) == HEIDEZIRKEL_NO_CONTEXT);
    EXPECT(answer_to(fit, 254) == HEIDEZIRKEL_SHORT_BUFFER);
}

/* In each state octet 2 is fit where it says the timers that run there, and no other; from 32 on it says none. */
static void check_timers(void) {
    static const struct {
        uint8_t context[16];
        uint8_t fit[2];
    } states[] = {
        {{HEIDEZIRKEL_U0}, {0, 0}},
        {{HEIDEZIRKEL_U0_P, 8, 0, 6}, {HEIDEZIRKEL_T_MM_EST, HEIDEZIRKEL_T_MM_EST}},
        {{HEIDEZIRKEL_U1, 12, 0, 6}, {0, HEIDEZIRKEL_T_MM_EST}},
        {{HEIDEZIRKEL_U2, 15, 0, 6}, {0, 0}},
        {{HEIDEZIRKEL_U3, 0, 0, 6}, {HEIDEZIRKEL_T_PRES, HEIDEZIRKEL_T_PRES}},
        {{HEIDEZIRKEL_U4, 0, 0, 6}, {HEIDEZIRKEL_T_CONN_REQ, HEIDEZIRKEL_T_CONN_REQ}},
        {{HEIDEZIRKEL_U5, 15, 0, 6, [8] = HEIDEZIRKEL_U2}, {HEIDEZIRKEL_T_TERM, HEIDEZIRKEL_T_TERM}},
        {{HEIDEZIRKEL_U6, 2, 0, 6}, {0, HEIDEZIRKEL_T_NO_CHANNEL}},
    };
    for (size_t i = 0; i < sizeof states / sizeof states[0]; i++)
        for (unsigned timers = 0; timers < 256; timers++) {
            bool fit = timers == states[i].fit[0] || timers == states[i].fit[1];
            uint8_t octets[16];
            memcpy(octets, states[i].context, 16);
            octets[2] = (uint8_t)timers;
            EXPECT((answer_to(octets, 255) != HEIDEZIRKEL_NO_CONTEXT) == fit);
        }
}

/* U5 with T_term is fit where octet 8 is 2 (U1) or 3 (U2); "channel available" has no step there. */
static void check_remembered(void) {
    uint8_t asked[16] = {HEIDEZIRKEL_U5, 15, HEIDEZIRKEL_T_TERM, 6, 1, 2, 3, 4};
    for (unsigned from = 0; from < 256; from++) {
        bool fit = from == HEIDEZIRKEL_U1 || from == HEIDEZIRKEL_U2;
        asked[8] = (uint8_t)from;
        EXPECT(answer_to(asked, 255) == (fit ? HEIDEZIRKEL_NO_STEP : HEIDEZIRKEL_NO_CONTEXT));
    }
    asked[8] = HEIDEZIRKEL_U2;
    for (size_t place = 9; place < 16; place++) {
        asked[place] = 1;
        EXPECT(answer_to(asked, 255) == HEIDEZIRKEL_NO_CONTEXT);
        asked[place] = 0;
    }
    asked[2] = 0;
    EXPECT(answer_to(asked, 255) == HEIDEZIRKEL_NO_CONTEXT);
}

static void check_reason(const char *text, size_t line, uint32_t fault) {
    struct lent octets = lend(21);
    struct lent file = lend_octets((const uint8_t *)text, strlen(text));
    struct heidezirkel_settings read = heidezirkel_read_settings(file.octets, file.length, octets.octets);
    char what[80];
    snprintf(what, sizeof what, "line %zu, fault %u for the file of line %zu, fault %u", read.line, read.fault, line, fault);
    promise(read.line == line && read.fault == fault, what);
    EXPECT(read.answer == HEIDEZIRKEL_SETTINGS_REFUSED && read.joining_ms == 0 && read.invitation_ms == 0);
    EXPECT(kept(&octets, 0));
    refusals_seen++;
    give_back(&octets);
    give_back(&file);
}

/* One file for each reason. */
static void check_reasons(void) {
    check_reason("cksn=3\nclassmark=3319a2", 2, HEIDEZIRKEL_LINE_NO_LINE_FEED);
    check_reason("cksn=3\n\n", 2, HEIDEZIRKEL_LINE_UNKNOWN_NAME);
    check_reason("cksn=8\n", 1, HEIDEZIRKEL_LINE_BAD_KEY);
    check_reason("cksn=7\nclassmark=3319a\n", 2, HEIDEZIRKEL_LINE_BAD_CLASSMARK);
    check_reason("identity=f\n", 1, HEIDEZIRKEL_LINE_BAD_IDENTITY);
    check_reason("identity=f4\ncksn=0\nconn_req_ms=9999\n", 3, HEIDEZIRKEL_LINE_BAD_JOINING);
    check_reason("cksn=3\ncksn=4\n", 2, HEIDEZIRKEL_LINE_REPEATED_NAME);
    check_reason("", 1, HEIDEZIRKEL_LINE_MISSING_KEY);
    check_reason("conn_req_ms=10000\ncksn=3\n", 3, HEIDEZIRKEL_LINE_MISSING_CLASSMARK);
    check_reason("classmark=3319a2\ncksn=3\n", 3, HEIDEZIRKEL_LINE_MISSING_IDENTITY);
    check_reason("classmark=3319a2\ncksn=3\nidentity=f4\n", 4, HEIDEZIRKEL_LINE_MISSING_JOINING);
    check_reason("present_ms=1000\nclassmark=3319a2\ncksn=3\nidentity=f4\n", 5, HEIDEZIRKEL_LINE_MISSING_JOINING);
    check_reason("cksn=3\npresent_ms=999\n", 2, HEIDEZIRKEL_LINE_BAD_INVITATION);
    check_reason("present_ms=600001\n", 1, HEIDEZIRKEL_LINE_BAD_INVITATION);
    check_reason("present_ms=01000\n", 1, HEIDEZIRKEL_LINE_BAD_INVITATION);
    check_reason("present_ms=1000\npresent_ms=1000\n", 2, HEIDEZIRKEL_LINE_REPEATED_NAME);
    /* What an older library took. */
    check_reason("cksn=3\nclassmark=3319a2\nidentity=f423a1b2\nconn_req_ms=12000\n", 5, HEIDEZIRKEL_LINE_MISSING_INVITATION);
}

/* A file that is taken, and its 21 octets. */
static void check_read(const char *text, uint32_t joining_ms, uint32_t invitation_ms, const uint8_t expected[21]) {
    struct lent octets = lend(21);
    struct heidezirkel_settings read = heidezirkel_read_settings((const uint8_t *)text, strlen(text), octets.octets);
    EXPECT(read.answer == HEIDEZIRKEL_TAKEN && read.fault == 0 && read.line == 0);
    EXPECT(read.joining_ms == joining_ms && read.invitation_ms == invitation_ms);
    EXPECT(memcmp(octets.octets, expected, 21) == 0 && kept(&octets, 21));
    give_back(&octets);
}

static void check_files(void) {
    static const uint8_t least[21] = {0, 0, 0, 1, 1, 7, 0, 0, 0, 0, 0, 0, 0, 0x10, 0x27, 0, 0, 0xe8, 0x03, 0, 0};
    static const uint8_t greatest[21] = {7, 0xff, 0xff, 0xff, 8, 1, 2, 3, 4, 5, 6, 7, 8, 0x30, 0x75, 0, 0, 0xc0, 0x27, 0x09, 0};
    check_read("cksn=3\nclassmark=3319a2\nidentity=f423a1b2\nconn_req_ms=12000\npresent_ms=60000\n", 12000, 60000, settings);
    check_read("present_ms=1000\nconn_req_ms=10000\nidentity=07\nclassmark=000001\ncksn=0\n", 10000, 1000, least);
    check_read("cksn=7\nclassmark=FFffFF\npresent_ms=600000\nidentity=0102030405060708\nconn_req_ms=30000\n", 30000, 600000, greatest);
}

/* Case c6 of document 01 in version 3, joined 2,500 ms after it was notified; then a GET STATUS that is ignored, TERMINATION, and a call of the radio's own,
 * whose reply is logged. */
enum { JOIN_ACTIONS = 19 }; /* the place of the join's actions */
static const uint8_t worked_out[] = {
    0x03,
    0x00, 0x0a, 0x01, 1, 2, 3, 4, 0x00, 0x04, 0x00, 0x01, 0x00,
    0xc4, 0x13, 0x03, 0x00, 0x05, 0x00, 0x04, 0x00,
    0xa0, 0x9c, 0x01, 0x0b, 0x00, 0x07, 0x02, 0x01, 0x00,
    0x05, 0x12, 0x01, 0x02, 0x11, 0x39, 0x01, 0x07, 0x02, 0x00, 0x00,
    0x00, 0x12, 0x00, 0x04, 0x11, 0x34, 0x01, 0x90, 0x00, 0x00, 0x00, 0x11, 0x00,
    0x00, 0x02, 0x02, 5, 6, 7, 8, 0x00, 0x02, 0x0c, 0x00, 0x10,
    0x21, 0x31, 0x30, 0x03, 0x33, 0x19, 0xa2, 0x04, 0xf4, 0x23, 0xa1, 0xb2, 5, 6, 7, 8,
};

static void play(struct recording *now) {
    static const uint8_t get_status[] = {0x11, 0x39};
    static const uint8_t termination[] = {0x11, 0x34, 0x01, 0x90};
    struct heidezirkel_event notified = {.number = HEIDEZIRKEL_EVENT_NOTIFIED, .value = 1, .reference = {1, 2, 3, 4}};
    struct heidezirkel_event immediate = {.number = HEIDEZIRKEL_EVENT_IMMEDIATE_SET_UP, .value = 2, .reference = {5, 6, 7, 8}};
    happen(now, 0, notified, nothing, 0);
    happen(now, 2500, (struct heidezirkel_event){.number = HEIDEZIRKEL_EVENT_JOIN}, nothing, 0);
    happen(now, 20000, (struct heidezirkel_event){.number = HEIDEZIRKEL_EVENT_GROUP_RECEIVE}, nothing, 0);
    happen(now, 5, (struct heidezirkel_event){.number = HEIDEZIRKEL_EVENT_RECEIVED, .mode = 1}, get_status, 2);
    happen(now, 0, (struct heidezirkel_event){.number = HEIDEZIRKEL_EVENT_RECEIVED}, termination, 4);
    happen(now, 0, immediate, nothing, 0);
}

/* A termination is asked from U1 and from U2, and rejected: back to the state, with its row and without a timer. */
static void check_return(void) {
    static const uint8_t in_u1[16] = {HEIDEZIRKEL_U1, 12, HEIDEZIRKEL_T_MM_EST, 2, 5, 6, 7, 8};
    static const uint8_t from_u1[16] = {HEIDEZIRKEL_U5, 15, HEIDEZIRKEL_T_TERM, 2, 5, 6, 7, 8, HEIDEZIRKEL_U1};
    static const uint8_t back_in_u1[16] = {HEIDEZIRKEL_U1, 12, 0, 2, 5, 6, 7, 8};
    static const uint8_t in_u2[16] = {HEIDEZIRKEL_U2, 15, 0, 2, 5, 6, 7, 8};
    static const uint8_t from_u2[16] = {HEIDEZIRKEL_U5, 15, HEIDEZIRKEL_T_TERM, 2, 5, 6, 7, 8, HEIDEZIRKEL_U2};
    static const uint8_t cleared[16];
    static const uint8_t reject[] = {0xa1, 0x36, 0x01, 0x98};
    static const uint8_t termination[] = {0xa1, 0x34, 0x01, 0x90};
    leads(in_u1, HEIDEZIRKEL_EVENT_TERMINATE, nothing, 0, from_u1, 0);
    leads(back_in_u1, HEIDEZIRKEL_EVENT_TERMINATE, nothing, 0, from_u1, 0);
    leads(from_u1, HEIDEZIRKEL_EVENT_RECEIVED, reject, sizeof reject, back_in_u1, HEIDEZIRKEL_DO_INFORM);
    leads(in_u2, HEIDEZIRKEL_EVENT_TERMINATE, nothing, 0, from_u2, 0);
    leads(from_u2, HEIDEZIRKEL_EVENT_RECEIVED, reject, sizeof reject, in_u2, HEIDEZIRKEL_DO_INFORM);
    leads(from_u2, HEIDEZIRKEL_EVENT_RECEIVED, termination, sizeof termination, cleared, HEIDEZIRKEL_DO_INFORM + HEIDEZIRKEL_DO_RELEASE);
    leads(from_u1, HEIDEZIRKEL_EVENT_TERM_EXPIRED, nothing, 0, cleared, HEIDEZIRKEL_DO_INFORM + HEIDEZIRKEL_DO_ABORT);
}

static void check_begin(struct recording *now) {
    struct lent none = lend(0);
    struct heidezirkel_used begun = heidezirkel_begin_log(none.octets, 0);
    EXPECT(begun.answer == HEIDEZIRKEL_NO_ROOM && begun.used == 0 && kept(&none, 0));
    give_back(&none);
    heidezirkel_clear(now->context);
    begun = heidezirkel_begin_log(now->log.octets, now->log.length);
    EXPECT(begun.answer == HEIDEZIRKEL_TAKEN && begun.used == 1 && kept(&now->log, 1));
    now->used = begun.used;
}

/* A log begun and recorded, a log recorded from nothing, and the bytes worked out by hand are the same. */
static void check_recorded(struct recording *now) {
    struct recording other = {.log = lend(sizeof worked_out)};
    play(now);
    play(&other);
    EXPECT(now->used == sizeof worked_out && memcmp(now->log.octets, worked_out, sizeof worked_out) == 0);
    EXPECT(other.used == sizeof worked_out && memcmp(other.log.octets, worked_out, sizeof worked_out) == 0);
    give_back(&other.log);
}

/* The recorder looks at the answer and actions of a step, at state and parameters of a context, and at the reply's own length. */
static void check_looked_at(void) {
    static const uint8_t expected[] = {0x03, 0x00, 0x03, 0x03, 0x00, 0x00, 0x00, 0x00};
    static const uint8_t context[16] = {0, 0, 255, 255, 1, 2, 3, 4, 5, 6, 7, 8, 9, 10, 11, 12};
    struct heidezirkel_event join = {.number = HEIDEZIRKEL_EVENT_JOIN, .value = 255, .mode = 255, .reference = {1, 2, 3, 4}};
    struct heidezirkel_step step = {.answer = HEIDEZIRKEL_NO_STEP, .reason = 6, .reply_length = 7};
    struct lent log = lend(sizeof expected);
    struct heidezirkel_used recorded = heidezirkel_record(log.octets, log.length, 0, 0, join, settings, 21, step, context, nothing, 0);
    EXPECT(recorded.answer == HEIDEZIRKEL_TAKEN && recorded.used == sizeof expected);
    EXPECT(memcmp(log.octets, expected, sizeof expected) == 0);
    give_back(&log);
}

static void check_judged(const struct recording *now) {
    EXPECT(accepts(heidezirkel_judge(settings, now->log.octets, now->used), 6, 20000, 30000, 2500, 600000));
    EXPECT(refuses(heidezirkel_judge(settings, now->log.octets, now->used - 1), HEIDEZIRKEL_UNREADABLE_LOG, 6));
    now->log.octets[JOIN_ACTIONS] ^= 8;
    EXPECT(refuses(heidezirkel_judge(settings, now->log.octets, now->used), HEIDEZIRKEL_UNEXPLAINED, 2));
    now->log.octets[JOIN_ACTIONS] ^= 8;
    /* No termination is rejected in it, and no invitation runs out: versions 1 and 2 explain it too, and tell of no invitation timer. A group call has no U6. There is
     * no other version. */
    for (unsigned version = 0; version < 256; version++) {
        now->log.octets[0] = (uint8_t)version;
        struct heidezirkel_judgement judged = heidezirkel_judge(settings, now->log.octets, now->used);
        if (version == 1 || version == 2)
            EXPECT(accepts(judged, 6, 20000, 30000, 0, 0));
        else if (version == 3)
            EXPECT(accepts(judged, 6, 20000, 30000, 2500, 600000));
        else if (version == 16)
            EXPECT(refuses(judged, HEIDEZIRKEL_UNEXPLAINED, 3));
        else
            EXPECT(refuses(judged, HEIDEZIRKEL_UNREADABLE_LOG, 0));
    }
    now->log.octets[0] = 3;
}

/* No settings: what a host has that began with zeros and did not look. And octets behind the identity, and the timers', which have no effect. */
static void check_settings(void) {
    static const uint8_t none[21];
    uint8_t behind[21];
    uint8_t context[16] = {0}, reply[255];
    struct heidezirkel_event event = {.number = HEIDEZIRKEL_EVENT_NOTIFIED};
    EXPECT(heidezirkel_step(context, none, event, nothing, 0, reply, 255).answer == HEIDEZIRKEL_OUT_OF_RANGE);
    EXPECT(heidezirkel_judge(none, worked_out, sizeof worked_out).answer == HEIDEZIRKEL_OUT_OF_RANGE);
    memcpy(behind, settings, 21);
    for (size_t place = 9; place < 21; place++) {
        behind[place] ^= 0xff;
        EXPECT(accepts(heidezirkel_judge(behind, worked_out, sizeof worked_out), 6, 20000, 30000, 2500, 600000));
        EXPECT(heidezirkel_clear(context) == HEIDEZIRKEL_TAKEN);
        EXPECT(heidezirkel_step(context, behind, event, nothing, 0, reply, 255).answer == HEIDEZIRKEL_TAKEN);
    }
}

static bool is_number(struct heidezirkel_number found, uint32_t answer, uint32_t value, size_t next) {
    return found.answer == answer && found.value == value && found.next == next;
}

static void check_numbers(void) {
    static const uint8_t octets[] = {0xac, 0x02, 0x80, 0x00, 0xff, 0xff, 0xff, 0xff, 0x0f, 0xff, 0xff, 0xff, 0xff, 0x1f, 0x7f, 0x80};
    EXPECT(is_number(heidezirkel_read_number(octets, 16, 0), 0, 300, 2));
    EXPECT(is_number(heidezirkel_read_number(octets, 16, 1), 0, 2, 2));
    EXPECT(is_number(heidezirkel_read_number(octets, 16, 2), 8, 0, 0));
    EXPECT(is_number(heidezirkel_read_number(octets, 16, 4), 0, 4294967295u, 9));
    EXPECT(is_number(heidezirkel_read_number(octets, 16, 9), 8, 0, 0));
    EXPECT(is_number(heidezirkel_read_number(octets, 16, 14), 0, 127, 15));
    EXPECT(is_number(heidezirkel_read_number(octets, 16, 15), 8, 0, 0));
    EXPECT(is_number(heidezirkel_read_number(octets, 16, 16), 8, 0, 0));
    EXPECT(is_number(heidezirkel_read_number(octets, 16, SIZE_MAX), 8, 0, 0));
}

int main(void) {
    struct recording recording = {.log = lend(200)};
    check_clear();
    check_contexts();
    check_timers();
    check_remembered();
    check_return();
    check_reasons();
    check_files();
    check_begin(&recording);
    check_recorded(&recording);
    check_looked_at();
    check_judged(&recording);
    check_invitations();
    check_groups();
    check_mending();
    check_settings();
    check_numbers();
    give_back(&recording.log);
    fprintf(stderr, "promises: %lu refused calls, %lu promises broken\n", refusals_seen, promises_broken);
    return promises_broken > 0;
}
