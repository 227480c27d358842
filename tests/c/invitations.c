/* Invitations: the timer T_pres, contexts that an older host kept in U3, and logs of invitations by each version. The expected values are worked out by hand
 * from document 02, A13. */
#include "played.h"

/* An invitation: its timer runs from the notification on, and until the radio is in another state. */
static void check_invitation(void) {
    static const uint8_t cleared[16];
    static const uint8_t notified[16] = {HEIDEZIRKEL_U3, 0, HEIDEZIRKEL_T_PRES};
    static const uint8_t invited[16] = {HEIDEZIRKEL_U3, 0, HEIDEZIRKEL_T_PRES, 2, 5, 6, 7, 8};
    static const uint8_t attached[16] = {HEIDEZIRKEL_U3, HEIDEZIRKEL_D_ATT, HEIDEZIRKEL_T_PRES, 2, 5, 6, 7, 8};
    static const uint8_t joining[16] = {HEIDEZIRKEL_U4, 0, HEIDEZIRKEL_T_CONN_REQ, 2, 5, 6, 7, 8};
    static const uint8_t termination[] = {0x21, 0x34, 0x01, 0x90};
    static const uint8_t set_parameter[] = {0x21, 0x3a, 0x08};
    leads(cleared, HEIDEZIRKEL_EVENT_NOTIFIED, nothing, 0, notified, HEIDEZIRKEL_DO_INFORM);
    leads(invited, HEIDEZIRKEL_EVENT_JOIN, nothing, 0, joining, HEIDEZIRKEL_DO_REQUEST_GROUP_RECEIVE);
    leads(invited, HEIDEZIRKEL_EVENT_PRES_EXPIRED, nothing, 0, cleared, 0);
    leads(invited, HEIDEZIRKEL_EVENT_RELEASE, nothing, 0, cleared, HEIDEZIRKEL_DO_RELEASE);
    leads(invited, HEIDEZIRKEL_EVENT_RADIO_LINK_FAILURE, nothing, 0, cleared, HEIDEZIRKEL_DO_INFORM + HEIDEZIRKEL_DO_ABORT);
    leads(invited, HEIDEZIRKEL_EVENT_ABORT_OR_RELEASE, nothing, 0, cleared, HEIDEZIRKEL_DO_INFORM + HEIDEZIRKEL_DO_ABORT);
    leads(invited, HEIDEZIRKEL_EVENT_RECEIVED, termination, sizeof termination, cleared, HEIDEZIRKEL_DO_INFORM + HEIDEZIRKEL_DO_RELEASE);
    leads(invited, HEIDEZIRKEL_EVENT_RECEIVED, set_parameter, sizeof set_parameter, attached, 0);
}

/* The expiry of T_pres has a step in U3 alone; there is no event 0 and none from 20 on. */
static void check_expiry(void) {
    static const uint8_t fit[8][16] = {
        {HEIDEZIRKEL_U0}, {HEIDEZIRKEL_U0_P, 8, HEIDEZIRKEL_T_MM_EST}, {HEIDEZIRKEL_U1, 12, HEIDEZIRKEL_T_MM_EST}, {HEIDEZIRKEL_U2, 15},
        {HEIDEZIRKEL_U3, 0, HEIDEZIRKEL_T_PRES}, {HEIDEZIRKEL_U4, 0, HEIDEZIRKEL_T_CONN_REQ},
        {HEIDEZIRKEL_U5, 15, HEIDEZIRKEL_T_TERM, [8] = HEIDEZIRKEL_U1}, {HEIDEZIRKEL_U6, 2, HEIDEZIRKEL_T_NO_CHANNEL},
    };
    for (size_t state = 0; state < 8; state++) {
        uint32_t expected = state == HEIDEZIRKEL_U3 ? HEIDEZIRKEL_TAKEN : HEIDEZIRKEL_NO_STEP;
        EXPECT(answer_in(fit[state], HEIDEZIRKEL_EVENT_PRES_EXPIRED) == expected);
        EXPECT(answer_in(fit[state], 0) == HEIDEZIRKEL_OUT_OF_RANGE);
        EXPECT(answer_in(fit[state], 20) == HEIDEZIRKEL_OUT_OF_RANGE);
        EXPECT(answer_in(fit[state], UINT32_MAX) == HEIDEZIRKEL_OUT_OF_RANGE);
    }
}

/* A context that an older host kept in U3, where no timer ran: refused at every event. Cleared, or with T_pres, it goes on. */
static void check_kept(void) {
    static const uint8_t joining[16] = {HEIDEZIRKEL_U4, 0, HEIDEZIRKEL_T_CONN_REQ, 2, 5, 6, 7, 8};
    uint8_t older[16] = {HEIDEZIRKEL_U3, 0, 0, 2, 5, 6, 7, 8};
    for (uint32_t event = 0; event <= 20; event++)
        EXPECT(answer_in(older, event) == HEIDEZIRKEL_NO_CONTEXT);
    older[2] = HEIDEZIRKEL_T_PRES;
    leads(older, HEIDEZIRKEL_EVENT_JOIN, nothing, 0, joining, HEIDEZIRKEL_DO_REQUEST_GROUP_RECEIVE);
    older[2] = 0;
    EXPECT(heidezirkel_clear(older) == HEIDEZIRKEL_TAKEN);
    EXPECT(answer_in(older, HEIDEZIRKEL_EVENT_NOTIFIED) == HEIDEZIRKEL_TAKEN);
}

/* A log of a notification, and of one event a while after it. */
static struct recording after_a_while(uint32_t delta, uint32_t event) {
    struct recording made = {.log = lend(64)};
    happen(&made, 5, (struct heidezirkel_event){.number = HEIDEZIRKEL_EVENT_NOTIFIED, .value = 1}, nothing, 0);
    happen(&made, delta, (struct heidezirkel_event){.number = event}, nothing, 0);
    return made;
}

/* An invitation that runs out after `delta`, and one that is joined after it: the timers that explain each. */
static void check_waiting(uint32_t delta) {
    struct recording out = after_a_while(delta, HEIDEZIRKEL_EVENT_PRES_EXPIRED);
    struct recording joined = after_a_while(delta, HEIDEZIRKEL_EVENT_JOIN);
    struct heidezirkel_judgement judged = heidezirkel_judge(settings, out.log.octets, out.used);
    if (delta >= 1000 && delta <= 600000)
        EXPECT(accepts(judged, 2, 10000, 30000, delta, delta));
    else
        EXPECT(refuses(judged, HEIDEZIRKEL_UNEXPLAINED, 2));
    judged = heidezirkel_judge(settings, joined.log.octets, joined.used);
    if (delta <= 600000)
        EXPECT(accepts(judged, 2, 10000, 30000, delta < 1000 ? 1000 : delta, 600000));
    else
        EXPECT(refuses(judged, HEIDEZIRKEL_UNEXPLAINED, 2));
    /* Versions 1 and 2 have no such timer: any wait is explained, and there is no event 19. */
    for (uint8_t version = 1; version <= 2; version++) {
        out.log.octets[0] = joined.log.octets[0] = version;
        EXPECT(refuses(heidezirkel_judge(settings, out.log.octets, out.used), HEIDEZIRKEL_UNREADABLE_LOG, 2));
        EXPECT(accepts(heidezirkel_judge(settings, joined.log.octets, joined.used), 2, 10000, 30000, 0, 0));
    }
    give_back(&out.log);
    give_back(&joined.log);
}

/* One log with an invitation that runs out after 12,000 ms, one that is joined after `waited`, and a joining timer that runs out after 11,000 ms: two timers of
 * their own, and one invitation timer for both invitations. */
static void check_both(uint32_t waited) {
    struct recording made = after_a_while(12000, HEIDEZIRKEL_EVENT_PRES_EXPIRED);
    happen(&made, 0, (struct heidezirkel_event){.number = HEIDEZIRKEL_EVENT_NOTIFIED, .value = 2}, nothing, 0);
    happen(&made, waited, (struct heidezirkel_event){.number = HEIDEZIRKEL_EVENT_JOIN}, nothing, 0);
    happen(&made, 11000, (struct heidezirkel_event){.number = HEIDEZIRKEL_EVENT_CONN_REQ_EXPIRED}, nothing, 0);
    struct heidezirkel_judgement judged = heidezirkel_judge(settings, made.log.octets, made.used);
    if (waited <= 12000)
        EXPECT(accepts(judged, 5, 11000, 11000, 12000, 12000));
    else
        EXPECT(refuses(judged, HEIDEZIRKEL_UNEXPLAINED, 4));
    give_back(&made.log);
}

void check_invitations(void) {
    static const uint32_t waits[] = {0, 999, 1000, 1001, 45000, 599999, 600000, 600001, 86400000};
    check_invitation();
    check_expiry();
    check_kept();
    for (size_t i = 0; i < sizeof waits / sizeof waits[0]; i++)
        check_waiting(waits[i]);
    check_both(12000);
    check_both(12001);
}
