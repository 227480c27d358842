/* group-host: a small example host of group calls over libcontroller.a; host.c is the one of broadcast calls, and says more of what both do. Here stands what a group
 * call adds: the radio's mode, talking, and what waits to be sent. It has no radio: two short stories say what happens outside, and the clock is simulated.
 *
 *     group-host SETTINGS [LOG]      lives through the stories, judges its own log, and writes it to the file LOG
 */
#include "heidezirkel.h"
#include <stdio.h>
#include <stdlib.h>
#include <string.h>

struct host {
    uint8_t settings[HEIDEZIRKEL_SETTINGS_OCTETS];
    uint8_t context[HEIDEZIRKEL_CONTEXT_OCTETS];
    uint32_t joining_ms;
    uint64_t now_ms;
    uint64_t deadline_ms; /* of the timer that runs: a fit context has one at most */
    uint8_t log[HEIDEZIRKEL_LOG_OCTETS];
    size_t used;
    uint64_t recorded_ms;
};

static void fail(const char *what) {
    fprintf(stderr, "group-host: %s\n", what);
    exit(1);
}

/* ---- In words ---- */

static const char *const state_words[] = {
    "U0", "U0.p", "U1", "U2", "U3", "U4", "U5", "U6", "U2sl", "U2wr", "U2r", "U2ws", "U2sr", "U2nc",
};
static const char *const answer_words[] = {"taken", "ignored", "reported", "no step here"};
static const char *const action_words[] = {
    "inform the crew", "request an MM connection", "request group receive mode", "abort", "release", "the MM connection exists",
    "request group transmit mode",
};
static const char *const waiting_words[] = {"a termination request waits", "a STATUS waits", "the next message gives the value"};

static void say_octets(const char *what, const uint8_t *octets, size_t count) {
    printf("; %s", what);
    for (size_t i = 0; i < count; i++)
        printf(" %02x", octets[i]);
}

/* A bit that was set and is not, or the other way round. */
static void say_switch(const char *what, uint8_t before, uint8_t after, uint8_t bit) {
    if ((before ^ after) & bit)
        printf("; %s %s", what, after & bit ? "on" : "off");
}

/* ---- What a step asks for ---- */

/* Two messages are 12 octets, and nothing else that a step answered 0 sends is: each goes out by itself. */
static void send(struct heidezirkel_step step, const uint8_t *reply) {
    size_t first = step.answer == HEIDEZIRKEL_TAKEN && step.reply_length == 12 ? 6 : step.reply_length;
    if (first > 0)
        say_octets("send", reply, first);
    if (step.reply_length > first)
        say_octets("send", reply + first, step.reply_length - first);
}

static void carry_out(const uint8_t before[16], const uint8_t after[16], struct heidezirkel_step step, const uint8_t *reply) {
    for (unsigned bit = 0; bit < 7; bit++)
        if (step.actions & 1u << bit)
            printf("; %s", action_words[bit]);
    send(step, reply);
    say_switch("loudspeaker", before[1], after[1], HEIDEZIRKEL_D_ATT);
    say_switch("microphone", before[1], after[1], HEIDEZIRKEL_U_ATT);
    for (unsigned bit = 0; bit < 3; bit++)
        if (after[9] & ~before[9] & (HEIDEZIRKEL_PENDING_TERMINATION << bit))
            printf("; %s", waiting_words[bit]);
}

static uint32_t length_ms(const struct host *host) {
    switch (host->context[2]) {
    case HEIDEZIRKEL_T_MM_EST: return 5000;
    case HEIDEZIRKEL_T_TERM: return 10000;
    case HEIDEZIRKEL_T_CONN_REQ: return host->joining_ms;
    default: return 3000;
    }
}

static uint32_t expiry(uint8_t timer) {
    switch (timer) {
    case HEIDEZIRKEL_T_MM_EST: return HEIDEZIRKEL_EVENT_MM_EST_EXPIRED;
    case HEIDEZIRKEL_T_TERM: return HEIDEZIRKEL_EVENT_TERM_EXPIRED;
    case HEIDEZIRKEL_T_CONN_REQ: return HEIDEZIRKEL_EVENT_CONN_REQ_EXPIRED;
    default: return HEIDEZIRKEL_EVENT_NO_CHANNEL_EXPIRED;
    }
}

/* Octet 2 as it was leaves the timer alone; another timer starts, or none runs. */
static void keep_timer(struct host *host, uint8_t before) {
    uint8_t after = host->context[2];
    if (after == before)
        return;
    host->deadline_ms = host->now_ms + length_ms(host);
    if (after)
        printf("; a timer of %u ms starts", length_ms(host));
    else
        printf("; the timer stops");
}

static void record(struct host *host, struct heidezirkel_event event, const uint8_t *message, size_t length, struct heidezirkel_step step,
    const uint8_t *reply) {
    uint32_t delta = (uint32_t)(host->now_ms - host->recorded_ms);
    struct heidezirkel_used recorded = heidezirkel_group_record(host->log, sizeof host->log, host->used, delta, event, message, length, step,
        host->context, reply, step.reply_length);
    if (recorded.answer != HEIDEZIRKEL_TAKEN)
        fail("the log is full");
    host->used = recorded.used;
    host->recorded_ms = host->now_ms;
}

/* Tells one event, and does what it leads to. */
static void tell(struct host *host, const char *words, struct heidezirkel_event event, const uint8_t *message, size_t length) {
    uint8_t before[HEIDEZIRKEL_CONTEXT_OCTETS];
    uint8_t reply[HEIDEZIRKEL_REPLY_OCTETS];
    memcpy(before, host->context, sizeof before);
    struct heidezirkel_step step = heidezirkel_group_step(host->context, host->settings, event, message, length, reply, sizeof reply);
    if (step.answer > HEIDEZIRKEL_NO_STEP)
        fail("a step was refused: settings, context or event are not what they must be");
    printf("%7.3f s  %s: %s, %s -> %s", (double)host->now_ms / 1000, words, answer_words[step.answer], state_words[before[0]],
        state_words[host->context[0]]);
    carry_out(before, host->context, step, reply);
    keep_timer(host, before[2]);
    printf("\n");
    record(host, event, message, length, step, reply);
}

/* Lets time pass up to a moment. A timer that runs out on the way is told at its own moment. */
static void wait_until(struct host *host, uint64_t moment_ms) {
    static const uint8_t nothing[1];
    while (host->context[2] && host->deadline_ms <= moment_ms) {
        host->now_ms = host->deadline_ms;
        tell(host, "the timer expired", (struct heidezirkel_event){.number = expiry(host->context[2])}, nothing, 0);
    }
    host->now_ms = moment_ms;
}

/* ---- What happens outside ---- */

struct happening {
    uint64_t at_ms;
    const char *words;
    struct heidezirkel_event event;
    size_t length;
    uint8_t message[7];
};

#define CALL(number_, value_) {.number = number_, .value = value_, .reference = {0x00, 0x00, 0x00, 0x20}}
#define EVENT(number_) {.number = number_}, 0, {0}
#define MESSAGE {.number = HEIDEZIRKEL_EVENT_RECEIVED}

static const struct happening answered[] = {
    {0, "notified", CALL(HEIDEZIRKEL_EVENT_NOTIFIED, 2), 0, {0}},
    {2000, "join", EVENT(HEIDEZIRKEL_EVENT_JOIN)},
    {3500, "group receive mode", EVENT(HEIDEZIRKEL_EVENT_GROUP_RECEIVE)},
    {20000, "talk", EVENT(HEIDEZIRKEL_EVENT_TALK)},
    {20400, "group transmit mode", EVENT(HEIDEZIRKEL_EVENT_GROUP_TRANSMIT)},
    {21000, "GET STATUS", MESSAGE, 2, {0x40, 0x39}},
    {22000, "SET PARAMETER with COMM", MESSAGE, 3, {0x40, 0x3a, 0x0e}},
    {30000, "ask for receive mode", EVENT(HEIDEZIRKEL_EVENT_RECEIVE_MODE)},
    {30500, "group receive mode", EVENT(HEIDEZIRKEL_EVENT_GROUP_RECEIVE)},
    {60000, "TERMINATION", MESSAGE, 4, {0x40, 0x34, 0x01, 0x90}},
};
static const struct happening led[] = {
    {100000, "immediate set-up", CALL(HEIDEZIRKEL_EVENT_IMMEDIATE_SET_UP, 1), 0, {0}},
    {100800, "CONNECT", MESSAGE, 7, {0x90, 0x33, 0x00, 0x00, 0x01, 0x20, 0x01}},
    {110000, "ask for receive mode", EVENT(HEIDEZIRKEL_EVENT_RECEIVE_MODE)},
    {110500, "group receive mode", EVENT(HEIDEZIRKEL_EVENT_GROUP_RECEIVE)},
    {115000, "GET STATUS", MESSAGE, 2, {0x90, 0x39}},
    {115200, "terminate", EVENT(HEIDEZIRKEL_EVENT_TERMINATE)},
    {115600, "group transmit mode", EVENT(HEIDEZIRKEL_EVENT_GROUP_TRANSMIT)},
    {116000, "SET PARAMETER with COMM and ORIG", MESSAGE, 3, {0x90, 0x3a, 0x0f}},
    {118000, "TERMINATION REJECT", MESSAGE, 6, {0x90, 0x36, 0x98, 0x00, 0x00, 0x00}},
    {120000, "no channel", EVENT(HEIDEZIRKEL_EVENT_NO_CHANNEL)},
};

static void live(struct host *host, const char *title, const struct happening *story, size_t count, uint64_t end_ms) {
    printf("\n%s\n", title);
    for (size_t i = 0; i < count; i++) {
        wait_until(host, story[i].at_ms);
        tell(host, story[i].words, story[i].event, story[i].message, story[i].length);
    }
    wait_until(host, end_ms);
}

/* ---- The whole ---- */

static void read_settings(struct host *host, const char *name) {
    uint8_t bytes[256];
    FILE *file = fopen(name, "rb");
    if (!file)
        fail("the settings file can't be opened");
    size_t length = fread(bytes, 1, sizeof bytes, file);
    fclose(file);
    struct heidezirkel_settings read = heidezirkel_read_settings(bytes, length, host->settings);
    if (read.answer != HEIDEZIRKEL_TAKEN)
        fail("the settings file is refused");
    host->joining_ms = read.joining_ms;
}

static void keep_log(const struct host *host, const char *name) {
    FILE *file = fopen(name, "wb");
    if (!file || fwrite(host->log, 1, host->used, file) != host->used || fclose(file) != 0)
        fail("the log file can't be written");
}

int main(int count, char **words) {
    static struct host host;
    if (count != 2 && count != 3)
        fail("usage: group-host SETTINGS [LOG]");
    read_settings(&host, words[1]);
    heidezirkel_clear(host.context);
    host.used = heidezirkel_group_begin_log(host.log, sizeof host.log).used;
    live(&host, "a call that the crew joins and answers", answered, sizeof answered / sizeof answered[0], 90000);
    live(&host, "a call of our own, whose end waits and is refused", led, sizeof led / sizeof led[0], 150000);
    struct heidezirkel_judgement judged = heidezirkel_judge(host.settings, host.log, host.used);
    printf("\nlog: %zu bytes, answer %u, %zu entries, joining timer %u to %u ms\n", host.used, judged.answer, judged.entry, judged.least_ms,
        judged.greatest_ms);
    if (count == 3)
        keep_log(&host, words[2]);
    return judged.answer == HEIDEZIRKEL_TAKEN ? 0 : 1;
}
