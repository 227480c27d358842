/* host: a small example host over libcontroller.a, to read and to begin from. It has no radio: what happens outside stands in four short stories, and the clock
 * is simulated. Everything else is what a firmware does: settings read, a context kept, each event told, actions carried out, timers kept, a log recorded.
 *
 *     host SETTINGS [LOG]      lives through the stories, judges its own log, and writes it to the file LOG
 */
#include "heidezirkel.h"
#include <stdio.h>
#include <stdlib.h>
#include <string.h>

/* The five timers, by their bits in octet 2 of the context. The lengths of the joining timer and of the invitation timer are settings. */
enum { TIMERS = 5 };
static const struct timer {
    uint8_t bit;
    const char *name;
    uint32_t length_ms; /* 0 for a setting */
    uint32_t expiry;    /* the event to tell */
} timers[TIMERS] = {
    {HEIDEZIRKEL_T_PRES, "T_pres", 0, HEIDEZIRKEL_EVENT_PRES_EXPIRED},
    {HEIDEZIRKEL_T_MM_EST, "T_MM-est", 5000, HEIDEZIRKEL_EVENT_MM_EST_EXPIRED},
    {HEIDEZIRKEL_T_TERM, "T_term", 10000, HEIDEZIRKEL_EVENT_TERM_EXPIRED},
    {HEIDEZIRKEL_T_CONN_REQ, "T_conn req", 0, HEIDEZIRKEL_EVENT_CONN_REQ_EXPIRED},
    {HEIDEZIRKEL_T_NO_CHANNEL, "T_no channel", 3000, HEIDEZIRKEL_EVENT_NO_CHANNEL_EXPIRED},
};

struct host {
    uint8_t settings[HEIDEZIRKEL_SETTINGS_OCTETS]; /* begins as zeros: then every step is refused until settings are read */
    uint8_t context[HEIDEZIRKEL_CONTEXT_OCTETS];
    uint32_t joining_ms;
    uint32_t invitation_ms;
    uint64_t now_ms;
    uint64_t deadline_ms[TIMERS]; /* when each timer that runs has run its length */
    uint8_t log[HEIDEZIRKEL_LOG_OCTETS];
    size_t used;
    uint64_t recorded_ms; /* the time of the log's last entry */
};

/* ---- In words ---- */

static const char *const state_words[] = {"U0", "U0.p", "U1", "U2", "U3", "U4", "U5", "U6"};
static const char *const answer_words[] = {"taken", "ignored", "reported", "no step here"};
static const char *const reason_words[] = {
    "", " (no call)", " (too short)", " (other protocol)", " (other transaction)", " (other identity)", " (COMM is false)",
};
static const char *const event_words[] = {
    "", "set-up request", "immediate set-up request", "join", "terminate", "release", "MM connection established", "MM establishment failed",
    "radio link failure", "abort or release detected", "broadcast notified", "group receive mode entered", "no channel", "channel available",
    "T_MM-est expired", "T_term expired", "T_conn req expired", "T_no channel expired", "message received", "T_pres expired",
};
static const char *const action_words[] = {
    "inform higher layers", "request an MM connection", "request group receive mode", "abort", "release", "the MM connection exists",
};

static void fail(const char *what) {
    fprintf(stderr, "host: %s\n", what);
    exit(1);
}

static void say_step(const struct host *host, uint32_t event, uint8_t state_before, struct heidezirkel_step step) {
    if (step.answer > HEIDEZIRKEL_NO_STEP)
        fail("a step was refused: settings, context or event are not what they must be");
    printf("%4u.%03u s  %s: %s%s, %s -> %s", (unsigned)(host->now_ms / 1000), (unsigned)(host->now_ms % 1000), event_words[event],
        answer_words[step.answer], reason_words[step.reason], state_words[state_before], state_words[host->context[0]]);
}

/* ---- What a step asks for ---- */

/* A firmware calls its lower and higher layers here. */
static void carry_out(const uint8_t before[16], const uint8_t after[16], struct heidezirkel_step step) {
    for (unsigned bit = 0; bit < 6; bit++)
        if (step.actions & 1u << bit)
            printf("; %s", action_words[bit]);
    if (step.reply_length > 0)
        printf("; send %zu octets", step.reply_length);
    if ((before[1] ^ after[1]) & HEIDEZIRKEL_D_ATT)
        printf("; loudspeaker %s", after[1] & HEIDEZIRKEL_D_ATT ? "on" : "off");
    /* The expiry of T_pres has no action: what the crew sees follows the state. */
    if ((before[0] == HEIDEZIRKEL_U3) != (after[0] == HEIDEZIRKEL_U3))
        printf("; invitation %s", after[0] == HEIDEZIRKEL_U3 ? "shown" : "taken away");
}

static uint32_t length_of(const struct host *host, const struct timer *timer) {
    switch (timer->bit) {
    case HEIDEZIRKEL_T_PRES:
        return host->invitation_ms;
    case HEIDEZIRKEL_T_CONN_REQ:
        return host->joining_ms;
    default:
        return timer->length_ms;
    }
}

/* A bit that became set starts its timer; one that was cleared stops it; one that stayed leaves it alone. */
static void keep_timers(struct host *host, uint8_t before) {
    uint8_t after = host->context[2];
    for (size_t i = 0; i < TIMERS; i++) {
        uint8_t bit = timers[i].bit;
        if (!(before & bit) && (after & bit)) {
            uint32_t length = length_of(host, &timers[i]);
            host->deadline_ms[i] = host->now_ms + length;
            printf("; %s starts (%u ms)", timers[i].name, length);
        } else if ((before & bit) && !(after & bit))
            printf("; %s stops", timers[i].name);
    }
}

/* Tells one event, and does what it leads to. */
static void tell(struct host *host, struct heidezirkel_event event, const uint8_t *message, size_t length) {
    uint8_t before[HEIDEZIRKEL_CONTEXT_OCTETS];
    uint8_t reply[HEIDEZIRKEL_REPLY_OCTETS];
    memcpy(before, host->context, sizeof before);
    struct heidezirkel_step step =
        heidezirkel_step(host->context, host->settings, event, message, length, reply, sizeof reply);
    say_step(host, event.number, before[0], step);
    carry_out(before, host->context, step);
    keep_timers(host, before[2]);
    printf("\n");
    /* An entry's time is counted from the one before: at most a day. A host that may be silent for longer begins a new log, in U0. */
    uint32_t delta = (uint32_t)(host->now_ms - host->recorded_ms);
    struct heidezirkel_used recorded = heidezirkel_record(host->log, sizeof host->log, host->used, delta, event, message, length, step,
        host->context, reply, step.reply_length);
    if (recorded.answer != HEIDEZIRKEL_TAKEN)
        fail("the log is full");
    host->used = recorded.used;
    host->recorded_ms = host->now_ms;
}

/* ---- The clock ---- */

/* The timer that runs out first of those that run; NULL where none runs. */
static const struct timer *next_timer(const struct host *host) {
    const struct timer *next = NULL;
    for (size_t i = 0; i < TIMERS; i++)
        if ((host->context[2] & timers[i].bit) && (!next || host->deadline_ms[i] < host->deadline_ms[next - timers]))
            next = &timers[i];
    return next;
}

/* Lets time pass up to a moment. A timer that runs out on the way is told at its own moment. */
static void wait_until(struct host *host, uint64_t moment_ms) {
    static const uint8_t nothing[1];
    const struct timer *next = next_timer(host);
    while (next && host->deadline_ms[next - timers] <= moment_ms) {
        host->now_ms = host->deadline_ms[next - timers];
        tell(host, (struct heidezirkel_event){.number = next->expiry}, nothing, 0);
        next = next_timer(host);
    }
    host->now_ms = moment_ms;
}

/* ---- What happens outside ---- */

struct happening {
    uint64_t at_ms;
    struct heidezirkel_event event;
    size_t length;
    uint8_t message[4];
};

#define CALL(value_) {.number = HEIDEZIRKEL_EVENT_NOTIFIED, .value = value_, .reference = {0x00, 0x00, 0x2a, 0x10}}

static const struct happening heard[] = {
    {0, CALL(1), 0, {0}},
    {2000, {.number = HEIDEZIRKEL_EVENT_JOIN}, 0, {0}},
    {6500, {.number = HEIDEZIRKEL_EVENT_GROUP_RECEIVE}, 0, {0}},
    {60000, {.number = HEIDEZIRKEL_EVENT_NO_CHANNEL}, 0, {0}},
    {62000, {.number = HEIDEZIRKEL_EVENT_NO_CHANNEL}, 0, {0}},
    {62500, {.number = HEIDEZIRKEL_EVENT_CHANNEL_AVAILABLE}, 0, {0}},
    {70000, {.number = HEIDEZIRKEL_EVENT_RECEIVED, .mode = 1}, 2, {0x11, 0x39}},              /* GET STATUS */
    {80000, {.number = HEIDEZIRKEL_EVENT_JOIN}, 0, {0}},                                      /* the button once more */
    {120000, {.number = HEIDEZIRKEL_EVENT_RECEIVED}, 4, {0x11, 0x34, 0x01, 0x90}},            /* TERMINATION: normal call clearing */
};
static const struct happening lost[] = {
    {200000, CALL(2), 0, {0}},
    {201000, {.number = HEIDEZIRKEL_EVENT_JOIN}, 0, {0}},
    {202000, {.number = HEIDEZIRKEL_EVENT_GROUP_RECEIVE}, 0, {0}},
    {210000, {.number = HEIDEZIRKEL_EVENT_NO_CHANNEL}, 0, {0}},
    {212000, {.number = HEIDEZIRKEL_EVENT_NO_CHANNEL}, 0, {0}},
};
static const struct happening not_let_in[] = {
    {300000, CALL(3), 0, {0}},
    {303000, {.number = HEIDEZIRKEL_EVENT_JOIN}, 0, {0}},
};

static const struct happening forgotten[] = {
    {400000, CALL(4), 0, {0}},
};

static void live(struct host *host, const char *title, const struct happening *story, size_t count, uint64_t end_ms) {
    printf("\n%s\n", title);
    for (size_t i = 0; i < count; i++) {
        wait_until(host, story[i].at_ms);
        tell(host, story[i].event, story[i].message, story[i].length);
    }
    wait_until(host, end_ms);
}

/* ---- The whole ---- */

static void read_settings(struct host *host, const char *name) {
    uint8_t bytes[256]; /* a fit file has at most 86 bytes */
    FILE *file = fopen(name, "rb");
    if (!file)
        fail("the settings file can't be opened");
    size_t length = fread(bytes, 1, sizeof bytes, file);
    fclose(file);
    struct heidezirkel_settings read = heidezirkel_read_settings(bytes, length, host->settings);
    if (read.answer != HEIDEZIRKEL_TAKEN) {
        fprintf(stderr, "host: %s: line %zu is refused, fault %u\n", name, read.line, read.fault);
        exit(1);
    }
    host->joining_ms = read.joining_ms;
    host->invitation_ms = read.invitation_ms;
    printf("settings: joining timer %u ms, invitation timer %u ms\n", read.joining_ms, read.invitation_ms);
}

static void judge(const struct host *host) {
    struct heidezirkel_judgement judged = heidezirkel_judge(host->settings, host->log, host->used);
    if (judged.answer != HEIDEZIRKEL_TAKEN) {
        printf("\nlog: refused with %u at entry %zu\n", judged.answer, judged.entry);
        exit(1);
    }
    printf("\nlog: %zu bytes, accepted: %zu entries, joining timer %u to %u ms, invitation timer %u to %u ms\n", host->used, judged.entry,
        judged.least_ms, judged.greatest_ms, judged.invitation_least_ms, judged.invitation_greatest_ms);
}

static void write_log(const struct host *host, const char *name) {
    FILE *file = fopen(name, "wb");
    if (!file)
        fail("the log file can't be opened");
    if (fwrite(host->log, 1, host->used, file) != host->used || fclose(file) != 0)
        fail("the log file can't be written");
}

int main(int count, char **words) {
    static struct host host;
    if (count != 2 && count != 3)
        fail("usage: host SETTINGS [LOG]");
    read_settings(&host, words[1]);
    heidezirkel_clear(host.context);
    host.used = heidezirkel_begin_log(host.log, sizeof host.log).used;
    live(&host, "a warning that is heard to its end", heard, sizeof heard / sizeof heard[0], 150000);
    live(&host, "a warning whose channel is lost", lost, sizeof lost / sizeof lost[0], 250000);
    live(&host, "a warning that nobody lets us join", not_let_in, sizeof not_let_in / sizeof not_let_in[0], 350000);
    live(&host, "a warning that the crew does not take", forgotten, sizeof forgotten / sizeof forgotten[0], 500000);
    judge(&host);
    if (count == 3)
        write_log(&host, words[2]);
    return 0;
}
