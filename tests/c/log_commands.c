/* The commands `judge`, `record` and `grecord`. */
#include "commands.h"
#include <stdio.h>
#include <string.h>

static void print_judgement(struct heidezirkel_judgement judged) {
    printf("%u", judged.answer);
    if (judged.answer == HEIDEZIRKEL_TAKEN)
        printf(" %zu %u %u", judged.entry, judged.least_ms, judged.greatest_ms);
    if (judged.invitation_greatest_ms != 0)
        printf(" %u %u", judged.invitation_least_ms, judged.invitation_greatest_ms);
    if (judged.answer == HEIDEZIRKEL_UNREADABLE_LOG || judged.answer == HEIDEZIRKEL_UNEXPLAINED)
        printf(" %zu", judged.entry);
}

/* Whether each is from the least that a timer may be to the greatest, and the first not over the second. */
static bool is_window(uint32_t least, uint32_t greatest, uint32_t least_of_all, uint32_t greatest_of_all) {
    return least_of_all <= least && least <= greatest && greatest <= greatest_of_all;
}

static void look_at_judgement(struct heidezirkel_judgement judged, const struct lent *log) {
    bool accepts = judged.answer == HEIDEZIRKEL_TAKEN;
    bool names = judged.answer == HEIDEZIRKEL_UNREADABLE_LOG || judged.answer == HEIDEZIRKEL_UNEXPLAINED;
    promise(accepts || names || judged.entry == 0, "judge: an entry with an answer that names none");
    bool invites = accepts && log->octets[0] == 3;
    promise(accepts ? is_window(judged.least_ms, judged.greatest_ms, 10000, 30000) : judged.least_ms == 0 && judged.greatest_ms == 0,
        "judge: joining timers without answer 0, or out of their range");
    promise(invites ? is_window(judged.invitation_least_ms, judged.invitation_greatest_ms, 1000, 600000)
                    : judged.invitation_least_ms == 0 && judged.invitation_greatest_ms == 0,
        "judge: invitation timers without answer 0 or version 3, or out of their range");
    refusals_seen += !accepts;
}

bool judge_command(struct line *line, enum call call) {
    (void)call;
    uint8_t own[HEIDEZIRKEL_SETTINGS_OCTETS];
    settings_words(line, own);
    struct octets bytes = octets_word(line);
    if (!whole(line))
        return false;
    struct lent settings = lend_octets(own, HEIDEZIRKEL_SETTINGS_OCTETS);
    struct lent log = lend_octets(bytes.at, bytes.count);
    struct heidezirkel_judgement judged = heidezirkel_judge(settings.octets, log.octets, log.length);
    look_at_judgement(judged, &log);
    promise(kept(&settings, 0) && kept(&log, 0), "judge: settings or log changed");
    print_judgement(judged);
    give_back(&settings);
    give_back(&log);
    return true;
}

/* What an entry claims, and the log that it is to be added to. */
struct entry {
    size_t used;
    uint32_t delta;
    struct heidezirkel_event event;
    struct octets message;
    struct heidezirkel_step step;
    uint8_t context[16];
    struct octets reply;
};

static struct entry entry_words(struct line *line) {
    struct entry entry = {.context = {0}};
    entry.used = number_word(line, UINT32_MAX);
    entry.delta = number_word(line, UINT32_MAX);
    entry.event = event_words(line, UINT32_MAX);
    entry.message = octets_word(line);
    entry.step.answer = number_word(line, UINT32_MAX);
    entry.step.reason = UINT32_MAX; /* a log holds no reason */
    entry.context[0] = clipped(number_word(line, UINT32_MAX));
    entry.context[1] = clipped(number_word(line, UINT32_MAX));
    entry.step.actions = number_word(line, UINT32_MAX);
    entry.reply = octets_word(line);
    entry.step.reply_length = entry.reply.count;
    return entry;
}

static struct heidezirkel_used record(const struct lent *log, const struct entry *entry, enum call call) {
    struct lent message = lend_octets(entry->message.at, entry->message.count);
    struct lent context = lend_octets(entry->context, 16);
    struct lent reply = lend_octets(entry->reply.at, entry->reply.count);
    struct heidezirkel_used recorded = (call == GROUP ? heidezirkel_group_record : heidezirkel_record)(log->octets, log->length, entry->used,
        entry->delta, entry->event, message.octets, message.length, entry->step, context.octets, reply.octets, reply.length);
    promise(kept(&message, 0) && kept(&context, 0) && kept(&reply, 0), "record: message, context or reply changed");
    give_back(&message);
    give_back(&context);
    give_back(&reply);
    return recorded;
}

static void look_at_record(struct heidezirkel_used recorded, const struct lent *log, size_t used) {
    bool takes = recorded.answer == HEIDEZIRKEL_TAKEN;
    promise(takes || recorded.used == used, "record: refused, and another count is used than before");
    promise(kept(log, takes ? recorded.used : 0), "record: a byte of the log that is not to change changed");
    promise(!takes || memcmp(log->octets, log->source, used) == 0, "record: a byte already used changed");
    refusals_seen += !takes;
}

bool record_command(struct line *line, enum call call) {
    struct octets bytes = octets_word(line);
    struct entry entry = entry_words(line);
    if (!whole(line))
        return false;
    struct lent log = lend_octets(bytes.at, bytes.count);
    struct heidezirkel_used recorded = record(&log, &entry, call);
    look_at_record(recorded, &log, entry.used);
    printf("%u", recorded.answer);
    if (recorded.answer == HEIDEZIRKEL_TAKEN) {
        printf(" %zu ", recorded.used);
        print_octets(log.octets, log.length);
    }
    give_back(&log);
    return true;
}
