/* bench.c: times ours (libcontroller.a) against plain C twins on the same logs, turn by turn in one process, after seeing that both answer alike.
 * README.md says how to read what it prints. */
#include <stdio.h>
#include <stdlib.h>
#include <string.h>
#include <time.h>
#include "logs.h"
#include "stack.h"

enum { ROUNDS = 101 };

/* Logs of a version, and their copies with the last entry spoilt or cut short. */
struct three {
    struct logs whole, spoilt, cut;
};

/* Of broadcast calls by the newest version, and of group calls; then logs of the older versions. */
static struct three broadcast, group;
static struct logs second, first;
static volatile size_t sink;

/* What is timed: one pass over all that it has. */
struct work {
    void (*pass)(const struct work *);
    const struct log *first;
    size_t count;
};

static void judge_ours(const struct work *work)
{
    for (size_t i = 0; i < work->count; i++)
        sink += heidezirkel_judge(bench_settings, work->first[i].bytes, work->first[i].used).entry;
}

static void judge_twin(const struct work *work)
{
    for (size_t i = 0; i < work->count; i++)
        sink += twin_judge(bench_settings, work->first[i].bytes, work->first[i].used).entry;
}

static uint8_t copy[HEIDEZIRKEL_LOG_OCTETS + 1];

static void mend_ours(const struct work *work)
{
    for (size_t i = 0; i < work->count; i++)
        sink += heidezirkel_mend(bench_settings, work->first[i].bytes, work->first[i].used, copy, sizeof copy).length;
}

static void mend_twin(const struct work *work)
{
    for (size_t i = 0; i < work->count; i++)
        sink += twin_mend(bench_settings, work->first[i].bytes, work->first[i].used, copy, sizeof copy).length;
}

typedef struct heidezirkel_step step_function(uint8_t *, const uint8_t *, struct heidezirkel_event, const uint8_t *, size_t, uint8_t *, size_t);

static inline void all_steps(step_function *step, const struct logs *of)
{
    uint8_t context[16], reply[255];
    for (size_t i = 0; i < of->step_count; i++) {
        const struct step_case *at = &of->steps[i];
        memcpy(context, at->context, 16);
        sink += step(context, bench_settings, at->event, at->message, at->length, reply, sizeof reply).reply_length;
    }
}

static void step_ours(const struct work *work)
{
    (void)work;
    all_steps(heidezirkel_step, &broadcast.whole);
}

static void step_twin(const struct work *work)
{
    (void)work;
    all_steps(twin_step, &broadcast.whole);
}

static void group_step_ours(const struct work *work)
{
    (void)work;
    all_steps(heidezirkel_group_step, &group.whole);
}

static void group_step_twin(const struct work *work)
{
    (void)work;
    all_steps(twin_group_step, &group.whole);
}

static inline void all_numbers(struct heidezirkel_number (*read)(const uint8_t *, size_t, size_t))
{
    const struct log *numbers = &broadcast.whole.numbers;
    size_t at = 0;
    while (at < numbers->used) {
        struct heidezirkel_number number = read(numbers->bytes, numbers->used, at);
        sink += number.value;
        at = number.next;
    }
}

static void numbers_ours(const struct work *work)
{
    (void)work;
    all_numbers(heidezirkel_read_number);
}

static void numbers_twin(const struct work *work)
{
    (void)work;
    all_numbers(twin_read_number);
}

/* The answers, first of all. */
static int differences;

static void differ(const char *what, size_t place)
{
    if (differences++ < 10)
        printf("ours and the twin differ: %s, number %zu\n", what, place);
}

static bool alike(const struct heidezirkel_judgement *ours, const struct heidezirkel_judgement *twin)
{
    return ours->answer == twin->answer && ours->entry == twin->entry && ours->least_ms == twin->least_ms && ours->greatest_ms == twin->greatest_ms
        && ours->invitation_least_ms == twin->invitation_least_ms && ours->invitation_greatest_ms == twin->invitation_greatest_ms;
}

/* How many accepted logs were compared by what they leave of a timer: any length, those from one on (the timer was seen running), or one (its expiry was). */
enum { ANY_LENGTH, FROM_ONE_ON, ONE_LENGTH, LEAVINGS };
static size_t joinings[LEAVINGS], invitations[LEAVINGS];

static void count_left(size_t counts[LEAVINGS], uint32_t least, uint32_t greatest, uint32_t least_of_all)
{
    counts[least == greatest ? ONE_LENGTH : least > least_of_all ? FROM_ONE_ON : ANY_LENGTH]++;
}

/* Mended into a buffer as long as the log, with every octet of the buffer. */
static void same_mending(const char *what, size_t place, const uint8_t *log, size_t length)
{
    static uint8_t other[HEIDEZIRKEL_LOG_OCTETS + 1];
    memset(copy, 0xee, length + 1);
    memset(other, 0xee, length + 1);
    struct heidezirkel_mending ours = heidezirkel_mend(bench_settings, log, length, copy, length);
    struct heidezirkel_mending twin = twin_mend(bench_settings, log, length, other, length);
    if (ours.answer != twin.answer || ours.kept != twin.kept || ours.dropped != twin.dropped || ours.ending != twin.ending || ours.length != twin.length
        || memcmp(copy, other, length + 1) != 0)
        differ(what, place);
}

static struct heidezirkel_judgement both_judge(const char *what, size_t place, const uint8_t *log, size_t length)
{
    struct heidezirkel_judgement ours = heidezirkel_judge(bench_settings, log, length);
    struct heidezirkel_judgement twin = twin_judge(bench_settings, log, length);
    if (!alike(&ours, &twin))
        differ(what, place);
    same_mending(what, place, log, length);
    if (twin.answer == HEIDEZIRKEL_TAKEN) {
        count_left(joinings, twin.least_ms, twin.greatest_ms, 10000);
        if (log[0] == THIRD)
            count_left(invitations, twin.invitation_least_ms, twin.invitation_greatest_ms, 1000);
    }
    return twin;
}

static void same_judgement(const char *what, size_t place, const struct log *log, uint32_t wanted)
{
    struct heidezirkel_judgement twin = both_judge(what, place, log->bytes, log->used);
    if (twin.answer != wanted) {
        printf("%s, number %zu: answer %u at entry %zu, and %u is wanted\n", what, place, twin.answer, twin.entry, wanted);
        differences++;
    }
}

static void same_judgements(const struct logs *of, const char *what, uint32_t wanted)
{
    same_judgement(what, 0, &of->large, wanted);
    for (size_t i = 0; i < of->smalls; i++)
        same_judgement(what, i + 1, &of->small[i], wanted);
}

/* The logs of each version under the numbers of the others, and under some that no version has: any answer, but the same. */
static void same_under_numbers(const struct logs *of)
{
    static const uint8_t numbers[] = {0, FIRST, SECOND, THIRD, NEWEST + 1, GROUP - 1, GROUP, GROUP + 1};
    static struct log log;
    for (size_t i = 0; i < of->smalls; i++) {
        log = of->small[i];
        for (size_t number = 0; number < sizeof numbers; number++) {
            log.bytes[0] = numbers[number];
            both_judge("a log under the number of another version", i + 1, log.bytes, log.used);
        }
    }
}

/* A small log up to each of its bytes: any answer, but the same. */
static void same_when_cut(const struct log *log)
{
    for (size_t length = 0; length < log->used; length++)
        both_judge("a log cut off, at byte", length, log->bytes, length);
}

/* Each byte of a small log changed in turn: any answer, but the same. */
static void same_when_changed(const struct log *unchanged)
{
    static struct log log;
    log = *unchanged;
    for (size_t i = 0; i < log.used; i++) {
        uint8_t kept = log.bytes[i];
        for (int bit = 0; bit < 8; bit++) {
            log.bytes[i] = kept ^ (1 << bit);
            both_judge("a log with one bit changed, at byte", i, log.bytes, log.used);
        }
        log.bytes[i] = kept;
    }
}

static void all_left(const char *timer, const size_t counts[LEAVINGS])
{
    static const char *const words[LEAVINGS] = {"any length", "the lengths from one on", "one length"};
    for (int left = 0; left < LEAVINGS; left++)
        if (counts[left] == 0) {
            printf("no log leaves %s of the %s timer\n", words[left], timer);
            differences++;
        }
}

/* A step, ours and the twin's, and what came up when they were compared: how often each answer, 0 to 7, and each reason, 0 to 6; how many replies held two
 * messages; and which bits of octet 9. */
struct stepping {
    step_function *ours, *twin;
    size_t answers[8], reasons[7], doubles;
    uint8_t ninths;
};
static struct stepping stepping = {.ours = heidezirkel_step, .twin = twin_step};
static struct stepping group_stepping = {.ours = heidezirkel_group_step, .twin = twin_group_step};

static void same_step(struct stepping *by, const char *what, size_t place, const struct step_case *at)
{
    uint8_t ours_context[16], twin_context[16], ours_reply[255] = {0}, twin_reply[255] = {0};
    memcpy(ours_context, at->context, 16);
    memcpy(twin_context, at->context, 16);
    struct heidezirkel_step ours = by->ours(ours_context, bench_settings, at->event, at->message, at->length, ours_reply, 255);
    struct heidezirkel_step twin = by->twin(twin_context, bench_settings, at->event, at->message, at->length, twin_reply, 255);
    if (ours.answer != twin.answer || ours.reason != twin.reason || ours.actions != twin.actions || ours.reply_length != twin.reply_length
        || memcmp(ours_context, twin_context, 16) != 0 || memcmp(ours_reply, twin_reply, 255) != 0)
        differ(what, place);
    by->answers[twin.answer]++;
    by->reasons[twin.reason]++;
    by->doubles += twin.answer == HEIDEZIRKEL_TAKEN && twin.reply_length == 12;
    if (twin.answer == HEIDEZIRKEL_TAKEN)
        by->ninths |= at->context[9];
}

/* A context that may be none, or not fit: each of its bits changed in turn. Then, where one side chose the value, as if the other had. */
static void same_when_unfit(struct stepping *by, size_t place, struct step_case other)
{
    for (size_t octet = 0; octet < 16; octet++)
        for (int bit = 0; bit < 8; bit++) {
            other.context[octet] ^= 1 << bit;
            same_step(by, "a step whose context has one bit changed", place, &other);
            other.context[octet] ^= 1 << bit;
        }
    other.context[9] ^= US + CELL;
    same_step(by, "a step whose value the other side chose", place, &other);
}

/* Every event in this context, and some that no table has. */
static void same_at_each_event(struct stepping *by, size_t place, struct step_case other)
{
    for (other.event.number = 0; other.event.number <= 40; other.event.number++)
        same_step(by, "a step with another event", place, &other);
}

/* A message of another protocol or another call: each bit of its first octet changed in turn. Then with no octet and with one. */
static void same_when_misheard(struct stepping *by, size_t place, struct step_case heard)
{
    for (int bit = 0; bit < 8; bit++) {
        heard.message[0] ^= 1 << bit;
        same_step(by, "a step whose message has one bit changed", place, &heard);
        heard.message[0] ^= 1 << bit;
    }
    for (heard.length = 0; heard.length < 2; heard.length++)
        same_step(by, "a step whose message is cut short", place, &heard);
}

static void must_come_up(bool came_up, const char *what)
{
    if (!came_up) {
        printf("no step %s\n", what);
        differences++;
    }
}

static void same_steps(struct stepping *by, const struct logs *of)
{
    static const char *const ignored[7] = {"", "ignores a message without a call", "ignores a short message", "ignores another protocol",
        "ignores another transaction", "ignores a message for another identity", "ignores a message while COMM is false"};
    for (size_t i = 0; i < of->step_count; i++) {
        same_step(by, "a step", i, &of->steps[i]);
        same_when_unfit(by, i, of->steps[i]);
        same_at_each_event(by, i, of->steps[i]);
        if (of->steps[i].event.number == 18)
            same_when_misheard(by, i, of->steps[i]);
    }
    must_come_up(by->answers[HEIDEZIRKEL_NO_CONTEXT] > 0, "has a context that is not fit");
    for (int reason = 1; reason <= 6; reason++)
        must_come_up(by->reasons[reason] > 0, ignored[reason]);
}

/* What only group calls have must have come up: both sides that choose a value, all that may wait, and two messages in a reply. */
static void same_group_steps(void)
{
    same_steps(&group_stepping, &group.whole);
    must_come_up(group_stepping.ninths == 31, "of a group call has some bit of octet 9");
    must_come_up(group_stepping.doubles > 0, "of a group call sends two messages");
}

static void same_numbers(void)
{
    const struct log *numbers = &broadcast.whole.numbers;
    for (size_t at = 0; at < numbers->used; at++) {
        struct heidezirkel_number ours = heidezirkel_read_number(numbers->bytes, numbers->used, at);
        struct heidezirkel_number twin = twin_read_number(numbers->bytes, numbers->used, at);
        if (ours.answer != twin.answer || (ours.answer == 0 && (ours.value != twin.value || ours.next != twin.next)))
            differ("a number at byte", at);
    }
}

static double seconds(void)
{
    struct timespec now;
    clock_gettime(CLOCK_PROCESS_CPUTIME_ID, &now);
    return now.tv_sec + now.tv_nsec * 1e-9;
}

static double timed(const struct work *work, long passes)
{
    double start = seconds();
    for (long i = 0; i < passes; i++)
        work->pass(work);
    return (seconds() - start) / passes;
}

static int by_size(const void *left, const void *right)
{
    double a = *(const double *)left, b = *(const double *)right;
    return (a > b) - (a < b);
}

/* The seconds of one pass of each of two works: medians over the rounds, in which they take turns at going first. */
struct medians {
    double left, right;
};

static struct medians measure(const struct work *left, const struct work *right, double least)
{
    double lefts[ROUNDS], rights[ROUNDS];
    long passes = 1;
    while (timed(left, passes) * passes < least)
        passes *= 2;
    for (int round = 0; round < ROUNDS; round++) {
        if (round % 2 == 0)
            lefts[round] = timed(left, passes);
        rights[round] = timed(right, passes);
        if (round % 2 == 1)
            lefts[round] = timed(left, passes);
    }
    qsort(lefts, ROUNDS, sizeof *lefts, by_size);
    qsort(rights, ROUNDS, sizeof *rights, by_size);
    return (struct medians){lefts[ROUNDS / 2], rights[ROUNDS / 2]};
}

static size_t bytes_of(const struct work *work)
{
    size_t bytes = 0;
    for (size_t i = 0; i < work->count; i++)
        bytes += work->first[i].used;
    return bytes;
}

static double show(const char *name, const struct work *ours, const struct work *twin, size_t units, const char *unit, double least)
{
    struct medians m = measure(ours, twin, least);
    printf("%-46s %8.2f %8.2f  %-10s %6.3f\n", name, m.left * 1e9 / units, m.right * 1e9 / units, unit, m.left / m.right);
    return m.left / m.right;
}

static double show_judge(const char *name, const struct log *first, size_t count, double least)
{
    struct work ours = {judge_ours, first, count}, twin = {judge_twin, first, count};
    return show(name, &ours, &twin, bytes_of(&ours), "ns a byte", least);
}

static void show_mend(const char *name, const struct log *first, size_t count, double least)
{
    struct work ours = {mend_ours, first, count}, twin = {mend_twin, first, count};
    show(name, &ours, &twin, bytes_of(&ours), "ns a byte", least);
}

static void show_mends(double least)
{
    show_mend("mend, 4 KiB, true", broadcast.whole.small, broadcast.whole.smalls, least);
    show_mend("mend, 64 KiB, true", &broadcast.whole.large, 1, least);
    show_mend("mend, 64 KiB, last entry unreadable", &broadcast.cut.large, 1, least);
    show_mend("group: mend, 64 KiB, true", &group.whole.large, 1, least);
}

static void show_steps(double least)
{
    struct work ours = {step_ours, NULL, 0}, twin = {step_twin, NULL, 0};
    struct work group_ours = {group_step_ours, NULL, 0}, group_twin = {group_step_twin, NULL, 0};
    show("step", &ours, &twin, broadcast.whole.step_count, "ns a step", least);
    show("group: step", &group_ours, &group_twin, group.whole.step_count, "ns a step", least);
}

static double show_numbers(double least)
{
    struct work ours = {numbers_ours, NULL, 0}, twin = {numbers_twin, NULL, 0};
    return show("number reader", &ours, &twin, broadcast.whole.numbers.used, "ns a byte", least);
}

/* What a byte costs in a log of 64 KiB, against the same calls in logs of 4 KiB. */
static double growth(const struct logs *of, double least)
{
    struct work large = {judge_ours, &of->large, 1}, small = {judge_ours, of->small, of->smalls};
    struct medians m = measure(&large, &small, least);
    return (m.left / bytes_of(&large)) / (m.right / bytes_of(&small));
}

static void show_goal(const char *prefix, const char *goal, double found, double most)
{
    char name[64];
    snprintf(name, sizeof name, "%s%s", prefix, goal);
    printf("%-46s %8.3f  at most %.2f: %s\n", name, found, most, found <= most ? "met" : "MISSED");
}

/* The judge on logs of 4 KiB and of 64 KiB. Gives the ratio at 64 KiB. */
static double show_both_lengths(const char *prefix, const char *kind, const struct logs *of, double least)
{
    char name[64];
    snprintf(name, sizeof name, "%sjudge, 4 KiB, %s", prefix, kind);
    show_judge(name, of->small, of->smalls, least);
    snprintf(name, sizeof name, "%sjudge, 64 KiB, %s", prefix, kind);
    return show_judge(name, &of->large, 1, least);
}

static void show_protocol(const char *prefix, const struct three *logs, double least)
{
    double whole = show_both_lengths(prefix, "true", &logs->whole, least);
    double spoilt = show_both_lengths(prefix, "last entry unexplained", &logs->spoilt, least);
    show_both_lengths(prefix, "last entry unreadable", &logs->cut, least);
    show_goal(prefix, "judge, 64 KiB, ours to the twin", whole > spoilt ? whole : spoilt, 1.0);
    show_goal(prefix, "a byte at 64 KiB to one at 4 KiB, ours", growth(&logs->whole, least), 1.05);
}

static void show_all(double least)
{
    printf("%-46s %8s %8s  %-10s %6s\n", "", "ours", "twin", "", "ratio");
    show_protocol("", &broadcast, least);
    show_judge("judge, 64 KiB, version 2, true", &second.large, 1, least);
    show_judge("judge, 64 KiB, version 1, true", &first.large, 1, least);
    show_protocol("group: ", &group, least);
    show_mends(least);
    show_steps(least);
    show_numbers(least);
}

static void spoil(struct logs *to, const struct logs *from, void (*how)(struct log *))
{
    *to = *from;
    how(&to->large);
    for (size_t i = 0; i < to->smalls; i++)
        how(&to->small[i]);
}

static void make_three(struct three *logs, enum twin_table table)
{
    make_logs(&logs->whole, table);
    spoil(&logs->spoilt, &logs->whole, spoil_claim);
    spoil(&logs->cut, &logs->whole, cut_short);
}

static void same_three(const struct three *logs)
{
    const struct log *large = &logs->whole.large, *small = &logs->whole.small[0];
    printf("version %d: a log of %zu bytes, %zu entries; %zu logs of the same calls, %zu bytes and %zu entries the first\n", large->bytes[0], large->used,
        twin_judge(bench_settings, large->bytes, large->used).entry, logs->whole.smalls, small->used,
        twin_judge(bench_settings, small->bytes, small->used).entry);
    same_judgements(&logs->whole, "true log", HEIDEZIRKEL_TAKEN);
    same_judgements(&logs->spoilt, "log with its last claim changed", HEIDEZIRKEL_UNEXPLAINED);
    same_judgements(&logs->cut, "log cut short", HEIDEZIRKEL_UNREADABLE_LOG);
}

static void same_answers(void)
{
    same_three(&broadcast);
    same_three(&group);
    same_judgements(&second, "true log of version 2", HEIDEZIRKEL_TAKEN);
    same_judgements(&first, "true log of version 1", HEIDEZIRKEL_TAKEN);
    const struct logs *const versions[] = {&first, &second, &broadcast.whole, &group.whole};
    for (size_t i = 0; i < sizeof versions / sizeof *versions; i++) {
        same_under_numbers(versions[i]);
        same_when_cut(&versions[i]->small[0]);
        same_when_changed(&versions[i]->small[0]);
    }
    all_left("joining", joinings);
    all_left("invitation", invitations);
    same_steps(&stepping, &broadcast.whole);
    same_group_steps();
    same_numbers();
}

/* For counting instructions: one thing, so many passes over the large log, the steps or the numbers. */
static int count_one(const char *what, long passes)
{
    static const struct {
        const char *name;
        struct work work;
    } known[] = {
        {"judge-ours", {judge_ours, &broadcast.whole.large, 1}},
        {"judge-twin", {judge_twin, &broadcast.whole.large, 1}},
        {"group-judge-ours", {judge_ours, &group.whole.large, 1}},
        {"group-judge-twin", {judge_twin, &group.whole.large, 1}},
        {"mend-ours", {mend_ours, &broadcast.whole.large, 1}},
        {"mend-twin", {mend_twin, &broadcast.whole.large, 1}},
        {"step-ours", {step_ours, NULL, 0}},
        {"step-twin", {step_twin, NULL, 0}},
        {"group-step-ours", {group_step_ours, NULL, 0}},
        {"group-step-twin", {group_step_twin, NULL, 0}},
        {"numbers-ours", {numbers_ours, NULL, 0}},
        {"numbers-twin", {numbers_twin, NULL, 0}},
    };
    for (size_t i = 0; i < sizeof known / sizeof *known; i++) {
        if (strcmp(what, known[i].name) == 0) {
            timed(&known[i].work, passes);
            return 0;
        }
    }
    return 2;
}

int main(int argc, char **argv)
{
    make_three(&broadcast, NEWEST);
    make_three(&group, GROUP);
    make_logs(&second, SECOND);
    make_logs(&first, FIRST);
    if (argc > 2)
        return count_one(argv[1], atol(argv[2]));
    same_answers();
    if (differences > 0) {
        printf("%d differences: nothing is timed\n", differences);
        return 1;
    }
    printf("both answer alike on every log, step and number\n");
    size_t stack = show_stack("", &broadcast.whole), group_stack = show_stack("group: ", &group.whole);
    show_all(argc > 1 ? atof(argv[1]) : 0.004);
    return stack > 4096 || group_stack > 4096;
}
