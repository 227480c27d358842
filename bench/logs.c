/* logs.c: makes the logs that the bench judges, with the twin's step and recorder: calls that we start and calls that we join or let pass, with messages of
 * every kind that a radio hears, good and faulty, expiries, and events that have no step. In group calls the radio talks, stops talking, loses its channel
 * and finds another, and what can't be sent waits. A fixed seed: every run has the same logs. */
#include <string.h>
#include "logs.h"

enum { JOINING_MS = 17000, INVITATION_MS = 45000 };

#define OCTETS(number) (number) % 256, (number) / 256 % 256, (number) / 65536 % 256, 0

/* Key 5, a classmark, an identity of 5 octets, and the two timers. */
const uint8_t bench_settings[21] = {5, 0x33, 0x19, 0xa2, 5, 0x29, 0x43, 0x65, 0x87, 0x09, 0, 0, 0, OCTETS(JOINING_MS), OCTETS(INVITATION_MS)};

/* A radio while its log is made: the call, the time, and when the timer that runs was started. */
struct radio {
    enum twin_table table;
    struct twin_context context;
    struct twin_own own;
    uint64_t now, started;
    uint32_t seed;
};

/* What happens next. */
struct happening {
    uint32_t delta;
    struct heidezirkel_event event;
    size_t length;
    uint8_t message[251];
};

static uint32_t chance(struct radio *radio, uint32_t sides)
{
    radio->seed ^= radio->seed << 13;
    radio->seed ^= radio->seed >> 17;
    radio->seed ^= radio->seed << 5;
    return radio->seed % sides;
}

static void put(struct happening *happening, uint8_t octet)
{
    if (happening->length < 251)
        happening->message[happening->length++] = octet;
}

static void put_any(struct radio *radio, struct happening *happening, uint32_t count)
{
    for (uint32_t i = 0; i < count; i++)
        put(happening, chance(radio, 256));
}

/* The first octet of a message of the call. Where the value is awaited the cell may have another. */
static uint8_t head_of_call(struct radio *radio)
{
    const struct twin_context *context = &radio->context;
    if (radio->table == GROUP) {
        uint8_t value = context->awaiting_value && chance(radio, 2) == 0 ? chance(radio, 8) : context->value;
        return 128 * (context->chooser == US) + 16 * value;
    }
    bool flag = context->state == U0P || context->state == U1 || context->state == U2 || context->state == U5;
    return 128 * flag + 16 * context->value + 1;
}

/* A message with this type and the call's transaction, now and then another. */
static void hear(struct radio *radio, struct happening *happening, uint8_t type)
{
    uint8_t head = head_of_call(radio);
    if (chance(radio, 25) == 0)
        head ^= 16;
    happening->event.number = 18;
    happening->event.mode = chance(radio, 3) == 0;
    put(happening, head);
    put(happening, type + 64 * chance(radio, 2));
}

/* Optional elements behind a message: mostly none, some that are skipped, few that must be known. */
static void put_elements(struct radio *radio, struct happening *happening)
{
    uint32_t kind = chance(radio, 20);
    if (kind < 3)
        put(happening, 0xd0 + chance(radio, 16));
    if (kind == 2 || kind == 3) {
        uint32_t count = chance(radio, 12) == 0 ? 20 + chance(radio, 200) : chance(radio, 8);
        put(happening, 0x30 + chance(radio, 16));
        put(happening, count);
        put_any(radio, happening, count);
    }
    if (kind == 4)
        put(happening, chance(radio, 16));
}

static void connect(struct radio *radio, struct happening *happening)
{
    hear(radio, happening, 0x33);
    put_any(radio, happening, 4);
    put(happening, chance(radio, 12) != 0);
    put_elements(radio, happening);
}

static void get_status(struct radio *radio, struct happening *happening)
{
    hear(radio, happening, 0x39);
    uint32_t kind = chance(radio, 4);
    if (kind < 2) {
        put(happening, 0x17);
        put(happening, radio->own.identity_length);
        for (int i = 0; i < radio->own.identity_length; i++)
            put(happening, radio->own.identity[i]);
    }
    if (kind == 1)
        happening->message[happening->length - 1] ^= chance(radio, 2);
    put_elements(radio, happening);
}

/* Any parameters, or all true; in a group call ORIG mostly stays what it is. */
static void set_parameter(struct radio *radio, struct happening *happening)
{
    uint8_t attributes = radio->table == GROUP ? 14 + radio->context.orig : 15;
    hear(radio, happening, 0x3a);
    put(happening, chance(radio, 3) == 0 ? chance(radio, 16) : attributes);
    put_elements(radio, happening);
}

/* TERMINATION and TERMINATION REJECT. */
static void with_cause(struct radio *radio, struct happening *happening, uint8_t type)
{
    uint32_t count = chance(radio, 4) == 0 ? 1 + chance(radio, 6) : 1;
    hear(radio, happening, type);
    put(happening, count);
    put(happening, 0x90);
    put_any(radio, happening, count - 1);
    put_elements(radio, happening);
}

static void termination(struct radio *radio, struct happening *happening)
{
    with_cause(radio, happening, 0x34);
}

/* In a group call the cause has four octets and no length octet; now and then it has too few. */
static void termination_reject(struct radio *radio, struct happening *happening)
{
    if (radio->table != GROUP) {
        with_cause(radio, happening, 0x36);
        return;
    }
    hear(radio, happening, 0x36);
    put_any(radio, happening, chance(radio, 8) == 0 ? 2 : 4);
    put_elements(radio, happening);
}

/* A message that is reported or ignored: of another side, of no known type, or cut short. */
static void odd_message(struct radio *radio, struct happening *happening)
{
    switch (chance(radio, 4)) {
    case 0:
        hear(radio, happening, 0x32);
        put_any(radio, happening, 4);
        break;
    case 1:
        hear(radio, happening, chance(radio, 64));
        put_any(radio, happening, chance(radio, 6) == 0 ? chance(radio, 240) : chance(radio, 12));
        break;
    case 2:
        hear(radio, happening, 0x34);
        put(happening, 9);
        put_any(radio, happening, chance(radio, 8));
        break;
    default:
        connect(radio, happening);
        happening->length = 1 + chance(radio, 6);
    }
}

/* Set-up, immediate set-up or notification. */
static void with_call(struct radio *radio, struct happening *happening, uint32_t number)
{
    happening->event.number = number;
    happening->event.value = chance(radio, 7);
    for (int i = 0; i < 4; i++)
        happening->event.reference[i] = chance(radio, 256);
}

static void plain(struct happening *happening, uint32_t number)
{
    happening->event.number = number;
}

static void in_u0(struct radio *radio, struct happening *happening, uint32_t die)
{
    if (die < 40)
        with_call(radio, happening, 1);
    else if (die < 55)
        with_call(radio, happening, 2);
    else if (die < 95)
        with_call(radio, happening, 10);
    else
        termination(radio, happening);
}

static void in_u0p(struct radio *radio, struct happening *happening, uint32_t die)
{
    if (die < 80)
        plain(happening, 6);
    else if (die < 85)
        plain(happening, 7);
    else if (die < 90)
        plain(happening, 14);
    else if (die < 93)
        plain(happening, 8);
    else
        connect(radio, happening);
}

static void in_u1(struct radio *radio, struct happening *happening, uint32_t die)
{
    if (die < 70)
        connect(radio, happening);
    else if (die < 76)
        plain(happening, 4);
    else if (die < 82)
        termination(radio, happening);
    else if (die < 90)
        get_status(radio, happening);
    else if (die < 94)
        odd_message(radio, happening);
    else
        plain(happening, die < 97 ? 14 : 8);
}

static void in_u2(struct radio *radio, struct happening *happening, uint32_t die)
{
    if (die < 35)
        get_status(radio, happening);
    else if (die < 55)
        set_parameter(radio, happening);
    else if (die < 65)
        odd_message(radio, happening);
    else if (die < 85)
        plain(happening, 4);
    else if (die < 93)
        termination(radio, happening);
    else
        plain(happening, die < 95 ? 5 : die < 97 ? 8 : 9);
}

static void in_u5(struct radio *radio, struct happening *happening, uint32_t die)
{
    if (die < 40)
        termination(radio, happening);
    else if (die < 65)
        termination_reject(radio, happening);
    else if (die < 75)
        get_status(radio, happening);
    else if (die < 80)
        odd_message(radio, happening);
    else
        plain(happening, die < 92 ? 15 : 5);
}

/* The mode in which a call is joined: a group call has three. */
static uint32_t mode_entered(const struct radio *radio, uint32_t die)
{
    if (radio->table != GROUP || die < 50)
        return 11;
    return die < 65 ? 34 : 35;
}

static void in_u3_or_u4(struct radio *radio, struct happening *happening, uint32_t die)
{
    bool present = radio->context.state == U3;
    if (die < 15 && present && radio->table == THIRD)
        plain(happening, 19);
    else if (die < 80)
        plain(happening, present ? 3 : mode_entered(radio, die));
    else if (die < 85)
        plain(happening, present ? 9 : 16);
    else if (die < 90)
        termination(radio, happening);
    else if (die < 95)
        get_status(radio, happening);
    else
        plain(happening, die < 97 ? 5 : 8);
}

static void in_u6(struct radio *radio, struct happening *happening, uint32_t die)
{
    if (die < 35)
        plain(happening, 12);
    else if (die < 65)
        plain(happening, 13);
    else if (die < 70)
        plain(happening, 17);
    else if (die < 80)
        set_parameter(radio, happening);
    else if (die < 85)
        get_status(radio, happening);
    else if (die < 96)
        termination(radio, happening);
    else
        plain(happening, die < 98 ? 5 : 9);
}

/* What happens in the sub-states of U2: an event, or a message. */
static const struct likely {
    uint32_t event;
    void (*message)(struct radio *, struct happening *);
    uint8_t percent[6]; /* in U2sl, U2wr, U2r, U2ws, U2sr, U2nc */
} in_sub_states[] = {
    {4, NULL, {16, 5, 8, 5, 10, 3}},
    {5, NULL, {2, 1, 2, 1, 1, 1}},
    {9, NULL, {2, 1, 2, 1, 1, 1}},
    {11, NULL, {4, 55, 3, 6, 4, 35}},
    {12, NULL, {6, 5, 12, 6, 7, 6}},
    {17, NULL, {1, 0, 1, 0, 0, 12}},
    {32, NULL, {22, 0, 0, 1, 25, 1}},
    {33, NULL, {0, 8, 30, 1, 1, 1}},
    {34, NULL, {4, 2, 2, 52, 2, 12}},
    {35, NULL, {2, 4, 2, 4, 5, 14}},
    {36, NULL, {3, 1, 2, 4, 3, 2}},
    {18, get_status, {14, 8, 15, 7, 13, 4}},
    {18, set_parameter, {10, 4, 8, 6, 18, 2}},
    {18, termination, {8, 4, 8, 4, 6, 4}},
    {18, odd_message, {6, 2, 5, 2, 4, 2}},
};

static void in_sub_state(struct radio *radio, struct happening *happening, uint32_t die)
{
    const struct likely *likely = in_sub_states;
    while (die >= likely->percent[radio->context.state - U2SL]) {
        die -= likely->percent[radio->context.state - U2SL];
        likely++;
    }
    if (likely->message)
        likely->message(radio, happening);
    else
        plain(happening, likely->event);
}

/* Any event of the table but a message. */
static void any_event(struct radio *radio, struct happening *happening)
{
    uint32_t number = 1 + chance(radio, radio->table == GROUP ? 22 : radio->table == THIRD ? 18 : 17);
    if (number >= 18)
        number = radio->table == GROUP ? number + 14 : 19;
    with_call(radio, happening, number);
}

/* In a group call, whatever its state: the cell asks a radio that may have to answer later, or sets its parameters; and the user takes back what still
 * waits. */
static bool at_any_time(struct radio *radio, struct happening *happening)
{
    uint32_t die = chance(radio, 48);
    if (die < 3)
        get_status(radio, happening);
    else if (die < 5)
        set_parameter(radio, happening);
    else if (die < 14 && radio->context.pending_termination)
        plain(happening, 36);
    else
        return false;
    return true;
}

static void choose(struct radio *radio, struct happening *happening)
{
    uint32_t die = chance(radio, 100);
    if (chance(radio, 16) == 0) {
        any_event(radio, happening);
        return;
    }
    if (radio->table == GROUP && at_any_time(radio, happening))
        return;
    switch (radio->context.state) {
    case U0:
        in_u0(radio, happening, die);
        break;
    case U0P:
        in_u0p(radio, happening, die);
        break;
    case U1:
        in_u1(radio, happening, die);
        break;
    case U2:
        in_u2(radio, happening, die);
        break;
    case U5:
        in_u5(radio, happening, die);
        break;
    case U6:
        in_u6(radio, happening, die);
        break;
    case U3:
    case U4:
        in_u3_or_u4(radio, happening, die);
        break;
    default:
        in_sub_state(radio, happening, die);
    }
}

/* When it happens: at the end of the timer whose expiry it is, and else before the end of the timer that runs. */
static void set_time(struct radio *radio, struct happening *happening)
{
    static const struct {
        uint32_t length, expiry;
    } timers[6] = {{0, 0}, {5000, 14}, {10000, 15}, {JOINING_MS, 16}, {3000, 17}, {INVITATION_MS, 19}};
    enum twin_timer timer = twin_running(&radio->context);
    if (timer == NO_TIMER) {
        happening->delta = chance(radio, 20) == 0 ? chance(radio, 3600000) : chance(radio, 9000);
        return;
    }
    uint32_t left = timers[timer].length - (uint32_t)(radio->now - radio->started);
    bool expires = happening->event.number == timers[timer].expiry;
    happening->delta = expires ? left : chance(radio, left / 2 + 1);
}

static void keep_step(struct logs *logs, const struct radio *radio, const struct happening *happening)
{
    if (logs->step_count == STEPS)
        return;
    struct step_case *kept = &logs->steps[logs->step_count++];
    twin_write_context(&radio->context, kept->context);
    kept->event = happening->event;
    kept->length = happening->length;
    memcpy(kept->message, happening->message, happening->length);
}

static void append(struct log *log, const struct happening *happening, const struct heidezirkel_step *step, const struct radio *radio,
    const uint8_t *reply, uint32_t delta)
{
    log->last = log->used == 0 ? 1 : log->used;
    log->used = twin_record(radio->table, log->bytes, log->used, delta, &happening->event, happening->message, happening->length, step,
        &radio->context, reply);
}

/* One entry, into the large log and into the small one at hand. */
static void live(struct logs *logs, struct radio *radio)
{
    struct happening happening = {0};
    uint8_t reply[255];
    choose(radio, &happening);
    set_time(radio, &happening);
    keep_step(logs, radio, &happening);
    enum twin_timer before = twin_running(&radio->context);
    struct heidezirkel_step step = twin_take(
        radio->table, &radio->context, &radio->own, &happening.event, happening.message, happening.length, reply, sizeof reply);
    radio->now += happening.delta;
    if (twin_running(&radio->context) != before)
        radio->started = radio->now;
    append(&logs->large, &happening, &step, radio, reply, happening.delta);
    append(&logs->small[logs->smalls], &happening, &step, radio, reply, happening.delta);
}

static void make_numbers(struct log *numbers, struct radio *radio)
{
    while (numbers->used < LOG_ROOM - 5) {
        uint64_t number = ((uint64_t)chance(radio, 65536) << 16) + chance(radio, 65536);
        number >>= chance(radio, 3) == 0 ? chance(radio, 28) : 25 + chance(radio, 7);
        while (number >= 128) {
            numbers->bytes[numbers->used++] = 128 + number % 128;
            number /= 128;
        }
        numbers->bytes[numbers->used++] = number;
    }
}

void make_logs(struct logs *logs, enum twin_table table)
{
    struct radio radio = {.table = table, .own = twin_read_own(bench_settings), .seed = 20240229};
    memset(logs, 0, sizeof *logs);
    /* The longest entry has 4 + 1 + 1 + 2 + 251 + 4 + 2 + 251 bytes. */
    while (logs->large.used < LOG_ROOM - 516) {
        live(logs, &radio);
        if (radio.context.state == U0 && logs->small[logs->smalls].used > 4096 - 64 && logs->smalls < SMALL_LOGS - 1)
            logs->smalls++;
    }
    if (logs->small[logs->smalls].used > 2048)
        logs->smalls++;
    make_numbers(&logs->numbers, &radio);
}

void spoil_claim(struct log *log)
{
    /* A state of 7 too many would be unreadable: another state that exists. The last four numbers before the reply are one byte each. */
    struct heidezirkel_number delta = twin_read_number(log->bytes, log->used, log->last);
    size_t at = delta.next;
    uint8_t event = log->bytes[at++];
    if (event == 1 || event == 2 || event == 10)
        at += 5;
    if (event == 18) {
        struct heidezirkel_number length = twin_read_number(log->bytes, log->used, at + 1);
        at = length.next + length.value;
    }
    log->bytes[at + 1] ^= 1;
}

void cut_short(struct log *log)
{
    log->used--;
}
