/* The commands `read`, `write`, `gread` and `gwrite`. */
#include "commands.h"
#include <stdio.h>
#include <string.h>

/* The nine kinds, and what each carries: r reference, o originator, k key number, c classmark, i identity, a attributes, s call state and attributes that
 * may be absent, u cause. The letters stand in the order of the protocol's words. */
static const struct kind {
    uint8_t type;
    const char *name;
    const char *fields;
} kinds[] = {
    {HEIDEZIRKEL_TYPE_CONNECT, "connect", "ro"},
    {HEIDEZIRKEL_TYPE_GET_STATUS, "get_status", "i"},
    {HEIDEZIRKEL_TYPE_IMMEDIATE_SETUP, "immediate_setup", "kcir"},
    {HEIDEZIRKEL_TYPE_SET_PARAMETER, "set_parameter", "a"},
    {HEIDEZIRKEL_TYPE_SETUP, "setup", "r"},
    {HEIDEZIRKEL_TYPE_STATUS, "status", "us"},
    {HEIDEZIRKEL_TYPE_TERMINATION, "termination", "u"},
    {HEIDEZIRKEL_TYPE_TERMINATION_REJECT, "termination_reject", "u"},
    {HEIDEZIRKEL_TYPE_TERMINATION_REQUEST, "termination_request", "r"},
};

#define KINDS (sizeof kinds / sizeof kinds[0])

static const struct kind *kind_of(uint8_t type) {
    for (size_t i = 0; i < KINDS; i++)
        if (kinds[i].type == type)
            return &kinds[i];
    return NULL;
}

static const struct kind *kind_named(struct octets word) {
    for (size_t i = 0; i < KINDS; i++)
        if (is_word(word, kinds[i].name))
            return &kinds[i];
    return NULL;
}

static void print_optional(bool there, unsigned value) {
    if (there)
        printf("%u", value);
    else
        putchar('-');
}

static void print_field(char field, const struct heidezirkel_message *message, const uint8_t *octets) {
    putchar(' ');
    switch (field) {
    case 'r': print_octets(message->reference, 4); break;
    case 'o': printf("%u", message->originator); break;
    case 'k': printf("%u", message->key); break;
    case 'c': print_octets(message->classmark, 3); break;
    case 'i': print_octets(octets + message->identity_start, message->identity_length); break;
    case 'a': printf("%u", message->attributes); break;
    case 'u': print_octets(octets + message->cause_start, message->cause_length); break;
    default:
        print_optional(message->has_state, message->state);
        putchar(' ');
        print_optional(message->has_attributes, message->attributes);
    }
}

static bool carries(const struct kind *kind, char field) {
    return strchr(kind->fields, field) != NULL;
}

static bool zeros(const uint8_t *octets, size_t count) {
    for (size_t i = 0; i < count; i++)
        if (octets[i] != 0)
            return false;
    return true;
}

/* Whether what the kind does not carry is zero. */
static bool rest_zero(const struct kind *kind, const struct heidezirkel_message *m) {
    bool status = carries(kind, 's');
    bool identity = carries(kind, 'i') && m->identity_length > 0;
    return (carries(kind, 'r') || zeros(m->reference, 4)) && (carries(kind, 'o') || m->originator == 0)
        && (carries(kind, 'k') || m->key == 0) && (carries(kind, 'c') || zeros(m->classmark, 3))
        && (identity || (m->identity_start == 0 && m->identity_length == 0))
        && (carries(kind, 'u') || (m->cause_start == 0 && m->cause_length == 0))
        && (status || (m->has_state == 0 && m->has_attributes == 0)) && (m->has_state || m->state == 0)
        && (carries(kind, 'a') || m->has_attributes || m->attributes == 0);
}

static bool all_zero(const struct heidezirkel_message *m) {
    static const struct kind nothing = {0, "", ""};
    return m->type == 0 && m->flag == 0 && m->value == 0 && rest_zero(&nothing, m);
}

static bool within(size_t start, size_t count, size_t length) {
    return start <= length && count <= length - start;
}

static void print_message(const struct heidezirkel_message *message, const struct lent *octets) {
    const struct kind *kind = kind_of(message->type);
    bool inside = within(message->identity_start, message->identity_length, octets->length)
        && within(message->cause_start, message->cause_length, octets->length);
    promise(kind != NULL, "read: a type that is none of the nine");
    promise(inside, "read: a run outside the octets");
    if (!kind || !inside)
        return;
    promise(rest_zero(kind, message), "read: what the kind does not carry is not zero");
    printf(" %u %u %s", message->flag, message->value, kind->name);
    for (const char *field = kind->fields; *field; field++)
        print_field(*field, message, octets->octets);
}

bool read_command(struct line *line, enum call call) {
    struct octets received = octets_word(line);
    if (!whole(line))
        return false;
    struct lent octets = lend_octets(received.at, received.count);
    struct heidezirkel_reading reading = (call == GROUP ? heidezirkel_group_read_message : heidezirkel_read_message)(octets.octets, octets.length);
    bool unreadable = reading.answer == HEIDEZIRKEL_UNREADABLE;
    promise(kept(&octets, 0), "read: the octets changed");
    promise(unreadable == (reading.fault != 0), "read: a fault stands exactly with answer 13");
    printf("%u", reading.answer);
    if (reading.answer == HEIDEZIRKEL_TAKEN)
        print_message(&reading.message, &octets);
    else
        promise(all_zero(&reading.message), "read: refused, and the message is not all zero");
    if (unreadable)
        printf(" %u", reading.fault);
    refusals_seen += reading.answer != HEIDEZIRKEL_TAKEN;
    give_back(&octets);
    return true;
}

/* Where the octets of a line's words are is where its runs are: the source that is lent for writing. */
static void run_word(struct line *line, const uint8_t *source, size_t *start, size_t *count) {
    struct octets run = octets_word(line);
    *start = (size_t)(run.at - source);
    *count = run.count;
}

/* C has room for exactly three classmark octets. A classmark of another length is told by a key number out of range: 4 in the same place. */
static void classmark_word(struct line *line, struct heidezirkel_message *message) {
    struct octets classmark = octets_word(line);
    if (classmark.count == 3)
        memcpy(message->classmark, classmark.at, 3);
    else
        message->key = 255;
}

static void field_word(struct line *line, char field, struct heidezirkel_message *message, const uint8_t *source) {
    switch (field) {
    case 'r': exact_word(line, message->reference, 4); break;
    case 'o': message->originator = (uint8_t)number_word(line, 255); break;
    case 'k': message->key = (uint8_t)number_word(line, 255); break;
    case 'c': classmark_word(line, message); break;
    case 'i': run_word(line, source, &message->identity_start, &message->identity_length); break;
    case 'a': message->attributes = (uint8_t)number_word(line, 255); break;
    case 'u': run_word(line, source, &message->cause_start, &message->cause_length); break;
    default:
        message->has_state = optional_word(line, &message->state);
        message->has_attributes = optional_word(line, &message->attributes);
    }
}

static struct heidezirkel_message message_words(struct line *line, const uint8_t *source) {
    struct heidezirkel_message message = {0};
    message.flag = (uint8_t)number_word(line, 1);
    message.value = (uint8_t)number_word(line, 255);
    const struct kind *kind = kind_named(word(line));
    line->good = line->good && kind;
    if (!kind)
        return message;
    message.type = kind->type;
    for (const char *field = kind->fields; *field; field++)
        field_word(line, *field, &message, source);
    return message;
}

static void write_message(struct heidezirkel_message message, const struct lent *source, size_t room, enum call call) {
    struct lent buffer = lend(room);
    struct heidezirkel_written written = (call == GROUP ? heidezirkel_group_write_message : heidezirkel_write_message)(message, source->octets,
        source->length, buffer.octets, buffer.length);
    bool takes = written.answer == HEIDEZIRKEL_TAKEN;
    promise(takes || written.length == 0, "write: refused, and a length");
    promise(written.length <= room, "write: longer than its buffer");
    promise(kept(&buffer, written.length), "write: an octet outside the message changed");
    printf("%u", written.answer);
    if (takes) {
        putchar(' ');
        print_octets(buffer.octets, written.length);
    }
    refusals_seen += !takes;
    give_back(&buffer);
}

bool write_command(struct line *line, enum call call) {
    const uint8_t *begin = line->room;
    size_t room = number_word(line, UINT32_MAX);
    struct heidezirkel_message message = message_words(line, begin);
    if (!whole(line))
        return false;
    struct lent source = lend_octets(begin, (size_t)(line->room - begin));
    write_message(message, &source, room, call);
    promise(kept(&source, 0), "write: the source changed");
    give_back(&source);
    return true;
}
