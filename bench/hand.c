/* hand.c: the twins by themselves, on logs and steps that were worked out by hand from documents 01 and 02, so that ours is held against a twin that is right
 * and not against one that errs alike. Status 1, and a line for each, where the twin answers otherwise. */
#include <stdio.h>
#include <string.h>
#include "twin.h"

/* cksn=3, classmark=3319a2, identity=f423a1b2, conn_req_ms=12000, present_ms=60000 */
static const uint8_t settings[21] = {3, 0x33, 0x19, 0xa2, 4, 0xf4, 0x23, 0xa1, 0xb2, 0, 0, 0, 0, 0xe0, 0x2e, 0, 0, 0x60, 0xea, 0, 0};

/* Of the group calls: key 5, classmark 010203, identity 1122. */
static const uint8_t group_settings[21] = {5, 1, 2, 3, 2, 0x11, 0x22};

static int failures;

/* Entries, behind their milliseconds. */
#define CALLED "0a 01 0a0b0c0d 00 04 00 01 00 " /* broadcast notified, to U3 */
#define JOIN "03 00 05 00 04 00 "               /* to U4 */
#define GIVE_UP "10 00 00 00 09 00 "            /* expiry of T_conn req, to U0 */
#define ENTERED "0b 00 07 02 01 00 "            /* group receive mode, to U6 */
#define FORGET "13 00 00 00 00 00 "             /* expiry of T_pres, to U0 */
#define ASKED "12 01 02 1139 01 04 00 00 00 "   /* GET STATUS in U3, ignored */
#define ENDED "12 00 04 11340190 00 00 00 11 00 " /* TERMINATION, to U0 */
/* Of group calls. */
#define G_CALLED "0a 02 00000020 00 04 00 01 00 " /* group call notified, to U3 */
#define G_RECEIVE "0b 00 0a 02 01 00 "            /* in U4 group receive mode, to U2r */
#define G_LOST "0c 00 0d 03 00 00 "               /* no channel, to U2nc */
#define G_FOUND "22 00 0c 03 00 00 "              /* group transmit mode, to U2sr */
#define G_GIVE_UP "11 00 00 00 09 00 "            /* expiry of T_no channel, to U0 */
#define G_LISTENING "10 00" G_CALLED "00" JOIN "00" G_RECEIVE
/* Milliseconds. */
#define MS_999 "e707 "
#define MS_1000 "e807 "
#define MS_2000 "d00f "
#define MS_2500 "c413 "
#define MS_2999 "b717 "
#define MS_3000 "b817 "
#define MS_3001 "b917 "
#define MS_11000 "f855 "
#define MS_12000 "e05d "
#define MS_12001 "e15d "
#define MS_20000 "a09c01 "
#define MS_30000 "b0ea01 "
#define MS_30001 "b1ea01 "
#define MS_600000 "c0cf24 "
#define MS_600001 "c1cf24 "
#define DAY "80b89929 "

static const struct judged {
    const char *log;
    struct heidezirkel_judgement expected;
} judged[] = {
    /* The versions. */
    {"", {.answer = 8}},
    {"00", {.answer = 8}},
    {"01", {0, 0, 10000, 30000, 0, 0}},
    {"02", {0, 0, 10000, 30000, 0, 0}},
    {"03", {0, 0, 10000, 30000, 1000, 600000}},
    {"04", {.answer = 8}},
    {"0f", {.answer = 8}},
    {"10", {0, 0, 10000, 30000, 0, 0}},
    {"11", {.answer = 8}},
    {"9000", {.answer = 8}},
    {"8300", {.answer = 8}},
    /* Cases c3, c5, c6 and c7 of document 01. */
    {"01 00 03 03 00 00 00 00", {0, 1, 10000, 30000, 0, 0}},
    {"01 00" CALLED "00" JOIN MS_12000 GIVE_UP, {0, 3, 12000, 12000, 0, 0}},
    {"03 00" CALLED "00" JOIN MS_12000 GIVE_UP, {0, 3, 12000, 12000, 1000, 600000}},
    {"01 00" CALLED "00" JOIN MS_20000 ENTERED, {0, 3, 20000, 30000, 0, 0}},
    {"01 00" CALLED "00" JOIN MS_30001 ENTERED, {9, 3, 0, 0, 0, 0}},
    /* An invitation that is joined: the timer has not run out before. */
    {"03 00" CALLED MS_999 JOIN, {0, 2, 10000, 30000, 1000, 600000}},
    {"03 00" CALLED MS_2500 JOIN, {0, 2, 10000, 30000, 2500, 600000}},
    {"03 00" CALLED MS_600000 JOIN, {0, 2, 10000, 30000, 600000, 600000}},
    {"03 00" CALLED MS_600001 JOIN, {9, 2, 0, 0, 0, 0}},
    {"02 00" CALLED DAY JOIN, {0, 2, 10000, 30000, 0, 0}},
    {"01 00" CALLED DAY JOIN, {0, 2, 10000, 30000, 0, 0}},
    {"03 00" CALLED MS_2500 JOIN MS_20000 ENTERED, {0, 3, 20000, 30000, 2500, 600000}},
    /* One that runs out: it has run its length. Versions 1 and 2 have no event 19. */
    {"03 00" CALLED MS_999 FORGET, {9, 2, 0, 0, 0, 0}},
    {"03 00" CALLED MS_1000 FORGET, {0, 2, 10000, 30000, 1000, 1000}},
    {"03 00" CALLED MS_600000 FORGET, {0, 2, 10000, 30000, 600000, 600000}},
    {"03 00" CALLED MS_600001 FORGET, {9, 2, 0, 0, 0, 0}},
    {"02 00" CALLED MS_1000 FORGET, {8, 2, 0, 0, 0, 0}},
    {"01 00" CALLED MS_1000 FORGET, {8, 2, 0, 0, 0, 0}},
    {"03 00" CALLED MS_1000 "13 00 00 00 01 00", {9, 2, 0, 0, 0, 0}},
    {"03 00" CALLED MS_1000 "13 03 04 00 00 00", {9, 2, 0, 0, 0, 0}},
    /* What happens in between starts no timer anew. */
    {"03 00" CALLED MS_2500 ASKED MS_12000 FORGET, {0, 3, 10000, 30000, 14500, 14500}},
    {"03 00" CALLED MS_2500 ASKED MS_600000 ENDED, {9, 3, 0, 0, 0, 0}},
    {"03 00" CALLED MS_600000 ENDED DAY CALLED, {0, 3, 10000, 30000, 600000, 600000}},
    /* One timer for all invitations, and one of its own for joining. */
    {"03 00" CALLED MS_12000 FORGET "00" CALLED MS_12000 JOIN MS_11000 GIVE_UP, {0, 5, 11000, 11000, 12000, 12000}},
    {"03 00" CALLED MS_12000 FORGET "00" CALLED MS_12001 JOIN MS_11000 GIVE_UP, {9, 4, 0, 0, 0, 0}},
    {"03 00" CALLED MS_12001 JOIN MS_11000 GIVE_UP "00" CALLED MS_12000 FORGET, {9, 5, 0, 0, 0, 0}},
    /* Event 19 elsewhere has no step, and no rule of time; event 20 is none. */
    {"03 00 13 03 00 00 00 00", {0, 1, 10000, 30000, 1000, 600000}},
    {"03 00" CALLED "00" JOIN "00 13 03 05 00 00 00", {0, 3, 10000, 30000, 1000, 600000}},
    {"02 00 13 03 00 00 00 00", {8, 1, 0, 0, 0, 0}},
    {"03 00 14 03 00 00 00 00", {8, 1, 0, 0, 0, 0}},
    /* What is in range in a log of group calls, and in one of broadcast calls. */
    {"10 00 03 03 00 00 00 00", {0, 1, 10000, 30000, 0, 0}},
    {"10 00 13 03 00 00 00 00", {8, 1, 0, 0, 0, 0}},
    {"10 00 1f 03 00 00 00 00", {8, 1, 0, 0, 0, 0}},
    {"10 00 20 03 00 00 00 00", {0, 1, 10000, 30000, 0, 0}},
    {"10 00 24 03 00 00 00 00", {0, 1, 10000, 30000, 0, 0}},
    {"10 00 25 03 00 00 00 00", {8, 1, 0, 0, 0, 0}},
    {"03 00 20 03 00 00 00 00", {8, 1, 0, 0, 0, 0}},
    {"10 00 03 03 03 00 00 00", {9, 1, 0, 0, 0, 0}},
    {"10 00 03 03 07 00 00 00", {9, 1, 0, 0, 0, 0}},
    {"10 00 03 03 0d 00 00 00", {9, 1, 0, 0, 0, 0}},
    {"10 00 03 03 0e 00 00 00", {8, 1, 0, 0, 0, 0}},
    {"03 00 03 03 08 00 00 00", {8, 1, 0, 0, 0, 0}},
    {"10 00 03 03 00 00 7f 00", {9, 1, 0, 0, 0, 0}},
    {"10 00 03 03 00 00 8001 00", {8, 1, 0, 0, 0, 0}},
    {"03 00 03 03 00 00 40 00", {8, 1, 0, 0, 0, 0}},
    /* A group call's invitation has no timer; joining has one, and none of its modes is idle. */
    {"10 00" G_CALLED DAY JOIN, {0, 2, 10000, 30000, 0, 0}},
    {"10 00" G_CALLED "00" JOIN MS_12000 GIVE_UP, {0, 3, 12000, 12000, 0, 0}},
    {"10 00" G_CALLED "00" JOIN MS_20000 G_RECEIVE, {0, 3, 20000, 30000, 0, 0}},
    {"10 00" G_CALLED "00" JOIN MS_30000 G_RECEIVE, {0, 3, 30000, 30000, 0, 0}},
    {"10 00" G_CALLED "00" JOIN MS_30001 G_RECEIVE, {9, 3, 0, 0, 0, 0}},
    {"10 00" G_CALLED "00" JOIN MS_20000 "0c 03 05 00 00 00", {0, 3, 20000, 30000, 0, 0}},
    {"10 00" G_CALLED "00" JOIN "00" G_LOST, {9, 3, 0, 0, 0, 0}},
    /* T_no channel: 3,000 ms from the first "no channel" on. */
    {G_LISTENING DAY G_LOST MS_3000 G_GIVE_UP, {0, 5, 10000, 30000, 0, 0}},
    {G_LISTENING "00" G_LOST MS_2999 G_GIVE_UP, {9, 5, 0, 0, 0, 0}},
    {G_LISTENING "00" G_LOST MS_3001 G_GIVE_UP, {9, 5, 0, 0, 0, 0}},
    {G_LISTENING "00" G_LOST MS_3000 G_FOUND, {0, 5, 10000, 30000, 0, 0}},
    {G_LISTENING "00" G_LOST MS_3001 G_FOUND, {9, 5, 0, 0, 0, 0}},
    {G_LISTENING "00" G_LOST MS_2000 G_LOST MS_1000 G_GIVE_UP, {0, 6, 10000, 30000, 0, 0}},
    {G_LISTENING "00" G_LOST MS_2000 G_LOST MS_3000 G_GIVE_UP, {9, 6, 0, 0, 0, 0}},
    {G_LISTENING "00" G_LOST MS_2000 G_FOUND "00" G_LOST MS_3000 G_GIVE_UP, {0, 7, 10000, 30000, 0, 0}},
    /* A call that we join and lose, then one that we start (its steps are below). */
    {G_LISTENING "00 12 00 02 2039 00 0b 03 40 00" /* GET STATUS: we ask to talk */
                 "00 22 00 0c 03 00 00"
                 "00 12 00 03 c03a0e 01 0c 03 00 00"
                 "00 12 00 03 403a0e 00 0c 07 00 06 c038019eaabe"
                 "00 0c 00 0d 03 00 00" MS_3000 "11 00 00 00 09 00"
                 "00 02 01 00000020 00 02 0c 00 0e 1031500301020302112200000020"
                 "00 12 00 07 90330000012001 00 08 0f 20 00"
                 "00 20 00 09 0e 04 00"
                 "00 0b 00 0a 0a 00 00"
                 "00 12 00 02 9039 00 0b 0b 40 00"
                 "00 04 00 0b 0b 00 00"
                 "00 22 00 0c 0b 00 00"
                 "00 12 00 03 903a0f 00 06 0f 00 0c 1038019eaabf103500000120"
                 "00 12 00 06 903698000000 00 0c 0f 01 00",
        {0, 18, 10000, 30000, 0, 0}},
};

static int digit(char c)
{
    return c <= '9' ? c - '0' : c - 'a' + 10;
}

static size_t read_hex(const char *text, uint8_t *octets)
{
    size_t count = 0;
    while (*text) {
        if (*text == ' ') {
            text++;
            continue;
        }
        octets[count++] = 16 * digit(text[0]) + digit(text[1]);
        text += 2;
    }
    return count;
}

static void try_log(const struct judged *given)
{
    uint8_t log[256];
    size_t length = read_hex(given->log, log);
    const uint8_t *own = log[0] == GROUP ? group_settings : settings;
    struct heidezirkel_judgement found = twin_judge(own, log, length), expected = given->expected;
    if (found.answer == expected.answer && found.entry == expected.entry && found.least_ms == expected.least_ms
        && found.greatest_ms == expected.greatest_ms && found.invitation_least_ms == expected.invitation_least_ms
        && found.invitation_greatest_ms == expected.invitation_greatest_ms)
        return;
    printf("the twin's judge: %s: %u %zu %u %u %u %u\n", given->log, found.answer, found.entry, found.least_ms, found.greatest_ms,
        found.invitation_least_ms, found.invitation_greatest_ms);
    failures++;
}

/* A log that is mended into a copy buffer of so many octets. */
static const struct mended {
    const char *log;
    size_t room;
    struct heidezirkel_mending expected;
    const char *copy; /* and the buffer behind it as it was */
} mended[] = {
    /* The buffer: as long as the log, one octet less; an empty log wants one octet. */
    {"", 0, {.answer = 5}, ""},
    {"", 1, {0, 0, 0, 8, 1}, "01"},
    {"03", 0, {.answer = 5}, ""},
    {"03", 1, {0, 0, 0, 0, 1}, "03"},
    {"03 00" CALLED, 12, {.answer = 5}, ""},
    {"03 00" CALLED, 13, {0, 1, 0, 0, 13}, "03 00" CALLED},
    /* No version: all is dropped. */
    {"04 00" CALLED, 13, {0, 0, 13, 8, 1}, "01"},
    {"8300", 2, {0, 0, 2, 8, 1}, "01"},
    /* Entry 1 is bad, and the version stays: cut short, a longer form of a number, not in time. */
    {"01 00", 9, {0, 0, 1, 8, 1}, "01"},
    {"02 8000", 9, {0, 0, 2, 8, 1}, "02"},
    {"03 00 0a 01 0a0b0c0d 00 05 00 01 00", 20, {0, 0, 12, 9, 1}, "03"},
    {"10 00 13 00 00 00 00 00", 8, {0, 0, 7, 8, 1}, "10"},
    /* A later one: cut short, and one that leaves no timer, with good ones behind it. */
    {"03 00" CALLED MS_1000 FORGET "00", 30, {0, 2, 1, 8, 21}, "03 00" CALLED MS_1000 FORGET},
    {"03 00" CALLED MS_1000 FORGET "00" CALLED MS_999 FORGET "00" CALLED, 60, {0, 3, 20, 9, 33}, "03 00" CALLED MS_1000 FORGET "00" CALLED},
    {G_LISTENING "00" G_LOST MS_2999 G_GIVE_UP, 64, {0, 4, 8, 9, 34}, G_LISTENING "00" G_LOST},
};

static void try_mend(const struct mended *given)
{
    uint8_t log[256], copy[256], expected_copy[256];
    size_t length = read_hex(given->log, log);
    memset(copy, 0xee, sizeof copy);
    memset(expected_copy, 0xee, sizeof expected_copy);
    read_hex(given->copy, expected_copy);
    struct heidezirkel_mending expected = given->expected;
    struct heidezirkel_mending found = twin_mend(log[0] == GROUP ? group_settings : settings, log, length, copy, given->room);
    if (found.answer == expected.answer && found.kept == expected.kept && found.dropped == expected.dropped && found.ending == expected.ending
        && found.length == expected.length && memcmp(copy, expected_copy, sizeof copy) == 0)
        return;
    printf("the twin's mending: %s: %u %zu %zu %u %zu\n", given->log, found.answer, found.kept, found.dropped, found.ending, found.length);
    failures++;
}

/* A step without a message, from one context to another; refused, to the same. */
static const struct stepped {
    uint8_t before[16];
    uint32_t event, answer, actions;
    uint8_t after[16];
} stepped[] = {
    {{0}, 10, 0, 1, {U3, 0, 16}},
    {{U3, 0, 16, 6, 1, 2, 3, 4}, 3, 0, 4, {U4, 0, 2, 6, 1, 2, 3, 4}},
    {{U3, 0, 16, 6, 1, 2, 3, 4}, 19, 0, 0, {0}},
    {{U3, 0, 16, 6, 1, 2, 3, 4}, 5, 0, 16, {0}},
    {{U3, 0, 16, 6, 1, 2, 3, 4}, 8, 0, 9, {0}},
    {{U3, 0, 16, 6, 1, 2, 3, 4}, 9, 0, 9, {0}},
    {{U3, 0, 16, 6, 1, 2, 3, 4}, 16, 3, 0, {U3, 0, 16, 6, 1, 2, 3, 4}},
    {{U3, 0, 16, 6, 1, 2, 3, 4}, 20, 4, 0, {U3, 0, 16, 6, 1, 2, 3, 4}},
    {{U3, 0, 0, 6, 1, 2, 3, 4}, 3, 7, 0, {U3, 0, 0, 6, 1, 2, 3, 4}},
    {{U3, 0, 18, 6, 1, 2, 3, 4}, 3, 7, 0, {U3, 0, 18, 6, 1, 2, 3, 4}},
    {{U3, 0, 48, 6, 1, 2, 3, 4}, 3, 7, 0, {U3, 0, 48, 6, 1, 2, 3, 4}},
    {{U0}, 19, 3, 0, {U0}},
    {{U0, 0, 16}, 10, 7, 0, {U0, 0, 16}},
    {{U0P, 8, 8}, 19, 3, 0, {U0P, 8, 8}},
    {{U0P, 8, 24}, 6, 7, 0, {U0P, 8, 24}},
    {{U1, 12, 8}, 19, 3, 0, {U1, 12, 8}},
    {{U1, 12, 16}, 4, 7, 0, {U1, 12, 16}},
    {{U2, 15, 0}, 19, 3, 0, {U2, 15, 0}},
    {{U4, 0, 2}, 19, 3, 0, {U4, 0, 2}},
    {{U4, 0, 18}, 11, 7, 0, {U4, 0, 18}},
    {{U5, 15, 4, [8] = U2}, 19, 3, 0, {U5, 15, 4, [8] = U2}},
    {{U6, 2, 1}, 19, 3, 0, {U6, 2, 1}},
    {{U6, 2, 17}, 13, 7, 0, {U6, 2, 17}},
    {{U2SL, 15}, 5, 7, 0, {U2SL, 15}},
    {{U2, 15, [9] = 1}, 5, 7, 0, {U2, 15, [9] = 1}},
};

static void try_step(const struct stepped *given)
{
    uint8_t context[16], reply[255];
    struct heidezirkel_event event = {.number = given->event};
    memcpy(context, given->before, 16);
    struct heidezirkel_step step = twin_step(context, settings, event, settings, 0, reply, sizeof reply);
    if (step.answer == given->answer && step.actions == given->actions && step.reply_length == 0 && memcmp(context, given->after, 16) == 0)
        return;
    printf("the twin's step: state %u, timers %u, event %u: answer %u, actions %u, state %u, timers %u\n", given->before[0], given->before[2],
        given->event, step.answer, step.actions, context[0], context[2]);
    failures++;
}

/* A step of a group call. A context is its first ten octets: state, parameters, timers, value, reference, the state that was asked from, and which side chose
 * the value (1 us, 2 the cell) + 4 a termination request waits + 8 a STATUS does + 16 the value is awaited. */
static const struct walked {
    const char *before; /* NULL: as the step before has left it */
    uint32_t event;
    const char *data; /* value and reference, or the message */
    uint32_t answer, reason, actions;
    const char *reply;
    const char *after; /* NULL: as before */
} walked[] = {
    /* The calls of the long log above. */
    {"", 10, "02 00000020", 0, 0, 1, "", "04 00 00 02 00000020 00 02"},
    {NULL, 3, "", 0, 0, 4, "", "05 00 02 02 00000020 00 02"},
    {NULL, 11, "", 0, 0, 1, "", "0a 02 00 02 00000020 00 02"},
    {NULL, 18, "2039", 0, 0, 64, "", "0b 03 00 02 00000020 00 1a"},
    {NULL, 34, "", 0, 0, 0, "", "0c 03 00 02 00000020 00 1a"},
    {NULL, 18, "c03a0e", 1, 4, 0, "", NULL},
    {NULL, 18, "403a0e", 0, 0, 0, "c038019eaabe", "0c 07 00 04 00000020 00 02"},
    {NULL, 12, "", 0, 0, 0, "", "0d 03 01 04 00000020 00 02"},
    {NULL, 17, "", 0, 0, 9, "", ""},
    {NULL, 2, "01 00000020", 0, 0, 0, "1031500301020302112200000020", "02 0c 08 01 00000020 00 01"},
    {NULL, 18, "90330000012001", 0, 0, 32, "", "08 0f 00 01 00000120 00 01"},
    {NULL, 32, "", 0, 0, 4, "", "09 0e 00 01 00000120 00 01"},
    {NULL, 11, "", 0, 0, 0, "", "0a 0a 00 01 00000120 00 01"},
    {NULL, 18, "9039", 0, 0, 64, "", "0b 0b 00 01 00000120 00 09"},
    {NULL, 4, "", 0, 0, 0, "", "0b 0b 00 01 00000120 00 0d"},
    {NULL, 34, "", 0, 0, 0, "", "0c 0b 00 01 00000120 00 0d"},
    {NULL, 18, "903a0f", 0, 0, 0, "1038019eaabf103500000120", "06 0f 04 01 00000120 0c 01"},
    {NULL, 18, "903698000000", 0, 0, 1, "", "0c 0f 00 01 00000120 00 01"},
    /* What waits goes out when COMM is true: behind a SETUP, in dedicated mode, at CONNECT, and once SET PARAMETER makes us the originator. */
    {"01 08 08 01 0a0b0c0d 00 09", 6, "", 0, 0, 0, "10320a0b0c0d 1038019ea1b3", "02 0c 00 01 0a0b0c0d 00 01"},
    {"0b 0b 00 01 0a0b0c0d 00 0d", 35, "", 0, 0, 0, "1038019ea2bf 10350a0b0c0d", "06 0f 04 01 0a0b0c0d 08 01"},
    {"02 08 08 01 00000000 00 05", 18, "90330a0b0c0d01", 0, 0, 32, "10350a0b0c0d", "06 0f 04 01 0a0b0c0d 08 01"},
    {"02 08 08 01 00000000 00 05", 18, "90330a0b0c0d00", 0, 0, 32, "", "08 07 00 01 0a0b0c0d 00 05"},
    {NULL, 18, "903a0f", 0, 0, 0, "10350a0b0c0d", "06 0f 04 01 0a0b0c0d 08 01"},
    /* A termination that waits, and one that is deleted; without one there is nothing to delete. */
    {"0a 0a 00 01 0a0b0c0d 00 01", 4, "", 0, 0, 64, "", "0b 0b 00 01 0a0b0c0d 00 05"},
    {NULL, 36, "", 0, 0, 0, "", "0b 0b 00 01 0a0b0c0d 00 01"},
    {NULL, 36, "", 3, 0, 0, "", NULL},
    {"0a 02 00 01 0a0b0c0d 00 01", 4, "", 3, 0, 0, "", NULL},
    /* TERMINATION REJECT has four octets of cause, and back in U2ws a value is awaited unless we are the originator. */
    {"06 0f 04 01 0a0b0c0d 0c 01", 18, "9036980000", 2, 0, 0, "103806e09036980000a5bf", NULL},
    {"06 07 04 01 0a0b0c0d 0b 02", 18, "103698000000", 0, 0, 1, "", "0b 03 00 01 0a0b0c0d 00 12"},
    {"06 0f 04 01 0a0b0c0d 0b 02", 18, "103698000000", 0, 0, 1, "", "0b 0b 00 01 0a0b0c0d 00 02"},
    /* An awaited value: 7 is none, and a message that is reported gives the call none. */
    {"0b 03 00 02 0a0b0c0d 00 12", 18, "7039", 1, 4, 0, "", NULL},
    {"08 07 00 02 0a0b0c0d 00 12", 18, "503f", 2, 0, 0, "d03803e1503fa2be", NULL},
    {NULL, 32, "", 0, 0, 4, "", "09 06 00 02 0a0b0c0d 00 12"},
    /* The same mode again; "channel available", and idle mode before the call is joined. */
    {"0d 03 01 02 0a0b0c0d 00 02", 12, "", 0, 0, 0, "", NULL},
    {NULL, 13, "", 3, 0, 0, "", NULL},
    {"08 05 00 02 0a0b0c0d 00 02", 35, "", 0, 0, 0, "", NULL},
    {"05 00 02 02 0a0b0c0d 00 02", 12, "", 3, 0, 0, "", NULL},
    {NULL, 34, "", 0, 0, 1, "", "0c 03 00 02 0a0b0c0d 00 02"},
    /* No events, and no contexts, of a group call. */
    {"", 19, "", 4, 0, 0, "", NULL},
    {"", 31, "", 4, 0, 0, "", NULL},
    {"", 37, "", 4, 0, 0, "", NULL},
    {"03 0f 00 01 0a0b0c0d 00 01", 5, "", 7, 0, 0, "", NULL},
    {"07 02 00 01 0a0b0c0d 00 02", 5, "", 7, 0, 0, "", NULL},
    {"02 0c 00 01 0a0b0c0d 00 00", 5, "", 7, 0, 0, "", NULL},
    {"04 00 10 01 0a0b0c0d 00 02", 5, "", 7, 0, 0, "", NULL},
    {"0d 03 00 01 0a0b0c0d 00 02", 5, "", 7, 0, 0, "", NULL},
    {"06 0f 04 01 0a0b0c0d 02 02", 5, "", 7, 0, 0, "", NULL},
    {"06 0f 04 01 0a0b0c0d 0a 02", 5, "", 7, 0, 0, "", NULL},
    {"08 0f 00 01 0a0b0c0d 00 03", 5, "", 7, 0, 0, "", NULL},
    {"08 0f 00 01 0a0b0c0d 00 05", 5, "", 7, 0, 0, "", NULL},
    {"08 07 00 01 0a0b0c0d 00 09", 5, "", 7, 0, 0, "", NULL},
    {"0b 0b 00 01 0a0b0c0d 00 11", 5, "", 7, 0, 0, "", NULL},
    {"0b 03 00 01 0a0b0c0d 00 22", 5, "", 7, 0, 0, "", NULL},
};

static void read_context_text(const char *text, uint8_t context[16])
{
    memset(context, 0, 16);
    read_hex(text, context);
}

static void try_group_step(const struct walked *given, uint8_t context[16])
{
    uint8_t data[256], expected_reply[256], expected[16], reply[255];
    struct heidezirkel_event event = {.number = given->event};
    size_t length = read_hex(given->data, data), expected_length = read_hex(given->reply, expected_reply);
    if (given->before)
        read_context_text(given->before, context);
    memcpy(expected, context, 16);
    if (given->after)
        read_context_text(given->after, expected);
    if (given->event != 18 && length == 5) {
        event.value = data[0];
        memcpy(event.reference, data + 1, 4);
    }
    struct heidezirkel_step step = twin_group_step(context, group_settings, event, data, length, reply, sizeof reply);
    if (step.answer == given->answer && step.reason == given->reason && step.actions == given->actions && step.reply_length == expected_length
        && memcmp(reply, expected_reply, expected_length) == 0 && memcmp(context, expected, 16) == 0)
        return;
    printf("the twin's step of a group call: number %td, event %u: answer %u, reason %u, actions %u, state %u, octet 9 %u\n", given - walked,
        given->event, step.answer, step.reason, step.actions, context[0], context[9]);
    failures++;
}

int main(void)
{
    uint8_t context[16];
    for (size_t i = 0; i < sizeof judged / sizeof *judged; i++)
        try_log(&judged[i]);
    for (size_t i = 0; i < sizeof mended / sizeof *mended; i++)
        try_mend(&mended[i]);
    for (size_t i = 0; i < sizeof stepped / sizeof *stepped; i++)
        try_step(&stepped[i]);
    for (size_t i = 0; i < sizeof walked / sizeof *walked; i++)
        try_group_step(&walked[i], context);
    if (failures > 0)
        printf("the twins err on %d of %zu logs and steps that were worked out by hand\n", failures,
            sizeof judged / sizeof *judged + sizeof mended / sizeof *mended + sizeof stepped / sizeof *stepped + sizeof walked / sizeof *walked);
    return failures > 0;
}
