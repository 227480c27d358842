/* twin.h: the plain C twins of the judge, of mending, of the step and of the number reader, against which ours are timed. They were written from documents 01 and 02 and
 * the standard, take and give what heidezirkel.h says, and share nothing with ours but that header. */
#ifndef TWIN_H
#define TWIN_H
#include <stdbool.h>
#include <stddef.h>
#include <stdint.h>
#include "heidezirkel.h"

/* As logs number them. A broadcast call has those to U6; a group call has the sub-states of U2, from U2sl on, in the place of U2 and U6. */
enum twin_state { U0, U0P, U1, U2, U3, U4, U5, U6, U2SL, U2WR, U2R, U2WS, U2SR, U2NC };

/* The step tables by the versions of their logs: document 01's, and those of document 02: A2, in which a rejected termination leads back, A13, in which
 * an invitation runs out, and A5, which is of group calls. NEWEST is that of broadcast calls. */
enum twin_table { FIRST = 1, SECOND = 2, THIRD = 3, NEWEST = THIRD, GROUP = 16 };

/* Which side chose the transaction value of a group call. */
enum twin_side { NEITHER, US, CELL };

/* The timers; NO_TIMER where none runs. In a fit context at most one runs. */
enum twin_timer { NO_TIMER, T_MM_EST, T_TERM, T_CONN_REQ, T_NO_CHANNEL, T_PRES };

struct twin_context {
    enum twin_state state;
    bool orig, comm, datt, uatt;
    bool mm_est, term, conn_req, no_channel, pres;
    uint8_t value;
    uint8_t reference[4];
    enum twin_state from; /* the state that the termination was asked from, U0 for none */
    /* Of a group call: */
    enum twin_side chooser;
    bool pending_termination, pending_status;
    bool awaiting_value; /* the next message that is taken gives the call its transaction value */
};

struct twin_own {
    uint8_t key;
    uint8_t classmark[3];
    uint8_t identity_length;
    uint8_t identity[8];
};

struct twin_own twin_read_own(const uint8_t settings[21]);
bool twin_own_in_range(const struct twin_own *own);
int twin_parameters(const struct twin_context *context);
enum twin_timer twin_running(const struct twin_context *context);

/* Whether a table has an event of this number. */
static inline bool twin_has_event(enum twin_table table, uint32_t number)
{
    if (number <= 18)
        return number >= 1;
    return table == GROUP ? number >= 32 && number <= 36 : table == THIRD && number == 19;
}

/* Writes the first ten octets of the context as the host keeps it; the others are zero. */
void twin_write_context(const struct twin_context *context, uint8_t octets[16]);

/* The step by a table over a context in its own form, which the judge uses, and over 16 octets, as the host has it, of a broadcast call (by the newest table)
 * and of a group call. */
struct heidezirkel_step twin_take(enum twin_table table, struct twin_context *context, const struct twin_own *own,
    const struct heidezirkel_event *event, const uint8_t *message, size_t length, uint8_t *reply, size_t room);
struct heidezirkel_step twin_step(uint8_t context[16], const uint8_t settings[21], struct heidezirkel_event event,
    const uint8_t *message, size_t length, uint8_t *reply, size_t room);
struct heidezirkel_step twin_group_step(uint8_t context[16], const uint8_t settings[21], struct heidezirkel_event event,
    const uint8_t *message, size_t length, uint8_t *reply, size_t room);

struct heidezirkel_number twin_read_number(const uint8_t *octets, size_t length, size_t at);
struct heidezirkel_judgement twin_judge(const uint8_t settings[21], const uint8_t *log, size_t length);
struct heidezirkel_mending twin_mend(const uint8_t settings[21], const uint8_t *log, size_t length, uint8_t *copy, size_t room);

/* Writes the entry of a step by a table behind `used` bytes, and gives the bytes used then. There is room. */
size_t twin_record(enum twin_table table, uint8_t *log, size_t used, uint32_t delta, const struct heidezirkel_event *event, const uint8_t *message,
    size_t length, const struct heidezirkel_step *step, const struct twin_context *after, const uint8_t *reply);
#endif
