/* Steps and logs as a host plays them, for what is promised of them. */
#ifndef PLAYED_H
#define PLAYED_H
#include "heidezirkel.h"
#include "lent.h"

#define EXPECT(condition) \
    do { \
        bool held = (condition); \
        line_number = __LINE__; \
        promise(held, #condition); \
    } while (0)

/* cksn=3, classmark=3319a2, identity=f423a1b2, conn_req_ms=12000, present_ms=60000 */
extern const uint8_t settings[21];
extern const uint8_t nothing[1];

/* A host's log as it grows. */
struct recording {
    uint8_t context[16];
    uint8_t reply[255];
    struct lent log;
    size_t used;
};

/* Takes a step and records it. */
void happen(struct recording *now, uint32_t delta, struct heidezirkel_event event, const uint8_t *message, size_t length);
/* A step from one context to another, octet for octet. */
void leads(const uint8_t before[16], uint32_t event, const uint8_t *message, size_t length, const uint8_t after[16], uint32_t actions);
/* The answer to an event that carries nothing; refused, it changes no octet. */
uint32_t answer_in(const uint8_t octets[16], uint32_t event);

/* Accepted, with so many entries and these timers: least and greatest of the joining timer, then of the invitation timer. */
bool accepts(struct heidezirkel_judgement judged, size_t entries, uint32_t least, uint32_t greatest, uint32_t invitation_least,
    uint32_t invitation_greatest);
/* Refused at an entry: no timer is told. */
bool refuses(struct heidezirkel_judgement judged, uint32_t answer, size_t entry);

/* invitations.c */
void check_invitations(void);
/* groups.c */
void check_groups(void);
/* mending.c */
void check_mending(void);
#endif
