/* logs.h: what the bench runs on: logs of varied calls by a step table, single steps and numbers, the same at each run. */
#ifndef LOGS_H
#define LOGS_H
#include "twin.h"

enum { LOG_ROOM = 65536, SMALL_LOGS = 32, STEPS = 4096 };

struct log {
    size_t used, last; /* bytes, and the place of the last entry */
    uint8_t bytes[LOG_ROOM];
};

/* A step: the context before it, the event and its message. */
struct step_case {
    uint8_t context[16];
    struct heidezirkel_event event;
    size_t length;
    uint8_t message[251];
};

struct logs {
    struct log large;              /* 64 KiB */
    struct log small[SMALL_LOGS];  /* the same calls in logs of about 4 KiB */
    size_t smalls;
    struct step_case steps[STEPS]; /* the first steps of the large log */
    size_t step_count;
    struct log numbers;            /* numbers of one to five bytes, no log */
};

extern const uint8_t bench_settings[21];
void make_logs(struct logs *logs, enum twin_table table);
/* A log's copy whose last entry claims another state, or lacks its last byte. */
void spoil_claim(struct log *log);
void cut_short(struct log *log);
#endif
