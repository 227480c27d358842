/* The greatest stack use of each function, by painting: each runs on a stack of its own, on many inputs, and the octets that it changed are counted.
 * The caller's own frame is counted with it. Fails where one takes more than 2,048 octets. */
#include <stdio.h>
#include <stdlib.h>
#include "heidezirkel.h"
#include "painted.h"

enum { MOST = 2048, ROUNDS = 20000, OFTEN = 12, CALLS = 15 };

static uint8_t context[16], settings[HEIDEZIRKEL_SETTINGS_OCTETS], octets[256], reply[255], log_bytes[4096], copy_bytes[4096];
static size_t used;
static struct heidezirkel_event event;
static struct heidezirkel_step done;

/* The same of a group call. */
static uint8_t group_context[16], group_octets[256], group_log[4096];
static size_t group_used;
static struct heidezirkel_event group_event;
static struct heidezirkel_step group_done;

static unsigned random_below(unsigned n) { return (unsigned)(rand() % (int)n); }

/* Inputs that mostly come through the first tests, so that the calls go deep. */
static void fresh(void) {
    size_t i;
    for (i = 0; i < sizeof octets; i++) octets[i] = (uint8_t)random_below(256);
    for (i = 0; i < sizeof settings; i++) settings[i] = (uint8_t)random_below(256);
    settings[0] = (uint8_t)random_below(8);
    settings[4] = (uint8_t)(1 + random_below(8));
    event.number = random_below(3) ? 18 : 1 + random_below(19);
    event.value = (uint8_t)random_below(7);
    event.mode = (uint8_t)random_below(2);
    octets[0] = (uint8_t)(1 + 16 * context[3] + 128 * (context[0] >= 1 && (context[0] <= 3 || context[0] == 6)));
    octets[1] = (uint8_t)(0x31 + random_below(10));
    group_event = event;
    if (event.number != 18) group_event.number = random_below(2) ? 1 + random_below(17) : 32 + random_below(5);
    for (i = 0; i < sizeof octets; i++) group_octets[i] = octets[i];
    group_octets[0] = (uint8_t)(16 * group_context[3] + 128 * (group_context[9] & 1));
}

static void call_nothing(void) {}
static void call_step(void) { done = heidezirkel_step(context, settings, event, octets, random_below(252), reply, sizeof reply); }
static void call_judge(void) { (void)heidezirkel_judge(settings, log_bytes, used); }
static void call_mend(void) { (void)heidezirkel_mend(settings, log_bytes, used, copy_bytes, sizeof copy_bytes); }
static void call_record(void) {
    used = heidezirkel_record(log_bytes, sizeof log_bytes, used, 0, event, octets, 251, done, context, reply, done.reply_length).used;
}
static void call_number(void) { (void)heidezirkel_read_number(octets, sizeof octets, random_below(256)); }
static void call_begin(void) { used = heidezirkel_begin_log(log_bytes, sizeof log_bytes).used; }
static void call_clear(void) { (void)heidezirkel_clear(context); }
static void call_settings(void) {
    static const char file[] = "cksn=5\nclassmark=0102a3\nidentity=12345678\nconn_req_ms=12000\npresent_ms=60000\n";
    (void)heidezirkel_read_settings((const uint8_t *)file, sizeof file - 1 - random_below(3), settings);
}

static struct heidezirkel_reading reading, group_reading;
static void call_read(void) { reading = heidezirkel_read_message(octets, random_below(252)); }
static void call_write(void) { (void)heidezirkel_write_message(reading.message, octets, sizeof octets, reply, sizeof reply); }

static void call_group_step(void) {
    group_done = heidezirkel_group_step(group_context, settings, group_event, group_octets, random_below(252), reply, sizeof reply);
}
static void call_group_record(void) {
    group_used = heidezirkel_group_record(group_log, sizeof group_log, group_used, 0, group_event, group_octets, 251, group_done, group_context, reply,
        group_done.reply_length).used;
}
static void call_group_begin(void) { group_used = heidezirkel_group_begin_log(group_log, sizeof group_log).used; }
static void call_group_clear(void) { (void)heidezirkel_clear(group_context); }
static void call_group_read(void) { group_reading = heidezirkel_group_read_message(group_octets, random_below(252)); }
static void call_group_write(void) {
    (void)heidezirkel_group_write_message(group_reading.message, group_octets, sizeof group_octets, reply, sizeof reply);
}

static int failed;

static void report(const char *name, size_t most, size_t nothing) {
    printf("%-19s %lu\n", name, (unsigned long)(most - nothing));
    if (most - nothing > MOST) {
        printf("FAILED: %s takes more than %d octets of stack\n", name, MOST);
        failed = 1;
    }
}

int main(void) {
    static const struct {
        const char *name;
        void (*call)(void);
    } calls[] = {{"step", call_step}, {"record", call_record}, {"judge", call_judge}, {"mend", call_mend}, {"read_number", call_number}, {"read_settings", call_settings},
        {"read_message", call_read}, {"write_message", call_write}, {"group_step", call_group_step}, {"group_record", call_group_record},
        {"group_read_message", call_group_read}, {"group_write_message", call_group_write}, {"begin_log", call_begin},
        {"group_begin_log", call_group_begin}, {"clear", call_clear}};
    size_t most[CALLS] = {0}, nothing = painted(call_nothing), k, took;
    long round;
    call_begin();
    call_group_begin();
    for (round = 0; round < ROUNDS; round++) {
        fresh();
        for (k = 0; k < OFTEN; k++) {
            if ((k == 2 || k == 3) && round % 64) continue; /* the log is judged and mended while it grows */
            took = painted(calls[k].call);
            if (took > most[k]) most[k] = took;
        }
        if (round % 200 == 100) call_group_clear();
        if (round % 200 == 0)
            for (k = OFTEN; k < CALLS; k++) {
                took = painted(calls[k].call);
                if (took > most[k]) most[k] = took;
            }
    }
    for (k = 0; k < CALLS; k++) report(calls[k].name, most[k], nothing);
    return failed;
}
