/* Steps and logs as a host plays them: see played.h. */
#include "played.h"
#include <string.h>

const uint8_t settings[21] = {3, 0x33, 0x19, 0xa2, 4, 0xf4, 0x23, 0xa1, 0xb2, 0, 0, 0, 0, 0xe0, 0x2e, 0, 0, 0x60, 0xea, 0, 0};
const uint8_t nothing[1];

void happen(struct recording *now, uint32_t delta, struct heidezirkel_event event, const uint8_t *message, size_t length) {
    struct heidezirkel_step step =
        heidezirkel_step(now->context, settings, event, message, length, now->reply, sizeof now->reply);
    struct heidezirkel_used recorded = heidezirkel_record(now->log.octets, now->log.length, now->used, delta, event, message, length, step,
        now->context, now->reply, step.reply_length);
    EXPECT(recorded.answer == HEIDEZIRKEL_TAKEN);
    now->used = recorded.used;
    EXPECT(kept(&now->log, now->used));
}

void leads(const uint8_t before[16], uint32_t event, const uint8_t *message, size_t length, const uint8_t after[16], uint32_t actions) {
    struct lent context = lend_octets(before, 16);
    uint8_t reply[255];
    struct heidezirkel_step step =
        heidezirkel_step(context.octets, settings, (struct heidezirkel_event){.number = event}, message, length, reply, sizeof reply);
    EXPECT(step.answer == HEIDEZIRKEL_TAKEN && step.actions == actions);
    EXPECT(memcmp(context.octets, after, 16) == 0);
    give_back(&context);
}

uint32_t answer_in(const uint8_t octets[16], uint32_t event) {
    struct lent context = lend_octets(octets, 16);
    uint8_t reply[255];
    struct heidezirkel_step step =
        heidezirkel_step(context.octets, settings, (struct heidezirkel_event){.number = event}, nothing, 0, reply, sizeof reply);
    EXPECT(step.answer == HEIDEZIRKEL_TAKEN || kept(&context, 0));
    refusals_seen += step.answer != HEIDEZIRKEL_TAKEN;
    give_back(&context);
    return step.answer;
}

bool accepts(struct heidezirkel_judgement judged, size_t entries, uint32_t least, uint32_t greatest, uint32_t invitation_least,
    uint32_t invitation_greatest) {
    return judged.answer == HEIDEZIRKEL_TAKEN && judged.entry == entries && judged.least_ms == least && judged.greatest_ms == greatest
        && judged.invitation_least_ms == invitation_least && judged.invitation_greatest_ms == invitation_greatest;
}

bool refuses(struct heidezirkel_judgement judged, uint32_t answer, size_t entry) {
    refusals_seen += judged.answer != HEIDEZIRKEL_TAKEN;
    return judged.answer == answer && judged.entry == entry && judged.least_ms == 0 && judged.greatest_ms == 0 && judged.invitation_least_ms == 0
        && judged.invitation_greatest_ms == 0;
}
