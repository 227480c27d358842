/* What is promised of a log that is mended: what the copy holds, and that nothing else of its buffer changes. */
#include "played.h"
#include <stdlib.h>
#include <string.h>

/* A call is notified, and joined 2,500 ms later; then the radio listens. */
enum { FIRST_ENDS = 13, SECOND_ENDS = 21, JOIN_ACTIONS = 19 };
static const uint8_t joined[] = {
    0x03,
    0x00, 0x0a, 0x01, 1, 2, 3, 4, 0x00, 0x04, 0x00, 0x01, 0x00,
    0xc4, 0x13, 0x03, 0x00, 0x05, 0x00, 0x04, 0x00,
    0xa0, 0x9c, 0x01, 0x0b, 0x00, 0x07, 0x02, 0x01, 0x00,
};

/* A log of so many octets is mended into a buffer of so many; `expected` is the copy. */
static bool mends(const uint8_t *log, size_t length, size_t room, struct heidezirkel_mending expected, const uint8_t *octets) {
    struct lent lent = lend_octets(log, length);
    struct lent copy = lend(room);
    struct heidezirkel_mending found = heidezirkel_mend(settings, lent.octets, length, copy.octets, room);
    bool same = found.answer == expected.answer && found.kept == expected.kept && found.dropped == expected.dropped && found.ending == expected.ending
        && found.length == expected.length && kept(&lent, 0) && kept(&copy, expected.length) && memcmp(copy.octets, octets, expected.length) == 0;
    refusals_seen += found.answer != HEIDEZIRKEL_TAKEN;
    give_back(&lent);
    give_back(&copy);
    return same;
}

static struct heidezirkel_mending mended(size_t entries, size_t dropped, uint32_t ending, size_t length) {
    return (struct heidezirkel_mending){.answer = HEIDEZIRKEL_TAKEN, .kept = entries, .dropped = dropped, .ending = ending, .length = length};
}

static struct heidezirkel_mending refused(uint32_t answer) { return (struct heidezirkel_mending){.answer = answer}; }

/* Cut at every place: the entries that are whole are kept. */
static void check_cuts(void) {
    for (size_t length = 1; length < sizeof joined; length++) {
        size_t ends = length < FIRST_ENDS ? 1 : length < SECOND_ENDS ? FIRST_ENDS : SECOND_ENDS;
        size_t entries = length < FIRST_ENDS ? 0 : length < SECOND_ENDS ? 1 : 2;
        uint32_t ending = length == ends ? HEIDEZIRKEL_TAKEN : HEIDEZIRKEL_UNREADABLE_LOG;
        EXPECT(mends(joined, length, length, mended(entries, length - ends, ending, ends), joined));
        EXPECT(mends(joined, length, length - 1, refused(HEIDEZIRKEL_SHORT_BUFFER), joined));
    }
    EXPECT(mends(joined, sizeof joined, sizeof joined, mended(3, 0, HEIDEZIRKEL_TAKEN, sizeof joined), joined));
    EXPECT(mends(joined, sizeof joined, sizeof joined + 9, mended(3, 0, HEIDEZIRKEL_TAKEN, sizeof joined), joined));
    EXPECT(mends(joined, sizeof joined, sizeof joined - 1, refused(HEIDEZIRKEL_SHORT_BUFFER), joined));
}

/* An entry that no timer explains; and a version whose first entry is bad, a join in U0 that is said to be taken, stays as it stood. */
static void check_unexplained(void) {
    static const uint8_t versions[] = {1, 2, 3, 16};
    uint8_t log[sizeof joined], bad[] = {0x01, 0x00, 0x03, 0x00, 0x05, 0x00, 0x04, 0x00};
    memcpy(log, joined, sizeof log);
    log[JOIN_ACTIONS] ^= 8;
    EXPECT(mends(log, sizeof log, sizeof log, mended(1, sizeof log - FIRST_ENDS, HEIDEZIRKEL_UNEXPLAINED, FIRST_ENDS), log));
    for (size_t i = 0; i < sizeof versions; i++) {
        bad[0] = versions[i];
        EXPECT(mends(bad, sizeof bad, sizeof bad, mended(0, 7, HEIDEZIRKEL_UNEXPLAINED, 1), bad));
        EXPECT(mends(bad, 2, 2, mended(0, 1, HEIDEZIRKEL_UNREADABLE_LOG, 1), bad));
    }
}

/* Entry 0 can't be read. */
static void check_no_version(void) {
    static const uint8_t one[] = {1}, other[] = {4, 0, 0}, cut[] = {0x80};
    EXPECT(mends(nothing, 0, 0, refused(HEIDEZIRKEL_SHORT_BUFFER), one));
    EXPECT(mends(nothing, 0, 1, mended(0, 0, HEIDEZIRKEL_UNREADABLE_LOG, 1), one));
    EXPECT(mends(other, 3, 3, mended(0, 3, HEIDEZIRKEL_UNREADABLE_LOG, 1), one));
    EXPECT(mends(other, 3, 2, refused(HEIDEZIRKEL_SHORT_BUFFER), one));
    EXPECT(mends(cut, 1, 1, mended(0, 1, HEIDEZIRKEL_UNREADABLE_LOG, 1), one));
}

/* 10 comes before 4, and 4 before 5. */
static void check_order(void) {
    static const uint8_t none[21];
    uint8_t *long_log = calloc(HEIDEZIRKEL_LOG_OCTETS + 1, 1);
    struct lent copy = lend(1);
    EXPECT(long_log != NULL);
    if (long_log == NULL)
        return;
    EXPECT(heidezirkel_mend(none, long_log, HEIDEZIRKEL_LOG_OCTETS + 1, copy.octets, 1).answer == HEIDEZIRKEL_LONG_LOG);
    EXPECT(heidezirkel_mend(none, long_log, HEIDEZIRKEL_LOG_OCTETS, copy.octets, 1).answer == HEIDEZIRKEL_OUT_OF_RANGE);
    EXPECT(heidezirkel_mend(settings, long_log, HEIDEZIRKEL_LOG_OCTETS, copy.octets, 1).answer == HEIDEZIRKEL_SHORT_BUFFER);
    EXPECT(kept(&copy, 0));
    free(long_log);
    give_back(&copy);
}

void check_mending(void) {
    check_cuts();
    check_unexplained();
    check_no_version();
    check_order();
}
