/* The command `mend`. */
#include "commands.h"
#include <stdio.h>

static void look_at_mending(struct heidezirkel_mending mended, const struct lent *settings, const struct lent *log, const struct lent *copy) {
    bool takes = mended.answer == HEIDEZIRKEL_TAKEN;
    promise(takes || (mended.kept == 0 && mended.dropped == 0 && mended.ending == 0 && mended.length == 0), "mend: refused, and a number beside it");
    promise(kept(copy, mended.length), "mend: an octet behind the copy changed");
    refusals_seen += !takes;
    if (!takes)
        return;
    struct heidezirkel_judgement judged = heidezirkel_judge(settings->octets, copy->octets, mended.length);
    promise(judged.answer == HEIDEZIRKEL_TAKEN && judged.entry == mended.kept, "mend: the copy is not accepted with the entries kept");
    promise(heidezirkel_judge(settings->octets, log->octets, log->length).answer == mended.ending, "mend: ended by another answer than the judge's");
}

bool mend_command(struct line *line, enum call call) {
    (void)call;
    uint8_t own[HEIDEZIRKEL_SETTINGS_OCTETS];
    settings_words(line, own);
    size_t room = number_word(line, UINT32_MAX);
    struct octets bytes = octets_word(line);
    if (!whole(line))
        return false;
    struct lent settings = lend_octets(own, HEIDEZIRKEL_SETTINGS_OCTETS);
    struct lent log = lend_octets(bytes.at, bytes.count);
    struct lent copy = lend(room);
    struct heidezirkel_mending mended = heidezirkel_mend(settings.octets, log.octets, log.length, copy.octets, copy.length);
    look_at_mending(mended, &settings, &log, &copy);
    promise(kept(&settings, 0) && kept(&log, 0), "mend: settings or log changed");
    printf("%u", mended.answer);
    if (mended.answer == HEIDEZIRKEL_TAKEN) {
        printf(" %zu %zu %u ", mended.kept, mended.dropped, mended.ending);
        print_octets(copy.octets, mended.length);
    }
    give_back(&settings);
    give_back(&log);
    give_back(&copy);
    return true;
}
