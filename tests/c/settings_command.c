/* The command `settings`. */
#include "commands.h"
#include <stdio.h>

static void look_at_settings(struct heidezirkel_settings read, const struct lent *settings) {
    bool takes = read.answer == HEIDEZIRKEL_TAKEN;
    promise(kept(settings, takes ? HEIDEZIRKEL_SETTINGS_OCTETS : 0), "settings: refused, and an octet changed");
    promise(takes == (read.line == 0) && takes == (read.fault == 0), "settings: line and fault stand exactly with a refusal");
    promise(read.fault <= HEIDEZIRKEL_LINE_MISSING_INVITATION, "settings: a fault over 13");
    promise(takes || (read.joining_ms == 0 && read.invitation_ms == 0), "settings: refused, and a timer");
    refusals_seen += !takes;
}

static uint32_t four_octets(const uint8_t *octets) {
    return octets[0] + 256u * octets[1] + 65536u * octets[2] + 16777216u * octets[3];
}

static void print_settings(struct heidezirkel_settings read, const uint8_t *settings) {
    printf("0 %u ", settings[0]);
    print_octets(settings + 1, 3);
    putchar(' ');
    print_octets(settings + 5, settings[4]);
    printf(" %u %u", read.joining_ms, read.invitation_ms);
    for (size_t i = 5 + (size_t)settings[4]; i < 13; i++)
        promise(settings[i] == 0, "settings: an octet behind the identity is not zero");
    promise(four_octets(settings + 13) == read.joining_ms, "settings: octets 13 to 16 are not the joining timer");
    promise(four_octets(settings + 17) == read.invitation_ms, "settings: octets 17 to 20 are not the invitation timer");
}

bool settings_command(struct line *line, enum call call) {
    (void)call;
    struct octets bytes = octets_word(line);
    if (!whole(line))
        return false;
    struct lent file = lend_octets(bytes.at, bytes.count);
    struct lent settings = lend(HEIDEZIRKEL_SETTINGS_OCTETS);
    struct heidezirkel_settings read = heidezirkel_read_settings(file.octets, file.length, settings.octets);
    look_at_settings(read, &settings);
    promise(kept(&file, 0), "settings: the file changed");
    if (read.answer != HEIDEZIRKEL_TAKEN)
        printf("%u %zu", read.answer, read.line);
    else if (settings.octets[4] > 8)
        promise(false, "settings: an identity over 8 octets");
    else
        print_settings(read, settings.octets);
    give_back(&file);
    give_back(&settings);
    return true;
}
