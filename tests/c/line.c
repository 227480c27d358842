/* The words of a command line: see line.h. */
#include "line.h"
#include <stdio.h>
#include <string.h>

struct line line_of(const char *text, size_t length, uint8_t *room) {
    return (struct line){text, length, false, true, room};
}

/* The next word: up to the next space or the end. An empty one is no word, so two spaces in a row and one at an end are malformed. */
struct octets word(struct line *line) {
    struct octets none = {(const uint8_t *)line->rest, 0};
    if (line->ended) {
        line->good = false;
        return none;
    }
    const char *space = memchr(line->rest, ' ', line->left);
    size_t count = space ? (size_t)(space - line->rest) : line->left;
    struct octets found = {(const uint8_t *)line->rest, count};
    line->ended = !space;
    line->good = line->good && count > 0;
    line->rest += space ? count + 1 : count;
    line->left -= space ? count + 1 : count;
    return found;
}

bool is_word(struct octets word, const char *text) {
    return word.count == strlen(text) && memcmp(word.at, text, word.count) == 0;
}

/* Decimal, no leading zero, at most `greatest`. Ten digits hold every number of the protocol. */
uint32_t number_word(struct line *line, uint32_t greatest) {
    struct octets digits = word(line);
    uint64_t value = 0;
    bool good = digits.count > 0 && digits.count <= 10 && (digits.count == 1 || digits.at[0] != '0');
    for (size_t i = 0; good && i < digits.count; i++) {
        good = digits.at[i] >= '0' && digits.at[i] <= '9';
        value = value * 10 + (uint64_t)(digits.at[i] - '0');
    }
    good = good && value <= greatest;
    line->good = line->good && good;
    return good ? (uint32_t)value : 0;
}

static int hex_digit(uint8_t byte) {
    if (byte >= '0' && byte <= '9')
        return byte - '0';
    if (byte >= 'a' && byte <= 'f')
        return byte - 'a' + 10;
    return -1;
}

/* Lower-case hex, two digits an octet; `-` is no octets. They are put behind those of the words before. */
struct octets octets_word(struct line *line) {
    struct octets digits = word(line);
    struct octets none = {line->room, 0};
    if (is_word(digits, "-"))
        return none;
    line->good = line->good && digits.count % 2 == 0;
    for (size_t i = 0; line->good && i < digits.count / 2; i++) {
        int high = hex_digit(digits.at[2 * i]);
        int low = hex_digit(digits.at[2 * i + 1]);
        line->good = high >= 0 && low >= 0;
        line->room[i] = (uint8_t)(high * 16 + low);
    }
    if (!line->good)
        return none;
    line->room += digits.count / 2;
    return (struct octets){none.at, digits.count / 2};
}

void exact_word(struct line *line, uint8_t *octets, size_t count) {
    struct octets found = octets_word(line);
    memset(octets, 0, count);
    line->good = line->good && found.count == count;
    if (line->good)
        memcpy(octets, found.at, count);
}

bool optional_word(struct line *line, uint8_t *value) {
    *value = 0;
    if (!line->ended && line->left > 0 && line->rest[0] == '-') {
        line->good = is_word(word(line), "-") && line->good;
        return false;
    }
    *value = (uint8_t)number_word(line, 255);
    return true;
}

bool whole(const struct line *line) {
    return line->good && line->ended;
}

void print_octets(const uint8_t *octets, size_t count) {
    if (count == 0)
        putchar('-');
    for (size_t i = 0; i < count; i++) {
        putchar("0123456789abcdef"[octets[i] / 16]);
        putchar("0123456789abcdef"[octets[i] % 16]);
    }
}
