/* The words of a command line (docs/PROBE.md): taken one after the other, and whether all of them were what they had to be. */
#ifndef LINE_H
#define LINE_H
#include <stdbool.h>
#include <stddef.h>
#include <stdint.h>

#define LONGEST_LINE 262144

struct octets {
    const uint8_t *at;
    size_t count;
};

/* A line as far as its words are taken. `good` is false once a word was none of what was asked for; what is taken then is 0 or no octets. */
struct line {
    const char *rest;
    size_t left;
    bool ended; /* the last word is taken */
    bool good;
    uint8_t *room; /* where the octets of its words go: LONGEST_LINE / 2 are enough */
};

struct line line_of(const char *text, size_t length, uint8_t *room);
struct octets word(struct line *line);
bool is_word(struct octets word, const char *text);
uint32_t number_word(struct line *line, uint32_t greatest);
struct octets octets_word(struct line *line);
void exact_word(struct line *line, uint8_t *octets, size_t count);
/* A number up to 255, or `-`: then false. */
bool optional_word(struct line *line, uint8_t *value);
/* Whether the line was good and has no further word. */
bool whole(const struct line *line);

void print_octets(const uint8_t *octets, size_t count);
#endif
