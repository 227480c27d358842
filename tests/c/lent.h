/* Buffers as a host lends them, set up so that a touch out of place shows: what a line of the protocol can't tell. */
#ifndef LENT_H
#define LENT_H
#include <stdbool.h>
#include <stddef.h>
#include <stdint.h>

/* A lent buffer lies right in front of memory that can't be touched: one octet too far, read or written, ends the program by a signal. In front of it, and in it
 * where nothing else is asked for, stands a pattern. */
struct lent {
    uint8_t *octets;
    size_t length;
    const uint8_t *source; /* what it was filled with; NULL for the pattern */
    uint8_t *whole;
    size_t size;
};

struct lent lend(size_t length);
struct lent lend_octets(const uint8_t *octets, size_t count);
/* Whether all but its first `changed` octets, and what stands in front of it, is as it was. */
bool kept(const struct lent *lent, size_t changed);
void give_back(struct lent *lent);

/* Says on standard error what was not as promised, at which line, for the first ten; `promises_broken` counts them all. */
void promise(bool held, const char *what);
extern unsigned long line_number, promises_broken, refusals_seen;
#endif
