/* Lent buffers: see lent.h. */
#define _DEFAULT_SOURCE
#include "lent.h"
#include <stdio.h>
#include <stdlib.h>
#include <string.h>
#include <sys/mman.h>

/* A multiple of the page size of every machine that we run on. */
#define PAGE 65536u
#define FRONT 64u
/* A buffer may be lent with up to 4 GiB: only so much at its beginning and at its end is filled and looked at. */
#define WATCHED 262144u
#define MOST_TOLD 10

unsigned long line_number, promises_broken, refusals_seen;

void promise(bool held, const char *what) {
    if (held)
        return;
    promises_broken++;
    if (promises_broken <= MOST_TOLD)
        fprintf(stderr, "line %lu: not as promised: %s\n", line_number, what);
}

static uint8_t pattern(size_t place) {
    return (uint8_t)(0xa5 ^ (place * 29));
}

static uint8_t held_before(const struct lent *lent, size_t place) {
    return lent->source ? lent->source[place] : pattern(place);
}

/* The places from the first to the last that are watched: those in between are skipped. */
static size_t next_watched(const struct lent *lent, size_t place) {
    size_t next = place + 1;
    return next == WATCHED && lent->length > 2 * WATCHED ? lent->length - WATCHED : next;
}

static void fill(struct lent *lent) {
    for (size_t i = 0; i < FRONT; i++)
        lent->octets[-1 - (ptrdiff_t)i] = pattern(i);
    for (size_t i = 0; i < lent->length; i = next_watched(lent, i))
        lent->octets[i] = held_before(lent, i);
}

static struct lent lend_filled(const uint8_t *source, size_t length) {
    size_t body = (FRONT + length + PAGE - 1) / PAGE * PAGE;
    size_t size = body + PAGE;
    uint8_t *at = mmap(NULL, size, PROT_READ | PROT_WRITE, MAP_PRIVATE | MAP_ANONYMOUS | MAP_NORESERVE, -1, 0);
    if (at == MAP_FAILED || mprotect(at + body, PAGE, PROT_NONE) != 0) {
        perror("no memory for a lent buffer");
        exit(2);
    }
    struct lent lent = {at + body - length, length, source, at, size};
    fill(&lent);
    return lent;
}

struct lent lend(size_t length) {
    return lend_filled(NULL, length);
}

struct lent lend_octets(const uint8_t *octets, size_t count) {
    return lend_filled(octets, count);
}

bool kept(const struct lent *lent, size_t changed) {
    for (size_t i = 0; i < FRONT; i++)
        if (lent->octets[-1 - (ptrdiff_t)i] != pattern(i))
            return false;
    for (size_t i = changed; i < lent->length; i = next_watched(lent, i))
        if (lent->octets[i] != held_before(lent, i))
            return false;
    return true;
}

void give_back(struct lent *lent) {
    munmap(lent->whole, lent->size);
}
