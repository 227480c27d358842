/* painted.c: how much stack a call takes, by painting (painted.h). */
#define _XOPEN_SOURCE 700
#include "painted.h"
#include <string.h>
#include <ucontext.h>

enum { ROOM = 65536, PAINT = 0xa5 };

static unsigned char room[ROOM] __attribute__((aligned(64)));
static ucontext_t home, away;

size_t painted(void (*function)(void)) {
    size_t untouched = 0;
    memset(room, PAINT, ROOM);
    getcontext(&away);
    away.uc_stack.ss_sp = room;
    away.uc_stack.ss_size = ROOM;
    away.uc_link = &home;
    makecontext(&away, function, 0);
    swapcontext(&home, &away);
    while (untouched < ROOM && room[untouched] == PAINT)
        untouched++;
    return ROOM - untouched;
}
