/* painted.h: how much stack a call takes, by painting. */
#ifndef PAINTED_H
#define PAINTED_H
#include <stddef.h>

/* Runs the function on a stack of its own that was filled with one octet, and counts what is no longer that octet: the function's own frames and
 * what begins it. A function that does nothing tells how much the latter is. */
size_t painted(void (*function)(void));
#endif
