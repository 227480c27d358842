/* stack.h: how much stack a judgement takes. */
#ifndef STACK_H
#define STACK_H
#include "logs.h"

/* Prints the bytes of stack that ours and the twin take on the large log, behind a prefix, and gives ours. */
size_t show_stack(const char *prefix, const struct logs *logs);
#endif
