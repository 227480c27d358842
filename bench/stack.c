/* stack.c: how much stack a judgement takes, ours and the twin's, by painting. */
#include <stdio.h>
#include "painted.h"
#include "stack.h"

static const struct logs *subject;
static volatile size_t kept;

static void on_nothing(void)
{
}

static void on_ours(void)
{
    kept += heidezirkel_judge(bench_settings, subject->large.bytes, subject->large.used).entry;
}

static void on_twin(void)
{
    kept += twin_judge(bench_settings, subject->large.bytes, subject->large.used).entry;
}

size_t show_stack(const char *prefix, const struct logs *logs)
{
    subject = logs;
    size_t nothing = painted(on_nothing);
    size_t ours = painted(on_ours) - nothing;
    size_t twin = painted(on_twin) - nothing;
    printf("%sstack of a judgement: ours %zu bytes, twin %zu bytes\n", prefix, ours, twin);
    return ours;
}
