/* twin.c: the twins as one file, so that the compiler may merge them as ours are merged. */
#include "twin_number.c"
#include "twin_group.c"
#include "twin_step.c"
#include "twin_octets.c"
#include "twin_judge.c"
