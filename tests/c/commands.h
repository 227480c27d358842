/* The commands of the line protocol (docs/PROBE.md), answered through the C library; of a group call by the functions of group calls. Each takes the words behind its
 * own and prints its answer without the line's end, or prints nothing and is false where the line is malformed. Each also looks at what a line can't show: see
 * lent.h. */
#ifndef COMMANDS_H
#define COMMANDS_H
#include "heidezirkel.h"
#include "lent.h"
#include "line.h"

enum call { BROADCAST, GROUP };

bool read_command(struct line *line, enum call call);
bool write_command(struct line *line, enum call call);
bool step_command(struct line *line, enum call call);
bool record_command(struct line *line, enum call call);
/* Settings and logs are of any call. */
bool settings_command(struct line *line, enum call call);
bool judge_command(struct line *line, enum call call);
bool mend_command(struct line *line, enum call call);

/* The words KEY CLASSMARK IDENTITY as settings octets; those behind the identity, and the timers', hold what may be anything. */
void settings_words(struct line *line, uint8_t settings[HEIDEZIRKEL_SETTINGS_OCTETS]);
/* The words EVENT EVALUE EREFERENCE MODE, value and mode up to `greatest`. */
struct heidezirkel_event event_words(struct line *line, uint32_t greatest);
/* A number as the octet that C has room for: one that is too large for it stays out of range. */
uint8_t clipped(uint32_t number);
#endif
