/* vectors: answers the commands of the line protocol (docs/PROBE.md) on standard input through the C library, a line each on standard output. Its status is 1
 * where a lent octet changed that must not, or another promise was broken; standard error then says at which line. Its last line there counts. */
#include "commands.h"
#include <stdio.h>
#include <stdlib.h>

static const struct command {
    const char *name;
    bool (*answer)(struct line *line, enum call call);
    enum call call;
} commands[] = {
    {"read", read_command, BROADCAST},   {"write", write_command, BROADCAST},       {"step", step_command, BROADCAST},
    {"record", record_command, BROADCAST}, {"settings", settings_command, BROADCAST}, {"judge", judge_command, BROADCAST},
    {"gread", read_command, GROUP},      {"gwrite", write_command, GROUP},          {"gstep", step_command, GROUP},
    {"grecord", record_command, GROUP},   {"mend", mend_command, BROADCAST},
};

static bool answer(const char *text, size_t length, uint8_t *room) {
    struct line line = line_of(text, length, room);
    struct octets name = word(&line);
    for (size_t i = 0; i < sizeof commands / sizeof commands[0]; i++)
        if (is_word(name, commands[i].name))
            return commands[i].answer(&line, commands[i].call);
    return false;
}

/* The next line without its end, into LONGEST_LINE characters; one more than that for a longer line; -1 at the end of the input. */
static long next_line(char *text) {
    long length = 0;
    int byte = getchar();
    if (byte == EOF)
        return -1;
    for (; byte != EOF && byte != '\n'; byte = getchar())
        if (length < LONGEST_LINE)
            text[length++] = (char)byte;
        else
            length = LONGEST_LINE + 1;
    return length;
}

int main(void) {
    char *text = malloc(LONGEST_LINE);
    uint8_t *room = malloc(LONGEST_LINE / 2);
    if (!text || !room)
        return 2;
    for (long length = next_line(text); length >= 0; length = next_line(text)) {
        line_number++;
        if (length > LONGEST_LINE || !answer(text, (size_t)length, room))
            putchar('?');
        putchar('\n');
    }
    free(text);
    free(room);
    fprintf(stderr, "%lu lines, %lu refused calls, %lu promises broken\n", line_number, refusals_seen, promises_broken);
    return promises_broken > 0 || ferror(stdout) ? 1 : 0;
}
