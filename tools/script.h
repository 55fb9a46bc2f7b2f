/* Scripts as Rehearse reads them: a line to a call, and a call performed. For show, and for the baseline of Rehearse's speed. */
#ifndef SCRIPT_H
#define SCRIPT_H

#include <stdbool.h>
#include <stddef.h>
#include <stdint.h>

enum { AREA_WORDS = 8192, LONGEST_LINE = 8192, HIGHEST_NUMBER = 65535, HIGHEST_BYTE = 255, COUNTS = 4 };

enum name { START, ENTER, EXIT, WAIT, NOTIFY, BROADCAST, NAKED, REQUEUE, SET_PRIORITY, TICK, ABORT, SET_ABORTABLE, REENTER, NO_CALL };

struct call {
    enum name name;
    size_t count; /* of its numbers; a start's are COUNTS and then its bytes */
    uint16_t numbers[LONGEST_LINE / 2];
};

/* Whether a line, without its newline, is a call; and which. */
bool read_call(const char *line, size_t length, struct call *call);

/* Its answer, and the area that it leaves. */
uint64_t perform(const struct call *call, uint16_t area[AREA_WORDS]);

#endif
