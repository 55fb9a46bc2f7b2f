/* Scripts as Rehearse reads them, and its calls on an area of 8,192 words. */
#include "script.h"

#include <string.h>

#include "../include/kernel.h"

/* The numbers from `at` on, each after one space; false where the bytes are something else. */
static bool read_numbers(const char *at, const char *end, struct call *call)
{
    call->count = 0;
    while (at < end) {
        unsigned value = 0;
        const char *first = ++at;
        for (; at < end && *at != ' '; at++) {
            if (*at < '0' || *at > '9')
                return false;
            value = 10 * value + (unsigned)(*at - '0');
            if (value > HIGHEST_NUMBER)
                return false;
        }
        if (at == first)
            return false;
        call->numbers[call->count++] = (uint16_t)value;
    }
    return true;
}

static bool are_bytes(const uint16_t *numbers, size_t count)
{
    for (size_t i = 0; i < count; i++)
        if (numbers[i] > HIGHEST_BYTE)
            return false;
    return true;
}

/* The name of a call with so many numbers. */
static enum name name_of(const char *word, size_t length, const struct call *call)
{
#define IS(wanted, numbers) (call->count == (numbers) && length == sizeof wanted - 1 && memcmp(word, wanted, sizeof wanted - 1) == 0)
    if (IS("enter", 1))
        return ENTER;
    if (IS("exit", 1))
        return EXIT;
    if (IS("wait", 3))
        return WAIT;
    if (IS("notify", 1))
        return NOTIFY;
    if (IS("broadcast", 1))
        return BROADCAST;
    if (IS("naked", 1))
        return NAKED;
    if (IS("requeue", 3))
        return REQUEUE;
    if (IS("setpriority", 1))
        return SET_PRIORITY;
    if (IS("tick", 0))
        return TICK;
    if (IS("abort", 1))
        return ABORT;
    if (IS("setabortable", 2))
        return SET_ABORTABLE;
    if (IS("reenter", 2))
        return REENTER;
    if (call->count >= COUNTS && IS("start", call->count) && are_bytes(call->numbers + COUNTS, call->count - COUNTS))
        return START;
    return NO_CALL;
#undef IS
}

bool read_call(const char *line, size_t length, struct call *call)
{
    const char *end = line + length, *space = memchr(line, ' ', length);
    const char *name_end = space != NULL ? space : end;
    bool numbers = length <= LONGEST_LINE && read_numbers(name_end, end, call);
    call->name = numbers ? name_of(line, (size_t)(name_end - line), call) : NO_CALL;
    return call->name != NO_CALL;
}

static uint64_t start(const struct call *call, uint16_t area[AREA_WORDS])
{
    static uint8_t priorities[LONGEST_LINE / 2];
    const uint16_t *n = call->numbers;
    for (size_t i = COUNTS; i < call->count; i++)
        priorities[i - COUNTS] = (uint8_t)n[i];
    return kernel_start(area, AREA_WORDS, n[0], n[1], n[2], n[3], priorities, call->count - COUNTS);
}

uint64_t perform(const struct call *call, uint16_t area[AREA_WORDS])
{
    const uint16_t *n = call->numbers;
    switch (call->name) {
    case START: return start(call, area);
    case ENTER: return kernel_enter(area, AREA_WORDS, n[0]);
    case EXIT: return kernel_exit(area, AREA_WORDS, n[0]);
    case WAIT: return kernel_wait(area, AREA_WORDS, n[0], n[1], n[2]);
    case NOTIFY: return kernel_notify(area, AREA_WORDS, n[0]);
    case BROADCAST: return kernel_broadcast(area, AREA_WORDS, n[0]);
    case NAKED: return kernel_naked(area, AREA_WORDS, n[0]);
    case REQUEUE: return kernel_requeue(area, AREA_WORDS, n[0], n[1], n[2]);
    case SET_PRIORITY: return kernel_set_priority(area, AREA_WORDS, n[0]);
    case TICK: return kernel_tick(area, AREA_WORDS);
    case ABORT: return kernel_abort(area, AREA_WORDS, n[0]);
    case SET_ABORTABLE: return kernel_set_abortable(area, AREA_WORDS, n[0], n[1]);
    case REENTER: return kernel_reenter(area, AREA_WORDS, n[0], n[1]);
    case NO_CALL: break;
    }
    return 0;
}
