/* Plays a script through the library and keeps, for each line, its answer and where everybody stands. */
#include <stdlib.h>
#include <string.h>

#include "../include/kernel.h"
#include "show.h"

static uint16_t area[AREA_WORDS];

/* ---- reading a view */

unsigned queues(const struct view *view)
{
    return 1 + view->parks + view->locks + view->conditions;
}

unsigned lock_queue(const struct view *view, unsigned lock)
{
    return view->parks + lock;
}

unsigned condition_queue(const struct view *view, unsigned condition)
{
    return view->parks + view->locks + condition;
}

uint16_t kind_of(const struct view *view, unsigned queue)
{
    if (queue == 0)
        return KERNEL_READY;
    if (queue <= view->parks)
        return KERNEL_PARK;
    return queue <= view->parks + view->locks ? KERNEL_LOCK : KERNEL_CONDITION;
}

unsigned number_of(const struct view *view, unsigned queue)
{
    switch (kind_of(view, queue)) {
    case KERNEL_LOCK: return queue - view->parks;
    case KERNEL_CONDITION: return queue - view->parks - view->locks;
    default: return queue;
    }
}

bool accepted(const struct step *step)
{
    return step->why_not == NULL && KERNEL_CODE(step->answer) == KERNEL_OK;
}

/* ---- looking at the area */

static void *room(size_t size)
{
    void *memory = calloc(1, size);
    if (memory == NULL) {
        fputs("show: no memory\n", stderr);
        exit(EXIT_FAILURE);
    }
    return memory;
}

static void look_at_queues(struct view *view)
{
    uint16_t at = 0;
    for (unsigned q = 0; q < queues(view); q++) {
        uint64_t a = kernel_list(area, AREA_WORDS, kind_of(view, q), (uint16_t)number_of(view, q), view->standing + at,
                                 (size_t)(MOST_PROCESSES - at));
        for (unsigned i = 0; i < KERNEL_COUNT(a); i++)
            view->queue_of[view->standing[at + i]] = (uint16_t)q;
        view->from[q] = at;
        at = (uint16_t)(at + KERNEL_COUNT(a));
    }
    view->from[queues(view)] = at;
}

static void look_at_timers(struct view *view)
{
    static uint16_t due[2 * MOST_PROCESSES];
    uint64_t a = kernel_due(area, AREA_WORDS, 65535, due, 2 * MOST_PROCESSES);
    for (unsigned i = 0; i < KERNEL_DUE_COUNT(a); i++)
        view->ticks_left[due[2 * i]] = due[2 * i + 1];
}

/* Holders and wakeups stand in the yard sheet, in columns 23 to 26 and 28 of a queue's row. */
static void look_at_sheet(struct view *view)
{
    enum { ROW = 29, HOLDER = 22, HOLDER_END = 26, WAKEUP = 27 };
    static uint8_t page[ROW * MOST_QUEUES];
    kernel_sheet(area, AREA_WORDS, page, sizeof page);
    for (unsigned q = 0; q < queues(view); q++) {
        const uint8_t *row = page + ROW * q;
        for (int i = HOLDER; i < HOLDER_END; i++)
            if (row[i] != ' ')
                view->holder[q] = (uint16_t)(10 * view->holder[q] + (row[i] - '0'));
        view->wakeup[q] = row[WAKEUP] == '1';
    }
}

/* The view after an accepted call: a start's counts, or those of before. */
static const struct view *look(const struct step *step, const struct view *before)
{
    struct view *view = room(sizeof *view);
    const uint16_t *n = step->numbers;
    view->processes = step->name == START ? n[0] : before->processes;
    view->locks = step->name == START ? n[1] : before->locks;
    view->conditions = step->name == START ? n[2] : before->conditions;
    view->parks = step->name == START ? n[3] : before->parks;
    view->running = KERNEL_RUNNING(step->answer);
    look_at_queues(view);
    look_at_timers(view);
    look_at_sheet(view);
    return view;
}

/* ---- playing */

static void take(struct step *step, const char *line, size_t length, const struct view *before)
{
    static struct call call;
    step->line = line;
    step->length = length;
    step->view = before;
    if (!read_call(line, length, &call)) {
        step->why_not = why_no_call(line, length);
        return;
    }
    step->name = call.name;
    memcpy(step->numbers, call.numbers, sizeof step->numbers);
    step->answer = perform(&call, area);
    if (accepted(step))
        step->view = look(step, before);
}

struct run play(const char *script, size_t length)
{
    const char *end = script + length;
    struct run run = {NULL, 0};
    size_t lines = length > 0 && end[-1] != '\n';
    for (const char *at = script; at < end; at++)
        lines += *at == '\n';
    run.steps = room((lines + 1) * sizeof *run.steps);
    for (const char *line = script; run.count < lines; run.count++) {
        const char *newline = memchr(line, '\n', (size_t)(end - line));
        const char *line_end = newline != NULL ? newline : end;
        take(&run.steps[run.count], line, (size_t)(line_end - line), run.count > 0 ? run.steps[run.count - 1].view : NULL);
        line = line_end + 1;
    }
    return run;
}

/* ---- stretches */

static bool begins(const struct step *step)
{
    return accepted(step) && step->name == START;
}

bool next_stretch(const struct run *run, size_t most, struct stretch *stretch)
{
    size_t at = stretch->end;
    while (at < run->count && run->steps[at].view == NULL)
        at++;
    stretch->from = stretch->end = at;
    while (stretch->end < run->count && stretch->end - at < most && (stretch->end == at || !begins(&run->steps[stretch->end])))
        stretch->end++;
    return at < run->count;
}

/* ---- printing */

void printable(const struct step *step, size_t most, char shown[SHOWN_SIZE])
{
    size_t fits = step->length <= most ? step->length : most - 2;
    for (size_t i = 0; i < fits; i++)
        shown[i] = step->line[i] >= ' ' && step->line[i] <= '~' ? step->line[i] : '.';
    strcpy(shown + fits, step->length <= most ? "" : "..");
}
