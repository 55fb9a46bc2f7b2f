/* The parts of show: a script is played once, and what came of each line is kept; then it is told in words and drawn. */
#ifndef SHOW_H
#define SHOW_H

#include <stdio.h>

#include "script.h"

enum { MOST_PROCESSES = 1023, MOST_QUEUES = 1 + 8 + 255 + 255 };

/* Where everybody stands. Process p is at index p. The queues are numbered through as the yard sheet has them: ready is 0, then come the
 * parks, the locks and the conditions. */
struct view {
    unsigned processes, locks, conditions, parks;
    unsigned running;
    uint16_t from[MOST_QUEUES + 1];          /* queue q is standing[from[q]] to standing[from[q + 1] - 1], first to last */
    uint16_t standing[MOST_PROCESSES];
    uint16_t queue_of[MOST_PROCESSES + 1];
    uint16_t ticks_left[MOST_PROCESSES + 1]; /* 0: no timer */
    uint16_t holder[MOST_QUEUES];            /* of a lock, 0: free */
    bool wakeup[MOST_QUEUES];                /* of a condition */
};

/* A line of the script and what came of it. */
struct step {
    const char *line;
    size_t length;
    const char *why_not; /* NULL if it is a call */
    enum name name;
    uint16_t numbers[4]; /* the first of them */
    uint64_t answer;
    const struct view *view; /* after it; NULL where no start was accepted yet */
};

struct run {
    struct step *steps;
    size_t count;
};

/* ---- playing */

const char *why_no_call(const char *line, size_t length);
struct run play(const char *script, size_t length);

/* ---- reading a view */

unsigned queues(const struct view *view);
uint16_t kind_of(const struct view *view, unsigned queue); /* as kernel_list has them */
unsigned number_of(const struct view *view, unsigned queue);
unsigned lock_queue(const struct view *view, unsigned lock);
unsigned condition_queue(const struct view *view, unsigned condition);
bool accepted(const struct step *step);

/* ---- stretches, for lanes: an accepted start begins a part, with processes of its own, and a part is cut so that it fits a page */

struct stretch {
    size_t from, end; /* steps */
};

/* Goes to the next stretch of at most `most` steps; false at the run's end. Begins with {0, 0}. */
bool next_stretch(const struct run *run, size_t most, struct stretch *stretch);

/* ---- telling and drawing */

void tell(const struct run *run);
void lanes(const struct run *run);
void picture(const struct run *run, const char *title, FILE *out);

/* A line of the script, cut and made printable. */
enum { SHOWN_SIZE = 64 };
void printable(const struct step *step, size_t most, char shown[SHOWN_SIZE]);

#endif
