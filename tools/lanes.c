/* A run as lanes of text: a row for each process, a column for each line of the script, and there where the process stands after it. */
#include <string.h>

#include "../include/kernel.h"
#include "show.h"

enum { WIDTH = 110, LABEL_WIDTH = 8, CELL_SIZE = 24 };

static int digits(size_t n)
{
    int count = 1;
    while (n >= 10) {
        n /= 10;
        count++;
    }
    return count;
}

static int larger(int a, int b)
{
    return a > b ? a : b;
}

/* How wide a column is: a line's or a process's number and a space, or a queue's letter, its number and a dash. */
static int cell_width(const struct run *run)
{
    int width = larger(3, digits(run->count) + 1);
    for (size_t i = 0; i < run->count; i++) {
        const struct view *view = run->steps[i].view;
        if (view != NULL)
            width = larger(width, larger(digits(view->processes) + 1, larger(digits(view->locks), digits(view->conditions)) + 2));
    }
    return width;
}

/* Where a process stands: a queue, or that it runs. */
static unsigned state_of(const struct view *view, unsigned process)
{
    return view->running == process ? MOST_QUEUES : view->queue_of[process];
}

/* A queue's name stands where the process joins it, and a dash for each call from then on. */
static void put_cell(const struct view *view, unsigned process, bool begins, int width)
{
    static const char FILL[] = {[KERNEL_READY] = '.', [KERNEL_PARK] = '_', [KERNEL_LOCK] = '-', [KERNEL_CONDITION] = '~'};
    static const char LETTERS[] = {[KERNEL_PARK] = 'P', [KERNEL_LOCK] = 'L', [KERNEL_CONDITION] = 'C'};
    char cell[CELL_SIZE];
    unsigned queue = view->queue_of[process];
    uint16_t kind = kind_of(view, queue);
    memset(cell, view->running == process ? '=' : FILL[kind], sizeof cell);
    if (begins && kind != KERNEL_READY) {
        int length = snprintf(cell, sizeof cell, "%c%u", LETTERS[kind], number_of(view, queue));
        cell[length] = FILL[kind];
    }
    printf("%.*s", width, cell);
}

static void put_lane(const struct run *run, const struct stretch *stretch, unsigned process, int width)
{
    printf("%*u  ", LABEL_WIDTH - 2, process);
    for (size_t i = stretch->from; i < stretch->end; i++) {
        const struct view *view = run->steps[i].view;
        bool begins = i == stretch->from || state_of(view, process) != state_of(run->steps[i - 1].view, process);
        put_cell(view, process, begins, width);
    }
    printf("\n");
}

/* A row of words, each in its column; the spaces behind the last are left out. */
static int blanks;

static void put_word(const char *word, int width)
{
    if (word[0] != '\0') {
        printf("%*s%s", blanks, "", word);
        blanks = -(int)strlen(word);
    }
    blanks += width;
}

static void put_label(const char *word)
{
    printf("\n");
    blanks = 0;
    put_word(word, LABEL_WIDTH);
}

/* The lines' numbers; which of them were refused or no calls; who runs, where that changes. */
static void put_heading(const struct run *run, const struct stretch *stretch, int width)
{
    char word[CELL_SIZE];
    put_label("line");
    for (size_t i = stretch->from; i < stretch->end; i++) {
        snprintf(word, sizeof word, "%zu", i + 1);
        put_word(word, width);
    }
    put_label("");
    for (size_t i = stretch->from; i < stretch->end; i++) {
        const struct step *step = &run->steps[i];
        put_word(step->why_not != NULL ? "?" : accepted(step) ? "" : "x", width);
    }
    put_label("runs");
    for (size_t i = stretch->from; i < stretch->end; i++) {
        unsigned running = run->steps[i].view->running;
        bool same = i > stretch->from && run->steps[i - 1].view->running == running;
        snprintf(word, sizeof word, running == 0 ? "-" : "%u", running);
        put_word(same ? "" : word, width);
    }
    printf("\n");
}

void lanes(const struct run *run)
{
    int width = cell_width(run);
    struct stretch stretch = {0, 0};
    printf("\nWhere each process stands after each line:\n"
           "  === runs   ... ready   L1- at lock 1   C1~ waits on condition 1   P1_ parked in park 1   x refused   ? no call\n");
    while (next_stretch(run, (size_t)((WIDTH - LABEL_WIDTH) / width), &stretch)) {
        put_heading(run, &stretch, width);
        for (unsigned p = 1; p <= run->steps[stretch.from].view->processes; p++)
            put_lane(run, &stretch, p, width);
    }
}
