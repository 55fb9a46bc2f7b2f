/* A run as a picture: bands of lanes, a column for each line of the script. A bar says where a process stands after a line, and a strip
 * below it which lock it holds. The topmost lane is the processor's. All lengths are whole pixels. */
#include <string.h>

#include "../include/kernel.h"
#include "show.h"

enum {
    MARGIN = 20,
    TITLE = 46,   /* above the first band */
    LEFT = 84,    /* of the lanes, for their names */
    RIGHT = 64,   /* of the lanes, for the last slanted calls */
    COLUMN = 30,
    COLUMNS = 32, /* of a band, at most */
    FEWEST = 26,  /* as many columns as the legend is wide */
    HEADER = 116, /* of a band: the calls, slanted, and the lines' numbers */
    BAR = 18,
    STRIP = 12,
    GAP = 8, /* below a lane */
    BAND_GAP = 26,
    LEGEND = 40
};

#define DARK "#2b2b2b"
#define FAINT "#8a8a85"

/* What the colours say: of bars, of a strip, of a column. */
enum look { RUNS, READY, PARKED, AT_LOCK, WAITS, IDLE, HOLDS, REFUSED, LOOKS };

static const struct {
    const char *fill, *ink, *words;
    int y, height, size, letter; /* a bar's height, its label's size and about how wide a letter of it is */
} LOOK[LOOKS] = {
    [RUNS] = {"#2e7d57", "#ffffff", "runs", 0, BAR, 10, 6},
    [READY] = {"#cfe3d6", "#4c6b59", "ready", BAR / 3, BAR / 3, 0, 0},
    [PARKED] = {"#a39c92", "#ffffff", "parked", 0, BAR, 10, 6},
    [AT_LOCK] = {"#d9822b", "#ffffff", "at a lock", 0, BAR, 10, 6},
    [WAITS] = {"#4a78b5", "#ffffff", "waits on a condition", 0, BAR, 10, 6},
    [IDLE] = {"#eceae4", FAINT, "nobody runs", 0, BAR, 10, 6},
    [HOLDS] = {"#dfd0f2", "#4b2f85", "holds a lock", 0, STRIP - 2, 8, 4},
    [REFUSED] = {"#fbe6e3", "#b03a2e", "refused, or no call", 0, BAR, 10, 6},
};

static FILE *svg;

/* ---- marks on the page */

static void put_text(const char *text)
{
    for (; *text != '\0'; text++) {
        switch (*text) {
        case '&': fputs("&amp;", svg); break;
        case '<': fputs("&lt;", svg); break;
        case '>': fputs("&gt;", svg); break;
        default: fputc(*text, svg);
        }
    }
}

static void box(int x, int y, int width, int height, int round, const char *fill)
{
    fprintf(svg, "<rect x=\"%d\" y=\"%d\" width=\"%d\" height=\"%d\" rx=\"%d\" fill=\"%s\"/>\n", x, y, width, height, round, fill);
}

/* `more` has further attributes. */
static void label(int x, int y, int size, const char *ink, const char *more, const char *text)
{
    fprintf(svg, "<text x=\"%d\" y=\"%d\" font-size=\"%d\" fill=\"%s\" %s>", x, y, size, ink, more);
    put_text(text);
    fputs("</text>\n", svg);
}

/* A bar over some columns, with the longer label or the shorter if it has room for one. */
static void bar(int x, int y, int columns, enum look look, const char *longer, const char *shorter)
{
    int width = columns * COLUMN - 2, room = width - 4, letter = LOOK[look].letter;
    const char *text = (int)strlen(longer) * letter <= room ? longer : (int)strlen(shorter) * letter <= room ? shorter : "";
    box(x + 1, y + LOOK[look].y, width, LOOK[look].height, 4, LOOK[look].fill);
    if (LOOK[look].size > 0 && text[0] != '\0')
        label(x + 5, y + (LOOK[look].height + LOOK[look].size) / 2 - 1, LOOK[look].size, LOOK[look].ink, "", text);
}

/* ---- lanes */

/* Where the column of line i begins. */
static int left_of(const struct stretch *stretch, size_t i)
{
    return MARGIN + LEFT + (int)(i - stretch->from) * COLUMN;
}

static enum look look_of(const struct view *view, unsigned process)
{
    static const enum look KINDS[] = {[KERNEL_READY] = READY, [KERNEL_PARK] = PARKED, [KERNEL_LOCK] = AT_LOCK, [KERNEL_CONDITION] = WAITS};
    return view->running == process ? RUNS : KINDS[kind_of(view, view->queue_of[process])];
}

/* Whether a process stands after line i as after line j. */
static bool same(const struct run *run, size_t i, size_t j, unsigned process)
{
    const struct view *a = run->steps[i].view, *b = run->steps[j].view;
    return look_of(a, process) == look_of(b, process) && a->queue_of[process] == b->queue_of[process];
}

static void put_bars(const struct run *run, const struct stretch *stretch, unsigned process, int y)
{
    static const char *const LONGER[] = {[PARKED] = "park %u", [AT_LOCK] = "at lock %u", [WAITS] = "waits on %u"};
    static const char *const SHORTER[] = {[PARKED] = "%u", [AT_LOCK] = "at %u", [WAITS] = "on %u"};
    for (size_t i = stretch->from, j; i < stretch->end; i = j) {
        const struct view *view = run->steps[i].view;
        enum look look = look_of(view, process);
        char longer[32] = "", shorter[32] = "";
        for (j = i + 1; j < stretch->end && same(run, i, j, process); j++) {
        }
        if (look != RUNS && look != READY) {
            snprintf(longer, sizeof longer, LONGER[look], number_of(view, view->queue_of[process]));
            snprintf(shorter, sizeof shorter, SHORTER[look], number_of(view, view->queue_of[process]));
        }
        bar(left_of(stretch, i), y, (int)(j - i), look, longer, shorter);
    }
}

static bool holds(const struct run *run, size_t i, unsigned process, unsigned lock)
{
    const struct view *view = run->steps[i].view;
    return view->holder[lock_queue(view, lock)] == process;
}

static bool ever_holds(const struct run *run, const struct stretch *stretch, unsigned process, unsigned lock)
{
    size_t i = stretch->from;
    while (i < stretch->end && !holds(run, i, process, lock))
        i++;
    return i < stretch->end;
}

static void put_strips(const struct run *run, const struct stretch *stretch, unsigned process, unsigned lock, int y)
{
    char text[32];
    snprintf(text, sizeof text, "lock %u", lock);
    for (size_t i = stretch->from, j; i < stretch->end; i = j) {
        for (j = i + 1; j < stretch->end && holds(run, j, process, lock) == holds(run, i, process, lock); j++) {
        }
        if (holds(run, i, process, lock))
            bar(left_of(stretch, i), y, (int)(j - i), HOLDS, text, "");
    }
}

/* Whether a process is ready all the while, and never runs. */
static bool quiet(const struct run *run, const struct stretch *stretch, unsigned process)
{
    size_t i = stretch->from;
    while (i < stretch->end && look_of(run->steps[i].view, process) == READY)
        i++;
    return i == stretch->end;
}

/* How high a process's lane is: a bar, lower if the lane is quiet, and a strip for each lock that it holds at some time. */
static int lane_height(const struct run *run, const struct stretch *stretch, unsigned process)
{
    int height = quiet(run, stretch, process) ? BAR : BAR + GAP;
    for (unsigned lock = 1; lock <= run->steps[stretch->from].view->locks; lock++)
        if (ever_holds(run, stretch, process, lock))
            height += STRIP;
    return height;
}

static void put_lane(const struct run *run, const struct stretch *stretch, unsigned process, int y)
{
    char name[32];
    snprintf(name, sizeof name, "process %u", process);
    label(MARGIN + LEFT - 10, y + 13, 11, quiet(run, stretch, process) ? FAINT : DARK, "text-anchor=\"end\"", name);
    put_bars(run, stretch, process, y);
    y += BAR + 2;
    for (unsigned lock = 1; lock <= run->steps[stretch->from].view->locks; lock++) {
        if (ever_holds(run, stretch, process, lock)) {
            put_strips(run, stretch, process, lock, y);
            y += STRIP;
        }
    }
}

/* The processor's lane: who runs. */
static void put_processor(const struct run *run, const struct stretch *stretch, int y)
{
    label(MARGIN + LEFT - 10, y + 13, 11, DARK, "text-anchor=\"end\" font-weight=\"600\"", "processor");
    for (size_t i = stretch->from, j; i < stretch->end; i = j) {
        unsigned running = run->steps[i].view->running;
        char text[32];
        for (j = i + 1; j < stretch->end && run->steps[j].view->running == running; j++) {
        }
        snprintf(text, sizeof text, "%u", running);
        bar(left_of(stretch, i), y, (int)(j - i), running == 0 ? IDLE : RUNS, running == 0 ? "" : text, "");
    }
}

/* ---- bands */

static int band_height(const struct run *run, const struct stretch *stretch)
{
    int height = HEADER + BAR + 2 * GAP;
    for (unsigned p = 1; p <= run->steps[stretch->from].view->processes; p++)
        height += lane_height(run, stretch, p);
    return height;
}

/* A column's call and line above, and its ground below. A refused call has its code behind it. */
static void put_column(const struct run *run, size_t i, int x, int y, int height)
{
    const struct step *step = &run->steps[i];
    const char *ink = accepted(step) ? DARK : LOOK[REFUSED].ink;
    char shown[SHOWN_SIZE], text[SHOWN_SIZE + 16], turned[64], line[32];
    printable(step, 18, shown);
    snprintf(text, sizeof text, accepted(step) ? "%s" : step->why_not != NULL ? "%s ?" : "%s (%u)", shown, KERNEL_CODE(step->answer));
    snprintf(turned, sizeof turned, "transform=\"rotate(-50 %d %d)\"", x + COLUMN / 2, y + HEADER - 24);
    snprintf(line, sizeof line, "%zu", i + 1);
    if (!accepted(step))
        box(x, y + HEADER - 20, COLUMN, height - HEADER + 20, 0, LOOK[REFUSED].fill);
    fprintf(svg, "<path d=\"M%d %dV%d\" stroke=\"#eceae4\"/>\n", x, y + HEADER - 6, y + height);
    label(x + COLUMN / 2, y + HEADER - 24, 11, ink, turned, text);
    label(x + COLUMN / 2, y + HEADER - 9, 9, accepted(step) ? FAINT : ink, "text-anchor=\"middle\"", line);
}

static void put_band(const struct run *run, const struct stretch *stretch, int y)
{
    int height = band_height(run, stretch);
    for (size_t i = stretch->from; i < stretch->end; i++)
        put_column(run, i, left_of(stretch, i), y, height);
    y += HEADER;
    put_processor(run, stretch, y);
    y += BAR + 2 * GAP;
    for (unsigned p = 1; p <= run->steps[stretch->from].view->processes; p++) {
        put_lane(run, stretch, p, y);
        y += lane_height(run, stretch, p);
    }
}

/* ---- the page */

static void put_legend(int y)
{
    int x = MARGIN + LEFT;
    for (enum look look = RUNS; look < LOOKS; look++) {
        box(x, y + LOOK[look].y / 2, 14, LOOK[look].height * 2 / 3, 3, LOOK[look].fill);
        label(x + 20, y + 10, 11, "#5a5a55", "", LOOK[look].words);
        x += 34 + 6 * (int)strlen(LOOK[look].words);
    }
}

void picture(const struct run *run, const char *title, FILE *out)
{
    int width = 0, height = MARGIN + TITLE;
    struct stretch stretch = {0, 0};
    while (next_stretch(run, COLUMNS, &stretch)) {
        int columns = (int)(stretch.end - stretch.from);
        width = columns > width ? columns : width;
        height += band_height(run, &stretch) + BAND_GAP;
    }
    width = 2 * MARGIN + LEFT + (width < FEWEST ? FEWEST : width) * COLUMN + RIGHT;
    height += LEGEND;

    svg = out;
    fprintf(svg, "<svg xmlns=\"http://www.w3.org/2000/svg\" width=\"%d\" height=\"%d\" viewBox=\"0 0 %d %d\" "
                 "font-family=\"system-ui, 'Segoe UI', Helvetica, Arial, sans-serif\">\n", width, height, width, height);
    box(0, 0, width, height, 10, "#fdfdfb");
    label(MARGIN, MARGIN + 16, 17, DARK, "font-weight=\"600\"", title);
    label(MARGIN, MARGIN + 34, 11, FAINT, "", "A lane for each process, a column for each line: where it stands after that line.");
    int y = MARGIN + TITLE;
    stretch = (struct stretch){0, 0};
    while (next_stretch(run, COLUMNS, &stretch)) {
        put_band(run, &stretch, y);
        y += band_height(run, &stretch) + BAND_GAP;
    }
    put_legend(y);
    fputs("</svg>\n", svg);
}
