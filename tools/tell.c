/* A run in words: for each line the call, what came of it, the queues that changed, who holds which lock. */
#include <stdarg.h>
#include <string.h>

#include "../include/kernel.h"
#include "show.h"

enum { WIDTH = 110, CALL_WIDTH = 22, INDENT = 6 + CALL_WIDTH };

/* ---- text that is broken between words */

static int column;

/* Prints words that stay together, behind a space; further in on a line of their own where they do not fit. A comma or a semicolon before
 * them stays with what is there already. */
static void put(const char *format, ...)
{
    char text[256], *words = text;
    va_list arguments;
    va_start(arguments, format);
    vsnprintf(text, sizeof text, format, arguments);
    va_end(arguments);
    if (words[0] == ';' || words[0] == ',') {
        column += printf("%c", words[0]);
        words += 2;
    }
    if (column + 1 + (int)strlen(words) > WIDTH) {
        printf("\n%*s", INDENT + 3, "");
        column = INDENT + 3;
    }
    column += printf(" %s", words);
}

static void put_line(const char *label)
{
    printf("\n%*s", INDENT + 2, "");
    column = INDENT + 2;
    put("%s", label);
}

/* ---- an answer in words */

static const char *plural(unsigned n)
{
    return n == 1 ? "" : "s";
}

static void put_ahead(uint64_t answer)
{
    if (KERNEL_AHEAD(answer) == 0)
        put(", nobody ahead");
    else
        put(", %u ahead", KERNEL_AHEAD(answer));
}

/* Those who came into ready, by number, and what they do. */
static void put_moved(const struct step *step, const struct view *before, const char *what)
{
    for (unsigned p = 1; p <= before->processes; p++)
        if (before->queue_of[p] != 0 && step->view->queue_of[p] == 0)
            put("%u", p);
    put(KERNEL_MOVED(step->answer) == 1 ? "%ss" : "%s", what);
}

static void put_woken(const struct step *step, const struct view *before, const char *nobody)
{
    if (KERNEL_MOVED(step->answer) == 0)
        put("%s", nobody);
    else
        put_moved(step, before, "wake");
}

/* Whom the lock has let go, if anybody: the first of its queue. */
static void put_let_go(const struct step *step, const struct view *before)
{
    unsigned queue = lock_queue(before, step->numbers[0]);
    if (KERNEL_MOVED(step->answer) > 0)
        put("; %u comes into ready", before->standing[before->from[queue]]);
}

static void put_exit(const struct step *step, const struct view *before)
{
    put("%u leaves lock %u", before->running, step->numbers[0]);
    put_let_go(step, before);
}

static void put_entry(const struct step *step, const struct view *before)
{
    unsigned p = before->running, lock = step->numbers[0];
    switch (KERNEL_MARK(step->answer)) {
    case 0:
        put("%u queues for lock %u, which %u holds", p, lock, before->holder[lock_queue(before, lock)]);
        put_ahead(step->answer);
        break;
    case 1: put("%u takes lock %u", p, lock); break;
    default: put("%u was called off, and does not take lock %u", p, lock); break;
    }
}

static void put_wait(const struct step *step, const struct view *before)
{
    unsigned condition = step->numbers[1], ticks = step->numbers[2];
    unsigned queue = condition_queue(before, condition);
    put("%u leaves lock %u", before->running, step->numbers[0]);
    if (KERNEL_MARK(step->answer) == 1) {
        put("and waits on condition %u", condition);
        if (ticks > 0)
            put("for %u tick%s at most", ticks, plural(ticks));
        put_ahead(step->answer);
    } else if (before->wakeup[queue] && !step->view->wakeup[queue]) {
        put("and need not wait: it takes the wakeup stored at condition %u", condition);
    } else {
        put("and does not wait on condition %u: it is called off", condition);
    }
    put_let_go(step, before);
}

static void put_requeue(const struct step *step)
{
    unsigned source = step->numbers[0], destination = step->numbers[1], p = step->numbers[2];
    if (source == destination)
        put("%u goes behind its equals", p);
    else if (source == 0)
        put("%u goes from ready to park %u", p, destination);
    else if (destination == 0)
        put("%u comes from park %u into ready", p, source);
    else
        put("%u goes from park %u to park %u", p, source, destination);
}

static void put_abort(const struct step *step, const struct view *before)
{
    put("%u is aborted", step->numbers[0]);
    if (KERNEL_MOVED(step->answer) > 0)
        put("and called off condition %u", number_of(before, before->queue_of[step->numbers[0]]));
}

static void put_start(const struct step *step)
{
    const struct view *v = step->view;
    put("%u process%s, %u lock%s, %u condition%s, %u park%s", v->processes, v->processes == 1 ? "" : "es", v->locks, plural(v->locks),
        v->conditions, plural(v->conditions), v->parks, plural(v->parks));
}

/* What an accepted call did; `before` is NULL only for a start. */
static void put_deed(const struct step *step, const struct view *before)
{
    const uint16_t *n = step->numbers;
    switch (step->name) {
    case START: put_start(step); break;
    case ENTER:
    case REENTER: put_entry(step, before); break;
    case EXIT: put_exit(step, before); break;
    case WAIT: put_wait(step, before); break;
    case NOTIFY:
    case BROADCAST: put_woken(step, before, "nobody waits there"); break;
    case NAKED: put_woken(step, before, "nobody waits there: a wakeup is stored"); break;
    case REQUEUE: put_requeue(step); break;
    case SET_PRIORITY: put("%u takes priority %u", before->running, n[0]); break;
    case TICK: put_woken(step, before, "nobody is due"); break;
    case ABORT: put_abort(step, before); break;
    case SET_ABORTABLE: put("a wait on condition %u %s", n[0], n[1] == 1 ? "may be called off" : "is no longer called off"); break;
    case NO_CALL: break;
    }
}

/* Who runs now, if it is another. */
static void put_runner(const struct step *step, const struct view *before)
{
    unsigned running = step->view->running;
    if (step->name != START && before->running == running)
        return;
    if (running == 0)
        put("; nobody runs");
    else
        put(KERNEL_RETRY(step->answer) == 1 ? "; %u runs and must enter again" : "; %u runs", running);
}

static void put_answer(const struct step *step, const struct view *before)
{
    if (step->why_not != NULL) {
        put("? no call: %s", step->why_not);
    } else if (!accepted(step)) {
        put("refused %u: %s", KERNEL_CODE(step->answer), kernel_code_text(KERNEL_CODE(step->answer)));
    } else {
        put_deed(step, before);
        put_runner(step, before);
    }
}

/* ---- queues and holders */

static unsigned length_of(const struct view *view, unsigned queue)
{
    return (unsigned)(view->from[queue + 1] - view->from[queue]);
}

static bool changed(const struct view *now, const struct view *before, unsigned queue)
{
    unsigned length = length_of(now, queue);
    return length != length_of(before, queue) || now->wakeup[queue] != before->wakeup[queue] ||
           memcmp(now->standing + now->from[queue], before->standing + before->from[queue], length * sizeof *now->standing) != 0;
}

static void put_queue(const struct view *view, unsigned queue)
{
    static const char *const LABELS[] = {"ready:", "park %u:", "at lock %u:", "waits on %u:"};
    char label[32];
    snprintf(label, sizeof label, LABELS[kind_of(view, queue)], number_of(view, queue));
    put_line(label);
    for (unsigned i = view->from[queue]; i < view->from[queue + 1]; i++) {
        unsigned p = view->standing[i];
        if (view->ticks_left[p] > 0)
            put("%u (%u tick%s left)", p, view->ticks_left[p], plural(view->ticks_left[p]));
        else
            put("%u", p);
    }
    if (length_of(view, queue) == 0)
        put(view->wakeup[queue] ? "nobody, a wakeup is stored" : "nobody");
}

static void put_holders(const struct view *view)
{
    bool any = false;
    for (unsigned lock = 1; lock <= view->locks; lock++) {
        unsigned holder = view->holder[lock_queue(view, lock)];
        if (holder == 0)
            continue;
        if (!any)
            put_line("held:");
        put(any ? "; lock %u by %u" : "lock %u by %u", lock, holder);
        any = true;
    }
}

/* After a start all queues in which somebody stands. */
static void put_changes(const struct step *step, const struct view *before)
{
    bool fresh = step->name == START;
    for (unsigned q = 0; q < queues(step->view); q++)
        if (fresh ? length_of(step->view, q) > 0 : changed(step->view, before, q))
            put_queue(step->view, q);
    put_holders(step->view);
}

void tell(const struct run *run)
{
    char shown[SHOWN_SIZE];
    printf("line  %-*s what comes of it; a number alone is a process\n", CALL_WIDTH, "call");
    for (size_t i = 0; i < run->count; i++) {
        const struct step *step = &run->steps[i];
        const struct view *before = i > 0 ? run->steps[i - 1].view : NULL;
        printable(step, CALL_WIDTH - 1, shown);
        column = printf("%4zu  %-*s", i + 1, CALL_WIDTH, shown) - 1;
        put_answer(step, before);
        if (accepted(step))
            put_changes(step, before);
        printf("\n");
    }
}
