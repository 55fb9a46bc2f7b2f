/* A compost probe, simulated: five tasks share one processor through the kernel. Each event prints a line: when, who, the call, what comes
 * of it.
 *
 * The sampler asks the converter for a temperature, waits for its interrupt, two ticks at most, and puts the reading into the store. The
 * writer copies it to flash, which takes more than two ticks. Moisture puts the moisture of its tick into the store, and skips a reading
 * where the queue for the store is long, since it would come too late. The radio reports how many temperatures were written, how many lost,
 * and the moisture. Housekeeping feeds the watchdog while the area is sound. They share the store, so a monitor lock guards it. When the
 * lid is opened a reading of the temperature is worth nothing, so an alarm calls the sampler off its wait.
 *
 * How it is built: a task is a small state machine, and a step of it makes at most one call. Every answer says who runs now, and the main
 * loop steps that task next. A task that waits or queues keeps its state, and is not stepped until an answer names it again. Where nobody
 * runs, the probe sleeps until its earliest timer, or until a device interrupts. */
#include <stdbool.h>
#include <stdio.h>
#include <stdlib.h>

#include "../include/kernel.h"

/* ---- processes, locks and conditions, numbered from 1 */

enum { NOBODY, SAMPLER, MOISTURE, WRITER, RADIO, HOUSEKEEPING, PROCESSES = HOUSEKEEPING };
enum { STORE = 1, LOCKS = STORE };
enum { CONVERTED = 1, READING, PAUSE, CONDITIONS = PAUSE }; /* nobody notifies PAUSE: a task waits there for its ticks alone */
enum { PARKS = 0 };

static const char *const NAMES[] = {[NOBODY] = "nobody", [SAMPLER] = "sampler", [MOISTURE] = "moisture",
                                    [WRITER] = "writer", [RADIO] = "radio",     [HOUSEKEEPING] = "housekeeping"};
static const uint8_t PRIORITIES[PROCESSES] = {
    [SAMPLER - 1] = 5, [MOISTURE - 1] = 4, [WRITER - 1] = 3, [RADIO - 1] = 6, [HOUSEKEEPING - 1] = 1};

enum { WORDS = KERNEL_AREA_WORDS(PROCESSES, LOCKS, CONDITIONS, PARKS) };
static uint16_t area[WORDS];
static unsigned running; /* as the last answer says */

/* ---- time and printing */

enum { STEPS_PER_TICK = 10, END = 21 * STEPS_PER_TICK };
static unsigned now;    /* in steps; printed in ticks */
static unsigned ticked; /* how many ticks the kernel knows of */

static void tell(const char *who, const char *call, const char *outcome)
{
    printf("%2u.%u  %-12s  %-16s  %s", now / STEPS_PER_TICK, now % STEPS_PER_TICK, who, call, outcome);
}

/* No call below is refused while the probe's memory is whole; where one is, a real probe begins again with kernel_start. */
static void check(const char *who, const char *call, unsigned code)
{
    if (code != KERNEL_OK) {
        tell(who, call, "refused");
        printf(" with code %u\n", code);
        exit(EXIT_FAILURE);
    }
}

/* Every answer that says who runs comes by here, with what a mark of 1 or 0 means; 2 always means the same. It answers the mark. */
static unsigned called(const char *who, const char *call, uint64_t answer, const char *marked, const char *unmarked)
{
    unsigned mark = KERNEL_MARK(answer);
    check(who, call, KERNEL_CODE(answer));
    tell(who, call, mark == 2 ? "called off, does not take the lock" : mark == 1 ? marked : unmarked);
    if (KERNEL_MOVED(answer) > 0)
        printf(", %u made ready", KERNEL_MOVED(answer));
    if (KERNEL_RUNNING(answer) != running)
        printf("; %s runs", NAMES[KERNEL_RUNNING(answer)]);
    if (KERNEL_RETRY(answer) == 1)
        printf(" and must enter again");
    printf("\n");
    running = KERNEL_RUNNING(answer);
    return mark;
}

/* ---- calls of the running task */

static unsigned ahead; /* how many stand before the task that entered last, if it queues */

static unsigned entered(const char *call, uint64_t answer)
{
    char queues[40];
    ahead = KERNEL_AHEAD(answer);
    snprintf(queues, sizeof queues, "queues for the lock, %u ahead", ahead);
    return called(NAMES[running], call, answer, "has the lock", queues);
}

/* Whether it has the store now. If not, it queues, and enters again when it runs again. */
static bool enter(void)
{
    return entered("enter store", kernel_enter(area, WORDS, STORE)) == 1;
}

enum { QUEUES, HAS_LOCK, CALLED_OFF }; /* the marks of reenter */

/* As enter, after a wait that an alarm can end. If one did, the task is told here, once the store is free, and does not get it. */
static unsigned reenter(uint16_t condition)
{
    return entered("reenter store", kernel_reenter(area, WORDS, STORE, condition));
}

static void leave(void)
{
    called(NAMES[running], "exit store", kernel_exit(area, WORDS, STORE), "", "gives up the lock");
}

/* Whether it waits. If not, an interrupt that came before was kept for it, or an alarm. Either way it gave up the store and must enter
 * again. */
static bool wait_for(const char *call, uint16_t condition, uint16_t ticks)
{
    return called(NAMES[running], call, kernel_wait(area, WORDS, STORE, condition, ticks), "gives up the lock and waits",
                  "gives up the lock, need not wait") == 1;
}

/* ---- the converter, a device: it interrupts some steps after it was asked; every third reading comes too late */

static const struct reading {
    unsigned steps, celsius;
} READINGS[] = {{5, 58}, {33, 61}, {5, 63}};

static struct {
    unsigned asked, due;
    bool done;
} converter;

static const struct reading *newest(void)
{
    return &READINGS[(converter.asked - 1) % 3];
}

static void ask_converter(void)
{
    converter.asked++;
    converter.due = now + newest()->steps;
    converter.done = false;
}

static void stop_converter(void)
{
    converter.due = 0;
}

/* ---- the lid, a device: it interrupts when it is opened */

enum { LID_OPENS = 17 * STEPS_PER_TICK + 5 };

/* ---- what the lock guards */

static struct {
    bool full;
    unsigned celsius, moisture, written, lost;
} store;

/* ---- the tasks */

static void sampler(void)
{
    static enum { BEGIN, WAIT, AGAIN, LOOK, NOTIFY, STOP, LOSE, REST } state;
    unsigned mark;
    switch (state) {
    case BEGIN:
        if (enter()) {
            tell("sampler", "", "asks the converter\n");
            ask_converter();
            state = WAIT;
        }
        break;
    case WAIT:
        state = wait_for("wait converted 2", CONVERTED, 2) ? LOOK : AGAIN;
        break;
    case AGAIN: /* the kept wakeup was that of a lost reading */
        mark = reenter(CONVERTED);
        if (mark == CALLED_OFF)
            state = STOP;
        else if (mark == HAS_LOCK)
            state = WAIT;
        break;
    case LOOK: /* woken by the lid, by the converter or, if it is not done, by the clock */
        mark = reenter(CONVERTED);
        if (mark == CALLED_OFF) {
            state = STOP;
        } else if (mark == HAS_LOCK && converter.done) {
            store.full = true;
            store.celsius = newest()->celsius;
            state = NOTIFY;
        } else if (mark == HAS_LOCK) {
            tell("sampler", "", "no reading in time\n");
            store.lost++;
            state = REST;
        }
        break;
    case STOP: /* it has no lock: it sees to the converter, which is its own, and leaves the store alone */
        tell("sampler", "", "stops the converter\n");
        stop_converter();
        state = LOSE;
        break;
    case LOSE: /* the alarm is over, and the store is entered as always */
        if (enter()) {
            tell("sampler", "", "counts the reading as lost\n");
            store.lost++;
            state = REST;
        }
        break;
    case NOTIFY:
        called("sampler", "notify reading", kernel_notify(area, WORDS, READING), "", "a reading is there");
        state = REST;
        break;
    case REST:
        wait_for("wait pause 3", PAUSE, 3);
        state = BEGIN;
        break;
    }
}

static void moisture(void)
{
    enum { LONG = 2 }; /* with so many ahead a queue is long */
    static enum { BEGIN, SKIP, REST } state;
    switch (state) {
    case BEGIN:
        if (enter()) {
            store.moisture = 60 - now / STEPS_PER_TICK;
            tell("moisture", "", "");
            printf("reads %u percent\n", store.moisture);
            state = REST;
        } else if (ahead >= LONG) {
            state = SKIP;
        }
        break;
    case SKIP: /* nobody leaves a queue before its turn, and to rest takes the lock */
        if (enter()) {
            tell("moisture", "", "skips its reading, the queue was long\n");
            state = REST;
        }
        break;
    case REST:
        wait_for("wait pause 6", PAUSE, 6);
        state = BEGIN;
        break;
    }
}

static void writer(void)
{
    enum { PAGE = 22 }; /* bytes, one a step */
    static enum { BEGIN, LOOK, COPY, LEAVE } state;
    static unsigned bytes;
    switch (state) {
    case BEGIN:
        if (enter())
            state = LOOK;
        break;
    case LOOK:
        if (store.full) {
            bytes = 0;
            state = COPY;
        } else {
            wait_for("wait reading", READING, 0);
            state = BEGIN;
        }
        break;
    case COPY: /* slow, and under the lock */
        if (++bytes == PAGE) {
            tell("writer", "", "");
            printf("wrote %u degrees\n", store.celsius);
            store.full = false;
            store.written++;
            state = LEAVE;
        }
        break;
    case LEAVE:
        leave();
        state = BEGIN;
        break;
    }
}

static void radio(void)
{
    static enum { BEGIN, SEND } state;
    switch (state) {
    case BEGIN:
        if (enter())
            state = SEND;
        break;
    case SEND:
        tell("radio", "", "");
        printf("sends: %u written, %u lost, moisture %u\n", store.written, store.lost, store.moisture);
        wait_for("wait pause 5", PAUSE, 5);
        state = BEGIN;
        break;
    }
}

static void housekeeping(void)
{
    static enum { BEGIN, FEED } state;
    switch (state) {
    case BEGIN:
        if (enter())
            state = FEED;
        break;
    case FEED:
        if (kernel_sound(area, WORDS) == 1)
            tell("housekeeping", "", "area sound, feeds the watchdog\n");
        wait_for("wait pause 4", PAUSE, 4);
        state = BEGIN;
        break;
    }
}

/* Nobody runs: the probe sleeps as many ticks as the nearest timer has left, unless a device interrupts before. The clock counts on, but
 * does not interrupt until then. In a real probe this sets the clock's alarm, and interrupts are masked from the question to the
 * instruction that sleeps, which ends at an interrupt even so. */
static void nobody(void)
{
    uint64_t answer = kernel_nearest(area, WORDS);
    check("probe", "nearest", KERNEL_NEAREST_CODE(answer));
    uint32_t left = KERNEL_NEAREST_TICKS(answer);
    unsigned alarm = END;
    if (left == 0) {
        tell("probe", "nearest", "sleeps, no timer is set\n");
    } else {
        tell("probe", "nearest", "");
        printf("sleeps until %s is due, ticks left: %u\n", NAMES[KERNEL_NEAREST_PROCESS(answer)], (unsigned)left);
        alarm = (ticked + left) * STEPS_PER_TICK;
    }
    while (now + 1 < END && now + 1 != alarm && now + 1 != converter.due && now + 1 != LID_OPENS)
        now++;
}

/* ---- interrupts; in a real probe their handlers make these calls, and interrupts are masked around every call */

static void interrupts(void)
{
    while (ticked < now / STEPS_PER_TICK) { /* those that were slept come first, whoever interrupts */
        ticked++;
        called("clock", "tick", kernel_tick(area, WORDS), "", "a tick");
    }
    if (converter.asked > 0 && now == converter.due) {
        converter.done = true;
        called("converter", "naked converted", kernel_naked(area, WORDS, CONVERTED), "nobody waits, wakeup kept", "a reading");
    }
    if (now == LID_OPENS)
        called("lid", "abort sampler", kernel_abort(area, WORDS, SAMPLER), "", "the lid is open");
}

int main(void)
{
    static void (*const STEPS[])(void) = {[NOBODY] = nobody, [SAMPLER] = sampler, [MOISTURE] = moisture,
                                          [WRITER] = writer, [RADIO] = radio,     [HOUSEKEEPING] = housekeeping};

    printf("tick  who           call              what comes of it\n");
    called("probe", "start", kernel_start(area, WORDS, PROCESSES, LOCKS, CONDITIONS, PARKS, PRIORITIES, sizeof PRIORITIES), "",
           "all ready");
    called("probe", "set_abortable", kernel_set_abortable(area, WORDS, CONVERTED, 1), "", "an alarm ends a wait for the converter");
    for (now = 1; now < END; now++) {
        interrupts();
        STEPS[running]();
    }
    return EXIT_SUCCESS;
}
