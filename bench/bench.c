/* Times the library against the plain C kernel in one run. A row of the table is a call, or a few, on a scene: an area in which the
 * queues are laid for it. Every time the calls find a fresh copy of the scene, and the copying is not timed. Rounds of both kernels
 * alternate, and the whole table is gone through several times; a time is that of the fastest round, which the machine's other work
 * disturbed least. The arguments are the sizes, as counts of processes; without any, 3, 50 and 1023. PLACE is how many bytes behind the
 * begin of a cache line the code of the program begins; best.py has more of that. */
#define _POSIX_C_SOURCE 199309L

#define QUOTE(number) #number
#define SKIP(bytes) ".text\n.balign 64\n.skip " QUOTE(bytes) "\n"
__asm__(SKIP(PLACE));

#include "../include/kernel.h"
#include "plain.h"

#include <stdbool.h>
#include <stdio.h>
#include <stdlib.h>
#include <string.h>
#include <time.h>

/* One kernel's calls. */
struct calls {
    uint64_t (*start)(uint16_t *, size_t, uint16_t, uint16_t, uint16_t, uint16_t, const uint8_t *, size_t);
    uint64_t (*sound)(const uint16_t *, size_t);
    uint64_t (*tick)(uint16_t *, size_t);
    uint64_t (*enter)(uint16_t *, size_t, uint16_t);
    uint64_t (*exit)(uint16_t *, size_t, uint16_t);
    uint64_t (*notify)(uint16_t *, size_t, uint16_t);
    uint64_t (*broadcast)(uint16_t *, size_t, uint16_t);
    uint64_t (*naked)(uint16_t *, size_t, uint16_t);
    uint64_t (*abort)(uint16_t *, size_t, uint16_t);
    uint64_t (*set_abortable)(uint16_t *, size_t, uint16_t, uint16_t);
    uint64_t (*reenter)(uint16_t *, size_t, uint16_t, uint16_t);
    uint64_t (*set_priority)(uint16_t *, size_t, uint16_t);
    uint64_t (*wait)(uint16_t *, size_t, uint16_t, uint16_t, uint16_t);
    uint64_t (*requeue)(uint16_t *, size_t, uint16_t, uint16_t, uint16_t);
    uint64_t (*list)(const uint16_t *, size_t, uint16_t, uint16_t, uint16_t *, size_t);
    uint64_t (*due)(const uint16_t *, size_t, uint16_t, uint16_t *, size_t);
    uint64_t (*nearest)(const uint16_t *, size_t);
    uint64_t (*sheet)(const uint16_t *, size_t, uint8_t *, size_t);
};

#define CALLS_OF(kernel) \
    {.start = kernel##_start, .sound = kernel##_sound, .tick = kernel##_tick, .enter = kernel##_enter, \
     .exit = kernel##_exit, .notify = kernel##_notify, .broadcast = kernel##_broadcast, \
     .naked = kernel##_naked, .abort = kernel##_abort, .set_abortable = kernel##_set_abortable, \
     .reenter = kernel##_reenter, .set_priority = kernel##_set_priority, .wait = kernel##_wait, \
     .requeue = kernel##_requeue, .list = kernel##_list, .due = kernel##_due, .nearest = kernel##_nearest, \
     .sheet = kernel##_sheet}

static const struct calls LIBRARY = CALLS_OF(kernel), PLAIN = CALLS_OF(plain);

enum { PRIORITY = 3, MAX_PROCESSES = 1023, MAX_LOCKS = 255, MAX_CONDITIONS = 255, MAX_PARKS = 8 };
enum { MAX_WORDS = KERNEL_AREA_WORDS(MAX_PROCESSES, MAX_LOCKS, MAX_CONDITIONS, MAX_PARKS) };
enum { MAX_PAGE = KERNEL_PAGE_BYTES(MAX_LOCKS, MAX_CONDITIONS, MAX_PARKS) };

/* Scenes. */

/* Which priority a process has. */

typedef uint8_t priority(unsigned process, unsigned processes);

static uint8_t equal(unsigned process, unsigned processes)
{
    (void)process, (void)processes;
    return PRIORITY;
}

/* The same in every run. */
static uint32_t mixed(unsigned process)
{
    uint32_t number = (process + 1) * UINT32_C(2654435761);
    return (number ^ number >> 15) * UINT32_C(2246822519);
}

static uint8_t any(unsigned process, unsigned processes)
{
    (void)processes;
    return mixed(process) >> 13 & 7;
}

static uint8_t rising(unsigned process, unsigned processes)
{
    return (uint8_t)((process - 1) * 8 / processes);
}

/* Below all others is the last, who runs while they wait. */
static uint8_t low_runner(unsigned process, unsigned processes)
{
    return process == processes ? 0 : PRIORITY;
}

/* The even ones are above the odd ones, and the first is below all. */
static uint8_t layered(unsigned process, unsigned processes)
{
    (void)processes;
    if (process == 1)
        return 0;
    return process % 2 == 0 ? PRIORITY + 1 : PRIORITY;
}

/* Half of the others are below the last two, one of whom is to join them. */
static uint8_t half_lower(unsigned process, unsigned processes)
{
    return process + 1 < processes && process % 2 == 1 ? PRIORITY - 1 : PRIORITY;
}

/* Who waits. */

typedef bool waits(unsigned process, unsigned processes);

static bool nobody(unsigned process, unsigned processes)
{
    (void)process, (void)processes;
    return false;
}

static bool everybody(unsigned process, unsigned processes)
{
    (void)process, (void)processes;
    return true;
}

static bool all_but_last(unsigned process, unsigned processes)
{
    return process != processes;
}

static bool all_but_last_two(unsigned process, unsigned processes)
{
    return process + 1 < processes;
}

static bool odd_but_first(unsigned process, unsigned processes)
{
    (void)processes;
    return process % 2 == 1 && process != 1;
}

/* After how many ticks those who wait are due; 0 is never. */

typedef uint16_t ticks(unsigned process, unsigned processes);

enum { SOON = 1000 }; /* those who are not due in the next tick are due after more than so many */

static uint16_t never(unsigned process, unsigned processes)
{
    (void)process, (void)processes;
    return 0;
}

static uint16_t next_tick(unsigned process, unsigned processes)
{
    (void)process, (void)processes;
    return 1;
}

static uint16_t in_turn(unsigned process, unsigned processes)
{
    (void)processes;
    return (uint16_t)(SOON + process);
}

static uint16_t last_first(unsigned process, unsigned processes)
{
    return (uint16_t)(SOON + 1 + processes - process);
}

static uint16_t any_tick(unsigned process, unsigned processes)
{
    (void)processes;
    return (uint16_t)(SOON + 1 + mixed(process) % 60000);
}

/* How many locks, conditions and parks there are. */
struct counts {
    uint16_t locks, conditions, parks;
};

static const struct counts FEW = {2, 4, 2}, MANY_CONDITIONS = {2, MAX_CONDITIONS, 2}, MOST = {MAX_LOCKS, MAX_CONDITIONS, MAX_PARKS};

enum place { FIRST_CONDITION, LAST_CONDITION, EACH_CONDITION, FIRST_LOCK, HOLDERS_CONDITION, EACH_QUEUE };
enum order { FORWARDS, BACKWARDS };
enum alarm { CALM, ABORTABLE, ABORTED }; /* all conditions are abortable; who runs is aborted too */

struct scene {
    const char *name;
    priority *priority;
    waits *waits;
    enum place place;       /* where they wait */
    enum order order;       /* in which they came there, by process number */
    ticks *ticks;
    const struct counts *counts;
    enum alarm alarm;
};

static const struct scene
    READY = {"ready", equal, nobody, FIRST_CONDITION, FORWARDS, never, &FEW, CALM},
    READY_ANY = {"ready, random", any, nobody, FIRST_CONDITION, FORWARDS, never, &FEW, CALM},
    WAITING = {"waiting", equal, everybody, FIRST_CONDITION, FORWARDS, never, &FEW, CALM},
    WAITING_ANY = {"waiting, random", any, everybody, FIRST_CONDITION, FORWARDS, never, &FEW, CALM},
    WAITING_SPREAD = {"waiting on 255", any, everybody, EACH_CONDITION, FORWARDS, never, &MANY_CONDITIONS, CALM},
    /* the last process holds the lock for which the others queue */
    BLOCKED = {"blocked, random", any, all_but_last, FIRST_LOCK, FORWARDS, never, &FEW, CALM},
    /* the last but one runs, and is to queue with them */
    QUEUE = {"behind all", equal, all_but_last_two, FIRST_LOCK, FORWARDS, never, &FEW, CALM},
    QUEUE_AMIDST = {"amidst", half_lower, all_but_last_two, FIRST_LOCK, FORWARDS, never, &FEW, CALM},
    /* the last process holds the lock, and is to wait where the others wait: on the first condition */
    MONITOR = {"behind all", equal, all_but_last, HOLDERS_CONDITION, FORWARDS, never, &FEW, CALM},
    MONITOR_AMIDST = {"amidst", half_lower, all_but_last, HOLDERS_CONDITION, FORWARDS, never, &FEW, CALM},
    /* everybody waits with a timer, by the order of the timers */
    TIMED_RISING = {"timers rising", equal, everybody, FIRST_CONDITION, FORWARDS, in_turn, &FEW, CALM},
    TIMED_FALLING = {"timers falling", equal, everybody, FIRST_CONDITION, FORWARDS, last_first, &FEW, CALM},
    TIMED_ANY = {"timers random", equal, everybody, FIRST_CONDITION, FORWARDS, any_tick, &FEW, CALM},
    HALF = {"half, random", any, odd_but_first, FIRST_CONDITION, FORWARDS, never, &FEW, CALM},
    /* those who wake: one runs, and all others wait */
    EQUAL = {"equal", equal, all_but_last, FIRST_CONDITION, FORWARDS, next_tick, &FEW, CALM},
    ANY = {"random", any, all_but_last, FIRST_CONDITION, FORWARDS, next_tick, &FEW, CALM},
    RISING = {"rising", rising, all_but_last, FIRST_CONDITION, FORWARDS, next_tick, &FEW, CALM},
    REVERSED = {"reversed", equal, all_but_last, FIRST_CONDITION, BACKWARDS, next_tick, &FEW, CALM},
    LOW_RUNNER = {"above the runner", low_runner, all_but_last, FIRST_CONDITION, BACKWARDS, next_tick, &FEW, CALM},
    SPREAD = {"on all of 255", any, all_but_last, EACH_CONDITION, BACKWARDS, next_tick, &MANY_CONDITIONS, CALM},
    LAST = {"on the last of 255", any, all_but_last, LAST_CONDITION, BACKWARDS, next_tick, &MANY_CONDITIONS, CALM},
    /* half are ready, and those who wake join in their midst */
    AMIDST = {"amidst the ready", layered, odd_but_first, FIRST_CONDITION, BACKWARDS, next_tick, &FEW, CALM},
    /* all others wait where an alarm calls off one of them, and the last runs */
    ALARM = {"on one", equal, all_but_last, FIRST_CONDITION, FORWARDS, never, &FEW, ABORTABLE},
    ALARM_SPREAD = {"on all of 255", any, all_but_last, EACH_CONDITION, FORWARDS, never, &MANY_CONDITIONS, ABORTABLE},
    /* who runs is aborted: all are ready, or it holds the lock and is to wait where the others wait */
    CALLED_OFF = {"ready", equal, nobody, FIRST_CONDITION, FORWARDS, never, &FEW, ABORTED},
    HOLDER_CALLED_OFF = {"behind all", equal, all_but_last, HOLDERS_CONDITION, FORWARDS, never, &FEW, ABORTED},
    /* as many queues as there can be, 519: all processes in ready, or spread over all kinds */
    MOST_READY = {"519, ready", any, nobody, FIRST_CONDITION, FORWARDS, never, &MOST, CALM},
    MOST_SPREAD = {"519, spread", any, all_but_last, EACH_QUEUE, FORWARDS, never, &MOST, CALM};

/* A scene of a size, and copies of it, as many as a small cache holds. */
struct bench {
    uint16_t processes;
    struct counts counts;
    uint16_t waited_on; /* the condition on which those of a scene wait who wait on one */
    uint16_t middle;    /* the process in the middle of ready */
    uint16_t last;      /* the last who waits on the last condition on which somebody does; 0 if nobody does */
    size_t words, stride, copies;
    uint8_t priorities[MAX_PROCESSES];
    uint16_t scene[MAX_WORDS];
    uint16_t pool[12288];
    uint16_t buffer[2 * MAX_PROCESSES];
    uint8_t page[MAX_PAGE];
};

/* A process that is parked runs, and queues at a lock that is held. */
static void queue_at(struct bench *b, unsigned lock, unsigned process)
{
    plain_requeue(b->scene, b->words, 1, 0, (uint16_t)process);
    plain_enter(b->scene, b->words, (uint16_t)lock);
}

/* A process that is parked runs, and waits on a condition by the second lock, which is free. */
static void wait_on(struct bench *b, const struct scene *s, unsigned condition, unsigned process)
{
    plain_requeue(b->scene, b->words, 1, 0, (uint16_t)process);
    plain_enter(b->scene, b->words, 2);
    plain_wait(b->scene, b->words, 2, (uint16_t)condition, s->ticks(process, b->processes));
}

/* By turns a process goes to a park behind the first, to a lock behind the second, to a condition, or stays. */
static void spread(struct bench *b, const struct scene *s, unsigned process)
{
    unsigned turn = process / 4;
    if (process % 4 == 1)
        plain_requeue(b->scene, b->words, 1, (uint16_t)(2 + turn % (b->counts.parks - 1u)), (uint16_t)process);
    else if (process % 4 == 2)
        queue_at(b, 3 + turn % (b->counts.locks - 2u), process);
    else if (process % 4 == 3)
        wait_on(b, s, 1 + turn % b->counts.conditions, process);
}

/* A process that is parked goes where it is to wait. */
static void lay_down(struct bench *b, const struct scene *s, unsigned process)
{
    if (s->place == EACH_QUEUE)
        spread(b, s, process);
    else if (s->place == FIRST_LOCK)
        queue_at(b, 1, process);
    else if (s->place == EACH_CONDITION)
        wait_on(b, s, 1 + process % b->counts.conditions, process);
    else
        wait_on(b, s, b->waited_on, process);
}

static void lay_all_down(struct bench *b, const struct scene *s)
{
    unsigned processes = b->processes;
    for (unsigned turn = 1; turn <= processes; turn++) {
        unsigned process = s->order == BACKWARDS ? processes + 1 - turn : turn;
        if (s->waits(process, processes))
            lay_down(b, s, process);
    }
}

/* The last process takes every lock but the second. */
static void hold_locks(struct bench *b)
{
    plain_requeue(b->scene, b->words, 1, 0, b->processes);
    plain_enter(b->scene, b->words, 1);
    for (unsigned lock = 3; lock <= b->counts.locks; lock++)
        plain_enter(b->scene, b->words, (uint16_t)lock);
    plain_requeue(b->scene, b->words, 0, 1, b->processes);
}

static uint16_t last_waiting(struct bench *b)
{
    for (uint16_t condition = b->counts.conditions; condition > 0; condition--) {
        unsigned count = KERNEL_COUNT(plain_list(b->scene, b->words, 3, condition, b->buffer, b->processes));
        if (count > 0)
            return b->buffer[count - 1];
    }
    return 0;
}

static void set_alarm(struct bench *b, enum alarm alarm)
{
    if (alarm == CALM)
        return;
    for (uint16_t condition = 1; condition <= b->counts.conditions; condition++)
        plain_set_abortable(b->scene, b->words, condition, 1);
    if (alarm == ABORTED)
        plain_abort(b->scene, b->words, b->buffer[0]);
}

static void make(struct bench *b, const struct scene *s, uint16_t processes)
{
    memset(b, 0, sizeof *b);
    b->processes = processes;
    b->counts = *s->counts;
    b->waited_on = s->place == LAST_CONDITION ? b->counts.conditions : 1;
    b->words = KERNEL_AREA_WORDS(processes, b->counts.locks, b->counts.conditions, b->counts.parks);
    b->stride = (b->words + 31) / 32 * 32;
    b->copies = sizeof b->pool / sizeof *b->pool / b->stride;
    for (unsigned process = 1; process <= processes; process++)
        b->priorities[process - 1] = s->priority(process, processes);
    plain_start(b->scene, b->words, processes, b->counts.locks, b->counts.conditions, b->counts.parks, b->priorities, processes);
    for (unsigned process = 1; process <= processes; process++)
        plain_requeue(b->scene, b->words, 0, 1, (uint16_t)process);
    if (s->place == FIRST_LOCK || s->place == HOLDERS_CONDITION || s->place == EACH_QUEUE)
        hold_locks(b);
    lay_all_down(b, s);
    for (unsigned process = 1; process <= processes; process++)
        plain_requeue(b->scene, b->words, 1, 0, (uint16_t)process);
    unsigned ready = KERNEL_COUNT(plain_list(b->scene, b->words, 0, 0, b->buffer, processes));
    b->middle = b->buffer[ready / 2];
    set_alarm(b, s->alarm);
    b->last = last_waiting(b);
}

/* The work of a row, on a copy of its scene. It answers a sum of answers. */

typedef uint64_t work(const struct calls *, struct bench *, uint16_t *area);

static uint64_t do_start(const struct calls *c, struct bench *b, uint16_t *area)
{
    return c->start(area, b->words, b->processes, b->counts.locks, b->counts.conditions, b->counts.parks, b->priorities, b->processes);
}

static uint64_t do_sound(const struct calls *c, struct bench *b, uint16_t *area)
{
    return c->sound(area, b->words);
}

static uint64_t do_enter_exit(const struct calls *c, struct bench *b, uint16_t *area)
{
    return c->enter(area, b->words, 1) + c->exit(area, b->words, 1);
}

static uint64_t do_enter(const struct calls *c, struct bench *b, uint16_t *area)
{
    return c->enter(area, b->words, 1);
}

/* One takes the lock and goes behind its equals, and the next fails to take it. */
static uint64_t do_enter_twice(const struct calls *c, struct bench *b, uint16_t *area)
{
    return c->enter(area, b->words, 1) + c->set_priority(area, b->words, PRIORITY) + c->enter(area, b->words, 1);
}

static uint64_t do_exit(const struct calls *c, struct bench *b, uint16_t *area)
{
    return c->exit(area, b->words, 1);
}

static uint64_t do_wait(const struct calls *c, struct bench *b, uint16_t *area)
{
    return c->wait(area, b->words, 1, b->waited_on, 9);
}

static uint64_t do_naked_enter_wait(const struct calls *c, struct bench *b, uint16_t *area)
{
    return c->naked(area, b->words, b->counts.conditions) + c->enter(area, b->words, 1) +
           c->wait(area, b->words, 1, b->counts.conditions, 0);
}

static uint64_t do_enter_wait_notify(const struct calls *c, struct bench *b, uint16_t *area)
{
    return c->enter(area, b->words, 1) + c->wait(area, b->words, 1, 1, 9) + c->notify(area, b->words, 1);
}

static uint64_t do_abort_last(const struct calls *c, struct bench *b, uint16_t *area)
{
    return c->abort(area, b->words, b->last);
}

static uint64_t do_abort_ready(const struct calls *c, struct bench *b, uint16_t *area)
{
    return c->abort(area, b->words, b->middle);
}

static uint64_t do_set_abortable(const struct calls *c, struct bench *b, uint16_t *area)
{
    return c->set_abortable(area, b->words, b->counts.conditions, 1);
}

static uint64_t do_reenter(const struct calls *c, struct bench *b, uint16_t *area)
{
    return c->reenter(area, b->words, 1, b->waited_on);
}

/* Nobody waits on the last condition. */
static uint64_t do_notify_none(const struct calls *c, struct bench *b, uint16_t *area)
{
    return c->notify(area, b->words, b->counts.conditions);
}

static uint64_t do_broadcast_none(const struct calls *c, struct bench *b, uint16_t *area)
{
    return c->broadcast(area, b->words, b->counts.conditions);
}

static uint64_t do_naked_none(const struct calls *c, struct bench *b, uint16_t *area)
{
    return c->naked(area, b->words, b->counts.conditions);
}

static uint64_t do_broadcast(const struct calls *c, struct bench *b, uint16_t *area)
{
    return c->broadcast(area, b->words, b->waited_on);
}

static uint64_t do_requeue(const struct calls *c, struct bench *b, uint16_t *area)
{
    return c->requeue(area, b->words, 0, 0, b->middle);
}

static uint64_t do_set_priority(const struct calls *c, struct bench *b, uint16_t *area)
{
    return c->set_priority(area, b->words, PRIORITY);
}

static uint64_t do_tick(const struct calls *c, struct bench *b, uint16_t *area)
{
    return c->tick(area, b->words);
}

static uint64_t do_list_ready(const struct calls *c, struct bench *b, uint16_t *area)
{
    return c->list(area, b->words, 0, 0, b->buffer, b->processes);
}

static uint64_t do_list_waiting(const struct calls *c, struct bench *b, uint16_t *area)
{
    return c->list(area, b->words, 3, b->waited_on, b->buffer, b->processes);
}

static uint64_t do_due(const struct calls *c, struct bench *b, uint16_t *area)
{
    return c->due(area, b->words, UINT16_MAX, b->buffer, 2 * (size_t)b->processes);
}

static uint64_t do_due_soon(const struct calls *c, struct bench *b, uint16_t *area)
{
    return c->due(area, b->words, SOON, b->buffer, 2 * (size_t)b->processes);
}

static uint64_t do_nearest(const struct calls *c, struct bench *b, uint16_t *area)
{
    return c->nearest(area, b->words);
}

static uint64_t do_sheet(const struct calls *c, struct bench *b, uint16_t *area)
{
    return c->sheet(area, b->words, b->page, sizeof b->page);
}

static const struct row {
    const char *name;
    work *work;
    const struct scene *scene;
} ROWS[] = {
    {"start", do_start, &READY},
    {"start", do_start, &READY_ANY},
    {"sound", do_sound, &READY},
    {"sound", do_sound, &READY_ANY},
    {"sound", do_sound, &WAITING},
    {"sound", do_sound, &WAITING_SPREAD},
    {"sound", do_sound, &BLOCKED},
    {"enter, exit", do_enter_exit, &READY},
    {"enter, behind, enter", do_enter_twice, &READY},
    {"enter, queues", do_enter, &QUEUE},
    {"enter, queues", do_enter, &QUEUE_AMIDST},
    {"exit to the next", do_exit, &BLOCKED},
    {"wait", do_wait, &MONITOR},
    {"wait", do_wait, &MONITOR_AMIDST},
    {"naked, enter, wait", do_naked_enter_wait, &READY},
    {"enter, wait, notify", do_enter_wait_notify, &READY},
    {"enter, wait, notify", do_enter_wait_notify, &HALF},
    {"notify none", do_notify_none, &READY},
    {"broadcast to none", do_broadcast_none, &READY},
    {"naked to none", do_naked_none, &READY},
    {"naked to none", do_naked_none, &WAITING},
    {"abort, wakes", do_abort_last, &ALARM},
    {"abort, wakes", do_abort_last, &ALARM_SPREAD},
    {"abort, the bit alone", do_abort_ready, &READY},
    {"set_abortable", do_set_abortable, &READY},
    {"reenter", do_reenter, &READY},
    {"reenter, called off", do_reenter, &CALLED_OFF},
    {"reenter, queues", do_reenter, &QUEUE},
    {"wait, called off", do_wait, &HOLDER_CALLED_OFF},
    {"requeue", do_requeue, &READY},
    {"requeue", do_requeue, &READY_ANY},
    {"set_priority", do_set_priority, &READY},
    {"set_priority", do_set_priority, &READY_ANY},
    {"tick", do_tick, &READY},
    {"tick", do_tick, &WAITING},
    {"tick", do_tick, &WAITING_SPREAD},
    {"list", do_list_ready, &READY},
    {"list", do_list_ready, &READY_ANY},
    {"list", do_list_waiting, &WAITING_ANY},
    {"due, all told", do_due, &TIMED_RISING},
    {"due, all told", do_due, &TIMED_FALLING},
    {"due, all told", do_due, &TIMED_ANY},
    {"due, nobody told", do_due_soon, &TIMED_ANY},
    {"due, nobody told", do_due, &WAITING},
    {"nearest", do_nearest, &TIMED_RISING},
    {"nearest", do_nearest, &TIMED_FALLING},
    {"nearest", do_nearest, &TIMED_ANY},
    {"nearest", do_nearest, &WAITING},
    {"sheet", do_sheet, &READY_ANY},
    {"sheet", do_sheet, &MOST_READY},
    {"sheet", do_sheet, &MOST_SPREAD},
    {"broadcast to all", do_broadcast, &EQUAL},
    {"broadcast to all", do_broadcast, &ANY},
    {"broadcast to all", do_broadcast, &RISING},
    {"broadcast to all", do_broadcast, &LOW_RUNNER},
    {"broadcast to all", do_broadcast, &LAST},
    {"broadcast to all", do_broadcast, &AMIDST},
    {"tick, all due", do_tick, &EQUAL},
    {"tick, all due", do_tick, &ANY},
    {"tick, all due", do_tick, &RISING},
    {"tick, all due", do_tick, &REVERSED},
    {"tick, all due", do_tick, &LOW_RUNNER},
    {"tick, all due", do_tick, &SPREAD},
    {"tick, all due", do_tick, &LAST},
    {"tick, all due", do_tick, &AMIDST},
};

/* Timing. */

static double now(void)
{
    struct timespec t;
    clock_gettime(CLOCK_MONOTONIC, &t);
    return 1e9 * (double)t.tv_sec + (double)t.tv_nsec;
}

static volatile uint64_t sink;

/* The nanoseconds of one time, out of so many batches of a time for each copy. */
static double round_of(work *w, const struct calls *c, struct bench *b, unsigned batches)
{
    uint64_t sum = 0;
    double taken = 0;
    for (unsigned batch = 0; batch < batches; batch++) {
        for (size_t copy = 0; copy < b->copies; copy++)
            memcpy(b->pool + copy * b->stride, b->scene, b->words * sizeof *b->scene);
        double begun = now();
        for (size_t copy = 0; copy < b->copies; copy++)
            sum += w(c, b, b->pool + copy * b->stride);
        taken += now() - begun;
    }
    sink += sum;
    return taken / batches / (double)b->copies;
}

/* How many batches make a round of about a quarter of a millisecond. */
static unsigned batches_of(work *w, struct bench *b)
{
    double plain = round_of(w, &PLAIN, b, 1), library = round_of(w, &LIBRARY, b, 1);
    double batch = (plain > library ? plain : library) * (double)b->copies;
    return 1 + (unsigned)(250e3 / batch);
}

/* Both kernels must do the same, or the times mean nothing. */
static bool agree(work *w, struct bench *b)
{
    static uint16_t area[MAX_WORDS], buffer[2 * MAX_PROCESSES];
    static uint8_t page[MAX_PAGE];
    memcpy(area, b->scene, sizeof area);
    memset(b->buffer, 0, sizeof b->buffer);
    memset(b->page, 0, sizeof b->page);
    uint64_t answer = w(&PLAIN, b, area);
    memcpy(buffer, b->buffer, sizeof buffer);
    memcpy(page, b->page, sizeof page);
    memcpy(b->pool, b->scene, sizeof area);
    memset(b->buffer, 0, sizeof b->buffer);
    memset(b->page, 0, sizeof b->page);
    return w(&LIBRARY, b, b->pool) == answer && memcmp(b->pool, area, sizeof area) == 0 &&
           memcmp(b->buffer, buffer, sizeof buffer) == 0 && memcmp(b->page, page, sizeof page) == 0;
}

enum { PASSES = 8, ROUNDS = 16 };

/* The fastest rounds of a row and a size, in nanoseconds; 0 before the first. */
struct times {
    double library, plain;
};

static void keep_faster(double *best, double time)
{
    if (*best == 0 || time < *best)
        *best = time;
}

static void measure(struct times *best, work *w, struct bench *b)
{
    unsigned batches = batches_of(w, b);
    for (int round = 0; round < ROUNDS; round++) {
        keep_faster(&best->plain, round_of(w, &PLAIN, b, batches));
        keep_faster(&best->library, round_of(w, &LIBRARY, b, batches));
    }
}

static void compare(struct times *best, const struct row *row, uint16_t processes)
{
    static struct bench b;
    make(&b, row->scene, processes);
    if (!agree(row->work, &b)) {
        fprintf(stderr, "%s, %s, at P %u: the kernels differ\n", row->name, row->scene->name, processes);
        exit(EXIT_FAILURE);
    }
    measure(best, row->work, &b);
}

enum { COUNT_OF_ROWS = sizeof ROWS / sizeof *ROWS, MAX_SIZES = 32 };

static void print(struct times best[COUNT_OF_ROWS][MAX_SIZES], const uint16_t *sizes, size_t count)
{
    printf("%-20s %-18s %5s %10s %10s %7s\n", "call", "scene", "P", "library ns", "plain ns", "ratio");
    for (size_t row = 0; row < COUNT_OF_ROWS; row++) {
        for (size_t size = 0; size < count; size++) {
            struct times t = best[row][size];
            printf("%-20s %-18s %5u %10.1f %10.1f %7.2f\n", ROWS[row].name, ROWS[row].scene->name, sizes[size], t.library, t.plain,
                   t.library / t.plain);
        }
    }
}

int main(int argc, char **argv)
{
    static struct times best[COUNT_OF_ROWS][MAX_SIZES];
    uint16_t sizes[MAX_SIZES] = {3, 50, MAX_PROCESSES};
    size_t count = argc > 1 ? (size_t)argc - 1 : 3;
    for (int arg = 1; arg < argc; arg++) {
        long size = strtol(argv[arg], NULL, 10);
        if (arg > MAX_SIZES || size < 1 || size > MAX_PROCESSES) {
            fprintf(stderr, "usage: %s [SIZE]..., each 1 to %d, at most %d of them\n", argv[0], MAX_PROCESSES, MAX_SIZES);
            return EXIT_FAILURE;
        }
        sizes[arg - 1] = (uint16_t)size;
    }
    for (int pass = 0; pass < PASSES; pass++)
        for (size_t row = 0; row < COUNT_OF_ROWS; row++)
            for (size_t size = 0; size < count; size++)
                compare(&best[row][size], &ROWS[row], sizes[size]);
    print(best, sizes, count);
    return EXIT_SUCCESS;
}
