/* The idioms of kernel.h as code. Three processes on stacks of their own: a producer puts a device's readings into a guarded store, a
 * consumer takes them until it is called off, and a watch pauses and then calls it off. The main program is the idle loop: while nobody
 * runs it makes the clock's ticks and the device's interrupts. A switch is swapcontext. A line that begins with WRONG, and exit status 1,
 * say that something is not as it should be. */
#define _XOPEN_SOURCE 700
#include "../include/kernel.h"

#include <stdio.h>
#include <stdlib.h>
#include <ucontext.h>

enum { PRODUCER = 1, CONSUMER, WATCH, PROCESSES = WATCH };
enum { STORE = 1, PAUSES, LOCKS = PAUSES };
enum { READ = 1, FILLED, EMPTIED, PAUSE, CONDITIONS = PAUSE };
enum { OVER = 1, PARKS = OVER }; /* the park of those who have come to their end */
enum { READINGS = 4 };

static uint16_t area[KERNEL_AREA_WORDS(PROCESSES, LOCKS, CONDITIONS, PARKS)];
static const size_t len = sizeof area / sizeof *area;
static ucontext_t contexts[PROCESSES + 1]; /* 0: the idle loop */
static char stacks[PROCESSES + 1][64 * 1024];
static uint16_t running;                 /* as the last accepted call said; 0: nobody */
static int full, stored;                 /* the store */
static int device;                       /* the device's last reading, 0 once it is put into the store */
static unsigned now, queued, taken, off; /* ticks; how often an entry queued, a reading was taken, the consumer was called off */

static void say(const char *who, const char *what, unsigned number)
{
    printf("tick %2u  %-8s %s %u\n", now, who, what, number);
}

static void refused(unsigned code)
{
    printf("WRONG refused %u: %s\n", code, kernel_code_text(code));
    exit(1);
}

/* Comes back when the caller runs again. Running has its new value already, so who leaves is kept here. */
static void switch_to(unsigned process)
{
    static unsigned on_processor;
    unsigned leaves = on_processor;
    on_processor = process;
    swapcontext(&contexts[leaves], &contexts[process]);
}

/* Every answer that says who runs goes through here; a read's does not. */
static uint64_t told(uint64_t a)
{
    if (KERNEL_CODE(a) != KERNEL_OK) {
        refused(KERNEL_CODE(a));
    } else if (KERNEL_RUNNING(a) != running) {
        running = (uint16_t)KERNEL_RUNNING(a);
        switch_to(running);
    }
    return a;
}

static void lock(uint16_t l)
{
    while (KERNEL_MARK(told(kernel_enter(area, len, l))) != 1)
        queued++; /* it has queued, and runs again */
}

static void delay(uint16_t ticks)
{
    lock(PAUSES);
    told(kernel_wait(area, len, PAUSES, PAUSE, ticks));
}

static void producer(void)
{
    for (int i = 0; i < READINGS; i++) {
        lock(STORE);
        while (!device || full) {
            say("producer", full ? "waits till the store is empty of" : "waits for reading", full ? (unsigned)stored : (unsigned)i + 1);
            told(kernel_wait(area, len, STORE, full ? EMPTIED : READ, 0));
            lock(STORE);
        }
        say("producer", "puts", (unsigned)device);
        stored = device;
        device = 0;
        full = 1;
        told(kernel_notify(area, len, FILLED)); /* the consumer is higher: if it waits it runs at once, and queues for the lock */
        told(kernel_exit(area, len, STORE));
    }
}

static void consumer(void)
{
    for (;;) {
        lock(STORE);
        while (!full) {
            uint64_t a;
            told(kernel_wait(area, len, STORE, FILLED, 0));
            do {
                a = told(kernel_reenter(area, len, STORE, FILLED));
                queued += KERNEL_MARK(a) == 0;
            } while (KERNEL_MARK(a) == 0);
            if (KERNEL_MARK(a) == 2) {
                off++;
                return;
            }
        }
        say("consumer", "takes", (unsigned)stored);
        full = 0;
        taken++;
        told(kernel_notify(area, len, EMPTIED));
        told(kernel_exit(area, len, STORE));
        delay(5);
    }
}

static void watch(void)
{
    for (int i = 0; i < 3; i++) {
        delay(8);
        say("watch", "counts", taken);
    }
    told(kernel_abort(area, len, CONSUMER));
}

static void task(void)
{
    static void (*const tasks[])(void) = {[PRODUCER] = producer, [CONSUMER] = consumer, [WATCH] = watch};
    tasks[running]();
    say("the end", "of process", running);
    told(kernel_requeue(area, len, KERNEL_READY, OVER, running)); /* for good */
}

int main(void)
{
    static const uint8_t priorities[] = {3, 5, 6};
    for (unsigned p = 1; p <= PROCESSES; p++) {
        getcontext(&contexts[p]);
        contexts[p].uc_stack.ss_sp = stacks[p];
        contexts[p].uc_stack.ss_size = sizeof stacks[p];
        makecontext(&contexts[p], task, 0);
    }
    if (KERNEL_CODE(kernel_start(area, len, PROCESSES, LOCKS, CONDITIONS, PARKS, priorities, sizeof priorities)) != KERNEL_OK)
        return 1;
    told(kernel_set_abortable(area, len, FILLED, 1)); /* the first answer that is told: nobody runs before all is set up */
    while (now < 30) {                                /* here nobody runs, and an interrupt comes */
        uint32_t left = KERNEL_NEAREST_TICKS(kernel_nearest(area, len));
        now++;
        if ((KERNEL_MOVED(told(kernel_tick(area, len))) > 0) != (left == 1))
            return puts("WRONG nearest says which tick moves somebody"), 1;
        if (now % 2 == 0 && now <= 12) {
            device = (int)(10 * now);
            say("device", "reads", 10 * now);
            if (KERNEL_MARK(told(kernel_naked(area, len, READ))) == 1)
                say("device", "wakes nobody: wakeups stored", 1);
        }
    }
    uint16_t ended[PROCESSES];
    unsigned parked = KERNEL_COUNT(kernel_list(area, len, KERNEL_PARK, OVER, ended, PROCESSES));
    int right = parked == PROCESSES && taken == READINGS && queued > 0 && off == 1;
    printf("%s%u processes ended, %u readings taken, %u entries queued\n", right ? "" : "WRONG ", parked, taken, queued);
    return !right;
}
