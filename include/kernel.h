/* Rungteasel, the process kernel: it shares one processor among a probe's tasks, on an area of 16-bit words that the caller lends.
 *
 * An area is a plain array of uint16_t. kernel_start makes it ready, and every other call works on it; all that the kernel knows is in
 * these words. Nothing is kept elsewhere, nothing is allocated, and no call blocks: a call that makes its process wait answers who runs
 * now, and the firmware switches to that process.
 *
 * A task is called a process. Processes, monitor locks, conditions and parks are numbered from 1; process 0 means none. Priorities are 0
 * to 7, 7 the highest.
 *
 * This file is the whole manual: how calls are used, answers, codes, the area, the calls, the reads, what a call costs.
 *
 *
 * ---- who runs
 *
 * kernel_start and the twelve calls that change an area say in their answers who runs now. Any of them can change that, if it is accepted:
 * enter, reenter and wait, by which the caller queues or waits, but also exit, notify, broadcast, naked, abort, tick, requeue and
 * set_priority, when they bring a process of higher priority into ready or send the running one behind another.
 *
 * A call acts for the process that the kernel has as running, and not for the code that happens to be on the processor. So switch to the
 * process that an answer names before the next call; in an interrupt handler, ask for the switch on return. Code that goes on calling after
 * an answer has named another process makes its calls in that one's name.
 *
 * Who runs is told only with code 0. A refusal has zeros beside its code, and the process that ran before goes on; a wrapper that takes
 * KERNEL_RUNNING of a refusal for who runs idles the machine. This one does it right. Every answer that says who runs goes through it, and
 * no read's, in which these bits mean something else:
 *
 *     static uint16_t running;                                  // as the last accepted call said; 0: nobody
 *
 *     static uint64_t told(uint64_t a)
 *     {
 *         if (KERNEL_CODE(a) != KERNEL_OK) {
 *             refused(KERNEL_CODE(a));                          // a mistake of the program, or spoiled memory; it does not return
 *         } else if (KERNEL_RUNNING(a) != running) {
 *             running = (uint16_t)KERNEL_RUNNING(a);
 *             switch_to(running);                               // comes back when the process that leaves here runs again
 *         }
 *         return a;
 *     }
 *
 * Process 0 has a context of its own, the idle loop, which sleeps until an interrupt. A handler's wrapper stores running likewise, and asks
 * for the switch in the place of switch_to. The first answer that goes through told begins the first process: calls that set up more, as
 * kernel_set_abortable, come between kernel_start and that.
 *
 * Calls on one area must not run at the same time: mask interrupts around a call, until running is stored, so that an older answer is never
 * stored over a newer one. examples/monitor.c has all this as code. Firmware without stacks to switch makes each task a state machine, and
 * its main loop steps whom the last answer names: examples/probe.c is built so.
 *
 *
 * ---- queues
 *
 * A process stands in one queue: ready, a park, a lock's, for which it queues, or a condition's, on which it waits. Every queue is in the
 * order of falling priority, and equals are in the order in which they came: whoever joins goes behind its equals, and so does a process
 * that is moved within its queue. The first of ready runs, and stays the first of ready while it runs. There are no time slices: equals run
 * in turn if the running one gives way. A task that is done parks itself for good, if the area has a park.
 *
 *     told(kernel_requeue(area, len, KERNEL_READY, KERNEL_READY, running));   // gives way to its equals
 *     told(kernel_requeue(area, len, KERNEL_READY, 1, running));              // to park 1
 *
 *
 * ---- a monitor: the loop around enter, the loop around wait
 *
 * A lock that is left is handed to nobody. The first that queues for it comes into ready and must enter again; until it runs, whoever
 * enters takes the free lock, and then it queues again. So a process enters until its own enter has mark 1:
 *
 *     static void lock(uint16_t l)
 *     {
 *         while (KERNEL_MARK(told(kernel_enter(area, len, l))) != 1) {
 *         }                                                     // it has queued, and runs again
 *     }
 *
 * That the process must enter again is told as retry 1 too, but once, in the answer that first lets it run. That is the answer of a call
 * that another process made, or of an interrupt handler's requeue, and the process itself never sees it. The loop does not need it.
 *
 * kernel_wait leaves the lock with mark 0, where the process need not wait, as with mark 1, where it waits. When it runs again it is not
 * told whether it was notified or timed out, and others may have had the lock meanwhile. So enter again before touching what the lock
 * guards, and look at that in a loop:
 *
 *     lock(STORE);
 *     while (!store.full) {
 *         told(kernel_wait(area, len, STORE, FILLED, 0));
 *         lock(STORE);
 *     }
 *     ...                                                       // the store is full, and the process has the lock
 *     told(kernel_exit(area, len, STORE));
 *
 * With a timeout it ends after one wait. A mark of 0 was none: a wakeup of long ago may have been stored.
 *
 *     lock(STORE);
 *     for (uint64_t a = 0; !store.full && KERNEL_MARK(a) == 0;) {
 *         a = told(kernel_wait(area, len, STORE, FILLED, 20));
 *         lock(STORE);
 *     }
 *     ...                                                       // store.full says whether it came in time
 *
 * Wakeups do not add up. kernel_notify and kernel_broadcast over a condition on which nobody waits leave nothing behind, and take nothing
 * away; kernel_naked leaves one wakeup there, however often it is called. So the state that the lock guards says what happened, and a
 * wakeup says only: look.
 *
 * A delay alone is a wait for its ticks on a condition that nobody notifies; any lock will do, since the wait leaves it at once:
 *
 *     lock(PAUSES);
 *     told(kernel_wait(area, len, PAUSES, PAUSE, 20));          // the 20th tick from now ends it
 *
 *
 * ---- what a caller sees to
 *
 * Any area, of any length and content, with any numbers beside it, is answered. A refused call changes no word of the area or of a
 * buffer and no byte of a page, and answers zeros beside its code.
 *
 * Lengths are in elements: words of an area or a buffer, bytes of a priority list or a page. The pointers of a call must be valid for the
 * lengths beside them and properly aligned (2 bytes for words), a pointer of length 0 included, so NULL is none; and no two of them may
 * overlap. A call reads no word of the area beyond its size (KERNEL_AREA_WORDS) and writes none.
 *
 * Interrupt handlers call naked, abort, tick and, if need be, requeue and set_abortable, which ask for nobody who runs, and any read. The
 * other changing calls are the running process's: where nobody runs they are refused. */
#ifndef RUNGTEASEL_KERNEL_H
#define RUNGTEASEL_KERNEL_H

#include <stddef.h>
#include <stdint.h>

#ifdef __cplusplus
extern "C" {
#endif

#define KERNEL_VERSION "0.2.0"
#define KERNEL_VERSION_NUMBER 200 /* for #if: major * 10000 + minor * 100 + patch */

/* ---- answers
 *
 * An answer is one number, ten bits a field. kernel_start and the twelve changing calls answer six fields: */

#define KERNEL_CODE(a) ((unsigned)((a) & 1023u))            /* 0: accepted, else one of the codes below, and zeros beside it */
#define KERNEL_RUNNING(a) ((unsigned)((a) >> 10 & 1023u))   /* with code 0: the process that runs now, 0 if none is ready */
#define KERNEL_RETRY(a) ((unsigned)((a) >> 20 & 1023u))     /* 1: the process that runs now failed to enter a lock and must enter again */
#define KERNEL_MARK(a) ((unsigned)((a) >> 30 & 1023u))      /* told at enter, wait, naked and reenter; else 0 */
#define KERNEL_MOVED(a) ((unsigned)((a) >> 40 & 1023u))     /* how many processes came into ready from another queue */
#define KERNEL_AHEAD(a) ((unsigned)((a) >> 50 & 1023u))     /* how many stand before the caller in the queue that it joined; else 0 */

/* The last is told by kernel_enter and kernel_reenter when they queue and by kernel_wait when it waits, and by nothing else. So a task
 * learns in the same call how long the queue is. It stays there until its turn comes, but it can decide to skip a reading that would come
 * too late: it keeps this in its state, and when it runs again it goes on without. examples/probe.c has such a task. */

/* kernel_list answers two: the code, and */
#define KERNEL_COUNT(a) ((unsigned)((a) >> 10 & 1023u))     /* how many processes were written */

/* kernel_due, kernel_nearest and kernel_sheet answer twenty bits a field. The macros above are not for their answers: KERNEL_COUNT, say,
 * would always find 0 there. kernel_due answers two fields: */
#define KERNEL_DUE_CODE(a) ((unsigned)((a) & 0xFFFFFu))
#define KERNEL_DUE_COUNT(a) ((unsigned)((a) >> 20 & 0xFFFFFu))       /* how many processes were told, two words each */

/* kernel_nearest answers three: */
#define KERNEL_NEAREST_CODE(a) ((unsigned)((a) & 0xFFFFFu))
#define KERNEL_NEAREST_PROCESS(a) ((unsigned)((a) >> 20 & 0xFFFFFu)) /* 0 if no timer is set */
#define KERNEL_NEAREST_TICKS(a) ((uint32_t)((a) >> 40 & 0xFFFFFu))   /* 1 to 65,536, too wide for a uint16_t; 0 if no timer is set */

/* kernel_sheet answers two: */
#define KERNEL_SHEET_CODE(a) ((unsigned)((a) & 0xFFFFFu))
#define KERNEL_SHEET_BYTES(a) ((unsigned)((a) >> 20 & 0xFFFFFu))     /* how many bytes were written */

/* ---- codes
 *
 * Each call lists its codes in the order in which it tests them: the first test that fails is the one that is told. */

#define KERNEL_OK 0
#define KERNEL_UNSOUND 1
#define KERNEL_BAD_COUNT 2
#define KERNEL_BAD_LIST 3
#define KERNEL_BAD_PRIORITY 4
#define KERNEL_SHORT 5
#define KERNEL_NOBODY 6
#define KERNEL_NO_SUCH 7
#define KERNEL_HELD 8
#define KERNEL_NOT_HELD 9
#define KERNEL_NOT_THERE 10

/* A code in words, for a log. */
static inline const char *kernel_code_text(unsigned code)
{
    switch (code) {
    case KERNEL_OK: return "accepted";
    case KERNEL_UNSOUND: return "the area is not sound";
    case KERNEL_BAD_COUNT: return "a count is out of range";
    case KERNEL_BAD_LIST: return "the list is not as long as there are processes";
    case KERNEL_BAD_PRIORITY: return "a priority is above 7";
    case KERNEL_SHORT: return "the area, the buffer or the page is too short";
    case KERNEL_NOBODY: return "nobody runs";
    case KERNEL_NO_SUCH: return "no such lock, condition, park, process, queue or value";
    case KERNEL_HELD: return "the running process holds the lock already";
    case KERNEL_NOT_HELD: return "the running process does not hold the lock";
    case KERNEL_NOT_THERE: return "the process does not stand in the source queue";
    default: return "no code of the kernel";
    }
}

/* KERNEL_UNSOUND comes from every call but kernel_start, which overwrites an area, and kernel_sound, which says 0. Its causes: a length
 * below KERNEL_AREA_WORDS of the counts that the area was started with; an area that was never started; memory that something else wrote.
 * From an accepted kernel_start on, no list of calls leads there. What to do: nothing in the area can be relied on, so begin again with
 * running 0, kernel_start and every task at its beginning, as after a reset.
 *
 * Sound means that the words agree with each other, so that a call can do its work and end. It is no checksum. Of an area of 3 processes,
 * with priorities 2, 5 and 2, a lock that is held and a condition on which one waits with a timer, 44 of the 288 single bit flips leave it
 * sound (examples/codes.c counts them): all of the clock and of the timer, and some of a priority, a holder, failed, abort and abortable.
 * Such an area is answered as if it had always been so. Where memory can lose bits, keep a checksum of the area beside it. */

/* ---- the area */

/* how many words an area of these counts takes */
#define KERNEL_AREA_WORDS(processes, locks, conditions, parks) \
    (6u + (parks) + 2u * (locks) + (conditions) + 3u * (processes))

/* Makes an area anew, whatever it holds: clock 0, every process in ready by its priority, equals by number, locks free, no timer, nobody
 * aborted, no wakeup stored and no condition abortable. processes 1 to 1,023, locks and conditions 0 to 255, parks 0 to 8. priorities has
 * one byte for each process, and priorities[0] is process 1's. Words beyond the area's size stay.
 * Codes: 2 BAD_COUNT, 3 BAD_LIST (count is not processes), 4 BAD_PRIORITY, 5 SHORT (len). */
uint64_t kernel_start(uint16_t *area, size_t len, uint16_t processes, uint16_t locks, uint16_t conditions, uint16_t parks,
                      const uint8_t *priorities, size_t count);

/* 1 exactly for a sound area, else 0. It is no answer with fields. */
uint64_t kernel_sound(const uint16_t *area, size_t len);

/* ---- monitor locks */

/* The running process takes the lock (mark 1), even if others queue for it, or, where it is held, becomes failed and queues for it (mark
 * 0): when it runs again it must enter again. If it queues, KERNEL_AHEAD says how many stand before it: those of its priority or a higher
 * one. There is no timeout. An abort makes no difference to it: the entry after a wait that may be called off is kernel_reenter.
 *
 * Nobody is passed over: the (KERNEL_AHEAD + 1)th leaving of the lock from then on, an accepted kernel_exit or kernel_wait of it, brings
 * the process into ready, and no earlier call does; each process of higher priority that joins the lock meanwhile makes it one leaving
 * later.
 * Codes: 1 UNSOUND, 6 NOBODY, 7 NO_SUCH, 8 HELD (a lock is not entered twice). */
uint64_t kernel_enter(uint16_t *area, size_t len, uint16_t lock);

/* The running process leaves the lock, which is then free; the first that queues for it, if any, comes into ready (moved 1), without the
 * lock: whoever enters first takes it.
 * Codes: 1 UNSOUND, 6 NOBODY, 7 NO_SUCH, 9 NOT_HELD. */
uint64_t kernel_exit(uint16_t *area, size_t len, uint16_t lock);

/* ---- conditions */

/* The running process leaves the lock as by kernel_exit and waits on the condition (mark 1) until it is notified or, if ticks is not 0,
 * that many ticks have gone by; ticks 0 is no timeout. If it waits, KERNEL_AHEAD says how many wait there before it: kernel_notify wakes
 * these first. If a wakeup was stored by kernel_naked, it takes that and goes on (mark 0). If it is aborted and the condition is abortable,
 * it goes on too (mark 0), and a stored wakeup stays, as does its abort: kernel_reenter then says that it was called off. Whatever the
 * mark, it has left the lock, and keeps the other locks that it holds.
 *
 * A wait of t ticks lasts t ticks: unless another call wakes its process, the t-th tick does, and no earlier one, at whatever clock. The
 * first may come at once, so that is more than t - 1 periods of the clock and at most t. Here the kernel leaves chapter 10 of the Mesa
 * manual. There timer 0 stands for no timer, so that a wait which falls due at clock 0 is put off by a tick, and a grid of readings shifts
 * once a round of the clock. Here a bit beside the timer, armed, says whether it is set, and 0 is a time as any other.
 * Codes: 1 UNSOUND, 6 NOBODY, 7 NO_SUCH (either number), 9 NOT_HELD. */
uint64_t kernel_wait(uint16_t *area, size_t len, uint16_t lock, uint16_t condition, uint16_t ticks);

/* The first process that waits on the condition wakes, if there is one (moved 1): it comes into ready. If its priority is higher it runs at
 * once, and the caller keeps the locks that it holds. The caller needs no lock. Where nobody waits, nothing is stored.
 * Codes: 1 UNSOUND, 6 NOBODY, 7 NO_SUCH. */
uint64_t kernel_notify(uint16_t *area, size_t len, uint16_t condition);

/* All processes that wait on the condition wake, in the order in which they stand there, and moved says how many.
 * Codes: 1 UNSOUND, 6 NOBODY, 7 NO_SUCH. */
uint64_t kernel_broadcast(uint16_t *area, size_t len, uint16_t condition);

/* A device's notify, for interrupt handlers: the first that waits wakes (mark 0, moved 1); if nobody waits, a wakeup is stored (mark 1),
 * also if one was before. The next wait on the condition takes it.
 * Codes: 1 UNSOUND, 7 NO_SUCH. */
uint64_t kernel_naked(uint16_t *area, size_t len, uint16_t condition);

/* ---- alarms: a task is called off its wait
 *
 * A process is aborted or not, and a condition abortable or not. An abort ends a wait on an abortable condition, and an aborted process
 * begins none there. Nothing else comes of it: who waits on another condition, queues for a lock or is parked stays where it is. A process
 * is aborted until it takes the abort by kernel_reenter. So after a wait that may be called off a task reenters, in the place of lock
 * above. The loop with lock would go round for ever, since an aborted process begins no wait there.
 *
 *     do
 *         a = told(kernel_reenter(area, len, STORE, FILLED));
 *     while (KERNEL_MARK(a) == 0);                              // it has queued, and runs again
 *     if (KERNEL_MARK(a) == 2)
 *         ...                                                   // it was called off, and has no lock
 *     else
 *         ...                                                   // it has the lock: look at what it guards
 *
 * examples/probe.c and examples/monitor.c have such a task. */

/* The process is aborted, also if it was before. If it waits on an abortable condition, it wakes as by kernel_notify (moved 1), whoever
 * waits there before it.
 * Codes: 1 UNSOUND, 7 NO_SUCH. */
uint64_t kernel_abort(uint16_t *area, size_t len, uint16_t process);

/* Makes a condition abortable (value 1) or no longer so (value 0). It moves nobody: an aborted process that waits there waits on, until it
 * is aborted again or wakes otherwise. Who runs stays.
 * Codes: 1 UNSOUND, 7 NO_SUCH (the condition, or a value above 1). */
uint64_t kernel_set_abortable(uint16_t *area, size_t len, uint16_t condition, uint16_t value);

/* The entry after a wait on this condition. Where the lock is free, the running process aborted and the condition abortable, the process
 * was called off: it takes no lock, and is aborted no more (mark 2). Otherwise it is kernel_enter: it takes the lock (mark 1) or queues
 * for it (mark 0), with KERNEL_AHEAD before it. A held lock never takes the abort away; who queues learns of it when it reenters.
 * Codes: 1 UNSOUND, 6 NOBODY, 7 NO_SUCH (either number), 8 HELD. */
uint64_t kernel_reenter(uint16_t *area, size_t len, uint16_t lock, uint16_t condition);

/* ---- queues, priorities, the clock */

/* Moves a process from one queue to another, or behind its equals in the same: KERNEL_READY (0) is ready, others are parks' numbers. A park
 * holds a task back: it does not run until it is requeued to ready (moved 1). It keeps its locks, so others may queue behind it meanwhile.
 * Who waits on a condition or queues for a lock stands in neither queue, and cannot be parked.
 * Codes: 1 UNSOUND, 7 NO_SUCH (any of the numbers), 10 NOT_THERE. */
uint64_t kernel_requeue(uint16_t *area, size_t len, uint16_t source, uint16_t destination, uint16_t process);

/* The running process takes this priority and goes behind its new equals in ready. Nobody else's priority can be set, and none changes by
 * itself: who holds a lock does not inherit the priority of those who queue for it.
 * Codes: 1 UNSOUND, 6 NOBODY, 4 BAD_PRIORITY. */
uint64_t kernel_set_priority(uint16_t *area, size_t len, uint16_t priority);

/* The clock goes on by one tick, round after 65,535, and every process whose timer falls due wakes, the lowest number first; moved says how
 * many.
 * Code: 1 UNSOUND. */
uint64_t kernel_tick(uint16_t *area, size_t len);

/* ---- reads: they change no word of the area */

/* List's kinds of queue. */
#define KERNEL_READY 0
#define KERNEL_PARK 1
#define KERNEL_LOCK 2
#define KERNEL_CONDITION 3

/* Writes one queue, first to last, to the front of buffer; the rest of it stays. A kind and a number, which is 0 for ready. Who runs is the
 * first of ready. A buffer of as many words as there are processes always suffices: uint16_t buffer[PROCESSES].
 * Codes: 1 UNSOUND, 7 NO_SUCH (kind or number), 5 SHORT (fewer words than stand in the queue). */
uint64_t kernel_list(const uint16_t *area, size_t len, uint16_t kind, uint16_t number, uint16_t *buffer, size_t buffer_len);

/* The two reads of timers. The ticks left of a process that waits with a timer are how many ticks from now it wakes, 1 to 65,536: if no
 * call but kernel_tick changes the area, with d left it wakes in the d-th tick and in no earlier one. */

/* Writes who is due within this many ticks to the front of buffer; the rest of it stays. Two words for each process: its number, then
 * its ticks left. Fewer ticks left come first, and of equals the lower number. Two words for every process of the area always suffice:
 * uint16_t buffer[2 * PROCESSES]. Who has 65,536 left, a full round of the clock, is never told; no wait is so long, so this is seen only
 * in an area whose words were written otherwise.
 * Codes: 1 UNSOUND, 5 SHORT (fewer than two words for each process told). */
uint64_t kernel_due(const uint16_t *area, size_t len, uint16_t ticks, uint16_t *buffer, size_t buffer_len);

/* The process with the fewest ticks left, the lowest number of equals, and these ticks; a full round is seen too. So long a probe may sleep
 * in which nobody runs: no tick before moves anybody. The kernel's clock does not go on by itself, so kernel_tick is then called once for
 * every tick that was slept. Where no timer is set it answers 0 and 0, and no tick moves anybody at all. Another call, from an interrupt
 * handler say, may change this: ask again then.
 * Code: 1 UNSOUND. */
uint64_t kernel_nearest(const uint16_t *area, size_t len);

/* how many bytes the page of kernel_sheet takes for these, at most 15,051 */
#define KERNEL_PAGE_BYTES(locks, conditions, parks) (29u * (1u + (parks) + (locks) + (conditions)))

/* Writes the yard sheet to the front of page: a row of 28 columns and a newline ('\n') for ready, each park, each lock and each condition,
 * in this order, and by number.
 *
 *     columns  1-2   RD, PK, LK or CN
 *              4-6   the queue's number, 0 for ready
 *              8-11  how many processes stand there
 *             13-16  the first of them
 *             18-21  the last of them
 *             23-26  the holder of a lock
 *             28     1 if a condition has a wakeup stored
 *
 * Numbers are decimal and right-aligned, 0 where a queue has none; the rest is spaces. Lock 1, which process 2 holds and 5 and 17 queue
 * for:
 *
 *     LK   1    2    5   17    2 0
 *
 * These are KERNEL_PAGE_BYTES bytes, and no 0 byte ends them: print them by their number. The bytes past them stay. examples/sheet.c prints
 * a page.
 * Codes: 1 UNSOUND, 5 SHORT (a page of fewer bytes). */
uint64_t kernel_sheet(const uint16_t *area, size_t len, uint8_t *page, size_t page_len);

/* ---- what a call costs
 *
 * A call first checks the area, every process and every queue once. What it does beyond that is at worst linear, but for due, which sorts,
 * whatever the priorities, the order and the number of those who wake. In steps from a process to the next of its queue, with P processes
 * and C conditions: P for enter, reenter, exit, wait, notify, naked, set_priority and broadcast, of which enter, reenter and wait walk the
 * queue that their process joins once, to count who is ahead; 2 P for requeue, which looks for the process first; P + C for an abort of a
 * process that waits, which is looked for on the abortable conditions, and none where it does not wait; none for set_abortable; P + C for a
 * tick at which somebody is due, with two passes over the P timers, and one pass over these where nobody is; P for list, 2 P into a buffer
 * of fewer than P words. nearest takes one pass over the timers; due takes one where nobody is due, else two, and about n log n steps to
 * sort the n that it tells. sheet walks every queue once, which is P steps in all, and writes 29 bytes a queue. README.md has measured
 * times.
 *
 * A call takes less than 416 bytes of stack (352 measured at most, on x86-64). */

#ifdef __cplusplus
}
#endif

#endif
