/* Every code of the kernel and every branch of an answer, each in a situation made for it. Written from kernel.h alone.
 *
 * Tables of calls are played on one area, each with the answer that the manual, kernel.h, leads to expect. The program prints a line for
 * each call and compares by itself; it also checks that a refused call answers nothing but its code and changes nothing, and that no call
 * writes beyond what it tells. At last it counts which single bit flips leave an area sound. The output is always the same. A line that
 * begins with WRONG, and exit status 1, say that the kernel does not do as its manual says. */
#include "../include/kernel.h"

#include <inttypes.h>
#include <stdio.h>
#include <string.h>

#define COUNT(table) (sizeof(table) / sizeof *(table))
#define FULL KERNEL_AREA_WORDS(1023, 255, 255, 8) /* the words of the largest area */
#define SPARE 2                                   /* words lent beyond an area's size: they stay */

static uint16_t area[FULL + SPARE], before[FULL + SPARE];
static size_t len, size; /* the words lent, and those that the area takes */
static uint16_t buffer[40];
static uint8_t page[160], fill[160]; /* buffer and page are filled with fill's bytes before each call */
static unsigned long checked, wrong;

static void expect(int holds, const char *call, const char *what)
{
    checked++;
    if (!holds) {
        wrong++;
        printf("WRONG %s: %s\n", call, what);
    }
}

static int is(const char *call, const char *name)
{
    size_t n = strlen(name);
    return strncmp(call, name, n) == 0 && (call[n] == ' ' || call[n] == 0);
}

static int is_read(const char *call)
{
    return is(call, "sound") || is(call, "list") || is(call, "due") || is(call, "nearest") || is(call, "sheet");
}

/* A start whose priorities are digits, 222 say, or a digit so many times, 2x3. It lends a few words more than the area takes, or lent. */
static uint64_t start(uint16_t processes, uint16_t locks, uint16_t conditions, uint16_t parks, const char *digits, size_t lent)
{
    uint8_t priorities[1024] = {0};
    size_t count = strlen(digits), takes = KERNEL_AREA_WORDS(processes, locks, conditions, parks);
    if (sscanf(digits, "%*1[0-7]x%zu", &count) == 1)
        memset(priorities, digits[0] - '0', count);
    else
        for (size_t i = 0; i < count; i++)
            priorities[i] = (uint8_t)(digits[i] - '0');
    lent = lent ? lent : takes + SPARE;
    uint64_t a = kernel_start(area, lent, processes, locks, conditions, parks, priorities, count);
    if (KERNEL_CODE(a) == KERNEL_OK) {
        size = takes;
        len = lent;
    }
    return a;
}

/* The kind of queue of this name; 4, which there is not, for any other name. */
static uint16_t kind_of(const char *name)
{
    static const char *const kinds[] = {
        [KERNEL_READY] = "ready", [KERNEL_PARK] = "park", [KERNEL_LOCK] = "lock", [KERNEL_CONDITION] = "condition"};
    uint16_t kind = 0;
    while (kind < COUNT(kinds) && strcmp(name, kinds[kind]) != 0)
        kind++;
    return kind;
}

/* Makes a call that is written as in a log: its name, then its numbers. The last of list, due and sheet is how long buffer or page is. */
static uint64_t make(const char *call)
{
    char word[32] = "";
    uint16_t n[4] = {0};
    size_t lent = 0;
    if (is(call, "list")) {
        sscanf(call, "list %31s %" SCNu16 " %" SCNu16, word, &n[0], &n[1]);
        return kernel_list(area, len, kind_of(word), n[0], buffer, n[1]);
    }
    sscanf(call, "%*s %" SCNu16 " %" SCNu16 " %" SCNu16 " %" SCNu16 " %31s %zu", &n[0], &n[1], &n[2], &n[3], word, &lent);
    if (is(call, "start")) return start(n[0], n[1], n[2], n[3], word, lent);
    if (is(call, "sound")) return kernel_sound(area, len);
    if (is(call, "enter")) return kernel_enter(area, len, n[0]);
    if (is(call, "exit")) return kernel_exit(area, len, n[0]);
    if (is(call, "wait")) return kernel_wait(area, len, n[0], n[1], n[2]);
    if (is(call, "notify")) return kernel_notify(area, len, n[0]);
    if (is(call, "broadcast")) return kernel_broadcast(area, len, n[0]);
    if (is(call, "naked")) return kernel_naked(area, len, n[0]);
    if (is(call, "abort")) return kernel_abort(area, len, n[0]);
    if (is(call, "set_abortable")) return kernel_set_abortable(area, len, n[0], n[1]);
    if (is(call, "reenter")) return kernel_reenter(area, len, n[0], n[1]);
    if (is(call, "requeue")) return kernel_requeue(area, len, n[0], n[1], n[2]);
    if (is(call, "set_priority")) return kernel_set_priority(area, len, n[0]);
    if (is(call, "tick")) return kernel_tick(area, len);
    if (is(call, "due")) return kernel_due(area, len, n[0], buffer, n[1]);
    if (is(call, "nearest")) return kernel_nearest(area, len);
    return kernel_sheet(area, len, page, n[0]);
}

/* An answer's code: each kind of answer has its own field for it, and that of sound has none. */
static unsigned code_of(const char *call, uint64_t a)
{
    if (is(call, "sound")) return KERNEL_OK;
    if (is(call, "due")) return KERNEL_DUE_CODE(a);
    if (is(call, "nearest")) return KERNEL_NEAREST_CODE(a);
    if (is(call, "sheet")) return KERNEL_SHEET_CODE(a);
    return KERNEL_CODE(a);
}

/* An answer in words. Of the six fields, those that are 0 are left out, but for who runs. */
static const char *words(const char *call, uint64_t a)
{
    static char text[160];
    size_t n = 0;
#define ADD(...) (n += (size_t)snprintf(text + n, sizeof text - n, __VA_ARGS__))
    if (code_of(call, a) != KERNEL_OK) {
        ADD("refused %u", code_of(call, a));
    } else if (is(call, "sound")) {
        ADD("%" PRIu64, a);
    } else if (is(call, "list")) {
        ADD("count %u", KERNEL_COUNT(a));
        for (unsigned i = 0; i < KERNEL_COUNT(a); i++)
            ADD("%s %u", i ? "" : ":", buffer[i]);
    } else if (is(call, "due")) {
        ADD("count %u", KERNEL_DUE_COUNT(a));
        for (unsigned i = 0; i < KERNEL_DUE_COUNT(a); i++)
            ADD("%s %u in %u", i ? "," : ":", buffer[2 * i], buffer[2 * i + 1]);
    } else if (is(call, "nearest")) {
        ADD("process %u in %" PRIu32, KERNEL_NEAREST_PROCESS(a), KERNEL_NEAREST_TICKS(a));
    } else if (is(call, "sheet")) {
        ADD("bytes %u", KERNEL_SHEET_BYTES(a));
    } else {
        ADD("running %u", KERNEL_RUNNING(a));
        if (KERNEL_RETRY(a)) ADD(", retry %u", KERNEL_RETRY(a));
        if (KERNEL_MARK(a)) ADD(", mark %u", KERNEL_MARK(a));
        if (KERNEL_MOVED(a)) ADD(", moved %u", KERNEL_MOVED(a));
        if (KERNEL_AHEAD(a)) ADD(", ahead %u", KERNEL_AHEAD(a));
    }
#undef ADD
    return text;
}

/* Makes a call, prints a line of it and checks its answer, and what it wrote: nothing if refused, nothing in the area if it reads. */
static void show(const char *call, const char *expected, const char *remark)
{
    memcpy(before, area, sizeof area);
    memcpy(buffer, fill, sizeof buffer);
    memcpy(page, fill, sizeof page);
    uint64_t a = make(call);
    unsigned code = code_of(call, a);
    const char *text = words(call, a);
    size_t changed = code || is_read(call) ? 0 : size;
    size_t listed = code ? 0 : is(call, "list") ? KERNEL_COUNT(a) : is(call, "due") ? 2 * KERNEL_DUE_COUNT(a) : 0;
    size_t printed = code || !is(call, "sheet") ? 0 : KERNEL_SHEET_BYTES(a);
    if (code)
        printf("%-19s %s: %s", call, text, kernel_code_text(code));
    else
        printf("%-19s %s%s", call, is(call, "sound") ? "" : "accepted: ", text);
    printf(*remark ? " (%s)\n" : "\n", remark);
    expect(strcmp(text, expected) == 0, call, expected);
    if (code)
        expect(a == code, call, "a refusal has more than its code");
    expect(memcmp(area + changed, before + changed, sizeof area - changed * sizeof *area) == 0, call, "a word of the area was changed");
    expect(memcmp(buffer + listed, fill, sizeof buffer - listed * sizeof *buffer) == 0, call, "a word of the buffer was changed");
    expect(memcmp(page + printed, fill, sizeof page - printed) == 0, call, "a byte of the page was changed");
}

/* The calls on one area. A row: calls with ; between them, their answers, and the situation. If there are fewer answers than calls, the
 * last is that of all the others, and the situation is theirs too. A row without an answer is a heading. */
static const struct {
    const char *calls, *answers, *remark;
} steps[] = {
    {"start", 0, 0},
    {"start 0 0 0 0;start 1024 0 0 0 0x1024", "refused 2", "1 to 1,023 processes"},
    {"start 3 256 0 0 222;start 3 0 256 0 222;start 3 0 0 9 222", "refused 2", "at most 255 locks, 255 conditions, 8 parks"},
    {"start 3 1 1 0 22;start 3 1 1 0 2222", "refused 3", "3 processes"},
    {"start 3 1 1 0 228", "refused 4", "priorities 2, 2, 8"},
    {"start 3 1 1 0 222 17", "refused 5", "17 words, and it takes 18"},
    {"start 3 256 1 0 22;start 3 256 1 0 228;start 3 256 1 0 222 17", "refused 2", "the list, a priority or the length is wrong too"},
    {"start 3 1 1 0 28;start 3 1 1 0 22 17", "refused 3", "a priority or the length is wrong too"},
    {"start 3 1 1 0 228 17", "refused 4", "the length is wrong too"},
    {"start 1023 255 255 8 0x1023 3848;start 1 0 0 0 7 9;start 3 1 1 0 222 18", "running 1", "just long enough; of equals the first runs"},
    {"sound", "1", "whatever was started"},

    {"monitor locks", 0, 0},
    {"start 3 1 1 1 252", "running 2", "3 processes of priorities 2, 5, 2, a lock, a condition, a park"},
    {"enter 0;enter 2;exit 0;exit 2", "refused 7", "there is lock 1 only"},
    {"exit 1", "refused 9", "it is free"},
    {"enter 1", "running 2, mark 1", "takes the free lock"},
    {"enter 1", "refused 8", "has it already"},
    {"exit 1", "running 2", "nobody queues for it"},
    {"enter 1;set_priority 1", "running 2, mark 1;running 1", "2 falls behind the others, with the lock"},
    {"exit 1", "refused 9", "1 runs, and 2 holds it"},
    {"enter 1", "running 3", "1 queues, nobody ahead"},
    {"enter 1", "running 2, ahead 1", "3 queues behind 1"},
    {"exit 1", "running 1, retry 1, moved 1", "1 is higher, runs at once, and must enter again"},
    {"enter 1", "running 1, mark 1", "though 3 queues for it"},
    {"exit 1", "running 1, moved 1", "3 is ready, but does not run: no retry yet"},
    {"set_priority 0", "running 3, retry 1", "told in the call after exit"},
    {"enter 1;set_priority 0", "running 3, mark 1;running 2", "ready is 2, 1, 3 now"},
    {"requeue 0 1 2", "running 1", "the running one is parked"},
    {"enter 1", "running 3", "1, of priority 0, queues"},
    {"requeue 1 0 2", "running 2, moved 1", "from the park, and higher"},
    {"enter 1", "running 3", "2, of priority 1, queues before 1: nobody ahead"},
    {"list lock 1 2", "count 2: 2 1", ""},

    {"retry is about the process that runs now, whoever called", 0, 0},
    {"start 3 1 1 1 222;enter 1;requeue 0 0 1", "running 1;running 1, mark 1;running 2", "1 gives way, with the lock"},
    {"enter 1;requeue 0 0 3", "running 3;running 1", "2 queues, 3 gives way"},
    {"exit 1;enter 1", "running 1, moved 1;running 1, mark 1", "2 is ready, but until it runs, whoever enters has the lock"},
    {"requeue 0 0 1;enter 1", "running 3;running 2, retry 1", "enter: 3 queues, and 2 must enter again"},
    {"reenter 1 1", "running 1, ahead 1", "2 queues again, behind 3"},
    {"exit 1;enter 1;exit 1;enter 1", "running 1, moved 1;running 1, mark 1;running 1, moved 1;running 1, mark 1", "3 and 2 are ready"},
    {"requeue 0 0 1", "running 3, retry 1", ""},
    {"reenter 1 1", "running 2, retry 1", "reenter: 3 queues, and 2 must enter again"},
    {"requeue 0 0 2;requeue 0 0 1", "running 1;running 2", "it is told once"},

    {"conditions", 0, 0},
    {"start 4 2 2 1 2523", "running 2", "4 processes, 2 locks, 2 conditions"},
    {"notify 0;notify 3;broadcast 0;broadcast 3;naked 0;naked 3", "refused 7", "there are conditions 1 and 2"},
    {"wait 1 1 0", "refused 9", "it has not entered"},
    {"wait 0 1 0;wait 3 1 0;wait 1 0 0;wait 1 3 0", "refused 7", "no such number, and not held"},
    {"notify 1;broadcast 1", "running 2", "nobody waits: nothing is left behind"},
    {"enter 1;wait 1 0 0;wait 1 3 0", "running 2, mark 1;refused 7", "no such condition"},
    {"wait 1 1 0;enter 1", "running 4, mark 1;running 4, mark 1", "2 waits, and has left the lock"},
    {"wait 1 1 0", "running 1, mark 1, ahead 1", "4 waits behind 2"},
    {"enter 2;enter 1;wait 1 1 7", "running 1, mark 1;running 1, mark 1;running 3, mark 1, ahead 2", "1 waits, and keeps lock 2"},
    {"enter 2", "running 0", "3 queues, and nobody is ready"},
    {"list condition 1 3;list ready 0 0", "count 3: 2 4 1;count 0", "an empty queue fits into no words"},
    {"enter 1;enter 9;exit 1;exit 9;wait 1 1 0;wait 9 9 0;notify 1;notify 9;broadcast 1;broadcast 9", "refused 6", "whatever the numbers"},
    {"reenter 1 1;reenter 9 9;set_priority 1;set_priority 8", "refused 6", "whatever the numbers"},
    {"naked 9;abort 9;set_abortable 9 0;requeue 0 0 9", "refused 7", "these ask for nobody who runs"},
    {"tick;abort 3;set_abortable 2 0", "running 0", "they move nobody"},
    {"naked 2", "running 0, mark 1", "nobody waits there: a wakeup is stored"},
    {"nearest;naked 1", "process 1 in 6;running 2, moved 1", "a device wakes the first"},
    {"notify 1", "running 2, moved 1", "4 wakes, which is lower"},
    {"broadcast 1;nearest", "running 2, moved 1;process 0 in 0", "1 wakes, and its timer is off"},
    {"naked 1;naked 1", "running 2, mark 1", "nobody waits: a wakeup is stored, one in all"},
    {"notify 1", "running 2", "nobody waits; the stored one stays"},
    {"enter 1;wait 1 1 0", "running 2, mark 1;running 2", "mark 0: it takes the wakeup"},
    {"exit 1", "refused 9", "the wait has left the lock"},
    {"enter 1;wait 1 1 0", "running 2, mark 1;running 4, mark 1", "there was one only"},
    {"notify 1", "running 2, moved 1", "a higher one wakes"},
    {"enter 1;wait 1 1 0;naked 1", "running 2, mark 1;running 4, mark 1;running 2, moved 1", "a higher one wakes"},
    {"enter 1;wait 1 1 0", "running 2, mark 1;running 4, mark 1", "2 waits"},
    {"enter 1;wait 1 1 0", "running 4, mark 1;running 1, mark 1, ahead 1", "4 waits"},
    {"broadcast 1", "running 2, moved 2", "both wake, and are higher"},
    {"set_priority 0;set_priority 0;set_priority 8", "running 4;running 1;refused 4", "7 is the highest"},
    {"exit 2", "running 1, moved 1", "3 is ready, an equal"},
    {"set_priority 2", "running 3, retry 1", "the same priority: behind its equals"},
    {"enter 2;requeue 0 0 3;set_priority 7", "running 3, mark 1;running 1;running 1", "no other was higher"},
    {"enter 2", "running 3", "1 queues"},
    {"wait 2 2 0", "running 1, retry 1, moved 1", "mark 0: 3 need not wait, but a higher one runs"},
    {"enter 2;set_priority 2;enter 2", "running 1, mark 1;running 3;running 1", "3 queues"},
    {"wait 2 2 0", "running 3, retry 1, mark 1, moved 1", "wait leaves the lock as exit does"},

    {"alarms", 0, 0},
    {"start 3 1 2 1 252", "running 2", "3 processes, a lock, 2 conditions"},
    {"abort 0;abort 4;set_abortable 0 1;set_abortable 3 1;set_abortable 1 2", "refused 7", "no such process, condition or value"},
    {"reenter 0 1;reenter 2 1;reenter 1 0;reenter 1 3", "refused 7", "no such lock or condition"},
    {"reenter 1 1", "running 2, mark 1", "not aborted: as enter"},
    {"reenter 1 1", "refused 8", "has it already"},
    {"reenter 1 3", "refused 7", "no such condition, and has the lock already"},
    {"abort 2", "running 2", "it does not wait"},
    {"wait 1 1 0", "running 1, mark 1", "aborted, but the condition is not abortable"},
    {"abort 2;set_abortable 1 1", "running 1", "it waits on"},
    {"abort 2", "running 2, moved 1", "now it wakes, and it is higher"},
    {"reenter 1 2", "running 2, mark 1", "condition 2 is not abortable"},
    {"exit 1;reenter 1 1", "running 2;running 2, mark 2", "called off"},
    {"exit 1", "refused 9", "it took no lock"},
    {"reenter 1 1", "running 2, mark 1", "aborted no more"},
    {"abort 2;naked 1;wait 1 1 0", "running 2;running 2, mark 1;running 2", "mark 0: aborted, it begins no wait"},
    {"reenter 1 1;enter 1;wait 1 1 0", "running 2, mark 2;running 2, mark 1;running 2", "mark 0: the wakeup had stayed"},
    {"enter 1;wait 1 1 0", "running 2, mark 1;running 1, mark 1", "2 waits"},
    {"enter 1;abort 2", "running 1, mark 1;running 2, moved 1", "and is called off"},
    {"reenter 1 1", "running 1", "but the lock is held: it queues, nobody ahead"},
    {"abort 2", "running 1", "who queues stays there"},
    {"exit 1;reenter 1 1", "running 2, retry 1, moved 1;running 2, mark 2", "now it learns of it"},
    {"set_abortable 1 0", "running 2", ""},

    {"requeue", 0, 0},
    {"start 3 1 1 2 222", "running 1", "2 parks"},
    {"requeue 3 0 1;requeue 0 3 1;requeue 0 1 0;requeue 0 1 4", "refused 7", "no such park or process"},
    {"requeue 1 0 2", "refused 10", "it is ready"},
    {"requeue 1 3 2", "refused 7", "no such park, and not in the source"},
    {"requeue 0 1 2", "running 1", "nobody came into ready"},
    {"requeue 0 1 2", "refused 10", "it is parked"},
    {"requeue 1 2 2;list park 2 1", "running 1;count 1: 2", "from park to park"},
    {"requeue 2 0 2;list ready 0 3", "running 1, moved 1;count 3: 1 3 2", "behind its equals"},
    {"enter 1;wait 1 1 0;requeue 0 1 1", "running 1, mark 1;running 3, mark 1;refused 10", "it waits"},
    {"enter 1;requeue 0 0 3;enter 1;requeue 0 1 2", "running 3, mark 1;running 2;running 3;refused 10", "it queues for a lock"},
    {"requeue 0 1 3", "running 0", "nobody is ready"},

    {"nobody is ready after reenter and wait", 0, 0},
    {"start 2 1 1 1 22;enter 1;requeue 0 1 1", "running 1;running 1, mark 1;running 2", "1 is parked with the lock"},
    {"reenter 1 1", "running 0", "2 queues"},
    {"requeue 1 0 1;wait 1 1 0", "running 1, moved 1;running 2, retry 1, mark 1, moved 1", "1 waits, and 2 must enter again"},
    {"enter 1;wait 1 1 0", "running 2, mark 1;running 0, mark 1, ahead 1", "2 waits too"},

    {"the clock", 0, 0},
    {"start 4 1 1 0 6661", "running 1", ""},
    {"due 65535 0;nearest", "count 0;process 0 in 0", "no timer is set"},
    {"tick", "running 1", "nobody is due"},
    {"requeue 0 0 1;requeue 0 0 2", "running 2;running 3", "ready is 3, 1, 2, 4"},
    {"enter 1;wait 1 1 5", "running 3, mark 1;running 1, mark 1", ""},
    {"enter 1;wait 1 1 5", "running 1, mark 1;running 2, mark 1, ahead 1", ""},
    {"enter 1;wait 1 1 3", "running 2, mark 1;running 4, mark 1, ahead 2", ""},
    {"due 0 0;due 2 0", "count 0", "nobody so soon"},
    {"due 3 2;due 5 6", "count 1: 2 in 3;count 3: 2 in 3, 1 in 5, 3 in 5", "of equals the lower number first"},
    {"due 5 5", "refused 5", "two words for each"},
    {"nearest;tick;tick;tick", "process 2 in 3;running 4;running 4;running 2, moved 1", "the third wakes it, and it is higher"},
    {"enter 1;wait 1 1 2", "running 2, mark 1;running 4, mark 1, ahead 2", ""},
    {"list condition 1 3;nearest", "count 3: 3 1 2;process 1 in 2", "of equals the lowest number"},
    {"tick;tick", "running 4;running 1, moved 3", "all at once"},
    {"list ready 0 4", "count 4: 1 2 3 4", "equals that one tick wakes come by number, not as they waited"},

    {"list and sheet", 0, 0},
    {"start 17 1 1 1 07006000000000005", "running 2", "17 processes"},
    {"list none 0 17;list ready 1 17;list park 0 17;list park 2 17", "refused 7", "no such queue"},
    {"list lock 0 17;list lock 2 17;list condition 0 17;list condition 2 17", "refused 7", "no such queue"},
    {"list ready 0 16", "refused 5", "all 17 are ready"},
    {"list none 0 0;list ready 1 0", "refused 7", "no such queue, and no buffer"},
    {"enter 1;set_priority 0;enter 1;enter 1", "running 2, mark 1;running 5;running 17;running 1, ahead 1", "5 and 17 queue"},
    {"naked 1;requeue 0 1 3", "running 1, mark 1;running 1", ""},
    {"list ready 0 14", "count 14: 1 4 6 7 8 9 10 11 12 13 14 15 16 2", ""},
    {"list park 1 17;list lock 1 2;list lock 1 1", "count 1: 3;count 2: 5 17;refused 5", "two queue"},
    {"list condition 1 0", "count 0", "nobody waits"},
    {"sheet 115", "refused 5", "four rows take 116 bytes"},
    {"sheet 160", "bytes 116", ""},
};

/* Takes the next of a list with ; between its parts, if there is one. */
static void take(const char **list, char *part, size_t room)
{
    size_t n = strcspn(*list, ";");
    if (n > 0)
        snprintf(part, room, "%.*s", (int)n, *list);
    *list += n + ((*list)[n] == ';');
}

static void show_steps(void)
{
    for (size_t i = 0; i < COUNT(steps); i++) {
        const char *calls = steps[i].calls, *answers = steps[i].answers;
        char call[40], answer[80];
        if (!answers)
            printf(i > 0 ? "\n---- %s\n" : "---- %s\n", calls);
        while (answers && *calls) {
            take(&calls, call, sizeof call);
            take(&answers, answer, sizeof answer);
            show(call, answer, *answers ? "" : steps[i].remark);
        }
    }
}

/* The page of the last step; its third row is the one that the manual shows. */
static void show_page(void)
{
    static const char rows[] = "RD   0   14    1    2    0 0\n"
                               "PK   1    1    3    3    0 0\n"
                               "LK   1    2    5   17    2 0\n"
                               "CN   1    0    0    0    0 1\n";
    printf("%.*s", (int)KERNEL_PAGE_BYTES(1, 1, 1), (const char *)page);
    expect(sizeof rows - 1 == KERNEL_PAGE_BYTES(1, 1, 1) && memcmp(page, rows, sizeof rows - 1) == 0, "sheet", rows);
}

/* The longest wait, which lasts past the end of the clock's round. */
static void show_round(void)
{
    puts("\n---- a round of the clock");
    start(2, 1, 1, 0, "21", 0);
    show("tick", "running 1", "");
    show("enter 1", "running 1, mark 1", "");
    show("wait 1 1 65535", "running 2, mark 1", "the longest wait");
    show("nearest", "process 1 in 65535", "");
    unsigned long idle = 0;
    while (idle < 65534 && make("tick") == (uint64_t)2 << 10)
        idle++;
    printf("%lu ticks move nobody\n", idle);
    expect(idle == 65534, "tick", "65,534 ticks move nobody");
    show("due 1 2", "count 1: 1 in 1", "");
    show("tick", "running 1, moved 1", "the 65,535th");
}

/* Calls on an area that is not sound, each with wrong numbers too: 1 is tested first. */
static void show_unsound(const char *situation)
{
    static const char *const calls[] = {"enter 9", "exit 9", "wait 9 9 0", "notify 9", "broadcast 9", "naked 9", "abort 9",
        "set_abortable 9 9", "reenter 9 9", "requeue 9 9 9", "set_priority 9", "tick", "list none 9 0", "due 9 0", "nearest", "sheet 0"};
    printf("\n---- not sound: %s\n", situation);
    show("sound", "0", "");
    for (size_t i = 0; i < COUNT(calls); i++)
        show(calls[i], "refused 1", "");
}

static void show_unsounds(void)
{
    start(3, 1, 1, 1, "252", 0);
    len = size - 1;
    show_unsound("a word too short");
    memset(area, 0, sizeof area);
    len = FULL;
    show_unsound("never started");
    start(3, 1, 1, 1, "252", 0);
    for (size_t i = 0; i < size && kernel_sound(area, len); i++)
        area[i] ^= 0xFFFF;
    show_unsound("written over");
}

/* Which calls tell retry: many calls with numbers from a fixed series. It is told of whoever comes to run by the call, and those who come
 * into ready from a condition have not failed; so naked and tick, which bring nobody else there, never tell it. */
static void show_walk(void)
{
    static const char *const names[] = {"enter", "exit", "wait", "reenter", "requeue", "set_priority", /* these six do */
        "notify", "broadcast", "naked", "abort", "set_abortable", "tick"};
    int told[COUNT(names)] = {0};
    unsigned unsound = 0;
    uint32_t series = 1;
    puts("\n---- retry, in a walk of 400,000 calls");
    for (unsigned long i = 0; i < 400000; i++) {
        unsigned n[4];
        char call[40];
        if (i % 500 == 0)
            start(4, 2, 2, 1, "2122", 0);
        for (size_t j = 0; j < COUNT(n); j++)
            n[j] = (series = series * 1664525u + 1013904223u) >> 16;
        snprintf(call, sizeof call, "%s %u %u %u", names[n[0] % COUNT(names)], n[1] % 3, n[2] % 3, n[3] % 5);
        uint64_t a = make(call);
        told[n[0] % COUNT(names)] |= KERNEL_RETRY(a) == 1;
        unsound += KERNEL_CODE(a) == KERNEL_UNSOUND;
    }
    for (size_t c = 0; c < COUNT(names); c++) {
        printf("%-19s %s\n", names[c], told[c] ? "retry 0 and 1" : "retry 0 only");
        expect(told[c] == (c < 6), names[c], "retry");
    }
    expect(unsound == 0, "walk", "no list of calls leads to an area that is not sound");
}

/* How many single bit flips leave an area sound in which process 2 waits so many ticks and 1 holds the lock. In full: after how many of
 * these a full round of the clock is left, which nearest tells and due does not. */
static unsigned flips(const char *wait, unsigned *full)
{
    unsigned sound = 0;
    *full = 0;
    start(3, 1, 1, 0, "252", 0);
    make("enter 1");
    make(wait);
    make("enter 1");
    for (size_t bit = 0; bit < 16 * size; bit++) {
        area[bit / 16] ^= (uint16_t)(1u << bit % 16);
        uint64_t nearest = make("nearest");
        unsigned holds = make("sound") == 1;
        expect(KERNEL_NEAREST_CODE(nearest) == (holds ? KERNEL_OK : KERNEL_UNSOUND), "nearest", "refused exactly if not sound");
        if (KERNEL_NEAREST_TICKS(nearest) == 65536) {
            ++*full;
            expect(make("due 65535 6") == 0, "due", "a full round is never told");
        }
        sound += holds;
        area[bit / 16] ^= (uint16_t)(1u << bit % 16);
    }
    return sound;
}

static void show_flips(void)
{
    unsigned full, sound = flips("wait 1 1 5", &full);
    puts("\n---- single bit flips");
    printf("%u of the %u leave the area sound\n", sound, 16 * KERNEL_AREA_WORDS(3, 1, 1, 0));
    expect(sound == 44, "flips", "44 of 288");
    flips("wait 1 1 4", &full);
    printf("%u make of a wait of 4 ticks a full round: nearest tells 65,536, and due nobody\n", full);
    expect(full == 2, "flips", "one of the clock and one of the timer");
}

int main(void)
{
    memset(fill, 0xA5, sizeof fill);
    memset(area, 0xA5, sizeof area);
    show_steps();
    show_page();
    show_round();
    show_unsounds();
    show_walk();
    show_flips();
    printf("\n%lu expectations checked, %lu wrong\n", checked, wrong);
    return wrong != 0;
}
