/* The yard sheet: a few calls on twelve processes, and then the page that says who stands where, under a line of headings. */
#include <stdio.h>

#include "../include/kernel.h"

enum { PROCESSES = 12, LOCKS = 2, CONDITIONS = 2, PARKS = 1 };

static uint16_t area[KERNEL_AREA_WORDS(PROCESSES, LOCKS, CONDITIONS, PARKS)];
static uint8_t page[KERNEL_PAGE_BYTES(LOCKS, CONDITIONS, PARKS)];

/* Each ends where the numbers below it end: a queue's number, its count, its first and last, a lock's holder, a condition's wakeup. */
static const char headings[] = "Q   No  Cnt  1st Last Hold W";

int main(void)
{
    const size_t len = sizeof area / sizeof *area;
    const uint8_t priorities[PROCESSES] = {0}; /* all are equals, and run in turn */

    kernel_start(area, len, PROCESSES, LOCKS, CONDITIONS, PARKS, priorities, sizeof priorities);
    kernel_enter(area, len, 1);          /* 1 takes lock 1, */
    kernel_wait(area, len, 1, 1, 0);     /* leaves it and waits on condition 1 */
    kernel_enter(area, len, 1);          /* 2 takes lock 1, */
    kernel_requeue(area, len, 0, 0, 2);  /* and goes behind its equals */
    kernel_enter(area, len, 1);          /* 3 queues for lock 1 */
    kernel_enter(area, len, 2);          /* 4 takes lock 2, and runs on */
    kernel_naked(area, len, 2);          /* a device notifies condition 2: nobody waits there, so a wakeup is stored */
    kernel_requeue(area, len, 0, 1, 12); /* 12 is parked, */
    kernel_requeue(area, len, 0, 1, 11); /* and 11 */

    uint64_t a = kernel_sheet(area, len, page, sizeof page);
    puts(headings);
    fwrite(page, 1, KERNEL_SHEET_BYTES(a), stdout);
    return KERNEL_SHEET_CODE(a) == KERNEL_OK ? 0 : 1;
}
