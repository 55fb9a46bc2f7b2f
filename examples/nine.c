/* The example of document 01: Start and eight calls on three processes with a lock and a condition, each with its answer's six fields. */
#include <inttypes.h>
#include <stdio.h>

#include "../include/kernel.h"

static uint16_t area[KERNEL_AREA_WORDS(3, 1, 1, 0)];

static void show(const char *call, uint64_t a)
{
    printf("%-20s = %u %u %u %u %u %u\n", call, KERNEL_CODE(a), KERNEL_RUNNING(a), KERNEL_RETRY(a), KERNEL_MARK(a), KERNEL_MOVED(a),
           KERNEL_AHEAD(a));
}

int main(void)
{
    const size_t len = sizeof area / sizeof *area;
    const uint8_t priorities[] = {2, 5, 2};

    show("start 3 1 1 0 2 5 2", kernel_start(area, len, 3, 1, 1, 0, priorities, sizeof priorities));
    show("enter 1", kernel_enter(area, len, 1));
    show("wait 1 1 0", kernel_wait(area, len, 1, 1, 0));
    show("enter 1", kernel_enter(area, len, 1));
    show("notify 1", kernel_notify(area, len, 1));
    show("enter 1", kernel_enter(area, len, 1));
    show("exit 1", kernel_exit(area, len, 1));
    show("exit 1", kernel_exit(area, len, 1));
    show("enter 1", kernel_enter(area, len, 1));
    return kernel_sound(area, len) == 1 ? 0 : 1;
}
