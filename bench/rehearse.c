/* Rehearse in plain C over the library: the baseline of its speed. Calls from standard input, one a line, performed on an area of 8,192
 * words, each answer a line; a line that is no call prints ?. */
#include <stdlib.h>
#include <string.h>
#include <unistd.h>

#include "../include/kernel.h"
#include "../tools/script.h"

enum { MAX_ANSWER = 36 };

static uint16_t area[AREA_WORDS];

/* ---- output */

static char out[8192];
static size_t out_full;

static void flush(void)
{
    for (size_t at = 0; at < out_full;) {
        ssize_t n = write(1, out + at, out_full - at);
        if (n <= 0)
            exit(EXIT_FAILURE);
        at += (size_t)n;
    }
    out_full = 0;
}

static void put_number(unsigned n, char after)
{
    char digits[5];
    int count = 0;
    do {
        digits[count++] = (char)('0' + n % 10);
        n /= 10;
    } while (n > 0);
    while (count > 0)
        out[out_full++] = digits[--count];
    out[out_full++] = after;
}

static void put_answer(uint64_t answer)
{
    put_number(KERNEL_CODE(answer), ' ');
    put_number(KERNEL_RUNNING(answer), ' ');
    put_number(KERNEL_RETRY(answer), ' ');
    put_number(KERNEL_MARK(answer), ' ');
    put_number(KERNEL_MOVED(answer), ' ');
    put_number(KERNEL_AHEAD(answer), '\n');
}

/* ---- lines */

static void serve(const char *line, size_t length)
{
    if (out_full + MAX_ANSWER > sizeof out)
        flush();
    static struct call call;
    if (read_call(line, length, &call)) {
        put_answer(perform(&call, area));
    } else {
        out[out_full++] = '?';
        out[out_full++] = '\n';
    }
}

/* Cuts the input into lines. The open line is at the front of `in`; past LONGEST_LINE + 1 bytes its last ones are dropped. */
int main(void)
{
    static char in[LONGEST_LINE + 1 + 8192];
    size_t open = 0;
    ssize_t got;
    while ((got = read(0, in + open, 8192)) > 0) {
        char *line = in, *from = in + open, *end = from + got;
        for (char *newline; (newline = memchr(from, '\n', (size_t)(end - from))) != NULL; line = from = newline + 1)
            serve(line, (size_t)(newline - line));
        open = (size_t)(end - line);
        if (open > LONGEST_LINE + 1)
            open = LONGEST_LINE + 1;
        memmove(in, line, open);
        flush();
    }
    if (open > 0)
        serve(in, open);
    flush();
    return got < 0 ? EXIT_FAILURE : EXIT_SUCCESS;
}
