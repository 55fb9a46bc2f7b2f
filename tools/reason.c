/* Why a line of a script is no call, in words, for the person who wrote it: what is overlooked most easily comes first. */
#include <string.h>

#include "show.h"

/* What each call is called in a script, and how many numbers it takes. */
static const struct {
    const char *word, *takes;
} CALLS[NO_CALL] = {
    [START] = {"start", "start takes four counts, and then priorities, each at most 255"},
    [ENTER] = {"enter", "enter takes one number"},
    [EXIT] = {"exit", "exit takes one number"},
    [WAIT] = {"wait", "wait takes three numbers"},
    [NOTIFY] = {"notify", "notify takes one number"},
    [BROADCAST] = {"broadcast", "broadcast takes one number"},
    [NAKED] = {"naked", "naked takes one number"},
    [REQUEUE] = {"requeue", "requeue takes three numbers"},
    [SET_PRIORITY] = {"setpriority", "setpriority takes one number"},
    [TICK] = {"tick", "tick takes no number"},
    [ABORT] = {"abort", "abort takes one number"},
    [SET_ABORTABLE] = {"setabortable", "setabortable takes two numbers"},
    [REENTER] = {"reenter", "reenter takes two numbers"},
};

static enum name name_of(const char *word, size_t length)
{
    enum name name = START;
    while (name < NO_CALL && (strlen(CALLS[name].word) != length || memcmp(CALLS[name].word, word, length) != 0))
        name++;
    return name;
}

static bool has_capital(const char *line, size_t length)
{
    for (size_t i = 0; i < length; i++)
        if (line[i] >= 'A' && line[i] <= 'Z')
            return true;
    return false;
}

/* A space at either end, or two together. */
static bool has_stray_space(const char *line, size_t length)
{
    for (size_t i = 0; i < length; i++)
        if (line[i] == ' ' && (i == 0 || i + 1 == length || line[i + 1] == ' '))
            return true;
    return false;
}

/* What is wrong with the words after the name, each after one space; NULL if they are all numbers. */
static const char *odd_number(const char *at, const char *end)
{
    unsigned value = 0;
    for (; at < end; at++) {
        if (*at == ' ')
            value = 0;
        else if (*at < '0' || *at > '9')
            return "a number has digits only";
        else if ((value = 10 * value + (unsigned)(*at - '0')) > HIGHEST_NUMBER)
            return "a number is above 65,535";
    }
    return NULL;
}

const char *why_no_call(const char *line, size_t length)
{
    if (length == 0)
        return "the line is empty";
    if (length > LONGEST_LINE)
        return "the line is longer than 8,192 bytes";
    if (memchr(line, '\r', length) != NULL)
        return "it has a carriage return: lines end in a newline alone";
    if (memchr(line, '\t', length) != NULL)
        return "it has a tab: one space stands before each number";
    if (has_capital(line, length))
        return "it has a capital letter: calls are in lower case";
    if (has_stray_space(line, length))
        return "it has a space too many: one stands before each number";
    const char *space = memchr(line, ' ', length);
    const char *name_end = space != NULL ? space : line + length;
    enum name name = name_of(line, (size_t)(name_end - line));
    if (name == NO_CALL)
        return "no call has this name";
    const char *odd = odd_number(name_end, line + length);
    return odd != NULL ? odd : CALLS[name].takes;
}
