/* show SCRIPT [PICTURE]: plays a script of calls through the library and shows what happens, line by line in words, and at the end as a
 * lane for each process; with PICTURE the lanes are drawn too, into this SVG file. The script's form is Rehearse's (docs/REHEARSE.md). */
#include <stdlib.h>
#include <string.h>

#include "show.h"

static void fail(const char *file)
{
    fputs("show: ", stderr);
    perror(file);
    exit(EXIT_FAILURE);
}

/* The bytes of a file, to be kept to the end. */
static char *contents(const char *file, size_t *length)
{
    FILE *in = fopen(file, "rb");
    size_t size = 1 << 16, got;
    char *bytes = malloc(size);
    if (in == NULL || bytes == NULL)
        fail(file);
    *length = 0;
    while ((got = fread(bytes + *length, 1, size - *length, in)) > 0) {
        *length += got;
        if (*length == size && (bytes = realloc(bytes, size *= 2)) == NULL)
            fail(file);
    }
    if (ferror(in) || fclose(in) != 0)
        fail(file);
    return bytes;
}

static void draw(const struct run *run, const char *script, const char *file)
{
    const char *slash = strrchr(script, '/');
    FILE *out = fopen(file, "w");
    if (out == NULL)
        fail(file);
    picture(run, slash != NULL ? slash + 1 : script, out);
    if (ferror(out) || fclose(out) != 0)
        fail(file);
}

int main(int count, char **words)
{
    if (count < 2 || count > 3) {
        fputs("usage: show SCRIPT [PICTURE]\n", stderr);
        return 2;
    }
    size_t length;
    const char *script = contents(words[1], &length);
    struct run run = play(script, length);
    tell(&run);
    lanes(&run);
    if (count == 3)
        draw(&run, words[1], words[2]);
    return EXIT_SUCCESS;
}
