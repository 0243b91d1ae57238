/* make_cases KIND DIR writes the case file of that kind: DIR/stdin holds the
 * records, DIR/stdout what a right program prints for them. README.md gives
 * the formats. Every run writes the same bytes. */
#include "cases.h"

#include <stdlib.h>
#include <string.h>

void must(int holds, const char *what)
{
    if (holds)
        return;
    fprintf(stderr, "make_cases: %s\n", what);
    exit(1);
}

static FILE *open_in(const char *dir, const char *name)
{
    char path[4096];
    int length = snprintf(path, sizeof path, "%s/%s", dir, name);
    if (length < 0 || (size_t)length >= sizeof path)
        return NULL;
    return fopen(path, "wb");
}

static int write_cases(void (*make)(struct cases *), const char *dir)
{
    struct cases to = {open_in(dir, "stdin"), open_in(dir, "stdout")};
    if (to.records == NULL || to.lines == NULL) {
        fprintf(stderr, "make_cases: cannot write to %s\n", dir);
        return 1;
    }
    make(&to);
    int failed = ferror(to.records) | ferror(to.lines);
    failed |= fclose(to.records) | fclose(to.lines);
    if (failed)
        fprintf(stderr, "make_cases: writing to %s failed\n", dir);
    return failed ? 1 : 0;
}

int main(int argc, char **argv)
{
    static const struct {
        const char *name;
        void (*make)(struct cases *);
    } kinds[] = {{"frames", cases_frames}, {"rounds", cases_rounds}, {"lists", cases_lists}};
    for (size_t i = 0; argc == 3 && i < sizeof kinds / sizeof kinds[0]; i++)
        if (strcmp(argv[1], kinds[i].name) == 0)
            return write_cases(kinds[i].make, argv[2]);
    fprintf(stderr, "usage: make_cases frames|rounds|lists DIR\n");
    return 2;
}
