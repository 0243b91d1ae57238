/* What the makers of case files share: where a case goes. */
#ifndef CASES_H
#define CASES_H

#include <stdio.h>

/* A case file being written: the records, and what must be printed for them. */
struct cases {
    FILE *records;
    FILE *lines;
};

/* Ends the program where the cases themselves are not what they should be. */
void must(int holds, const char *what);

void cases_frames(struct cases *to);
void cases_rounds(struct cases *to);
void cases_lists(struct cases *to);

#endif
