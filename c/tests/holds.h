/* CHECK(what): if that does not hold, ends the program with status 1, and writes the file, the line
 * and the text. */
#ifndef HOLDS_H
#define HOLDS_H

#include <stdio.h>
#include <stdlib.h>

#define CHECK(...) ((__VA_ARGS__) ? (void)0 : fail(__FILE__, __LINE__, #__VA_ARGS__))

static void fail(const char *file, int line, const char *what) {
    fprintf(stderr, "%s, line %d: not so: %s\n", file, line, what);
    exit(1);
}

#endif
