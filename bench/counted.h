/* For the programs whose calls valgrind counts: random keys, and the end of a program if something
 * that must be so is not. */
#ifndef COUNTED_H
#define COUNTED_H

#include <stdint.h>
#include <stdio.h>
#include <stdlib.h>

/* The next random number (xorshift). */
static uint64_t next_random(void) {
    static uint64_t random = 88172645463325252u;
    random ^= random << 13;
    random ^= random >> 7;
    random ^= random << 17;
    return random;
}

/* A random key below 2^63: the three greatest numbers are no keys. */
static uint64_t random_key(void) { return next_random() >> 1; }

static void must(int is_so, const char *what) {
    if (is_so) return;
    fprintf(stderr, "%s\n", what);
    exit(1);
}

#endif
