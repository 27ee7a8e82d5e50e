/* check.h: how the tests want what they want, and open a pool. */
#ifndef CHECK_H
#define CHECK_H

#include "topzerad.h"

#include <stdio.h>
#include <stdlib.h>
#include <string.h>

static inline void want(int is, const char *what, const char *file, int line) {
    if (is) return;
    fprintf(stderr, "%s:%d: %s\n", file, line, what);
    exit(1);
}
#define WANT(is) want((is) != 0, #is, __FILE__, __LINE__)

/* Opens the pool of a test by its words: PROGRAM FILE, or --socket PATH, and the number of the hub's process there.
 * Returns the number of the process that answers. */
static inline pid_t open_pool(topzerad *pool, int count, char **words) {
    int is_shared = count == 4 && !strcmp(words[1], "--socket");
    if (count != 3 && !is_shared) exit(2);
    WANT((is_shared ? topzerad_open_socket(pool, words[2], NULL) : topzerad_open(pool, words[1], words[2])) == 0);
    return is_shared ? (pid_t)atol(words[3]) : pool->process;
}

#endif
