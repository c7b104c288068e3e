/* What the tests of the library share: cases, each of which passes where all its checks hold, and memory that is refused. */
#ifndef CHECK_H
#define CHECK_H
#include "fluent.h"
#include <stdio.h>
#include <stdlib.h>

#define TEXT(s) (const uint8_t *)(s), sizeof(s) - 1
#define COUNT(list) (sizeof(list) / sizeof *(list))

/* Of blocks.c: how many more blocks the library gets (below 0: all that it asks for), whether only one is refused behind them, and
   how many it has. */
extern long blocks;
extern bool only_one;
extern _Atomic long taken;

static const char *case_name = "";
static bool is_right;
static size_t passed, failed;

static inline void check(bool holds, const char *what) {
    if (!holds) {
        printf("wrong: %s: %s\n", case_name, what);
        is_right = false;
    }
}

static inline void begin_case(const char *name) {
    case_name = name;
    is_right = true;
}

static inline void end_case(void) {
    *(is_right ? &passed : &failed) += 1;
}

static inline void run(const char *name, void (*body)(void)) {
    begin_case(name);
    body();
    check(taken == 0, "memory that is not given back");
    end_case();
}

/* Tells how many cases passed, and gives the status of the program. */
static inline int finish(void) {
    printf("%zu cases passed, %zu failed\n", passed, failed);
    /* A sanitizer that finds something at the end drops what is not written yet. */
    fflush(stdout);
    return failed > 0;
}

#endif
