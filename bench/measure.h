// What all tables of the bench share: the n that is measured, the clock, the shapes' names, and how many answers differed.
#pragma once
#include "draws.h"

static int n, failures;

static double now(void) {
    struct timespec t;
    clock_gettime(1, &t);
    return t.tv_sec + 1e-9 * t.tv_nsec;
}

static const char *name_of(enum shape shape) {
    static const char *const names[] = {"Random trees", "Caterpillars", "Random trees with single branches",
        "Chains above one sample", "Caterpillars in orders of their own"};
    return names[shape];
}
