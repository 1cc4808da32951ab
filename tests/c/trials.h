// What the trials share: the answers that are expected, and the counts of what passed and what failed.
#pragma once
#include "arb.h"
#include <stdio.h>
#include <string.h>

enum { ROOT = 65535, GUARD = 4, GUARD_WORD = 48879 };

#define COUNT(table) (sizeof(table) / sizeof *(table))

#define ACCEPTED 0
#define REFUSED(number, place) ((number) + 256 * (uint64_t)(place))
#define COUNTED(both, first, second) (65536 * ((both) + 65536 * ((first) + (uint64_t)65536 * (second))))
#define WROTE(length) (256 * (uint64_t)(length))

static int passed, failed;

static void check(const char *name, int is_right) {
    if (is_right) {
        passed++;
        return;
    }
    failed++;
    printf("failed: %s\n", name);
}

static void say(uint64_t answer) {
    if (ARB_ACCEPTED(answer))
        printf("accepted, counts %u %u %u or length %zu", ARB_IN_BOTH(answer), ARB_ONLY_FIRST(answer), ARB_ONLY_SECOND(answer), ARB_LENGTH(answer));
    else printf("refused with %u at %zu", ARB_NUMBER(answer), ARB_PLACE(answer));
    printf(" (%lx)", (unsigned long)answer);
}

static int same_answer(uint64_t expected, uint64_t came) {
    if (came == expected) return 1;
    printf("expected "), say(expected), printf(", came "), say(came), printf("\n");
    return 0;
}
