// A program that brings memcpy and memset and links no C library: the library needs nothing else (docs/USING.md). It is linked, and not run.
#include "arb.h"

void *memcpy(void *to, const void *from, size_t length) {
    for (size_t i = 0; i < length; i++) ((volatile uint8_t *)to)[i] = ((const uint8_t *)from)[i];
    return to;
}

void *memset(void *to, int byte, size_t length) {
    for (size_t i = 0; i < length; i++) ((volatile uint8_t *)to)[i] = (uint8_t)byte;
    return to;
}

typedef void (*function)(void);

const function calls[] = {
    (function)arb_open, (function)arb_add, (function)arb_withdraw, (function)arb_report, (function)arb_judge, (function)arb_renumber,
    (function)arb_compare, (function)arb_read_newick, (function)arb_write_newick, (function)arb_write_newick_supports,
};

int main(void) {
    return 0;
}
