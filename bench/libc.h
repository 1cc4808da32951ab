// Names of the bench, and what it uses of the C library beside the headers of tests/c/libc.
#pragma once
#include <stddef.h>
#include <stdint.h>
#include <stdio.h>
#include <string.h>
typedef uint8_t u8;
typedef uint16_t u16;
typedef uint32_t u32;
typedef uint64_t u64;
struct timespec { long tv_sec, tv_nsec; };
void qsort(void *, size_t, size_t, int (*)(const void *, const void *));
int clock_gettime(int, struct timespec *);
int strcmp(const char *, const char *);
