/* What the benchmark needs of x86-64 Linux's C library, declared: the kit has a C compiler and library but no headers. */
#ifndef C_LIBRARY_H
#define C_LIBRARY_H

typedef __SIZE_TYPE__ size_t;
typedef __UINT8_TYPE__ uint8_t;
typedef __UINT16_TYPE__ uint16_t;
typedef __UINT32_TYPE__ uint32_t;
typedef __UINT64_TYPE__ uint64_t;

#define NULL ((void *)0)
#define UINT32_MAX 4294967295u

void *memcpy(void *restrict to, const void *restrict from, size_t bytes);
void *memset(void *to, int byte, size_t bytes);
int memcmp(const void *x, const void *y, size_t bytes);

int printf(const char *restrict format, ...);
_Noreturn void exit(int status);

struct timespec {
    long tv_sec, tv_nsec;
};
#define CLOCK_MONOTONIC 1
int clock_gettime(int clock, struct timespec *now);

#endif
