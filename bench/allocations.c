/* Counts the calls that ask for memory, and prints them on standard error at the end:
       gcc -shared -fPIC -o allocations.so bench/allocations.c -ldl
       LD_PRELOAD=./allocations.so crates/s7h/out/s7h solo bench/blocks.awl bench/day.plant >/dev/null
   A play that takes memory only before its first entry asks as often at END 2000 as at END 200000. */
#define _GNU_SOURCE
#include <dlfcn.h>
#include <stdio.h>
#include <stdlib.h>
#include <unistd.h>

static unsigned long count;

static void *next(const char *name)
{
    return dlsym(RTLD_NEXT, name);
}

void *malloc(size_t bytes)
{
    static void *(*real)(size_t);
    if (!real)
        real = next("malloc");
    count++;
    return real(bytes);
}

void *realloc(void *old, size_t bytes)
{
    static void *(*real)(void *, size_t);
    if (!real)
        real = next("realloc");
    count++;
    return real(old, bytes);
}

int posix_memalign(void **place, size_t alignment, size_t bytes)
{
    static int (*real)(void **, size_t, size_t);
    if (!real)
        real = next("posix_memalign");
    count++;
    return real(place, alignment, bytes);
}

void *aligned_alloc(size_t alignment, size_t bytes)
{
    static void *(*real)(size_t, size_t);
    if (!real)
        real = next("aligned_alloc");
    count++;
    return real(alignment, bytes);
}

__attribute__((destructor)) static void print(void)
{
    char line[64];
    int length = snprintf(line, sizeof line, "%lu calls ask for memory\n", count);
    if (write(2, line, length) < 0)
        _exit(70);
}
