/* A stand-in for the allocator of the C library, in which one request for memory is refused: that with the
   number in the variable REFUSED, counted from 1. At its end the program leaves the number of its requests in the file that REQUESTS names.
   Built as a shared library and loaded before the program. */
#define _GNU_SOURCE
#include <dlfcn.h>
#include <stdio.h>
#include <stdlib.h>

static long requests;

static int refused(void)
{
    const char *number = getenv("REFUSED");
    requests++;
    return number != NULL && atol(number) == requests;
}

__attribute__((destructor)) static void tell(void)
{
    const char *name = getenv("REQUESTS");
    long counted = requests;
    FILE *file = name == NULL ? NULL : fopen(name, "w");
    if (file == NULL)
        return;
    fprintf(file, "%ld\n", counted);
    fclose(file);
}

void *malloc(size_t size)
{
    static void *(*real)(size_t);
    if (real == NULL)
        real = (void *(*)(size_t))dlsym(RTLD_NEXT, "malloc");
    return refused() ? NULL : real(size);
}

void *realloc(void *block, size_t size)
{
    static void *(*real)(void *, size_t);
    if (real == NULL)
        real = (void *(*)(void *, size_t))dlsym(RTLD_NEXT, "realloc");
    return refused() ? NULL : real(block, size);
}

void *aligned_alloc(size_t alignment, size_t size)
{
    static void *(*real)(size_t, size_t);
    if (real == NULL)
        real = (void *(*)(size_t, size_t))dlsym(RTLD_NEXT, "aligned_alloc");
    return refused() ? NULL : real(alignment, size);
}
