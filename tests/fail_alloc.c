/* Refuses the one allocation whose number stands in FAIL_ALLOC, from 1; with 0 none. With COUNT_ALLOC set, the number of
   allocations is written to standard error at the end. Loaded before a program by LD_PRELOAD (see refusals.sh). */
#define _GNU_SOURCE
#include <dlfcn.h>
#include <errno.h>
#include <stdio.h>
#include <stdlib.h>
#include <sys/syscall.h>
#include <unistd.h>

static long refused = -1;
static long count;
static int told;

static int is_refused(void)
{
    if (refused < 0) {
        const char *text = getenv("FAIL_ALLOC");
        refused = text ? atol(text) : 0;
    }
    /* (several threads take memory) */
    if (__atomic_add_fetch(&count, 1, __ATOMIC_RELAXED) != refused)
        return 0;
    errno = ENOMEM;
    return 1;
}

void *malloc(size_t size)
{
    static void *(*real)(size_t);
    if (!real)
        real = (void *(*)(size_t))dlsym(RTLD_NEXT, "malloc");
    return is_refused() ? NULL : real(size);
}

void *realloc(void *old, size_t size)
{
    static void *(*real)(void *, size_t);
    if (!real)
        real = (void *(*)(void *, size_t))dlsym(RTLD_NEXT, "realloc");
    return is_refused() ? NULL : real(old, size);
}

__attribute__((destructor)) static void tell(void)
{
    if (getenv("COUNT_ALLOC") && !told) {
        char line[32];
        int length = snprintf(line, sizeof line, "%ld\n", count);
        told = 1;
        if (write(2, line, (size_t)length) != length)
            syscall(SYS_exit_group, 1);
    }
}

/* A program with threads ends by this call, and no destructor runs then. */
__attribute__((noreturn)) void _exit(int status)
{
    tell();
    for (;;)
        syscall(SYS_exit_group, status);
}
