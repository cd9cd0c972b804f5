/* Stands before the system's memory (LD_PRELOAD) and refuses one growth of a program: that with the number REFUSED, from 1. At
 * the end it writes how many growths were asked for, 8 bytes, to the file descriptor COUNTED, where one is named. tests/memory
 * compiles it. */
#include <errno.h>
#include <stddef.h>
#include <stdlib.h>
#include <unistd.h>

extern void *__libc_malloc(size_t size);
extern void *__libc_calloc(size_t count, size_t size);
extern void *__libc_realloc(void *old, size_t size);

static unsigned long asked, refused;

__attribute__((constructor)) static void begin(void)
{
    const char *number = getenv("REFUSED");
    refused = number ? strtoul(number, NULL, 10) : 0;
    asked = 0;
}

static int is_refused(void)
{
    asked += 1;
    if (asked != refused)
        return 0;
    errno = ENOMEM;
    return 1;
}

void *malloc(size_t size)
{
    return is_refused() ? NULL : __libc_malloc(size);
}

void *calloc(size_t count, size_t size)
{
    return is_refused() ? NULL : __libc_calloc(count, size);
}

void *realloc(void *old, size_t size)
{
    return is_refused() ? NULL : __libc_realloc(old, size);
}

__attribute__((destructor)) static void end(void)
{
    const char *number = getenv("COUNTED");
    if (number && write(atoi(number), &asked, sizeof asked) < 0)
        _exit(99);
}
