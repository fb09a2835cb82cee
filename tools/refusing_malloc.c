/* Refuses memory to a program that is run with this library in LD_PRELOAD: the allocation whose number, counted from 1, is in REFUSED, and
 * where REFUSED_ALL is set all that follow it too. At the first that it refuses it writes an octet to the descriptor in REFUSED_SAID. */
#include <errno.h>
#include <stdlib.h>
#include <unistd.h>

/* What the C library has behind the names that are taken here. */
void *__libc_malloc(size_t size);
void *__libc_calloc(size_t count, size_t size);
void *__libc_realloc(void *old, size_t size);

static unsigned long number_in(const char *name)
{
    const char *text = getenv(name);
    return text ? strtoul(text, NULL, 10) : 0;
}

static int is_refused(void)
{
    static unsigned long made;
    unsigned long number = __atomic_add_fetch(&made, 1, __ATOMIC_SEQ_CST);
    unsigned long first = number_in("REFUSED");
    if (first == 0 || number < first || (number > first && !getenv("REFUSED_ALL"))) {
        return 0;
    }
    if (number == first && write((int)number_in("REFUSED_SAID"), "!", 1) != 1) {
        _exit(99);
    }
    errno = ENOMEM;
    return 1;
}

void *malloc(size_t size)
{
    return is_refused() ? NULL : __libc_malloc(size);
}

void *calloc(size_t count, size_t size)
{
    return is_refused() ? NULL : __libc_calloc(count, size);
}

void *realloc(void *old, size_t size)
{
    return is_refused() ? NULL : __libc_realloc(old, size);
}
