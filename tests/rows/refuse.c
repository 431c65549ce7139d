/* Loaded before the C library: refuses the call that allocates whose number is REFUSED, from 1, and no other. At the end of
   the program it writes to the file descriptor TELL, where there is one, how many calls came. */
#include <errno.h>
#include <stdio.h>
#include <stdlib.h>

extern void *__libc_malloc(size_t);
extern void *__libc_calloc(size_t, size_t);
extern void *__libc_realloc(void *, size_t);
extern void *__libc_memalign(size_t, size_t);

static unsigned long calls, refused;

static int refuses(void) {
    return ++calls == refused;
}

static void *none(void) {
    errno = ENOMEM;
    return NULL;
}

__attribute__((constructor)) static void begin(void) {
    char *number = getenv("REFUSED");
    refused = number ? strtoul(number, NULL, 10) : 0;
    calls = 0;
}

__attribute__((destructor)) static void end(void) {
    char *to = getenv("TELL");
    if (to)
        dprintf(atoi(to), "%lu", calls);
}

void *malloc(size_t size) {
    return refuses() ? none() : __libc_malloc(size);
}

void *calloc(size_t count, size_t size) {
    return refuses() ? none() : __libc_calloc(count, size);
}

void *realloc(void *old, size_t size) {
    return refuses() ? none() : __libc_realloc(old, size);
}

void *memalign(size_t alignment, size_t size) {
    return refuses() ? none() : __libc_memalign(alignment, size);
}

void *aligned_alloc(size_t alignment, size_t size) {
    return memalign(alignment, size);
}

int posix_memalign(void **made, size_t alignment, size_t size) {
    void *found = memalign(alignment, size);
    if (!found)
        return ENOMEM;
    *made = found;
    return 0;
}
