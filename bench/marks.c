/* Loaded before the C library: counts the calls that allocate, and notes the processor time at the counts that MARKS lists, with
   commas between them. At the end of the program it writes to standard error how many calls came, the noted times and the time
   of the end, in seconds. */
#include <errno.h>
#include <stdio.h>
#include <stdlib.h>
#include <time.h>

#define MOST 16

extern void *__libc_malloc(size_t);
extern void *__libc_calloc(size_t, size_t);
extern void *__libc_realloc(void *, size_t);
extern void *__libc_memalign(size_t, size_t);

static unsigned long calls, marks[MOST];
static double times[MOST];
static int listed, noted;

static double processor_time(void) {
    struct timespec now;
    clock_gettime(CLOCK_PROCESS_CPUTIME_ID, &now);
    return now.tv_sec + now.tv_nsec * 1e-9;
}

static void count(void) {
    calls++;
    while (noted < listed && calls == marks[noted])
        times[noted++] = processor_time();
}

__attribute__((constructor)) static void begin(void) {
    char *rest = getenv("MARKS");
    while (rest && *rest && listed < MOST) {
        marks[listed++] = strtoul(rest, &rest, 10);
        if (*rest == ',')
            rest++;
    }
}

__attribute__((destructor)) static void end(void) {
    double last = processor_time();
    fprintf(stderr, "%lu", calls);
    for (int k = 0; k < noted; k++)
        fprintf(stderr, " %.6f", times[k]);
    fprintf(stderr, " %.6f\n", last);
}

void *malloc(size_t size) {
    count();
    return __libc_malloc(size);
}

void *calloc(size_t items, size_t size) {
    count();
    return __libc_calloc(items, size);
}

void *realloc(void *old, size_t size) {
    count();
    return __libc_realloc(old, size);
}

void *aligned_alloc(size_t alignment, size_t size) {
    count();
    return __libc_memalign(alignment, size);
}

int posix_memalign(void **at, size_t alignment, size_t size) {
    count();
    *at = __libc_memalign(alignment, size);
    return *at ? 0 : ENOMEM;
}
