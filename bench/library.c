/* Times calls of the library from C. Each line is the median of many, in microseconds of the monotonic clock. */
#include <stdio.h>
#include <stdlib.h>
#include <string.h>
#include <time.h>

#include "vosdrieng.h"

#define TEXT(s) (const uint8_t *)(s), strlen(s)
enum { MOST = 20000, MILLION = 1000000, PIECE = 65536 };

static vosdrieng_cache cache;
static uint8_t bytes[PIECE], body[MILLION], copy[MILLION];
static double times[MOST];
static uint64_t last, given;
static uint8_t *kept[200];

static double now(void) {
    struct timespec t;
    clock_gettime(CLOCK_MONOTONIC, &t);
    return (double)t.tv_sec * 1e6 + (double)t.tv_nsec / 1e3;
}

static int compare(const void *a, const void *b) {
    double x = *(const double *)a, y = *(const double *)b;
    return x < y ? -1 : x > y;
}

static void tell(const char *what, int n) {
    qsort(times, (size_t)n, sizeof *times, compare);
    printf("%-48s %10.2f\n", what, times[n / 2]);
}

/* Takes the acts of the last event with their bytes. The exchange that was opened last, or 0. */
static uint64_t take(int *over) {
    uint64_t opened = 0;
    vosdrieng_act act;
    while (vosdrieng_next_act(&cache, &act)) {
        size_t n = vosdrieng_act_bytes(&cache, bytes, sizeof bytes);
        if (act.kind == VOSDRIENG_ACT_OPEN) opened = act.exchange;
        if (act.kind == VOSDRIENG_ACT_DATA) given += n;
        if (act.kind == VOSDRIENG_ACT_ENDED || act.kind == VOSDRIENG_ACT_FAILED) *over = 1;
    }
    return opened;
}

static void start(const char *target) {
    int over = 0;
    vosdrieng_start(&cache, 1000, ++last, TEXT("GET"), VOSDRIENG_NORMAL, TEXT(target), TEXT("accept: text/html\n"));
    take(&over);
}

static void read_all(void) {
    for (int over = 0; !over;) vosdrieng_poll(&cache, 1000, last, PIECE), take(&over);
}

/* Stores a body of so many bytes. */
static void store(const char *target, size_t length) {
    char head[200];
    int over = 0;
    start(target);
    vosdrieng_poll(&cache, 1000, last, PIECE);
    uint64_t x = take(&over);
    snprintf(head, sizeof head, "content-length: %zu\ncache-control: max-age=60\netag: \"a\"\n", length);
    vosdrieng_head(&cache, 1000, x, 200, TEXT(head));
    for (size_t at = 0; at < length; at += PIECE) {
        vosdrieng_poll(&cache, 1000, last, PIECE), take(&over);
        vosdrieng_poll(&cache, 1000, last, PIECE), take(&over);
        vosdrieng_piece(&cache, 1000, x, body + at, length - at < PIECE ? length - at : PIECE);
    }
    vosdrieng_end(&cache, 1000, x);
    read_all();
}

static void hit(const char *what, const char *target, int n) {
    for (int i = 0; i < n; i++) {
        double began = now();
        start(target);
        read_all();
        times[i] = now() - began;
    }
    tell(what, n);
}

/* Stores 200 bodies of a million bytes, each behind another one of its target that is let go first, if there is one. */
static void fill(const char *what, int is_again) {
    char target[64];
    int over = 0;
    for (int i = 0; i < 200; i++) {
        snprintf(target, sizeof target, "http://a.test/%d", i);
        if (is_again) vosdrieng_doom(&cache, 1000, TEXT(target)), take(&over);
        double began = now();
        store(target, MILLION);
        times[i] = now() - began;
    }
    tell(what, 200);
}

int main(void) {
    int over = 0;
    memset(body, 'v', sizeof body);
    if (vosdrieng_new(&cache, 1 << 28, 1 << 30) != VOSDRIENG_OK) return 1;
    for (int i = 0; i < MOST; i++) {
        double began = now();
        vosdrieng_cancel(&cache, 1000, 9);
        times[i] = now() - began;
    }
    tell("an event that is denied", MOST);
    for (int i = 0; i < MOST; i++) {
        double began = now();
        start("http://a.test/film");
        times[i] = now() - began;
        vosdrieng_cancel(&cache, 1000, last);
    }
    tell("a start", MOST);
    store("http://a.test/small", 100);
    hit("a hit of 100 bytes", "http://a.test/small", MOST);
    fill("1,000,000 bytes stored and given, to new memory", 0);
    fill("the same, to memory that was used before", 1);
    hit("a hit of 1,000,000 bytes", "http://a.test/199", 200);
    for (int i = 0; i < 200; i++) {
        double began = now();
        memcpy(copy, body, MILLION), memcpy(body, copy, MILLION);
        times[i] = now() - began;
    }
    tell("1,000,000 bytes copied twice", 200);
    for (int i = 0; i < 200; i++) {
        double began = now();
        kept[i] = malloc(MILLION);
        uint8_t *once = malloc(MILLION);
        if (!kept[i] || !once) return 1;
        memcpy(once, body, MILLION), memcpy(kept[i], once, MILLION);
        times[i] = now() - began;
        free(once);
    }
    for (int i = 0; i < 200; i++) given += kept[i][i], free(kept[i]);
    tell("1,000,000 bytes copied twice, to new memory", 200);
    start("http://a.test/long");
    vosdrieng_poll(&cache, 1000, last, PIECE);
    uint64_t x = take(&over);
    vosdrieng_head(&cache, 1000, x, 200, TEXT("content-length: 134217728\ncache-control: max-age=60\n"));
    vosdrieng_poll(&cache, 1000, last, PIECE), take(&over);
    for (int i = 0; i < 1000; i++) {
        vosdrieng_poll(&cache, 1000, last, PIECE), take(&over);
        double began = now();
        vosdrieng_piece(&cache, 1000, x, body, PIECE);
        times[i] = now() - began;
        vosdrieng_poll(&cache, 1000, last, PIECE), take(&over);
    }
    tell("a piece of 65,536 bytes", 1000);
    vosdrieng_free(&cache);
    return given > 0 ? 0 : 1;
}
