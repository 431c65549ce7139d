/* Eight threads, each with a cache of its own: all step the same events, and all are given the same bytes. */
#include <pthread.h>
#include <stdio.h>
#include <string.h>

#include "vosdrieng.h"

#define LENGTH 200000u

static const uint8_t *text(const char *s) { return (const uint8_t *)s; }

/* What is given by the acts of the last event is added up. */
static uint64_t take(vosdrieng_cache *cache, uint64_t sum) {
    static _Thread_local uint8_t room[65536];
    vosdrieng_act act;
    while (vosdrieng_next_act(cache, &act)) {
        size_t n = vosdrieng_act_bytes(cache, room, sizeof room);
        for (size_t i = 0; act.kind == VOSDRIENG_ACT_DATA && i < n; i++) sum = sum * 31 + room[i];
    }
    return sum;
}

static void *run(void *result) {
    static const char target[] = "http://a.test/film", head[] = "content-length: 200000\ncache-control: max-age=60\n";
    vosdrieng_cache cache = {0};
    uint8_t piece[1000];
    uint64_t sum = 0;
    memset(piece, 'v', sizeof piece);
    if (vosdrieng_new(&cache, 1 << 24, 1 << 28) != VOSDRIENG_OK) return result;
    for (uint64_t c = 1; c <= 2; c++) {
        vosdrieng_start(&cache, 1000, c, text("GET"), 3, VOSDRIENG_NORMAL, text(target), strlen(target), text(""), 0);
        vosdrieng_poll(&cache, 1000, c, 65536);
    }
    vosdrieng_head(&cache, 1000, 1, 200, text(head), strlen(head));
    for (unsigned i = 0; i < 2 * LENGTH / sizeof piece + 8; i++) {
        for (uint64_t c = 1; c <= 2; c++) {
            vosdrieng_poll(&cache, 1000, c, 65536);
            sum = take(&cache, sum);
        }
        piece[0] = (uint8_t)i;
        vosdrieng_piece(&cache, 1000, 1, piece, sizeof piece);
        if (i + 1 == LENGTH / sizeof piece) vosdrieng_end(&cache, 1000, 1);
    }
    vosdrieng_free(&cache);
    *(uint64_t *)result = sum;
    return result;
}

int main(void) {
    pthread_t threads[8];
    uint64_t sums[8] = {0};
    for (int i = 0; i < 8; i++)
        if (pthread_create(&threads[i], NULL, run, &sums[i])) return 2;
    for (int i = 0; i < 8; i++) pthread_join(threads[i], NULL);
    for (int i = 0; i < 8; i++)
        if (sums[i] != sums[0] || sums[0] == 0) return 1;
    printf("8 threads: the same bytes\n");
    return 0;
}
