/* One consumer, one download: the program plays the network. */
#include <stdio.h>
#include <string.h>

#include "vosdrieng.h"

#define TEXT(s) (const uint8_t *)(s), strlen(s)

static void show(vosdrieng_cache *cache) {
    uint8_t bytes[65536];
    vosdrieng_act act;
    while (vosdrieng_next_act(cache, &act)) {
        size_t n = vosdrieng_act_bytes(cache, bytes, sizeof bytes);
        printf("act %u of consumer %d: %.*s\n", act.kind, (int)act.consumer, (int)n, bytes);
    }
}

int main(void) {
    vosdrieng_cache cache = {0};
    if (vosdrieng_new(&cache, 1 << 24, 1 << 28) != VOSDRIENG_OK) return 1;
    vosdrieng_start(&cache, 1000, 1, TEXT("GET"), VOSDRIENG_NORMAL, TEXT("http://a.test/film"), TEXT(""));
    vosdrieng_poll(&cache, 1000, 1, 65536), show(&cache);
    vosdrieng_head(&cache, 1000, 1, 200, TEXT("content-length: 5\ncache-control: max-age=60\n"));
    vosdrieng_poll(&cache, 1000, 1, 65536), show(&cache);
    vosdrieng_poll(&cache, 1000, 1, 65536), show(&cache);
    vosdrieng_piece(&cache, 1000, 1, TEXT("hello"));
    vosdrieng_poll(&cache, 1000, 1, 65536), show(&cache);
    vosdrieng_free(&cache);
    return 0;
}
