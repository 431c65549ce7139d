/* Calls in any order, with any numbers, lengths and bytes: fuzz SEED COUNT. What is answered is held against what may be. */
#include <inttypes.h>
#include <stdio.h>
#include <stdlib.h>
#include <string.h>

#include "vosdrieng.h"

static uint64_t state;
static uint8_t any[70000], room[70000];
static vosdrieng_cache caches[3];
static uint64_t now = 1000;

static uint64_t draw(uint64_t below) {
    state = state * 6364136223846793005u + 1442695040888963407u;
    return (state >> 33) % below;
}

static uint64_t number(void) {
    static const uint64_t odd[] = {0, 1, UINT64_MAX, (uint64_t)1 << 62, ((uint64_t)1 << 62) - 1};
    return draw(20) ? draw(12) : odd[draw(5)];
}

static uint64_t moment(void) {
    if (draw(30) == 0) return number();
    return now += draw(3);
}

/* Mostly a good text, cut or changed in places. Its length is told. */
static size_t text(const char *good) {
    size_t len = strlen(good);
    memcpy(any, good, len);
    if (draw(8) == 0 && len > 0) any[draw(len)] = (uint8_t)draw(256);
    if (draw(8) == 0) len = draw(len + 1);
    if (draw(200) == 0) memset(any, (int)draw(256), len = draw(sizeof any));
    return len;
}

static const char *target(void) {
    static const char *const some[] = {"http://a.test/x", "http://a.test/y", "https://b.test/z?q=1", "http://a.test/#f", "nonsense"};
    return some[draw(5)];
}

static const char *fields(void) {
    static const char *const some[] = {"", "range: bytes=0-9\n", "etag: \"a\"\ncontent-length: 100\ncache-control: max-age=9\n",
                                       "Content-Length: 7\nETag: \"b\"\n", "no colon\n", "x: y", "vary: accept\ndate: then\n"};
    return some[draw(7)];
}

static vosdrieng_answer start(vosdrieng_cache *c) {
    static uint8_t one[9000], two[70000];
    size_t n = text(target()), m;
    memcpy(one, any, n < sizeof one ? n : sizeof one);
    if (n > sizeof one) n = sizeof one;
    m = text(fields());
    memcpy(two, any, m);
    size_t k = text("GET");
    return vosdrieng_start(c, moment(), number(), any, k, (uint32_t)draw(8), one, n, two, m);
}

static vosdrieng_answer event(vosdrieng_cache *c) {
    size_t n;
    switch (draw(9)) {
    case 0: return start(c);
    case 1: return vosdrieng_cancel(c, moment(), number());
    case 2: n = text(target()); return vosdrieng_doom(c, moment(), any, n);
    case 3: n = text(fields()); return vosdrieng_head(c, moment(), number(), (uint32_t)(draw(9) ? 200 + draw(7) : draw(1000)), any, n);
    case 4: return vosdrieng_piece(c, moment(), number(), any, draw(9) ? draw(60) : draw(sizeof any));
    case 5: return vosdrieng_end(c, moment(), number());
    case 6: return vosdrieng_fault(c, moment(), number());
    default: return vosdrieng_poll(c, moment(), number(), (uint32_t)(draw(9) ? draw(100) : draw(UINT32_MAX)));
    }
}

static void need(int holds, const char *what) {
    if (holds) return;
    fprintf(stderr, "%s\n", what);
    exit(1);
}

static void take(vosdrieng_cache *c) {
    vosdrieng_act act;
    while (draw(6) && vosdrieng_next_act(c, &act)) {
        size_t most = draw(3) ? sizeof room : draw(40);
        size_t n = vosdrieng_act_bytes(c, room, most);
        need(act.kind >= 1 && act.kind <= 11, "the kind of an act");
        need(n == (act.length < most ? act.length : most), "the bytes of an act");
    }
}

static void image(vosdrieng_cache *c) {
    static uint8_t saved[1 << 20];
    size_t len = 99;
    vosdrieng_answer answer = vosdrieng_image(c, saved, sizeof saved, &len);
    need(answer <= VOSDRIENG_NO_HANDLE || answer == VOSDRIENG_LIVE, "the answer of an image");
    if (answer != VOSDRIENG_OK || len > sizeof saved) return;
    vosdrieng_cache copy = {0};
    need(vosdrieng_open(&copy, 1 << 20, 1 << 24, saved, len) == VOSDRIENG_OK, "an image is not opened");
    vosdrieng_free(&copy);
    if (len > 0 && draw(2)) saved[draw(len)] ^= (uint8_t)(1 + draw(255));
    answer = vosdrieng_open(&copy, 1 << 20, 1 << 24, saved, draw(len + 1));
    need(answer == VOSDRIENG_OK || (answer >= VOSDRIENG_BAD_IMAGE && answer <= VOSDRIENG_FULL), "the answer of an open");
    vosdrieng_free(&copy);
}

int main(int count, char **words) {
    state = count > 1 ? strtoull(words[1], NULL, 10) : 1;
    uint64_t rounds = count > 2 ? strtoull(words[2], NULL, 10) : 100000, answers[16] = {0};
    memset(&caches[2], 0xA5, sizeof caches[2]);
    for (uint64_t i = 0; i < rounds; i++) {
        vosdrieng_cache *c = &caches[draw(3)];
        if (draw(400) == 0) vosdrieng_free(c);
        if (draw(300) == 0) need(vosdrieng_new(c, draw(2) ? 1 << 20 : draw(50), draw(9) ? 1 << 24 : draw(1 << 17)) == VOSDRIENG_OK, "no cache");
        if (draw(100) == 0) image(c);
        vosdrieng_answer answer = event(c);
        need(answer <= VOSDRIENG_BAD_FIELDS && answer != VOSDRIENG_NO_MEMORY, "the answer of an event");
        answers[answer]++;
        take(c);
    }
    for (int i = 0; i < 3; i++) vosdrieng_free(&caches[i]), vosdrieng_free(&caches[i]);
    for (int i = 0; i < 9; i++) printf("%" PRIu64 "%c", answers[i], i < 8 ? ' ' : '\n');
    return 0;
}
