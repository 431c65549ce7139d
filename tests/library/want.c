/* Each allocation of a run is refused in turn. Link with -Wl,--wrap=malloc,--wrap=realloc. */
#include <stdio.h>
#include <stdlib.h>
#include <string.h>

#include "vosdrieng.h"

static long left;
static long asked;

void *__real_malloc(size_t);
void *__real_realloc(void *, size_t);

static int is_refused(void) {
    asked++;
    return left > 0 && --left == 0;
}

void *__wrap_malloc(size_t n) { return is_refused() ? NULL : __real_malloc(n); }
void *__wrap_realloc(void *at, size_t n) { return is_refused() ? NULL : __real_realloc(at, n); }

static const uint8_t *text(const char *s) { return (const uint8_t *)s; }

/* The run: how many of its calls were refused memory, or -1 where one behind such a call wasn't. */
static int run(void) {
    static const char target[] = "http://a.test/film", head[] = "content-length: 6\ncache-control: max-age=60\netag: \"a\"\n";
    vosdrieng_cache c = {0};
    vosdrieng_answer answers[8] = {0};
    size_t len;
    uint8_t room[1000];
    int refused = 0;
    answers[0] = vosdrieng_new(&c, 1 << 20, 1 << 24);
    answers[1] = vosdrieng_start(&c, 5, 1, text("GET"), 3, VOSDRIENG_NORMAL, text(target), strlen(target), text("accept: x\n"), 10);
    answers[2] = vosdrieng_poll(&c, 5, 1, 9);
    answers[3] = vosdrieng_head(&c, 5, 1, 200, text(head), strlen(head));
    answers[4] = vosdrieng_poll(&c, 5, 1, 9);
    answers[5] = vosdrieng_piece(&c, 5, 1, text("abcdef"), 6);
    answers[6] = vosdrieng_end(&c, 5, 1);
    answers[7] = vosdrieng_cancel(&c, 5, 1);
    (void)vosdrieng_image(&c, room, sizeof room, &len);
    vosdrieng_free(&c);
    for (int i = 0; i < 8; i++) {
        if (answers[i] == VOSDRIENG_NO_MEMORY || (answers[0] && answers[i] == VOSDRIENG_NO_HANDLE)) refused++;
        else if (refused || answers[i] != VOSDRIENG_OK) return -1;
    }
    return refused;
}

/* The same of a text in two pieces. Behind a call that was refused memory there is no report. */
static int run_text(void) {
    static const char schedule[] = "at 5\nstart 1 GET normal http://a.test/film 1\naccept: x\npoll 1 9\nhead 1 200 1\n"
                                   "content-length: 6\npoll 1 9\npiece 1 616263646566\nend 1\npoll 1 9\ncancel 1\n";
    vosdrieng_cache c = {0};
    vosdrieng_answer answers[4] = {0};
    uint64_t line;
    uint32_t why;
    int refused = 0;
    answers[0] = vosdrieng_new(&c, 1 << 20, 1 << 24);
    answers[1] = vosdrieng_schedule(&c, text(schedule), 40, &line, &why);
    answers[2] = vosdrieng_schedule(&c, text(schedule + 40), strlen(schedule) - 40, &line, &why);
    answers[3] = vosdrieng_schedule_end(&c, &line, &why);
    size_t len = vosdrieng_report(&c, (uint8_t *)"", 0);
    vosdrieng_free(&c);
    for (int i = 0; i < 4; i++) {
        if (answers[i] == VOSDRIENG_NO_MEMORY || (answers[0] && answers[i] == VOSDRIENG_NO_HANDLE)) refused++;
        else if (refused || answers[i] != VOSDRIENG_OK) return -1;
    }
    return (refused == 0) == (len > 0) ? refused : -1;
}

/* Refuses each allocation of a run in turn: how many there are, or 0 where a call behind one wasn't answered as it is to be. */
static long refuse_each(int (*one)(void)) {
    left = asked = 0;
    if (one() != 0) return 0;
    long all = asked;
    for (long n = 1; n <= all; n++) {
        left = n;
        if (one() < 0) return printf("the call behind allocation %ld\n", n), 0;
    }
    return all;
}

int main(void) {
    long events = refuse_each(run), texts = refuse_each(run_text);
    if (events == 0 || texts == 0) return 1;
    printf("%ld allocations refused in turn\n", events + texts);
    return 0;
}
