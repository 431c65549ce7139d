/* Four readers share one download by libcurl. One leaves, and where the origin breaks the rest goes on behind what is stored.
**     gcc -Wall -Wextra -Werror -I$LIB examples/share.c $LIB/libvosdrieng.a -lcurl -o share && ./share http://127.0.0.1:8000/film */
#include <curl/curl.h>
#include <stdio.h>
#include <stdlib.h>
#include <string.h>
#include <strings.h>
#include <time.h>

#include "vosdrieng.h"

enum { READERS = 4, EXCHANGES = 64, TRIES = 5 };

/* A reader of the whole body: its consumer, how far it is, and how often it may go on. */
typedef struct {
    uint64_t consumer, at, sum;
    int live, tries;
} reader;

/* A request to the origin. */
typedef struct {
    uint64_t number;
    CURL *easy;
    struct curl_slist *lines;
    char fields[32768];
    size_t length;
    int asked, over;
} exchange;

static vosdrieng_cache cache;
static reader readers[READERS];
static exchange exchanges[EXCHANGES];
static CURLM *multi;
static const char *url;
static uint64_t last, requests;

static void carry_out(void);
static void need(int holds, const char *what) {
    if (holds) return;
    fprintf(stderr, "share: %s\n", what);
    exit(1);
}

/* The time, and never an earlier one than before. */
static uint64_t now(void) {
    static uint64_t newest;
    uint64_t moment = (uint64_t)time(NULL);
    return newest = moment > newest ? moment : newest;
}

static const uint8_t *text(const char *s) { return (const uint8_t *)s; }

/* A field of the origin's head that is passed on. */
static int is_passed(const char *line) {
    static const char *const dropped[] = {"connection:", "keep-alive:", "transfer-encoding:", "trailer:", "upgrade:"};
    for (size_t i = 0; i < sizeof dropped / sizeof *dropped; i++)
        if (strncasecmp(line, dropped[i], strlen(dropped[i])) == 0) return 0;
    return strstr(line, ": ") != NULL;
}

static size_t on_header(char *line, size_t one, size_t n, void *at) {
    exchange *x = at;
    size_t len = n * one;
    while (len > 0 && strchr("\r\n \t", line[len - 1])) len--;
    if (len == 0) {
        long status = 0;
        curl_easy_getinfo(x->easy, CURLINFO_RESPONSE_CODE, &status);
        /* A head that is refused ends the transfer, and with it the exchange. */
        if (status >= 200 && vosdrieng_head(&cache, now(), x->number, (uint32_t)status, text(x->fields), x->length) != VOSDRIENG_OK) return 0;
        carry_out();
    } else if (is_passed(line) && x->length + len + 1 < sizeof x->fields) {
        memcpy(x->fields + x->length, line, len);
        x->length += len;
        x->fields[x->length++] = '\n';
    }
    return n * one;
}

static size_t on_bytes(char *bytes, size_t one, size_t n, void *at) {
    exchange *x = at;
    if (!x->asked) return CURL_WRITEFUNC_PAUSE;
    x->asked = 0;
    vosdrieng_piece(&cache, now(), x->number, text(bytes), n * one);
    carry_out();
    return n * one;
}

static exchange *exchange_of(uint64_t number) {
    for (int i = 0; i < EXCHANGES; i++)
        if (exchanges[i].easy && exchanges[i].number == number) return &exchanges[i];
    return NULL;
}

/* The request of an act: its fields stand behind its method and its target. */
static void open_exchange(const vosdrieng_act *act, uint8_t *bytes, size_t n) {
    exchange *x = exchanges;
    while (x < exchanges + EXCHANGES && x->easy) x++;
    need(x < exchanges + EXCHANGES, "too many exchanges");
    *x = (exchange){.number = act->exchange, .easy = curl_easy_init()};
    bytes[n] = 0;
    for (char *line = strtok((char *)bytes + act->method_length + act->target_length, "\n"); line; line = strtok(NULL, "\n"))
        x->lines = curl_slist_append(x->lines, line);
    curl_easy_setopt(x->easy, CURLOPT_URL, url);
    curl_easy_setopt(x->easy, CURLOPT_HTTPHEADER, x->lines);
    curl_easy_setopt(x->easy, CURLOPT_HEADERFUNCTION, on_header);
    curl_easy_setopt(x->easy, CURLOPT_HEADERDATA, x);
    curl_easy_setopt(x->easy, CURLOPT_WRITEFUNCTION, on_bytes);
    curl_easy_setopt(x->easy, CURLOPT_WRITEDATA, x);
    curl_easy_setopt(x->easy, CURLOPT_PRIVATE, x);
    requests++;
}

static void start(reader *r) {
    char range[64] = "";
    if (r->at > 0) snprintf(range, sizeof range, "range: bytes=%llu-\n", (unsigned long long)r->at);
    r->consumer = ++last, r->live = 1;
    need(vosdrieng_start(&cache, now(), r->consumer, text("GET"), 3, VOSDRIENG_NORMAL, text(url), strlen(url),
                         text(range), strlen(range)) == VOSDRIENG_OK, "the URL is none in its one spelling");
}

static void tell(const vosdrieng_act *act, const uint8_t *bytes) {
    for (reader *r = readers; r < readers + READERS; r++) {
        if (!r->live || r->consumer != act->consumer) continue;
        if (act->kind == VOSDRIENG_ACT_ENDED) r->live = 0;
        if (act->kind == VOSDRIENG_ACT_FAILED) r->live = r->tries-- > 0 ? 2 : 0; /* 2: it begins again behind its last byte */
        if (act->kind != VOSDRIENG_ACT_DATA) continue;
        for (uint64_t i = 0; i < act->length; i++) r->sum = r->sum * 31 + bytes[i];
        r->at += act->length;
    }
}

/* What the last event was answered. */
static void carry_out(void) {
    static uint8_t bytes[70000];
    vosdrieng_act act;
    while (vosdrieng_next_act(&cache, &act)) {
        size_t n = vosdrieng_act_bytes(&cache, bytes, sizeof bytes - 1);
        exchange *x = exchange_of(act.exchange);
        if (act.kind == VOSDRIENG_ACT_OPEN) open_exchange(&act, bytes, n);
        else if (act.kind == VOSDRIENG_ACT_ASK && x) x->asked = 1;
        else if (act.kind == VOSDRIENG_ACT_CLOSE && x) x->over = 1;
        else tell(&act, bytes);
    }
}

/* Begins, goes on with and lets go the exchanges as the acts said. No callback is running here. */
static void work(void) {
    int left, running;
    for (exchange *x = exchanges; x < exchanges + EXCHANGES; x++) {
        if (!x->easy) continue;
        if (x->over) {
            curl_multi_remove_handle(multi, x->easy);
            curl_easy_cleanup(x->easy), curl_slist_free_all(x->lines);
            x->easy = NULL;
        } else {
            curl_multi_add_handle(multi, x->easy);
            if (x->asked) curl_easy_pause(x->easy, CURLPAUSE_CONT);
        }
    }
    curl_multi_perform(multi, &running);
    for (CURLMsg *m; (m = curl_multi_info_read(multi, &left));) {
        exchange *x = NULL;
        curl_easy_getinfo(m->easy_handle, CURLINFO_PRIVATE, (char **)&x);
        if (x->over) continue;
        x->over = 1;
        if (m->data.result == CURLE_OK) vosdrieng_end(&cache, now(), x->number);
        else vosdrieng_fault(&cache, now(), x->number);
        carry_out();
    }
    curl_multi_poll(multi, NULL, 0, 5, NULL);
}

int main(int count, char **words) {
    int live = READERS;
    need(count == 2, "usage: share URL");
    url = words[1];
    curl_global_init(CURL_GLOBAL_DEFAULT);
    multi = curl_multi_init();
    need(vosdrieng_new(&cache, 1 << 24, 1 << 28) == VOSDRIENG_OK, "no memory");
    for (int i = 0; i < READERS; i++) readers[i].tries = TRIES, start(&readers[i]);
    while (live > 0) {
        live = 0;
        for (reader *r = readers; r < readers + READERS; r++) {
            if (r->live == 2) start(r);
            if (!r->live) continue;
            live++;
            if (r == readers + 3 && r->at > 50000) vosdrieng_cancel(&cache, now(), r->consumer), r->live = 0;
            else need(vosdrieng_poll(&cache, now(), r->consumer, 65536) == VOSDRIENG_OK, "no memory");
            carry_out();
        }
        work();
    }
    for (int i = 0; i < READERS; i++)
        printf("reader %d: %llu bytes, sum %llu\n", i + 1, (unsigned long long)readers[i].at, (unsigned long long)readers[i].sum);
    printf("%d requests\n", (int)requests);
    vosdrieng_free(&cache);
    curl_multi_cleanup(multi), curl_global_cleanup();
    return 0;
}
