/* Steps a cache by the binary calls as a schedule on standard input says, and writes the report as `vosdrieng replay` does. */
#include <inttypes.h>
#include <stdio.h>
#include <stdlib.h>
#include <string.h>

#include "vosdrieng.h"

static char line[200000];
static uint8_t bytes[200000], fields[70000];
static vosdrieng_cache cache;
static uint64_t now, number;

static void need(int holds, const char *what) {
    if (holds) return;
    fprintf(stderr, "entry %" PRIu64 ": %s\n", number, what);
    exit(1);
}

/* One line without its end. 0 at the end of the input. */
static int next_line(void) {
    if (!fgets(line, sizeof line, stdin)) return 0;
    line[strcspn(line, "\n")] = 0;
    return 1;
}

static size_t read_fields(unsigned count) {
    size_t at = 0;
    for (unsigned i = 0; i < count && next_line(); i++) {
        size_t len = strlen(line);
        need(at + len + 1 <= sizeof fields, "too many fields");
        memcpy(fields + at, line, len);
        fields[at + len] = '\n';
        at += len + 1;
    }
    return at;
}

static size_t read_hex(const char *hex) {
    size_t n = strcmp(hex, "-") == 0 ? 0 : strlen(hex) / 2;
    for (size_t i = 0; i < n; i++) {
        unsigned byte;
        need(sscanf(hex + 2 * i, "%2x", &byte) == 1, "no hex");
        bytes[i] = (uint8_t)byte;
    }
    return n;
}

static unsigned lines_in(const uint8_t *text, size_t len) {
    unsigned count = 0;
    for (size_t i = 0; i < len; i++) count += text[i] == '\n';
    return count;
}

static const char *pick(const char *const *words, uint32_t detail) {
    return words[detail - 1];
}

static void write_need(const vosdrieng_act *a) {
    static const char *const words[] = {"disabled", "timed-out", "bypass", "miss", "vary", "validate", "hole", "unsatisfied"};
    printf("%s", pick(words, a->detail));
    if (a->detail == VOSDRIENG_NEED_HOLE) printf(":%" PRIu64 "-%" PRIu64, a->first, a->second);
}

static void write_why(const vosdrieng_act *a) {
    static const char *const words[] = {"fetched", "fresh", "stale", "validated"};
    int by_exchange = a->detail == VOSDRIENG_WHY_FETCHED || a->detail == VOSDRIENG_WHY_VALIDATED;
    printf("%s:%" PRIu64, pick(words, a->detail), by_exchange ? a->exchange : a->first);
    if (!by_exchange) printf("/%" PRIu64, a->second);
}

static void write_cause(const vosdrieng_act *a) {
    static const char *const words[] = {"net", "short", "changed", "store-write", "store-read", "miss", "bad-head"};
    int by_store = a->detail == VOSDRIENG_CAUSE_STORE_WRITE || a->detail == VOSDRIENG_CAUSE_STORE_READ;
    printf("%s", pick(words, a->detail));
    if (a->detail != VOSDRIENG_CAUSE_MISS) printf(":%" PRIu64, by_store ? a->representation : a->exchange);
    if (a->detail == VOSDRIENG_CAUSE_SHORT) printf(":%" PRIu64 "/%" PRIu64, a->first, a->second);
}

static void write_wait(const vosdrieng_act *a) {
    static const char *const words[] = {"turn", "busy", "head", "body"};
    printf("%s:%" PRIu64, pick(words, a->detail), a->detail <= VOSDRIENG_WAIT_BUSY ? a->first : a->exchange);
}

static void write_open(const vosdrieng_act *a) {
    const uint8_t *lines = bytes + a->method_length + a->target_length;
    size_t len = a->length - a->method_length - a->target_length;
    printf("open %" PRIu64 " %" PRIu64 " ", a->exchange, a->consumer);
    write_need(a);
    printf(" %.*s %.*s %u\n%.*s", (int)a->method_length, bytes, (int)a->target_length, bytes + a->method_length,
           lines_in(lines, len), (int)len, lines);
}

static void write_shown(const vosdrieng_act *a) {
    printf("shown %" PRIu64 " %" PRIu64 " ", a->consumer, a->representation);
    write_why(a);
    printf(" %" PRIu32 " %" PRIu64, a->status, a->position);
    if (a->has_end) printf(" %" PRIu64, a->end);
    else printf(" -");
    printf(" %u\n%.*s", lines_in(bytes, a->length), (int)a->length, bytes);
}

static void write_data(const vosdrieng_act *a) {
    printf("data %" PRIu64 " %" PRIu64 " %" PRIu64 " ", a->consumer, a->exchange, a->position);
    for (size_t i = 0; i < a->length; i++) printf("%02x", bytes[i]);
    printf("\n");
}

static void write_denied(const vosdrieng_act *a) {
    printf("denied %" PRIu32, a->detail);
    if (a->detail == VOSDRIENG_DENIED_NOT_RISING || a->detail == VOSDRIENG_DENIED_OVERLONG) printf(" %" PRIu64, a->first);
    printf("\n");
}

static void write_lost(const vosdrieng_act *a) {
    static const char *const words[] = {"fault", "too-large", "full"};
    printf("lost %" PRIu64 " %s\n", a->representation, pick(words, a->detail));
}

static void write_act(const vosdrieng_act *a) {
    size_t copied = vosdrieng_act_bytes(&cache, bytes, sizeof bytes);
    need(copied == a->length, "the length of an act");
    switch (a->kind) {
    case VOSDRIENG_ACT_OPEN: write_open(a); break;
    case VOSDRIENG_ACT_ASK: printf("ask %" PRIu64 "\n", a->exchange); break;
    case VOSDRIENG_ACT_CLOSE: printf("close %" PRIu64 "\n", a->exchange); break;
    case VOSDRIENG_ACT_SHOWN: write_shown(a); break;
    case VOSDRIENG_ACT_DATA: write_data(a); break;
    case VOSDRIENG_ACT_ENDED: printf("ended %" PRIu64 "\n", a->consumer); break;
    case VOSDRIENG_ACT_FAILED: printf("failed %" PRIu64 " ", a->consumer), write_cause(a), printf("\n"); break;
    case VOSDRIENG_ACT_PENDING: printf("pending %" PRIu64 " ", a->consumer), write_wait(a), printf("\n"); break;
    case VOSDRIENG_ACT_LOST: write_lost(a); break;
    case VOSDRIENG_ACT_EVICTED: printf("evicted %" PRIu64 "\n", a->representation); break;
    case VOSDRIENG_ACT_DENIED: write_denied(a); break;
    default: need(0, "an act of no kind");
    }
}

static uint32_t mode_of(const char *word) {
    static const char *const words[] = {"normal", "validate", "bypass", "skip", "only", "disable"};
    for (uint32_t i = 0; i < 6; i++)
        if (strcmp(word, words[i]) == 0) return i;
    need(0, "no load");
    return 0;
}

static vosdrieng_answer start(void) {
    static char method[16], load[16], target[9000];
    uint64_t c;
    unsigned count;
    need(sscanf(line, "start %" SCNu64 " %15s %15s %8999s %u", &c, method, load, target, &count) == 5, "no start");
    size_t len = read_fields(count);
    return vosdrieng_start(&cache, now, c, (uint8_t *)method, strlen(method), mode_of(load),
                           (uint8_t *)target, strlen(target), fields, len);
}

static vosdrieng_answer head(void) {
    uint64_t x;
    uint32_t status;
    unsigned count;
    need(sscanf(line, "head %" SCNu64 " %" SCNu32 " %u", &x, &status, &count) == 3, "no head");
    size_t len = read_fields(count);
    return vosdrieng_head(&cache, now, x, status, fields, len);
}

/* Hands in the event of a line. -1 where the line sets the moment. */
static int64_t hand_in(void) {
    uint64_t n = 0;
    uint32_t want;
    int at = 0;
    if (sscanf(line, "at %" SCNu64, &now) == 1) return -1;
    if (strncmp(line, "start ", 6) == 0) return start();
    if (strncmp(line, "head ", 5) == 0) return head();
    if (sscanf(line, "poll %" SCNu64 " %" SCNu32, &n, &want) == 2) return vosdrieng_poll(&cache, now, n, want);
    if (sscanf(line, "piece %" SCNu64 " %n", &n, &at) == 1)
        return vosdrieng_piece(&cache, now, n, bytes, read_hex(line + at));
    if (sscanf(line, "end %" SCNu64, &n) == 1) return vosdrieng_end(&cache, now, n);
    if (sscanf(line, "fault %" SCNu64, &n) == 1) return vosdrieng_fault(&cache, now, n);
    if (sscanf(line, "cancel %" SCNu64, &n) == 1) return vosdrieng_cancel(&cache, now, n);
    if (strncmp(line, "doom ", 5) == 0)
        return vosdrieng_doom(&cache, now, (uint8_t *)line + 5, strlen(line + 5));
    need(0, "no item");
    return 0;
}

int main(void) {
    vosdrieng_act act;
    need(vosdrieng_version() == VOSDRIENG_VERSION_NUMBER, "the version");
    need(vosdrieng_new(&cache, 16777216, 268435456) == VOSDRIENG_OK, "no cache");
    while (next_line()) {
        int64_t answer = hand_in();
        if (answer < 0) continue;
        need(answer == VOSDRIENG_OK, "the event is refused");
        printf("> %" PRIu64 "\n", ++number);
        while (vosdrieng_next_act(&cache, &act)) write_act(&act);
    }
    vosdrieng_free(&cache);
    return 0;
}
