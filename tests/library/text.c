/* Hands a schedule from standard input in by pieces, and writes the report as `vosdrieng replay` does: text.c [PIECE]. */
#include <inttypes.h>
#include <stdio.h>
#include <stdlib.h>

#include "vosdrieng.h"

static vosdrieng_cache cache;

/* Writes the report of the last piece. */
static int write_report(void) {
    size_t len = vosdrieng_report(&cache, (uint8_t *)"", 0);
    uint8_t *report = malloc(len + 1);
    if (!report || vosdrieng_report(&cache, report, len) != len) return 1;
    fwrite(report, 1, len, stdout);
    free(report);
    return 0;
}

int main(int argc, char **argv) {
    size_t most = argc > 1 ? strtoul(argv[1], NULL, 10) : 65536, n;
    uint8_t *piece = malloc(most);
    uint64_t line = 0;
    uint32_t why = 0;
    if (!piece || vosdrieng_new(&cache, 16777216, 268435456) != VOSDRIENG_OK) return 6;
    vosdrieng_answer answer = VOSDRIENG_OK;
    while (answer == VOSDRIENG_OK && (n = fread(piece, 1, most, stdin)) > 0) {
        answer = vosdrieng_schedule(&cache, piece, n, &line, &why);
        if (write_report()) return 6;
    }
    if (answer == VOSDRIENG_OK) answer = vosdrieng_schedule_end(&cache, &line, &why);
    if (answer == VOSDRIENG_BAD_TEXT) fprintf(stderr, "line %" PRIu64 ": %" PRIu32 "\n", line, why);
    vosdrieng_free(&cache);
    free(piece);
    return answer == VOSDRIENG_OK ? 0 : answer == VOSDRIENG_BAD_TEXT ? 1 : 6;
}
