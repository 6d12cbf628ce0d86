/*
 * Times the C library on the rows of a trace in memory: `library ROUNDS FILE` prints for each way of asking the best
 * processor time of ROUNDS, in ns a row. benches/library.py compiles and runs it.
 */
#define _POSIX_C_SOURCE 200809L
#include <scsibus.h>

#include <inttypes.h>
#include <stdio.h>
#include <stdlib.h>
#include <string.h>
#include <time.h>

static double now(void) {
    struct timespec at;
    clock_gettime(CLOCK_PROCESS_CPUTIME_ID, &at);
    return (double)at.tv_sec * 1e9 + (double)at.tv_nsec;
}

int main(int count, char **words) {
    char line[64], what[16];
    FILE *text = count == 3 ? fopen(words[2], "r") : NULL;
    if (!text || !fgets(line, sizeof line, text)) return 2;
    scsibus_row *rows = NULL;
    size_t rows_read = 0, room = 0;
    uint64_t end = 0, time;
    unsigned dev;
    while (fgets(line, sizeof line, text)) {
        if (sscanf(line, "end %" SCNu64, &end) == 1) break;
        if (sscanf(line, "%" SCNu64 " %u %15s", &time, &dev, what) != 3) return 2;
        if (rows_read == room) rows = realloc(rows, (room = room ? 2 * room : 4096) * sizeof *rows);
        if (!rows) return 2;
        int is_fault = what[0] == 'f' && strlen(what) == 2;
        rows[rows_read++] = (scsibus_row){.time = time, .value = (uint32_t)strtoul(what + is_fault, NULL, 16),
                                          .dev = (uint8_t)dev, .kind = (uint8_t)is_fault};
    }
    /* Rows a call; 0 for the whole trace at once by scsibus_judge_trace. */
    static const size_t parts[] = {0, 1, 4, 16, 64, 256, 4096};
    for (size_t k = 0; k < sizeof parts / sizeof *parts; k++) {
        double best = 1e300;
        scsibus_verdict verdict = {0, 0};
        for (int round = 0; round < atoi(words[1]); round++) {
            double from = now();
            if (parts[k] == 0) {
                scsibus_judge_trace(rows, rows_read, end, &verdict);
            } else {
                scsibus_judge judge;
                scsibus_judge_start(&judge);
                for (size_t at = 0; at < rows_read; at += parts[k]) {
                    size_t rest = rows_read - at;
                    scsibus_judge_feed(&judge, rows + at, rest < parts[k] ? rest : parts[k], &verdict);
                }
                scsibus_judge_finish(&judge, end, &verdict);
            }
            double took = (now() - from) / (double)rows_read;
            if (took < best) best = took;
        }
        if (verdict.rule != SCSIBUS_LAWFUL) return 1;
        if (parts[k]) printf("feed, %zu rows a call: %.1f\n", parts[k], best);
        else printf("the whole trace: %.1f\n", best);
    }
    free(rows);
    fclose(text);
    return 0;
}
