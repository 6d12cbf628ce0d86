/*
 * Judges the trace or the report on standard input, as `scsibus judge` does, in process.
 *
 *     cc $(pkg-config --cflags scsibus) -o judge_file judge_file.c $(pkg-config --libs scsibus)
 *     judge_file < read6.out
 *
 * Prints `lawful`, or `broken ROW RULE` with status 6, and ends at the first row that breaks a rule; status 2 where the
 * text is no trace. Rows are handed to the judge as they are read, in parts, so that a trace of any length takes no more
 * memory than a short one.
 */
#include <scsibus.h>

#include <inttypes.h>
#include <stdio.h>
#include <stdlib.h>
#include <string.h>

enum { PART = 256 };

static int told(const scsibus_verdict *verdict) {
    if (verdict->rule == SCSIBUS_LAWFUL) {
        puts("lawful");
        return 0;
    }
    if (verdict->rule == SCSIBUS_NO_ROW) {
        fprintf(stderr, "judge_file: a row is out of range\n");
        return 2;
    }
    printf("broken %" PRIu64 " %" PRIu64 "\n", verdict->row, verdict->rule);
    return 6;
}

int main(void) {
    char line[64], what[16];
    scsibus_row rows[PART];
    size_t count = 0;
    scsibus_judge judge;
    scsibus_verdict verdict;
    scsibus_judge_start(&judge);
    if (!fgets(line, sizeof line, stdin) || strcmp(line, "trace 1\n") != 0) {
        fprintf(stderr, "judge_file: standard input does not begin with `trace 1`\n");
        return 2;
    }
    while (fgets(line, sizeof line, stdin)) {
        uint64_t time;
        unsigned dev;
        int is_end = sscanf(line, "end %" SCNu64, &time) == 1;
        if (!is_end) {
            if (sscanf(line, "%" SCNu64 " %u %15s", &time, &dev, what) != 3 || dev > 7) {
                fprintf(stderr, "judge_file: a line is no row\n");
                return 2;
            }
            int is_fault = what[0] == 'f' && strlen(what) == 2;
            rows[count].time = time;
            rows[count].dev = (uint8_t)dev;
            rows[count].kind = is_fault ? SCSIBUS_FAULT : SCSIBUS_LINES;
            rows[count].value = (uint32_t)strtoul(is_fault ? what + 1 : what, NULL, 16);
            count++;
        }
        if (is_end || count == PART) {
            scsibus_judge_feed(&judge, rows, count, &verdict);
            if (verdict.rule != SCSIBUS_LAWFUL) return told(&verdict);
            count = 0;
        }
        if (is_end) {
            scsibus_judge_finish(&judge, time, &verdict);
            return told(&verdict);
        }
    }
    fprintf(stderr, "judge_file: standard input has no end\n");
    return 2;
}
