/*
 * Judges traces in process, in every way that include/scsibus.h offers, and says the verdict on each.
 *
 *     judge SEED FILE..      prints `FILE lawful` or `FILE broken ROW RULE` for each FILE, a trace or a report
 *
 * Each trace is judged as a whole; and in parts of random lengths, where the judge is written to a file after each part,
 * its memory is wiped, and it is read back elsewhere. In between rows are tried, traces of the rows so far are ended,
 * and rows that are out of range and memory that holds no judge are handed over. Where two of these answers differ, or
 * something else than what the header says is written, this program says so and stops with status 1.
 *
 * What is handed to the library ends where memory ends, so that a read or a write behind it stops the program.
 */
#define _DEFAULT_SOURCE
#include "scsibus.h"

#include <inttypes.h>
#include <stdbool.h>
#include <stdio.h>
#include <stdlib.h>
#include <string.h>
#include <sys/mman.h>
#include <unistd.h>

_Static_assert(sizeof(scsibus_row) == 16, "a row has 16 bytes");
_Static_assert(sizeof(scsibus_verdict) == 16, "a verdict has 16 bytes");

static const char *file = "";

static _Noreturn void stop(const char *why) {
    fprintf(stderr, "judge: %s: %s\n", file, why);
    exit(1);
}

static void want(bool holds, const char *why) {
    if (!holds) stop(why);
}

/* Memory of `length` bytes, behind which there is none. */
static void *fenced(size_t length) {
    size_t page = (size_t)sysconf(_SC_PAGESIZE), pages = (length + page - 1) / page;
    char *at = mmap(NULL, (pages + 1) * page, PROT_READ | PROT_WRITE, MAP_PRIVATE | MAP_ANONYMOUS, -1, 0);
    if (at == MAP_FAILED || mprotect(at + pages * page, page, PROT_NONE)) stop("no memory");
    return at + pages * page - length;
}

static void unfence(void *memory, size_t length) {
    size_t page = (size_t)sysconf(_SC_PAGESIZE), pages = (length + page - 1) / page;
    munmap((char *)memory + length - pages * page, (pages + 1) * page);
}

/* ---- traces */

typedef struct trace {
    scsibus_row *rows;
    size_t count;
    uint64_t end;
} trace;

/* Reads the rows of a trace or a report. */
static trace read_trace(const char *name) {
    FILE *text = fopen(name, "r");
    if (!text) stop("cannot be read");
    trace read = {NULL, 0, 0};
    size_t room = 0;
    char line[64], what[16];
    bool has_end = false;
    want(fgets(line, sizeof line, text) && strcmp(line, "trace 1\n") == 0, "does not begin with `trace 1`");
    while (!has_end && fgets(line, sizeof line, text)) {
        scsibus_row row = {0};
        unsigned dev;
        if (sscanf(line, "end %" SCNu64, &read.end) == 1) {
            has_end = true;
        } else if (sscanf(line, "%" SCNu64 " %u %15s", &row.time, &dev, what) == 3) {
            row.dev = (uint8_t)dev;
            row.kind = what[0] == 'f' && what[2] == 0 ? SCSIBUS_FAULT : SCSIBUS_LINES;
            row.value = (uint32_t)strtoul(row.kind == SCSIBUS_FAULT ? what + 1 : what, NULL, 16);
            if (read.count == room) {
                room = room ? 2 * room : 1024;
                read.rows = realloc(read.rows, room * sizeof row);
                if (!read.rows) stop("no memory");
            }
            read.rows[read.count++] = row;
        } else {
            stop("has a line that is no row");
        }
    }
    want(has_end, "has no end");
    fclose(text);
    return read;
}

/* The same rows, handed to the library from here. */
static scsibus_row *fenced_rows(const scsibus_row *rows, size_t count) {
    scsibus_row *copy = fenced(count * sizeof *rows);
    if (count) memcpy(copy, rows, count * sizeof *rows);
    return copy;
}

/* ---- random numbers, the same for the same seed */

static uint64_t state;

static uint64_t below(uint64_t limit) {
    state ^= state << 13;
    state ^= state >> 7;
    state ^= state << 17;
    return state % limit;
}

/* ---- a judge that is saved and read back */

static scsibus_judge *judge;
static scsibus_verdict *verdict;
static FILE *saves;

static bool is(uint64_t row, uint64_t rule) {
    return verdict->row == row && verdict->rule == rule;
}

static void save_and_load(void) {
    scsibus_judge *other = fenced(sizeof *judge);
    rewind(saves);
    want(fwrite(judge, sizeof *judge, 1, saves) == 1, "the judge was not written");
    memset(judge, 0xa5, sizeof *judge);
    unfence(judge, sizeof *judge);
    rewind(saves);
    want(fread(other, sizeof *other, 1, saves) == 1, "the judge was not read back");
    judge = other;
}

/* Rows that are out of range, and memory that holds no judge, are answered, and nothing else changes. */
static void refusals(const scsibus_row *rows, size_t count) {
    static const scsibus_row off[] = {
        {.time = 0, .value = 0, .dev = 8, .kind = SCSIBUS_LINES}, {.time = 0, .value = 0, .dev = 255, .kind = SCSIBUS_FAULT},
        {.time = 0, .value = 0x40000, .dev = 0, .kind = SCSIBUS_LINES}, {.time = 0, .value = UINT32_MAX, .dev = 7, .kind = SCSIBUS_LINES},
        {.time = 0, .value = 9, .dev = 0, .kind = SCSIBUS_FAULT}, {.time = 0, .value = 0, .dev = 0, .kind = 2},
        {.time = 0, .value = 0, .dev = 0, .kind = 255},
    };
    scsibus_judge before = *judge;
    scsibus_row *bad = fenced_rows(rows, count);
    size_t at = (size_t)below(count);
    bad[at] = off[below(sizeof off / sizeof *off)];
    scsibus_judge_feed(judge, bad, count, verdict);
    want(is(at + 1, SCSIBUS_NO_ROW), "feed takes a row that is out of range");
    scsibus_judge_try(judge, bad, count, verdict);
    want(is(at + 1, SCSIBUS_NO_ROW), "try takes a row that is out of range");
    scsibus_judge_trace(bad, count, 0, verdict);
    want(is(at + 1, SCSIBUS_NO_ROW), "a trace may have a row that is out of range");
    want(memcmp(&before, judge, sizeof before) == 0, "a refusal changes the judge");
    judge->words[0] ^= (uint64_t)1 << below(64);
    scsibus_judge other = *judge;
    scsibus_judge_feed(judge, rows, count, verdict);
    want(is(0, SCSIBUS_NO_JUDGE), "feed takes memory that holds no judge");
    scsibus_judge_try(judge, rows, count, verdict);
    want(is(0, SCSIBUS_NO_JUDGE), "try takes memory that holds no judge");
    scsibus_judge_finish(judge, 0, verdict);
    want(is(0, SCSIBUS_NO_JUDGE), "finish takes memory that holds no judge");
    want(memcmp(&other, judge, sizeof other) == 0, "memory that holds no judge is written");
    *judge = before;
    unfence(bad, count * sizeof *rows);
}

/* The verdict on a trace, the same by all ways. */
static scsibus_verdict judged(const trace *read) {
    scsibus_row *rows = fenced_rows(read->rows, read->count);
    scsibus_judge_trace(rows, read->count, read->end, verdict);
    scsibus_verdict whole = *verdict;
    memset(judge, 0x5a, sizeof *judge);
    scsibus_judge_start(judge);
    size_t most = read->count < 64 ? 3 : read->count / 16;
    for (size_t seen = 0; seen < read->count;) {
        size_t count = (size_t)below(most) + 1;
        if (count > read->count - seen) count = read->count - seen;
        scsibus_judge before = *judge;
        scsibus_judge_try(judge, rows + seen, count, verdict);
        scsibus_verdict tried = *verdict;
        want(memcmp(&before, judge, sizeof before) == 0, "try changes the judge");
        if (below(4) == 0) refusals(rows + seen, count);
        scsibus_judge_feed(judge, rows + seen, count, verdict);
        want(is(tried.row, tried.rule), "feed and try differ");
        seen += count;
        bool is_over = whole.rule && whole.row <= seen;
        want(is(is_over ? whole.row : 0, is_over ? whole.rule : 0), "feed differs from the verdict on the whole trace");
        save_and_load();
        if (below(8) == 0) {
            scsibus_row *front = fenced_rows(rows, seen);
            uint64_t end = rows[seen - 1].time + below(100000);
            scsibus_judge_finish(judge, end, verdict);
            scsibus_verdict ended = *verdict;
            scsibus_judge_trace(front, seen, end, verdict);
            want(is(ended.row, ended.rule), "finish differs from the verdict on the rows so far");
            unfence(front, seen * sizeof *front);
        }
    }
    scsibus_judge_finish(judge, read->end, verdict);
    want(is(whole.row, whole.rule), "finish differs from the verdict on the whole trace");
    unfence(rows, read->count * sizeof *rows);
    return whole;
}

/* Random words are some judge, or none, and get an answer. */
static void any_words(void) {
    scsibus_row rows[16] = {{0}};
    for (int i = 0; i < 16; i++) rows[i] = (scsibus_row){.time = below(1000000), .value = (uint32_t)below(0x40000), .dev = (uint8_t)below(8)};
    scsibus_judge_start(judge);
    for (unsigned i = 1; i < SCSIBUS_JUDGE_WORDS; i++) judge->words[i] = below(2) ? below(UINT64_MAX) : below(12);
    scsibus_judge_feed(judge, rows, 16, verdict);
    want(verdict->rule <= 255, "feed says no verdict on random words");
    scsibus_judge_finish(judge, below(UINT64_MAX), verdict);
    want(verdict->rule <= 255, "finish says no verdict on random words");
}

int main(int count, char **words) {
    if (count < 2) {
        fprintf(stderr, "usage: judge SEED FILE..\n");
        return 2;
    }
    state = strtoull(words[1], NULL, 10) * 2 + 1;
    judge = fenced(sizeof *judge);
    verdict = fenced(sizeof *verdict);
    saves = tmpfile();
    want(saves != NULL, "no file for judges");
    want(scsibus_version() == SCSIBUS_VERSION, "header and library have two versions");
    want(scsibus_judge_size() == sizeof(scsibus_judge), "header and library have judges of two sizes");
    for (int i = 0; i < 1000; i++) any_words();
    for (int i = 2; i < count; i++) {
        file = words[i];
        trace read = read_trace(file);
        scsibus_verdict told = judged(&read);
        if (told.rule == SCSIBUS_LAWFUL) {
            printf("%s lawful\n", file);
        } else {
            printf("%s broken %" PRIu64 " %" PRIu64 "\n", file, told.row, told.rule);
        }
        free(read.rows);
    }
    fclose(saves);
    return 0;
}
