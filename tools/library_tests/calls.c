/*
 * Calls the program in process, in every way that include/scsibus_main.h offers, and compares it with what the program said.
 *
 *     calls SEED LIST      LIST has a line for each case, `STATUS INPUT TEXT WORDS`: two files, and words up to the line's end
 *
 * Each case is called with room for nothing, with a byte too little, with just enough and with some to spare; and, where the
 * input is small, with memory that ends at the first allocation, at the second, and so on. Where an answer is another one than the
 * program's, where bytes behind the text change, or where memory is not given back, this program says so and stops with status 1.
 *
 * What is handed to the library ends where memory ends, so that a read or a write behind it stops the program. It is linked with
 * --wrap=malloc, --wrap=realloc and --wrap=free, by which allocations fail and are counted.
 */
#define _DEFAULT_SOURCE
#include "scsibus_main.h"

#include <inttypes.h>
#include <stdbool.h>
#include <stdio.h>
#include <stdlib.h>
#include <string.h>
#include <sys/mman.h>
#include <unistd.h>

_Static_assert(sizeof(scsibus_answer) == 16, "an answer has 16 bytes");

/* Inputs up to this length are tried with memory that ends early, and so many allocations of each, in all. */
enum { SMALL = 1000, TRIED = 60 };

static const char *about = "";

static _Noreturn void stop(const char *why) {
    fprintf(stderr, "calls: %s: %s\n", about, why);
    exit(1);
}

static void want(bool holds, const char *why) {
    if (!holds) stop(why);
}

/* Memory of `length` bytes, behind which there is none. */
static void *fenced(size_t length) {
    size_t page = (size_t)sysconf(_SC_PAGESIZE), pages = (length + page - 1) / page;
    char *at = mmap(NULL, (pages + 1) * page, PROT_READ | PROT_WRITE, MAP_PRIVATE | MAP_ANONYMOUS, -1, 0);
    if (at == MAP_FAILED || mprotect(at + pages * page, page, PROT_NONE)) stop("no memory");
    return at + pages * page - length;
}

static void unfence(void *memory, size_t length) {
    size_t page = (size_t)sysconf(_SC_PAGESIZE), pages = (length + page - 1) / page;
    munmap((char *)memory + length - pages * page, (pages + 1) * page);
}

/* ---- allocations */

void *__real_malloc(size_t size);
void *__real_realloc(void *old, size_t size);
void __real_free(void *old);
void *__wrap_malloc(size_t size);
void *__wrap_realloc(void *old, size_t size);
void __wrap_free(void *old);

static bool is_counted;
static uint64_t asked, failing = UINT64_MAX;
static int64_t held;

static bool fails(void) {
    return is_counted && asked++ >= failing;
}

void *__wrap_malloc(size_t size) {
    if (fails()) return NULL;
    void *made = __real_malloc(size);
    held += is_counted && made;
    return made;
}

void *__wrap_realloc(void *old, size_t size) {
    if (fails()) return NULL;
    void *made = __real_realloc(old, size);
    held += is_counted && made && !old;
    return made;
}

void __wrap_free(void *old) {
    held -= is_counted && old;
    __real_free(old);
}

/* ---- files */

typedef struct text {
    char *bytes;
    size_t length;
} text;

static text read_file(const char *name) {
    FILE *file = fopen(name, "rb");
    if (!file || fseek(file, 0, SEEK_END)) stop("a file cannot be read");
    text read = {NULL, (size_t)ftell(file)};
    rewind(file);
    read.bytes = fenced(read.length);
    want(fread(read.bytes, 1, read.length, file) == read.length, "a file cannot be read");
    fclose(file);
    return read;
}

/* ---- random numbers, the same for the same seed */

static uint64_t state;

static uint64_t below(uint64_t limit) {
    state ^= state << 13;
    state ^= state >> 7;
    state ^= state << 17;
    return state % limit;
}

/* ---- calls */

static text words, input, expected;
static uint64_t wanted;
static scsibus_answer *answer;

/* One call with so much room: its answer, and its text against this one. */
static void call(size_t room, uint64_t status, text said) {
    char *out = fenced(room);
    memset(out, 0x5a, room);
    memset(answer, 0xa5, sizeof *answer);
    held = 0;
    asked = 0;
    is_counted = true;
    scsibus_main(words.bytes, words.length, input.bytes, input.length, out, room, answer);
    is_counted = false;
    want(answer->status == status, "another status");
    want(answer->length == said.length, "another length");
    size_t shown = room < said.length ? room : said.length;
    want(memcmp(out, said.bytes, shown) == 0, "another text");
    for (size_t at = shown; at < room; at++) want(out[at] == 0x5a, "bytes behind the text are written");
    want(held == 0, "memory is not given back");
    unfence(out, room);
}

/* Where allocations end early there is no memory, or the call needed no more. */
static void run_dry(void) {
    text none = {fenced(10), 10};
    memcpy(none.bytes, "no memory\n", 10);
    call(expected.length, wanted, expected);
    uint64_t needed = asked;
    for (uint64_t step = needed < TRIED ? 1 : needed / TRIED, at = 0; at < needed; at += step) {
        failing = at;
        call(expected.length + 10, SCSIBUS_NO_MEMORY, none);
    }
    failing = needed;
    call(expected.length, wanted, expected);
    failing = UINT64_MAX;
    unfence(none.bytes, 10);
}

static void try_case(void) {
    call(0, wanted, expected);
    size_t needed = (size_t)answer->length;
    if (needed > 0) call(needed - 1, wanted, expected);
    call((size_t)below(needed + 1), wanted, expected);
    call(needed, wanted, expected);
    call(needed + 1 + (size_t)below(5000), wanted, expected);
    if (input.length <= SMALL) run_dry();
}

int main(int count, char **given) {
    if (count != 3) {
        fprintf(stderr, "usage: calls SEED LIST\n");
        return 2;
    }
    state = strtoull(given[1], NULL, 10) * 2 + 1;
    answer = fenced(sizeof *answer);
    want(scsibus_main_version() == SCSIBUS_MAIN_VERSION, "header and library have two versions");
    FILE *list = fopen(given[2], "r");
    if (!list) stop("no list");
    char line[4096], name[1024], told[1024];
    unsigned long cases = 0;
    while (fgets(line, sizeof line, list)) {
        int at = 0;
        about = line;
        want(sscanf(line, "%" SCNu64 " %1023s %1023s%n", &wanted, name, told, &at) == 3 && line[at++] == ' ', "a line is no case");
        size_t length = strlen(line + at);
        if (length && line[at + (int)length - 1] == '\n') length--;
        words = (text){fenced(length), length};
        memcpy(words.bytes, line + at, length);
        input = read_file(name);
        expected = read_file(told);
        try_case();
        unfence(words.bytes, words.length);
        unfence(input.bytes, input.length);
        unfence(expected.bytes, expected.length);
        cases++;
    }
    fclose(list);
    printf("%lu\n", cases);
    return 0;
}
