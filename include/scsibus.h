/*
 * scsibus.h: the judge of traces of the 8-bit SCSI-2 bus (ANSI X3.131-1994), for C and C++.
 *
 * A trace says what each device drives on the bus and since when, row by row. The judge names the first row that breaks
 * one of 28 rules and the lowest rule that it breaks. docs/rules.md has the rules, docs/bus.md the lines,
 * docs/library.md what is proved of these functions.
 *
 * Memory: rows, judges and verdicts stand in memory of the caller. The library takes no memory, keeps nothing between
 *   calls and holds no pointer after a call. It calls nothing but memcpy, memmove and memset.
 * Pointers: none is null, `rows` neither where `count` is 0; each points to that many whole values, aligned as C wants
 *   them. A verdict may not overlap the rows or the judge of the same call.
 * Values: any values of rows, counts, times and judges get an answer. No call stops the program, waits or fails.
 * Threads: functions may be called from any thread at any time, from signal handlers too, where no other call writes
 *   the memory that the call reads or writes.
 */
#ifndef SCSIBUS_H
#define SCSIBUS_H

#include <stddef.h>
#include <stdint.h>

#ifdef __cplusplus
extern "C" {
#endif

/* The version of this header; scsibus_version() tells that of the library. */
#define SCSIBUS_VERSION 1u

/* The lines of the bus as the bits of a number: a bit is 1 where the line is true. Of a device they are those that it
 * drives true. */
#define SCSIBUS_DATA 0x000ffu /* DB(7-0) */
#define SCSIBUS_DBP 0x00100u  /* DB(P): odd parity of the nine data lines */
#define SCSIBUS_BSY 0x00200u
#define SCSIBUS_SEL 0x00400u
#define SCSIBUS_CD 0x00800u
#define SCSIBUS_IO 0x01000u
#define SCSIBUS_MSG 0x02000u
#define SCSIBUS_REQ 0x04000u
#define SCSIBUS_ACK 0x08000u
#define SCSIBUS_ATN 0x10000u
#define SCSIBUS_RST 0x20000u

/* What a row says. */
#define SCSIBUS_LINES 0u /* the device drives exactly the lines `value` from then on, in place of what it drove */
#define SCSIBUS_FAULT 1u /* a fault strikes bit `value` of what the device takes from the bus: 0 to 7, or 8, DB(P) */

/* A row of a trace. */
typedef struct scsibus_row {
    uint64_t time;  /* when, in ns; rule 1 is that times do not fall */
    uint32_t value; /* the lines, below 2^18; or the bit of a fault, 0 to 8 */
    uint8_t dev;    /* the SCSI ID of the device, 0 to 7 */
    uint8_t kind;   /* SCSIBUS_LINES or SCSIBUS_FAULT */
} scsibus_row;

/* The values of `rule` that are no rule. */
#define SCSIBUS_LAWFUL 0u    /* no row breaks a rule; `row` is 0 */
#define SCSIBUS_NO_JUDGE 254u /* the memory was not written by scsibus_judge_start and feed; `row` is 0 */
#define SCSIBUS_NO_ROW 255u  /* row `row` of this call, from 1, is the first whose value, dev or kind is out of range */

/* A verdict. Rule 1 to 28: `row`, counted from 1 from the beginning of the trace, is the first that breaks a rule, and
 * `rule` the lowest rule that it breaks; the end of a trace counts as one row more. */
typedef struct scsibus_verdict {
    uint64_t row;
    uint64_t rule;
} scsibus_verdict;

/* A judge that sees the rows of a trace as they come: plain words with no pointer among them. It may be copied, moved,
 * written to a file and read back on a machine of the same byte order; a copy is a judge of its own. Only
 * scsibus_judge_start and scsibus_judge_feed write it. scsibus_judge_size() tells its size. */
#define SCSIBUS_JUDGE_WORDS 135u
typedef struct scsibus_judge {
    uint64_t words[SCSIBUS_JUDGE_WORDS];
} scsibus_judge;

/* Judges the trace of these rows, the oldest first, that ends at `end`, in ns. */
void scsibus_judge_trace(const scsibus_row *rows, size_t count, uint64_t end, scsibus_verdict *verdict);

/* Makes `judge`, whatever stood there, a judge that has seen no row. */
void scsibus_judge_start(scsibus_judge *judge);

/* The judge takes these rows, the oldest first, after those that it has seen: the verdict on all of them so far. Once a
 * row broke a rule, that stays the verdict. Where a row is out of range (SCSIBUS_NO_ROW) the judge takes none of them. */
void scsibus_judge_feed(scsibus_judge *judge, const scsibus_row *rows, size_t count, scsibus_verdict *verdict);

/* The verdict that scsibus_judge_feed would give on these rows; the judge takes none. */
void scsibus_judge_try(const scsibus_judge *judge, const scsibus_row *rows, size_t count, scsibus_verdict *verdict);

/* The verdict on the trace of the rows so far that ends at `end`, in ns. The judge may take further rows afterwards. */
void scsibus_judge_finish(const scsibus_judge *judge, uint64_t end, scsibus_verdict *verdict);

/* The size of a judge in bytes, as the library has it: sizeof(scsibus_judge). */
uint64_t scsibus_judge_size(void);

/* The version of the library: SCSIBUS_VERSION. */
uint64_t scsibus_version(void);

#ifdef __cplusplus
}
#endif

#endif
