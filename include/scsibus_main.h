/*
 * scsibus_main.h: the program scsibus in process, a simulator and judge of the 8-bit SCSI-2 bus (ANSI X3.131-1994), for C
 * and C++.
 *
 * One call does what the program does with some words and an input: it runs a scenario, makes one, judges a trace, writes its
 * transcript or its value change dump, or reads such a dump. docs/formats.md has the words, the texts and the statuses,
 * docs/library.md what is proved of this call.
 *
 * Memory: words, input, output and answer stand in memory of the caller. The library takes memory by malloc and realloc, and
 *   frees all of it before a call ends: the words, what the program keeps, and the whole text that it writes. It calls
 *   nothing but malloc, realloc, free, memcpy, memmove and memset, and keeps nothing between calls.
 * Pointers: none is null, also where the length is 0; each points to as many bytes as the length behind it says. What a call
 *   writes, `out` and `answer`, overlaps nothing else that it is handed.
 * Values: any words and any input get an answer. No call stops the program, waits or fails.
 * Threads: calls may be made from any threads at the same time; not from signal handlers, nor from the forked child of a
 *   process with threads.
 */
#ifndef SCSIBUS_MAIN_H
#define SCSIBUS_MAIN_H

#include <stddef.h>
#include <stdint.h>

#ifdef __cplusplus
extern "C" {
#endif

/* The version of this header; scsibus_main_version() tells that of the library. */
#define SCSIBUS_MAIN_VERSION 1u

/* The exit statuses of the program; read and write faults, 3 and 4, cannot come in memory. */
#define SCSIBUS_DONE 0u       /* what was asked for was written */
#define SCSIBUS_USAGE 1u      /* the words are none of the program's: the text is the usage */
#define SCSIBUS_REFUSED 2u    /* the input is no scenario: the text names the line and the reason */
#define SCSIBUS_NO_MEMORY 5u  /* malloc or realloc gave none: the text is `no memory` */
#define SCSIBUS_BROKEN 6u     /* the trace breaks a rule: the text names the row and the rule */
#define SCSIBUS_NO_TRACE 7u   /* the input is no trace: the text names the line */
#define SCSIBUS_NO_DUMP 10u   /* the input is no value change dump: the text names the line */

/* What a call answers. */
typedef struct scsibus_answer {
    uint64_t status; /* the exit status of the program */
    uint64_t length; /* how many bytes its text has, whether or not they fit */
} scsibus_answer;

/* Does what `scsibus WORDS` does with this input. `words` are the words with single blanks between them, as "judge" or
 * "make 7 64", of `words_length` bytes; `input` has `length` bytes. The text that the program writes stands at the front of
 * `out`, which has room for `room` bytes, with no zero byte behind it; of a text that is longer its front stands there, and
 * `answer->length` says how much room the whole text needs. Bytes of `out` behind the text stay as they are. */
void scsibus_main(const char *words, size_t words_length, const char *input, size_t length, char *out, size_t room,
                  scsibus_answer *answer);

/* The version of the library: SCSIBUS_MAIN_VERSION. */
uint64_t scsibus_main_version(void);

#ifdef __cplusplus
}
#endif

#endif
