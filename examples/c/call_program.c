/*
 * Does what the program does with the same words, in process.
 *
 *     cc $(pkg-config --cflags scsibus_main) -o call_program call_program.c $(pkg-config --libs scsibus_main)
 *     call_program run < read6.scsi
 *
 * Reads standard input whole, prints the text and ends with the status of the program. The first call has little room; a text that
 * does not fit is asked for again with the room that it needs.
 */
#include <scsibus_main.h>

#include <stdio.h>
#include <stdlib.h>
#include <string.h>

static char *grown(char *memory, size_t size) {
    char *more = realloc(memory, size);
    if (!more) {
        fprintf(stderr, "call_program: no memory\n");
        exit(5);
    }
    return more;
}

int main(int count, char **given) {
    char words[256] = "";
    size_t length = 0, room = 1 << 16;
    char *input = grown(NULL, room), *out = grown(NULL, 4096);
    scsibus_answer answer;
    for (int i = 1; i < count; i++) {
        if (strlen(words) + strlen(given[i]) + 2 > sizeof words) return 1;
        if (i > 1) strcat(words, " ");
        strcat(words, given[i]);
    }
    while (!feof(stdin) && !ferror(stdin)) {
        if (length == room) input = grown(input, room *= 2);
        length += fread(input + length, 1, room - length, stdin);
    }
    scsibus_main(words, strlen(words), input, length, out, 4096, &answer);
    if (answer.length > 4096) {
        out = grown(out, (size_t)answer.length);
        scsibus_main(words, strlen(words), input, length, out, (size_t)answer.length, &answer);
    }
    fwrite(out, 1, (size_t)answer.length, stdout);
    free(input);
    free(out);
    return (int)answer.status;
}
