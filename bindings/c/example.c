/* Steps a contract by the library: example CONTRACT STATE TRANSACTION.., three paths for each step, and prints each answer. */
#include "marlowe.h"

#include <stdio.h>
#include <stdlib.h>
#include <string.h>

/* Puts a text, or a file's bytes, behind others. */
static void put(char *text, const char *more) { strcat(text, more); }

static void put_file(char *text, size_t most, const char *path) {
    FILE *file = fopen(path, "rb");
    if (file == NULL) { perror(path); exit(2); }
    size_t begin = strlen(text);
    text[begin + fread(text + begin, 1, most - begin, file)] = 0;
    fclose(file);
}

int main(int count, char **words) {
    static char request[1 << 20], answer[1 << 16];
    for (int at = 1; at + 2 < count; at += 3) {
        strcpy(request, "{\"run\":{\"contract\":");
        put_file(request, sizeof request - 99, words[at]);
        put(request, ",\"state\":");
        put_file(request, sizeof request - 66, words[at + 1]);
        put(request, ",\"transaction\":");
        put_file(request, sizeof request - 33, words[at + 2]);
        put(request, "}}");
        ptrdiff_t length = marlowe_answer(false, (uint8_t *)request, strlen(request), (uint8_t *)answer, sizeof answer);
        if (length < 0 || (size_t)length > sizeof answer) { fputs("no answer\n", stderr); return 1; }
        fwrite(answer, 1, (size_t)length, stdout);
    }
    return 0;
}
