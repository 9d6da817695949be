/* Lists what is wrong with the programs that are named, or writes how many bytes their trees take. */
#include <stdio.h>
#include <stdlib.h>

#include "ecma.h"

/* The bytes of a file, and how many there are. */
static uint8_t *read_file(const char *name, size_t *len) {
    FILE *file = fopen(name, "rb");
    uint8_t *bytes = NULL;
    *len = 0;
    for (size_t got = 1; file && got > 0; *len += got) {
        uint8_t *more = realloc(bytes, *len + 4096);
        if (!more) exit(2);
        bytes = more;
        got = fread(bytes + *len, 1, 4096, file);
    }
    if (file) fclose(file);
    return bytes;
}

int main(int count, char **names) {
    int status = 0;
    for (int at = 1; at < count; at++) {
        size_t len, room_len = 4096;
        uint8_t *text = read_file(names[at], &len), *room = malloc(room_len);
        ecma_options options = {0};
        ecma_outcome outcome;
        if (!text || !room) return 2;
        ecma_estree(text, len, &options, room, room_len, &outcome);
        if (outcome.status == ECMA_DONE || outcome.status == ECMA_NO_ROOM) {
            printf("%s: a tree of %zu bytes\n", names[at], outcome.needed);
        } else {
            size_t said = outcome.needed < room_len ? outcome.needed : room_len;
            printf("%s:%u:%u: %.*s\n", names[at], outcome.line, outcome.column, (int)said, (const char *)room);
            status = 1;
        }
        free(text);
        free(room);
    }
    return status;
}
