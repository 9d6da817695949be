#include <stdio.h>
#include <string.h>

#include "ecma.h"

int main(void) {
    const char *text = "f(a, b";
    uint8_t room[4096];
    ecma_options options = {0};
    ecma_outcome outcome;
    ecma_estree((const uint8_t *)text, strlen(text), &options, room, sizeof room, &outcome);
    printf("%u:%u %.*s\n", outcome.line, outcome.column, (int)outcome.needed, (char *)room);
    return outcome.status != ECMA_DONE;
}
