/* Refuses each request for memory of each function in turn, and has four threads call all functions at once.
 *
 * Linked with -Wl,--wrap=malloc,--wrap=realloc,--wrap=free. Prints how many requests were refused; status 1 where a call doesn't say that it is out of memory, keeps memory, or
 * answers otherwise beside other threads. */
#include <pthread.h>
#include <stdio.h>
#include <stdlib.h>
#include <string.h>

#include "ecma.h"

enum { FUNCTIONS = 5, ROOM = 1 << 16, THREADS = 4, TURNS = 50 };

typedef void (*ecma_function)(const uint8_t *, size_t, const ecma_options *, uint8_t *, size_t, ecma_outcome *);

static const ecma_function functions[FUNCTIONS] = {ecma_check, ecma_estree, ecma_format, ecma_names, ecma_tokens};

static const char *const texts[] = {
    "'use strict'; const f = async ({a, b: [c = 1]}, ...d) => { await a; return `x${b}` }; class A extends B { #x = 1; static y() { return this.#x } }",
    "let a; let a; b(]",
    "a = /[/;\n",
    "\xc3\xa9 = \xf0\x9d\x92\x82; // \xe2\x82\xac\n",
    "import a from 'b'; export { a as default }; for (const x of y) { if (x) { break } else continue }",
};

/* The request of this number is refused; 0 refuses none. */
static _Thread_local size_t refused;
static _Thread_local size_t asked;
static _Thread_local long kept;

void *__real_malloc(size_t size);
void *__real_realloc(void *block, size_t size);
void __real_free(void *block);

void *__wrap_malloc(size_t size) {
    if (++asked == refused) return NULL;
    kept += 1;
    return __real_malloc(size);
}

void *__wrap_realloc(void *block, size_t size) {
    if (++asked == refused) return NULL;
    kept += block == NULL;
    return __real_realloc(block, size);
}

void __wrap_free(void *block) {
    kept -= block != NULL;
    __real_free(block);
}

/* Calls the function, with the request of that number refused. Whether that came to it. */
static int call(size_t which, const char *text, size_t number, uint8_t *room, ecma_outcome *outcome) {
    ecma_options options = {.extras = ECMA_LOC | ECMA_RANGE | ECMA_COMMENTS | ECMA_TOKENS};
    memset(room, 0, ROOM);
    asked = 0;
    refused = number;
    functions[which]((const uint8_t *)text, strlen(text), &options, room, ROOM, outcome);
    refused = 0;
    return number > 0 && asked >= number;
}

static size_t refuse_each(size_t which, const char *text, int *status) {
    static uint8_t room[ROOM], first[ROOM];
    ecma_outcome outcome, whole;
    size_t number = 1;
    kept = 0;
    call(which, text, 0, first, &whole);
    for (; call(which, text, number, room, &outcome); number++) {
        int is_whole = outcome.status == whole.status && !memcmp(room, first, ROOM);
        if (kept != 0 || (outcome.status != ECMA_OUT_OF_MEMORY && !is_whole)) {
            printf("function %zu, request %zu: status %u, %ld blocks kept: %s\n", which, number, outcome.status, kept, text);
            *status = 1;
            kept = 0;
        }
    }
    return number - 1;
}

static void *call_all(void *wrong) {
    uint8_t *room = __real_malloc(ROOM), *first = __real_malloc(ROOM);
    ecma_outcome outcome;
    for (size_t at = 0; at < FUNCTIONS * TURNS; at++) {
        const char *text = texts[at / FUNCTIONS % (sizeof texts / sizeof *texts)];
        call(at % FUNCTIONS, text, 0, first, &outcome);
        call(at % FUNCTIONS, text, 0, room, &outcome);
        if (memcmp(room, first, ROOM)) *(int *)wrong = 1;
    }
    __real_free(room);
    __real_free(first);
    return NULL;
}

int main(void) {
    int status = 0, wrong[THREADS] = {0};
    size_t count = 0;
    for (size_t which = 0; which < FUNCTIONS; which++) {
        for (size_t at = 0; at < sizeof texts / sizeof *texts; at++) count += refuse_each(which, texts[at], &status);
    }
    pthread_t threads[THREADS];
    for (size_t at = 0; at < THREADS; at++) pthread_create(&threads[at], NULL, call_all, &wrong[at]);
    for (size_t at = 0; at < THREADS; at++) pthread_join(threads[at], NULL);
    for (size_t at = 0; at < THREADS; at++) status |= wrong[at];
    printf("%zu requests refused\n", count);
    return status;
}
