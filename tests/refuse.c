// Refuses one request for memory of a program: that of the number in REFUSE, counted from 1, where the program is started with this
// library in LD_PRELOAD. It says so on standard error, on a line of its own. Allocators of Rattle ask malloc and realloc of the C
// library, and nothing else.
#include <stdlib.h>
#include <unistd.h>

extern void *__libc_malloc(size_t size);
extern void *__libc_realloc(void *old, size_t size);

static long requests_left;

__attribute__((constructor)) static void begin(void) {
    const char *number = getenv("REFUSE");
    requests_left = number ? atol(number) : 0;
}

static int is_refused(void) {
    static const char said[] = "a request was refused\n";
    if (requests_left == 0 || --requests_left > 0)
        return 0;
    return write(2, said, sizeof said - 1) > 0;
}

void *malloc(size_t size) {
    return is_refused() ? NULL : __libc_malloc(size);
}

void *realloc(void *old, size_t size) {
    return is_refused() ? NULL : __libc_realloc(old, size);
}
