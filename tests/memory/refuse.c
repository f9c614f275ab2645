/* Refuses the Nth request for memory of the program that it is loaded into before the C library (LD_PRELOAD): N is REFUSE_AT, and a
   byte is written to the descriptor REFUSE_TO when that request comes. malloc, calloc, realloc and the aligned ones are counted. */
#include <errno.h>
#include <stddef.h>
#include <stdlib.h>
#include <unistd.h>

extern void *__libc_malloc(size_t);
extern void *__libc_calloc(size_t, size_t);
extern void *__libc_realloc(void *, size_t);
extern void *__libc_memalign(size_t, size_t);

static long at, seen;
static int to;

/* The loader's own requests, which come before this, are not counted. */
__attribute__((constructor)) static void begin(void) {
    const char *n = getenv("REFUSE_AT"), *fd = getenv("REFUSE_TO");
    at = n ? atol(n) : 0;
    to = fd ? atoi(fd) : -1;
}

static int refuses(void) {
    if (at == 0 || ++seen != at) return 0;
    if (write(to, "!", 1) != 1) _exit(99);
    errno = ENOMEM;
    return 1;
}

void *malloc(size_t size) { return refuses() ? NULL : __libc_malloc(size); }
void *calloc(size_t count, size_t size) { return refuses() ? NULL : __libc_calloc(count, size); }
void *realloc(void *old, size_t size) { return refuses() ? NULL : __libc_realloc(old, size); }
void *memalign(size_t align, size_t size) { return refuses() ? NULL : __libc_memalign(align, size); }
void *aligned_alloc(size_t align, size_t size) { return memalign(align, size); }

int posix_memalign(void **to_set, size_t align, size_t size) {
    void *made = memalign(align, size);
    if (made == NULL) return ENOMEM;
    *to_set = made;
    return 0;
}
