// Preloaded by .ci/plain_rust: of the allocations of a program the one whose number KENNELMORN_FAILS says fails, as where there is no memory.
#define _GNU_SOURCE
#include <stdlib.h>
#include <string.h>
#include <errno.h>
extern void *__libc_malloc(size_t);
extern void *__libc_calloc(size_t, size_t);
extern void *__libc_realloc(void *, size_t);
extern void *__libc_memalign(size_t, size_t);
static long left = -1;
static void __attribute__((constructor)) begin(void) { char *it = getenv("KENNELMORN_FAILS"); left = it ? atol(it) : 0; }
static int fails(void) { return left > 0 && --left == 0; }
void *malloc(size_t n) { if (fails()) { errno = ENOMEM; return 0; } return __libc_malloc(n); }
void *calloc(size_t n, size_t m) { if (fails()) { errno = ENOMEM; return 0; } return __libc_calloc(n, m); }
void *realloc(void *p, size_t n) { if (fails()) { errno = ENOMEM; return 0; } return __libc_realloc(p, n); }
int posix_memalign(void **p, size_t a, size_t n) { if (fails()) return ENOMEM; *p = __libc_memalign(a, n); return *p ? 0 : ENOMEM; }
void *aligned_alloc(size_t a, size_t n) { if (fails()) return 0; return __libc_memalign(a, n); }
