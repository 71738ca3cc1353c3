/* Refuses one allocation: with LD_PRELOAD the call number REFUSE_AT of malloc, calloc, realloc or an aligned
 * allocation answers null, and leaves a symbolic link at REFUSE_TRACE. */
#define _GNU_SOURCE
#include <dlfcn.h>
#include <stdlib.h>
#include <unistd.h>

#define NEXT(name, result, ...) \
    static result (*next)(__VA_ARGS__); \
    if (!next) next = dlsym(RTLD_NEXT, #name)

static long calls;
static int refused(void) {
    const char *at = getenv("REFUSE_AT");
    if (at && ++calls == atol(at)) {
        const char *trace = getenv("REFUSE_TRACE");
        if (trace) { int ignored = symlink("refused", trace); (void)ignored; }
        return 1;
    }
    return 0;
}
void *__libc_calloc(size_t n, size_t size);
void *calloc(size_t n, size_t size) { return refused() ? 0 : __libc_calloc(n, size); }
void *malloc(size_t n) { NEXT(malloc, void *, size_t); return refused() ? 0 : next(n); }
void *realloc(void *p, size_t n) { NEXT(realloc, void *, void *, size_t); return refused() ? 0 : next(p, n); }
void *aligned_alloc(size_t a, size_t n) {
    NEXT(aligned_alloc, void *, size_t, size_t);
    return refused() ? 0 : next(a, n);
}
int posix_memalign(void **p, size_t a, size_t n) {
    NEXT(posix_memalign, int, void **, size_t, size_t);
    return refused() ? 12 : next(p, a, n);
}
