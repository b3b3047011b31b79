/* Refuses some requests for memory of the program that it is preloaded into, as the C library does without memory. memory.sh and
   memory-serving.sh build it. REFUSED is the number of the first that is refused, and MANY (1) how many in a row. With WHEN they are
   counted from the moment on at which there is a file of that name. The first refusal writes a line to standard error. */
#include <errno.h>
#include <stdlib.h>
#include <unistd.h>

extern void *__libc_malloc(size_t), *__libc_realloc(void *, size_t), *__libc_calloc(size_t, size_t);
extern void *__libc_memalign(size_t, size_t);

static long counted, first, many;
static int counts;
static char *when;

static long number_of(const char *name, long otherwise) {
    char *text = getenv(name);
    return text ? atol(text) : otherwise;
}

__attribute__((constructor)) static void begin(void) {
    first = number_of("REFUSED", 0);
    many = number_of("MANY", 1);
    when = getenv("WHEN");
    counts = first && !when;
}

static int is_refused(void) {
    if (!counts) {
        if (!when || access(when, F_OK) != 0) return 0;
        counts = 1;
    }
    long at = __atomic_add_fetch(&counted, 1, __ATOMIC_SEQ_CST);
    if (at < first || at >= first + many || (at == first && write(2, "refused\n", 8) != 8)) return 0;
    errno = ENOMEM;
    return 1;
}

void *malloc(size_t size) { return is_refused() ? 0 : __libc_malloc(size); }
void *realloc(void *kept, size_t size) { return is_refused() ? 0 : __libc_realloc(kept, size); }
void *calloc(size_t count, size_t size) { return is_refused() ? 0 : __libc_calloc(count, size); }
void *aligned_alloc(size_t align, size_t size) { return is_refused() ? 0 : __libc_memalign(align, size); }

int posix_memalign(void **into, size_t align, size_t size) {
    if (is_refused()) return ENOMEM;
    *into = __libc_memalign(align, size);
    return *into ? 0 : ENOMEM;
}
