/* Refuses one request for memory: loaded before the C library (LD_PRELOAD) it counts the program's requests, answers the one
   whose number is in REFUSE with null, and makes the file whose name is in REFUSED, to say that it came so far. */
#include <errno.h>
#include <fcntl.h>
#include <stdatomic.h>
#include <stdlib.h>
#include <unistd.h>

extern void *__libc_malloc(size_t);
extern void *__libc_calloc(size_t, size_t);
extern void *__libc_realloc(void *, size_t);
extern void *__libc_memalign(size_t, size_t);

static int is_refused(void) {
    static atomic_long count;
    const char *number = getenv("REFUSE"), *name = getenv("REFUSED");
    if (atomic_fetch_add(&count, 1) + 1 != (number ? atol(number) : 0)) return 0;
    if (name) close(open(name, O_CREAT | O_WRONLY, 0600));
    errno = ENOMEM;
    return 1;
}

void *malloc(size_t size) { return is_refused() ? NULL : __libc_malloc(size); }
void *calloc(size_t many, size_t size) { return is_refused() ? NULL : __libc_calloc(many, size); }
void *realloc(void *old, size_t size) { return is_refused() ? NULL : __libc_realloc(old, size); }
void *memalign(size_t align, size_t size) { return is_refused() ? NULL : __libc_memalign(align, size); }
void *aligned_alloc(size_t align, size_t size) { return is_refused() ? NULL : __libc_memalign(align, size); }

int posix_memalign(void **to, size_t align, size_t size) {
    void *found = is_refused() ? NULL : __libc_memalign(align, size);
    if (!found) return ENOMEM;
    *to = found;
    return 0;
}
