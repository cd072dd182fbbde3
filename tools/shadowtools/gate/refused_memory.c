/* Preloaded before a program (LD_PRELOAD): each call that asks the C library for memory is counted, and one of them is refused.

   REFUSE_AT     the number of the call that is refused, counted from 1; 0 or not set: none
   REFUSE_COUNT  a file in which the number of calls so far is kept, as 8 bytes in the machine's order

   The file is mapped, so the number is there however the program ends. Calls before main are not counted. */
#include <errno.h>
#include <fcntl.h>
#include <stdatomic.h>
#include <stddef.h>
#include <stdlib.h>
#include <sys/mman.h>
#include <unistd.h>

extern void *__libc_malloc(size_t size);
extern void *__libc_calloc(size_t count, size_t size);
extern void *__libc_realloc(void *old, size_t size);
extern void *__libc_memalign(size_t alignment, size_t size);

static _Atomic unsigned long own_count;
static _Atomic unsigned long *count = &own_count;
static unsigned long refused_at;
static int is_counting;

__attribute__((constructor)) static void begin(void) {
    const char *at = getenv("REFUSE_AT");
    const char *path = getenv("REFUSE_COUNT");
    int file = path ? open(path, O_RDWR | O_CREAT, 0600) : -1;
    if (file >= 0 && ftruncate(file, sizeof own_count) == 0) {
        void *mapped = mmap(NULL, sizeof own_count, PROT_READ | PROT_WRITE, MAP_SHARED, file, 0);
        if (mapped != MAP_FAILED)
            count = mapped;
    }
    if (file >= 0)
        close(file);
    refused_at = at ? strtoul(at, NULL, 10) : 0;
    is_counting = 1;
}

static int is_refused(void) {
    if (!is_counting || atomic_fetch_add(count, 1) + 1 != refused_at)
        return 0;
    errno = ENOMEM;
    return 1;
}

void *malloc(size_t size) {
    return is_refused() ? NULL : __libc_malloc(size);
}

void *calloc(size_t number, size_t size) {
    return is_refused() ? NULL : __libc_calloc(number, size);
}

void *realloc(void *old, size_t size) {
    return is_refused() ? NULL : __libc_realloc(old, size);
}

void *memalign(size_t alignment, size_t size) {
    return is_refused() ? NULL : __libc_memalign(alignment, size);
}

void *aligned_alloc(size_t alignment, size_t size) {
    return memalign(alignment, size);
}

int posix_memalign(void **to, size_t alignment, size_t size) {
    void *made = is_refused() ? NULL : __libc_memalign(alignment, size);
    if (!made)
        return ENOMEM;
    *to = made;
    return 0;
}
