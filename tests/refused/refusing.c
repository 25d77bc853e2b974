/* Refuses one allocation of a program: the one of the number FAIL_AT, counted from 1. COUNT_FILE gets how many there were.
 * It is loaded before the C library (LD_PRELOAD). tests/refused/run builds it. */
#define _GNU_SOURCE
#include <dlfcn.h>
#include <errno.h>
#include <fcntl.h>
#include <stdatomic.h>
#include <stdlib.h>
#include <sys/mman.h>
#include <unistd.h>

static atomic_long own;
static atomic_long *count = &own;
static long fail_at = -1;

static void *(*next_malloc)(size_t);
static void *(*next_calloc)(size_t, size_t);
static void *(*next_realloc)(void *, size_t);
static void *(*next_aligned)(size_t, size_t);
static int (*next_posix)(void **, size_t, size_t);
static void (*next_free)(void *);

/* What is asked for before the C library's calls are found; it is never freed. */
static char early[65536];
static size_t early_used;

__attribute__((constructor)) static void begin(void)
{
    const char *at = getenv("FAIL_AT"), *file = getenv("COUNT_FILE");
    next_malloc = dlsym(RTLD_NEXT, "malloc");
    next_calloc = dlsym(RTLD_NEXT, "calloc");
    next_realloc = dlsym(RTLD_NEXT, "realloc");
    next_aligned = dlsym(RTLD_NEXT, "aligned_alloc");
    next_posix = dlsym(RTLD_NEXT, "posix_memalign");
    next_free = dlsym(RTLD_NEXT, "free");
    fail_at = at ? atol(at) : -1;
    if (file && count == &own) {
        int to = open(file, O_RDWR | O_CREAT | O_TRUNC, 0644);
        if (to >= 0 && !ftruncate(to, sizeof(long))) {
            void *shared = mmap(0, sizeof(long), PROT_READ | PROT_WRITE, MAP_SHARED, to, 0);
            if (shared != MAP_FAILED)
                count = shared;
        }
        if (to >= 0)
            close(to);
    }
}

static int refused(void)
{
    if (atomic_fetch_add(count, 1) + 1 != fail_at)
        return 0;
    errno = ENOMEM;
    return 1;
}

void *malloc(size_t size)
{
    if (!next_malloc)
        begin();
    return refused() ? 0 : next_malloc(size);
}

void *calloc(size_t many, size_t size)
{
    if (!next_calloc) {
        void *found = early + early_used;
        early_used += (many * size + 15) & ~(size_t)15;
        return found;
    }
    return refused() ? 0 : next_calloc(many, size);
}

void *realloc(void *old, size_t size)
{
    if (!next_realloc)
        begin();
    return refused() ? 0 : next_realloc(old, size);
}

void *aligned_alloc(size_t alignment, size_t size)
{
    if (!next_aligned)
        begin();
    return refused() ? 0 : next_aligned(alignment, size);
}

int posix_memalign(void **to, size_t alignment, size_t size)
{
    if (!next_posix)
        begin();
    return refused() ? ENOMEM : next_posix(to, alignment, size);
}

void free(void *old)
{
    if (!next_free)
        begin();
    if ((char *)old < early || (char *)old >= early + sizeof early)
        next_free(old);
}
