/* Makes allocations fail, for tools/faults: a shared object that is loaded before the C library. A thread,
 * whose stack the C library allocates on its own, counts as one.
 *
 * FSC_FAIL_FROM and FSC_FAIL_TO name the allocations that fail, counted from 1 in the order in which they
 * are asked for, by whichever thread. The file FSC_FAIL_COUNTS, of 16 bytes, has two counts in the end,
 * however the program ends: of the allocations that were asked for, and of those that failed. */
#define _GNU_SOURCE
#include <dlfcn.h>
#include <errno.h>
#include <fcntl.h>
#include <pthread.h>
#include <stdatomic.h>
#include <stdlib.h>
#include <sys/mman.h>
#include <unistd.h>

struct counts {
    _Atomic unsigned long asked, failed;
};

static struct counts unseen;
static struct counts *counts = &unseen;
static unsigned long from, to;

static unsigned long number_of(const char *name)
{
    const char *text = getenv(name);
    return text ? strtoul(text, NULL, 10) : 0;
}

__attribute__((constructor)) static void begin(void)
{
    const char *path = getenv("FSC_FAIL_COUNTS");
    int file = path ? open(path, O_RDWR) : -1;
    if (file >= 0) {
        void *shared = mmap(NULL, sizeof *counts, PROT_READ | PROT_WRITE, MAP_SHARED, file, 0);
        if (shared != MAP_FAILED)
            counts = shared;
        close(file);
    }
    from = number_of("FSC_FAIL_FROM");
    to = number_of("FSC_FAIL_TO");
}

/* Whether this allocation is one of those that fail. */
static int fails(void)
{
    unsigned long number = atomic_fetch_add(&counts->asked, 1) + 1;
    if (number < from || number > to)
        return 0;
    atomic_fetch_add(&counts->failed, 1);
    errno = ENOMEM;
    return 1;
}

void *malloc(size_t size)
{
    static void *(*next)(size_t);
    if (!next)
        *(void **)&next = dlsym(RTLD_NEXT, "malloc");
    return fails() ? NULL : next(size);
}

void *realloc(void *block, size_t size)
{
    static void *(*next)(void *, size_t);
    if (!next)
        *(void **)&next = dlsym(RTLD_NEXT, "realloc");
    return fails() ? NULL : next(block, size);
}

void *aligned_alloc(size_t align, size_t size)
{
    static void *(*next)(size_t, size_t);
    if (!next)
        *(void **)&next = dlsym(RTLD_NEXT, "aligned_alloc");
    return fails() ? NULL : next(align, size);
}

int posix_memalign(void **block, size_t align, size_t size)
{
    static int (*next)(void **, size_t, size_t);
    if (!next)
        *(void **)&next = dlsym(RTLD_NEXT, "posix_memalign");
    return fails() ? ENOMEM : next(block, align, size);
}

int pthread_create(pthread_t *thread, const pthread_attr_t *attributes, void *(*run)(void *), void *given)
{
    static int (*next)(pthread_t *, const pthread_attr_t *, void *(*)(void *), void *);
    if (!next)
        *(void **)&next = dlsym(RTLD_NEXT, "pthread_create");
    return fails() ? EAGAIN : next(thread, attributes, run, given);
}
