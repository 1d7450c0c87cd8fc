/* Refuses allocations of a program that it is loaded into, and counts them; for tools/starve.
 *
 * STARVE_COUNT names a file of eight bytes in which the count of allocations stands at any time; without it they are counted
 * all the same. STARVE_AT is the number of the one that is refused, from 1 on, and 0 or nothing for none. With STARVE_ON all
 * behind it are refused too. What is allocated before this library begins is never refused. */
#include <errno.h>
#include <fcntl.h>
#include <stddef.h>
#include <stdlib.h>
#include <sys/mman.h>
#include <unistd.h>

void *__libc_malloc(size_t size);
void *__libc_calloc(size_t count, size_t size);
void *__libc_realloc(void *old, size_t size);
void *__libc_memalign(size_t alignment, size_t size);

static unsigned long uncounted, *count = &uncounted, at;
static int on;

__attribute__((constructor)) static void begin(void)
{
    const char *file = getenv("STARVE_COUNT"), *number = getenv("STARVE_AT");
    int opened = file ? open(file, O_RDWR | O_CLOEXEC) : -1;
    void *shared = opened < 0 ? MAP_FAILED : mmap(NULL, sizeof *count, PROT_READ | PROT_WRITE, MAP_SHARED, opened, 0);

    if (opened >= 0)
        close(opened);
    if (shared != MAP_FAILED)
        count = shared;
    *count = 0;
    on = getenv("STARVE_ON") != NULL;
    at = number ? strtoul(number, NULL, 10) : 0;
}

/* Counts an allocation, and says whether it is refused. */
static int is_refused(void)
{
    unsigned long number = __atomic_add_fetch(count, 1, __ATOMIC_RELAXED);

    if (at == 0 || (on ? number < at : number != at))
        return 0;
    errno = ENOMEM;
    return 1;
}

void *malloc(size_t size)
{
    return is_refused() ? NULL : __libc_malloc(size);
}

void *calloc(size_t number, size_t size)
{
    return is_refused() ? NULL : __libc_calloc(number, size);
}

void *realloc(void *old, size_t size)
{
    return is_refused() ? NULL : __libc_realloc(old, size);
}

void *reallocarray(void *old, size_t number, size_t size)
{
    size_t whole;

    if (__builtin_mul_overflow(number, size, &whole)) {
        errno = ENOMEM;
        return NULL;
    }
    return realloc(old, whole);
}

void *memalign(size_t alignment, size_t size)
{
    return is_refused() ? NULL : __libc_memalign(alignment, size);
}

void *aligned_alloc(size_t alignment, size_t size)
{
    return memalign(alignment, size);
}

int posix_memalign(void **place, size_t alignment, size_t size)
{
    void *found;

    if (alignment % sizeof(void *) || alignment & (alignment - 1) || alignment == 0)
        return EINVAL;
    if (is_refused())
        return ENOMEM;
    found = __libc_memalign(alignment, size);
    if (found == NULL)
        return ENOMEM;
    *place = found;
    return 0;
}
