/* Loaded before a program, this refuses one growth: call number REFUSE_CALL of those that ask for memory,
   counted from 1, of whichever thread. When it refuses, it makes the file REFUSE_MARK. Children know nothing of this. */
#include <errno.h>
#include <fcntl.h>
#include <stdatomic.h>
#include <stddef.h>
#include <stdlib.h>
#include <unistd.h>

/* The C library's own, which dlsym can't be asked for before memory is there. */
extern void *__libc_malloc(size_t size);
extern void *__libc_calloc(size_t count, size_t size);
extern void *__libc_realloc(void *block, size_t size);
extern void *__libc_memalign(size_t align, size_t size);

static long refused_call = -1; /* -1: not read yet */
static atomic_long calls;

__attribute__((constructor)) static void begin(void)
{
    unsetenv("LD_PRELOAD");
}

static int refuses(void)
{
    if (refused_call < 0) {
        const char *number = getenv("REFUSE_CALL");
        refused_call = number ? atol(number) : 0;
    }
    if (atomic_fetch_add(&calls, 1) + 1 != refused_call)
        return 0;
    const char *mark = getenv("REFUSE_MARK");
    int file = mark ? open(mark, O_WRONLY | O_CREAT, 0600) : -1;
    if (file >= 0)
        close(file);
    errno = ENOMEM;
    return 1;
}

void *malloc(size_t size)
{
    return refuses() ? NULL : __libc_malloc(size);
}

void *calloc(size_t count, size_t size)
{
    return refuses() ? NULL : __libc_calloc(count, size);
}

void *realloc(void *block, size_t size)
{
    return refuses() ? NULL : __libc_realloc(block, size);
}

void *memalign(size_t align, size_t size)
{
    return refuses() ? NULL : __libc_memalign(align, size);
}

void *aligned_alloc(size_t align, size_t size)
{
    return memalign(align, size);
}

int posix_memalign(void **block, size_t align, size_t size)
{
    void *made = memalign(align, size);
    if (made == NULL)
        return ENOMEM;
    *block = made;
    return 0;
}
