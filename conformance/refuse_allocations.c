/* Refuses allocations by their number, for refused_memory.py.
 *
 * REFUSE_ONE=n refuses the n-th call of malloc or realloc, REFUSE_FROM=n that one and all after it, and COUNT_INTO=path
 * writes the number of calls into a file at the end.
 */
#include <errno.h>
#include <stdio.h>
#include <stdlib.h>

void *__libc_malloc(size_t size);
void *__libc_realloc(void *block, size_t size);

static long calls;
static long one = -1;
static long from = -1;
static int is_ready;

static long setting(const char *name)
{
    const char *value = getenv(name);
    return value ? atol(value) : -1;
}

static int is_refused(void)
{
    if (!is_ready) {
        is_ready = 1;
        one = setting("REFUSE_ONE");
        from = setting("REFUSE_FROM");
    }
    calls++;
    return calls == one || (from > 0 && calls >= from);
}

void *malloc(size_t size)
{
    if (is_refused()) {
        errno = ENOMEM;
        return NULL;
    }
    return __libc_malloc(size);
}

void *realloc(void *block, size_t size)
{
    if (is_refused()) {
        errno = ENOMEM;
        return NULL;
    }
    return __libc_realloc(block, size);
}

__attribute__((destructor)) static void write_count(void)
{
    const char *path = getenv("COUNT_INTO");
    long found = calls;
    FILE *file = path ? fopen(path, "w") : NULL;
    if (file) {
        fprintf(file, "%ld", found);
        fclose(file);
    }
}
