/* Refuses requests for memory of a program that cannot refuse them itself: it is loaded in front of the C
 * library (LD_PRELOAD), and the environment says what is refused:
 *
 *     REFUSE_ONE=k     request k, and no other; the first one has the number 0
 *     REFUSE_FROM=k    request k, and all that come after it
 *
 * A request is a call of malloc, calloc, realloc, aligned_alloc or posix_memalign. When the program ends, the
 * file that REFUSED names gets how many requests were refused. It is for programs of one thread over the GNU
 * C library.
 */
#include <errno.h>
#include <stddef.h>
#include <stdint.h>
#include <stdio.h>
#include <stdlib.h>

void *__libc_malloc(size_t size);
void *__libc_calloc(size_t count, size_t size);
void *__libc_realloc(void *block, size_t size);
void *__libc_memalign(size_t alignment, size_t size);

/* The numbers of the first and the last request that are refused, that of the next one, and how many were
 * refused. */
static size_t first = SIZE_MAX, last, next, count;

/* Is the next request granted? */
static int is_granted(void)
{
    size_t number = next++;
    if (number < first || last < number)
        return 1;
    count++;
    return 0;
}

/* What a request is answered that is refused. */
static void *refused(void)
{
    errno = ENOMEM;
    return NULL;
}

void *malloc(size_t size)
{
    return is_granted() ? __libc_malloc(size) : refused();
}

void *calloc(size_t number, size_t size)
{
    return is_granted() ? __libc_calloc(number, size) : refused();
}

void *realloc(void *block, size_t size)
{
    return is_granted() ? __libc_realloc(block, size) : refused();
}

void *aligned_alloc(size_t alignment, size_t size)
{
    return is_granted() ? __libc_memalign(alignment, size) : refused();
}

int posix_memalign(void **block, size_t alignment, size_t size)
{
    void *made = aligned_alloc(alignment, size);
    if (made == NULL)
        return ENOMEM;
    *block = made;
    return 0;
}

__attribute__((constructor)) static void begin(void)
{
    const char *one = getenv("REFUSE_ONE");
    const char *from = getenv("REFUSE_FROM");
    next = 0;
    if (one != NULL)
        first = last = strtoul(one, NULL, 10);
    else if (from != NULL) {
        first = strtoul(from, NULL, 10);
        last = SIZE_MAX;
    }
}

__attribute__((destructor)) static void tell_count(void)
{
    size_t in_all = count;
    first = SIZE_MAX;
    const char *name = getenv("REFUSED");
    FILE *file = name ? fopen(name, "w") : NULL;
    if (file == NULL)
        return;
    fprintf(file, "%zu\n", in_all);
    fclose(file);
}
