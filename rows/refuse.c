/* Refuses one allocation of a program, once, where this library is preloaded: the one whose number, from 1, stands in
 * the variable REFUSE_NUMBER, over all calls of malloc, calloc and realloc from the program's start on. When it does,
 * it writes a byte to the file descriptor in REFUSE_TELL. All threads count together. `checks/program` builds it and
 * tries every number.
 */
#include <errno.h>
#include <stdatomic.h>
#include <stdlib.h>
#include <unistd.h>

void *__libc_malloc(size_t size);
void *__libc_calloc(size_t count, size_t size);
void *__libc_realloc(void *old, size_t size);

static atomic_long left; /* how many allocations until the refused one, itself counted; at most 0: none is refused */
static int told_to;

__attribute__((constructor)) static void begin(void) {
    const char *number = getenv("REFUSE_NUMBER");
    const char *tell = getenv("REFUSE_TELL");
    left = number ? atol(number) : 0;
    told_to = tell ? atoi(tell) : -1;
}

static int refused(void) {
    if (left <= 0 || atomic_fetch_sub(&left, 1) != 1)
        return 0;
    if (write(told_to, "x", 1) != 1)
        abort();
    errno = ENOMEM;
    return 1;
}

void *malloc(size_t size) { return refused() ? NULL : __libc_malloc(size); }
void *calloc(size_t count, size_t size) { return refused() ? NULL : __libc_calloc(count, size); }
void *realloc(void *old, size_t size) { return refused() ? NULL : __libc_realloc(old, size); }
