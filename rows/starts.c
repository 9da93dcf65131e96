/* Refuses one start of a thread, once, where this library is preloaded: the one whose number, from 1, stands in the
 * variable START_NUMBER. When it does, it writes an x to the file descriptor in START_TELL, and a y for each thread that
 * is started afterwards. `checks/program` builds it and tries every number.
 */
#define _GNU_SOURCE
#include <dlfcn.h>
#include <errno.h>
#include <pthread.h>
#include <stdatomic.h>
#include <stdlib.h>
#include <unistd.h>

typedef int start(pthread_t *, const pthread_attr_t *, void *(*)(void *), void *);

static atomic_long left; /* how many starts until the refused one, itself counted */
static int told_to;

__attribute__((constructor)) static void begin(void) {
    const char *number = getenv("START_NUMBER");
    const char *tell = getenv("START_TELL");
    left = number ? atol(number) : 0;
    told_to = tell ? atoi(tell) : -1;
}

int pthread_create(pthread_t *thread, const pthread_attr_t *attributes, void *(*run)(void *), void *argument) {
    long now = atomic_fetch_sub(&left, 1);
    if (now <= 1 && write(told_to, now == 1 ? "x" : "y", 1) != 1)
        abort();
    if (now == 1)
        return EAGAIN;
    return ((start *)dlsym(RTLD_NEXT, "pthread_create"))(thread, attributes, run, argument);
}
