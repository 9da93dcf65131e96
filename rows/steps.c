/* Stops a program at one of the calls by which it changes files, where this library is preloaded: at the one whose
 * number, from 1, stands in the variable STEP_NUMBER, over all calls of write, fsync, fchmod, rename and unlink, and of
 * open where it may write. Where there is a STEP_REFUSED, that call fails for want of space; else the program is killed
 * before it. When it does, it writes an x to the file descriptor in STEP_TELL. `checks/program` builds it and tries
 * every number.
 */
#include <errno.h>
#include <fcntl.h>
#include <signal.h>
#include <stdarg.h>
#include <stdatomic.h>
#include <stdio.h>
#include <stdlib.h>
#include <sys/stat.h>
#include <sys/syscall.h>
#include <unistd.h>

static atomic_long left; /* how many calls until the last one, itself counted; at most 0: none */
static int told_to, refused;

__attribute__((constructor)) static void begin(void) {
    const char *number = getenv("STEP_NUMBER");
    const char *tell = getenv("STEP_TELL");
    left = number ? atol(number) : 0;
    told_to = tell ? atoi(tell) : -1;
    refused = getenv("STEP_REFUSED") != NULL;
}

/* Whether this call is refused. */
static int stops(void) {
    if (left <= 0 || atomic_fetch_sub(&left, 1) != 1)
        return 0;
    if (syscall(SYS_write, told_to, "x", 1) != 1)
        abort();
    if (!refused)
        kill(getpid(), SIGKILL);
    errno = ENOSPC;
    return 1;
}

int open(const char *path, int flags, ...) {
    va_list rest;
    va_start(rest, flags);
    mode_t mode = flags & O_CREAT ? va_arg(rest, mode_t) : 0;
    va_end(rest);
    if ((flags & O_ACCMODE) != O_RDONLY && stops())
        return -1;
    return syscall(SYS_openat, AT_FDCWD, path, flags, mode);
}

ssize_t write(int to, const void *bytes, size_t size) { return stops() ? -1 : syscall(SYS_write, to, bytes, size); }
ssize_t __write(int to, const void *bytes, size_t size) { return write(to, bytes, size); }
int fsync(int file) { return stops() ? -1 : syscall(SYS_fsync, file); }
int fchmod(int file, mode_t mode) { return stops() ? -1 : syscall(SYS_fchmod, file, mode); }
int unlink(const char *path) { return stops() ? -1 : syscall(SYS_unlinkat, AT_FDCWD, path, 0); }

int rename(const char *from, const char *to) {
    return stops() ? -1 : syscall(SYS_renameat2, AT_FDCWD, from, AT_FDCWD, to, 0);
}
