/* Counts the calls by which a program writes to standard output and to standard error, where this library is
 * preloaded. At the program's end it writes both numbers to the file descriptor in WRITES_TELL. Where there is a
 * WRITES_MOST, each call takes at most so many bytes, whatever it writes to. `checks/program` builds it.
 */
#include <stdio.h>
#include <stdlib.h>
#include <sys/syscall.h>
#include <unistd.h>

static long calls[3]; /* by descriptor */
static size_t most = (size_t)-1;

__attribute__((constructor)) static void begin(void) {
    const char *number = getenv("WRITES_MOST");
    if (number)
        most = strtoul(number, NULL, 10);
}

ssize_t write(int to, const void *bytes, size_t size) {
    if (to == STDOUT_FILENO || to == STDERR_FILENO)
        calls[to]++;
    return syscall(SYS_write, to, bytes, size < most ? size : most);
}

ssize_t __write(int to, const void *bytes, size_t size) { return write(to, bytes, size); }

/* A program with threads ends by `_exit`, and runs no destructor. */
void _exit(int status) {
    const char *tell = getenv("WRITES_TELL");
    if (tell)
        dprintf(atoi(tell), "%ld %ld", calls[STDOUT_FILENO], calls[STDERR_FILENO]);
    for (;;)
        syscall(SYS_exit_group, status);
}
