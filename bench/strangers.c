/* One client of a service beside others over FIFOs: what its round trips take, while the others write what they may.

   strangers N LINE OTHERS IN OUT [IN OUT ..]    the first client writes N lines, each half a millisecond after the one
                                                 before is answered, so that it keeps to its turns;
                                                 each other writes its line of OTHERS, which a semicolon parts, over and
                                                 over, and reads what it is told, until the first has ended; one whose
                                                 line begins with ! reads nothing, and one of no line only holds its
                                                 streams open. Prints the mean and the 99th of 100 round trips, in
                                                 nanoseconds, and how many lines the others have had answered */
#include <err.h>
#include <errno.h>
#include <fcntl.h>
#include <pthread.h>
#include <stdatomic.h>
#include <stdio.h>
#include <stdlib.h>
#include <string.h>
#include <time.h>
#include <unistd.h>

enum { MOST = 16, ROOM = 1 << 16, BETWEEN = 500 };

static atomic_bool over;
static atomic_long answered;

struct client {
    int lines, replies;
    const char *says;
    pthread_t writer, reader;
};

static long now(void) {
    struct timespec t;
    clock_gettime(CLOCK_MONOTONIC, &t);
    return t.tv_sec * 1000000000L + t.tv_nsec;
}

/* Writes until all has ended, or the stream is full and nobody reads what is told. */
static void *writing(void *of) {
    struct client *client = of;
    size_t length = strlen(client->says), at = 0;
    while (length > 0 && !over) {
        ssize_t done = write(client->lines, client->says + at, length - at);
        if (done < 0 && errno != EAGAIN)
            break;
        if (done < 0)
            usleep(1000);
        else
            at = (at + done) % length;
    }
    while (!over)
        usleep(1000);
    close(client->lines);
    return NULL;
}

static void *reading(void *of) {
    struct client *client = of;
    char room[ROOM];
    for (ssize_t got; (got = read(client->replies, room, sizeof room)) > 0;)
        for (ssize_t at = 0; at < got; at++)
            answered += room[at] == '\n';
    return NULL;
}

static long turn(struct client *client) {
    char room[ROOM];
    long begun = now();
    if (write(client->lines, client->says, strlen(client->says)) < 0)
        err(1, "write");
    for (ssize_t got = 0; got == 0 || room[got - 1] != '\n';)
        if ((got = read(client->replies, room, sizeof room)) <= 0)
            errx(1, "no reply");
    return now() - begun;
}

static int ascending(const void *one, const void *other) {
    long a = *(const long *)one, b = *(const long *)other;
    return (a > b) - (a < b);
}

/* What a client says: the line of its number, with a line end, or nothing. */
static char *said(const char *others, int number) {
    const char *from = others;
    int kinds = 1;
    for (const char *at = others; *at; at++)
        kinds += *at == ';';
    for (number %= kinds; number > 0; number--)
        from = strchr(from, ';') + 1;
    char *text;
    size_t length = strcspn(from, ";");
    if (asprintf(&text, "%.*s%s", (int)length, from, length ? "\n" : "") < 0)
        err(1, "no memory");
    return text;
}

int main(int words, char **word) {
    struct client clients[MOST];
    int many = (words - 4) / 2;
    if (words < 6 || many > MOST)
        errx(2, "strangers N LINE OTHERS IN OUT ..");
    for (int at = 0; at < many; at++) {
        struct client *client = &clients[at];
        client->says = at == 0 ? said(word[2], 0) : said(word[3], at - 1);
        if ((client->lines = open(word[4 + 2 * at], O_WRONLY)) < 0
            || (client->replies = open(word[5 + 2 * at], O_RDONLY)) < 0)
            err(1, "%s", word[4 + 2 * at]);
        if (at == 0)
            continue;
        int reads = client->says[0] != '!';
        client->says += !reads;
        if (!reads)
            fcntl(client->lines, F_SETFL, O_NONBLOCK);
        if (pthread_create(&client->writer, NULL, writing, client) != 0
            || (reads && pthread_create(&client->reader, NULL, reading, client) != 0))
            errx(1, "no thread");
    }
    long count = atol(word[1]), sum = 0, *trips = malloc(count * sizeof *trips);
    usleep(200000);
    for (long at = 0; at < count; at++) {
        sum += trips[at] = turn(&clients[0]);
        usleep(BETWEEN);
    }
    over = 1;
    qsort(trips, count, sizeof *trips, ascending);
    printf("%ld %ld %ld\n", sum / count, trips[count * 99 / 100], answered);
    return 0;
}
