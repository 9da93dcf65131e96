/* Clients of a service, or of an echo, over FIFOs: what a round trip takes, and how many lines pass.

   clients turns N LINE IN OUT [IN OUT ..]    each client writes N lines, each when the one before is answered; the
                                              median of all round trips, in nanoseconds
   clients flow N LINE IN OUT                 one client writes N lines and reads meanwhile; prints nothing
   clients echo IN OUT [IN OUT ..]            writes back each line that it reads, as a service would answer it */
#include <err.h>
#include <fcntl.h>
#include <pthread.h>
#include <stdio.h>
#include <stdlib.h>
#include <string.h>
#include <time.h>
#include <unistd.h>

enum { MOST = 16, ROOM = 1 << 16 };

static const char *line;
static size_t length;
static long count;
static long *trips;

struct client {
    const char *in, *out;
    int lines, replies;
    long *trips;
    pthread_t thread;
};

static long now(void) {
    struct timespec t;
    clock_gettime(CLOCK_MONOTONIC, &t);
    return t.tv_sec * 1000000000L + t.tv_nsec;
}

static void write_all(int to, const char *bytes, size_t many) {
    while (many > 0) {
        ssize_t done = write(to, bytes, many);
        if (done <= 0)
            err(1, "write");
        bytes += done;
        many -= done;
    }
}

static void *turns(void *of) {
    struct client *client = of;
    char room[ROOM];
    for (long turn = 0; turn < count; turn++) {
        long begun = now();
        write_all(client->lines, line, length);
        for (ssize_t got = 0; got == 0 || room[got - 1] != '\n';)
            if ((got = read(client->replies, room, sizeof room)) <= 0)
                errx(1, "no reply");
        client->trips[turn] = now() - begun;
    }
    close(client->lines);
    return NULL;
}

static void *fill(void *of) {
    struct client *client = of;
    size_t many = ROOM / length;
    char *lines = malloc(many * length);
    for (size_t at = 0; at < many; at++)
        memcpy(lines + at * length, line, length);
    for (long left = count; left > 0; left -= many) {
        if ((size_t)left < many)
            many = left;
        write_all(client->lines, lines, many * length);
    }
    close(client->lines);
    return NULL;
}

static void *echo(void *of) {
    struct client *client = of;
    FILE *lines = fopen(client->in, "r");
    int to = open(client->out, O_WRONLY);
    char *text = NULL;
    size_t room = 0;
    ssize_t many;
    if (lines == NULL || to < 0)
        err(1, "%s", client->in);
    while ((many = getline(&text, &room, lines)) > 0)
        write_all(to, text, many);
    close(to);
    return NULL;
}

static int ascending(const void *one, const void *other) {
    long a = *(const long *)one, b = *(const long *)other;
    return (a > b) - (a < b);
}

static int start(struct client *clients, char **names, int many, void *(*work)(void *)) {
    int made = 0;
    for (; made < many / 2; made++) {
        struct client *client = &clients[made];
        client->in = names[2 * made];
        client->out = names[2 * made + 1];
        client->trips = trips + made * count;
        if (work == turns && ((client->lines = open(client->in, O_WRONLY)) < 0
                              || (client->replies = open(client->out, O_RDONLY)) < 0))
            err(1, "%s", client->in);
    }
    for (int at = 0; at < made; at++)
        if (pthread_create(&clients[at].thread, NULL, work, &clients[at]) != 0)
            errx(1, "no thread");
    for (int at = 0; at < made; at++)
        pthread_join(clients[at].thread, NULL);
    return made;
}

static void flow(char **names) {
    struct client client = {.in = names[0], .out = names[1]};
    char room[ROOM];
    client.lines = open(client.in, O_WRONLY);
    client.replies = open(client.out, O_RDONLY);
    pthread_create(&client.thread, NULL, fill, &client);
    long told = 0;
    for (ssize_t got; (got = read(client.replies, room, sizeof room)) > 0;)
        for (ssize_t at = 0; at < got; at++)
            told += room[at] == '\n';
    pthread_join(client.thread, NULL);
    if (told != count)
        errx(1, "%ld replies", told);
}

int main(int words, char **word) {
    struct client clients[MOST];
    if (words >= 4 && strcmp(word[1], "echo") == 0) {
        start(clients, word + 2, words - 2, echo);
        return 0;
    }
    if (words < 6 || words > 4 + 2 * MOST)
        errx(2, "clients turns|flow N LINE IN OUT ..");
    count = atol(word[2]);
    length = strlen(word[3]) + 1;
    char *text = malloc(length + 1);
    sprintf(text, "%s\n", word[3]);
    line = text;
    trips = malloc(MOST * count * sizeof *trips);
    if (strcmp(word[1], "flow") == 0) {
        flow(word + 4);
        return 0;
    }
    long all = start(clients, word + 4, words - 4, turns) * count;
    qsort(trips, all, sizeof *trips, ascending);
    printf("%ld\n", trips[all / 2]);
    return 0;
}
