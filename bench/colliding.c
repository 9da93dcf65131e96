/* Prints so many names of 8 bytes whose hashes begin alike where the hash of names begins at its constant start: they
   share the 12 low bits, by which a table finds a name's group, and the 8 high ones, by which it tells the names of a
   group apart. Each takes some 2^20 tries. It is the search that somebody would make who wants a table to be slow. */
#include <pthread.h>
#include <stdint.h>
#include <stdio.h>
#include <stdlib.h>

enum { THREADS = 4, LETTERS = 32 };
static const char letters[LETTERS + 1] = "abcdefghijklmnopqrstuvwxyz012345";
static const uint64_t begin = 0x243f6a8885a308d3, multiplier = 0x9e3779b97f4a7c15;
static long each;

static uint64_t folded(uint64_t a, uint64_t b) {
    unsigned __int128 product = (unsigned __int128)a * b;
    return (uint64_t)product ^ (uint64_t)(product >> 64);
}

/* The hash of a name of 8 bytes, and of the byte 255 behind it, as the library's hasher has it. */
static uint32_t hash_of(uint64_t name) {
    uint64_t state = folded(folded(begin ^ name, multiplier ^ 16) ^ 0xffffff, multiplier ^ 2);
    return (uint32_t)(state ^ (state >> 32));
}

/* The name of a number, five bits a letter. */
static uint64_t name_of(uint64_t number) {
    uint64_t name = 0;
    for (int i = 0; i < 8; i++, number >>= 5)
        name |= (uint64_t)(unsigned char)letters[number % LETTERS] << 8 * i;
    return name;
}

/* Finds a thread's share of the names, among numbers that no other thread tries. */
static void *search(void *share) {
    uint64_t *names = share, number = names[0];
    for (long found = 0; found < each; number++) {
        uint64_t name = name_of(number);
        if ((hash_of(name) & 0xff000fff) == 0x5a000123)
            names[found++] = name;
    }
    return NULL;
}

int main(int count, char **words) {
    long wanted = count > 1 ? atol(words[1]) : 20000;
    pthread_t threads[THREADS];
    uint64_t *names[THREADS];
    each = (wanted + THREADS - 1) / THREADS;
    for (int t = 0; t < THREADS; t++) {
        names[t] = calloc(each, sizeof(uint64_t));
        if (names[t] == NULL)
            return 1;
        names[t][0] = (uint64_t)t << 38;
        pthread_create(&threads[t], NULL, search, names[t]);
    }
    for (int t = 0; t < THREADS; t++)
        pthread_join(threads[t], NULL);
    for (long i = 0; i < wanted; i++)
        printf("%.8s\n", (char *)&names[i % THREADS][i / THREADS]);
    return 0;
}
