/* Four threads share a session behind a lock of the caller's, and a fifth audits and closes it. Prints how many calls
 * were made, and how many differences there are. */
#include "quotafs.h"

#include <pthread.h>
#include <stdio.h>

enum { THREADS = 4, CALLS = 1000 };

static const char CONFIG[] =
    "size = \"64m\"\nnr_inodes = 65536\nblock_grace = 100\ninode_grace = 100\n"
    "[[user]]\nid = 0\nname = \"root\"\n[[group]]\nid = 0\nname = \"root\"\n";

static qfs_session session = QFS_CLOSED;
static pthread_mutex_t lock = PTHREAD_MUTEX_INITIALIZER;
static unsigned made = 0;

static void *work(void *number) {
    const qfs_caller root = {0};
    qfs_done_reply done;
    char path[32];
    for (int k = 0; k < CALLS; k++) {
        int len = snprintf(path, sizeof path, "/%d.%d", *(int *)number, k);
        pthread_mutex_lock(&lock);
        made += qfs_create(&session, &root, 0, (const uint8_t *)path, (size_t)len, &done) == QFS_OK;
        pthread_mutex_unlock(&lock);
    }
    return NULL;
}

static void *end(void *differences) {
    if (qfs_audit(&session, differences) != QFS_OK)
        *(uint64_t *)differences = 1;
    qfs_close(&session);
    return NULL;
}

int main(void) {
    pthread_t threads[THREADS], last;
    int numbers[THREADS];
    uint64_t differences = 9;
    uint8_t key[1];
    size_t len;
    if (qfs_open(&session, (const uint8_t *)CONFIG, sizeof CONFIG - 1, 7, key, sizeof key, &len) != QFS_OK)
        return 1;
    for (int k = 0; k < THREADS; k++) {
        numbers[k] = k;
        pthread_create(&threads[k], NULL, work, &numbers[k]);
    }
    for (int k = 0; k < THREADS; k++)
        pthread_join(threads[k], NULL);
    pthread_create(&last, NULL, end, &differences);
    pthread_join(last, NULL);
    printf("%u made, %llu differences\n", made, (unsigned long long)differences);
    return 0;
}
