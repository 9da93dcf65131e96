/* Calls of a session to be counted: `library KIND plain|journaled COUNT` makes COUNT calls of a kind, after a preparation
 * that is the same for every kind and count. With -DALLOCATIONS and -Wl,--wrap=malloc,--wrap=realloc it prints how many
 * allocations there were in all. */
#include "quotafs.h"

#include <stdio.h>
#include <stdlib.h>
#include <string.h>

#define TEXT(s) (const uint8_t *)(s), strlen(s)

enum { MOST = 3000, NAME = 16 };

static const char CONFIG[] =
    "size = \"64m\"\nnr_inodes = 65536\nblock_grace = 100\ninode_grace = 100\n"
    "[[user]]\nid = 0\nname = \"root\"\n"
    "[[user]]\nid = 1000\nname = \"builder\"\nblock_soft = 1000000\nblock_hard = 2000000\n"
    "[[group]]\nid = 0\nname = \"root\"\n[[group]]\nid = 100\nname = \"farm\"\n";

static const qfs_caller builder = {.uid = 1000, .gid = 100};
static qfs_session session = QFS_CLOSED;
static uint8_t page[4096], back[4096];
static char names[MOST][NAME];
static uint64_t sum;

#ifdef ALLOCATIONS
static unsigned long allocations;
void *__real_malloc(size_t size);
void *__real_realloc(void *old, size_t size);

void *__wrap_malloc(size_t size) {
    allocations++;
    return __real_malloc(size);
}

void *__wrap_realloc(void *old, size_t size) {
    allocations++;
    return __real_realloc(old, size);
}
#endif

static uint32_t call_once(const char *kind, long number) {
    qfs_done_reply done;
    qfs_stat_reply stat;
    qfs_quota_reply quota;
    size_t len = 0;
    uint32_t code = QFS_FAULT_LINE;
    if (!strcmp(kind, "create")) {
        code = qfs_create(&session, &builder, 1, TEXT(names[number]), &done);
    } else if (!strcmp(kind, "stat")) {
        code = qfs_stat(&session, &builder, 1, TEXT("/file"), &stat);
        sum += stat.size;
    } else if (!strcmp(kind, "byte")) {
        code = qfs_write(&session, &builder, 1, TEXT("/file"), (uint64_t)number & 4095, page, 1, &done);
    } else if (!strcmp(kind, "block")) {
        code = qfs_write(&session, &builder, 1, TEXT("/file"), 0, page, sizeof page, &done);
    } else if (!strcmp(kind, "read")) {
        code = qfs_read(&session, &builder, 1, TEXT("/file"), 0, back, sizeof back, &len);
        sum += len;
    } else if (!strcmp(kind, "quota")) {
        code = qfs_quota(&session, &builder, 1, QFS_KIND_USER, 1000, &quota);
        sum += quota.blocks;
    } else if (!strcmp(kind, "line")) {
        code = qfs_line(&session, TEXT("1 1000:100 stat /file\n"), back, sizeof back, &len);
        sum += len;
    }
    return code;
}

static int prepare(const char *mode) {
    uint8_t key[16];
    size_t len;
    qfs_done_reply done;
    for (int k = 0; k < MOST; k++) {
        snprintf(names[k], NAME, "/f%06d", k);
    }
    memset(page, 7, sizeof page);
    uint32_t code = strcmp(mode, "journaled") ? qfs_open(&session, TEXT(CONFIG), 7, key, sizeof key, &len)
                                              : qfs_open_journaled(&session, TEXT(CONFIG), 7, key, sizeof key, &len);
    return code || qfs_create(&session, &builder, 0, TEXT("/file"), &done) ||
           qfs_write(&session, &builder, 0, TEXT("/file"), 0, page, sizeof page, &done);
}

int main(int argc, char **argv) {
    long count = argc == 4 ? atol(argv[3]) : -1;
    if (count < 0 || count > MOST || prepare(argv[2])) {
        return 2;
    }
    for (long number = 0; number < count; number++) {
        if (call_once(argv[1], number)) {
            return 3;
        }
    }
#ifdef ALLOCATIONS
    printf("%lu\n", allocations);
#endif
    qfs_close(&session);
    return sum == 1;
}
