/* Each allocation of a sequence of calls is refused in turn: the call that wanted it says QFS_FAULT_MEMORY, and succeeds
 * when it is made again; then an audit finds nothing, and the journal has each call once. Prints how many were refused,
 * and how many calls told of it. Link with -Wl,--wrap=malloc,--wrap=realloc. */
#include "quotafs.h"

#include <stdio.h>
#include <stdlib.h>
#include <string.h>

#define TEXT(s) (const uint8_t *)(s), strlen(s)
#define BUFFER buffer, sizeof buffer, &len

void *__real_malloc(size_t size);
void *__real_realloc(void *old, size_t size);

static long left = -1; /* how many allocations until the refused one; below 0: none is refused */
static long refused = 0;
static long told = 0;

static int refuses(void) {
    if (left < 0)
        return 0;
    if (left-- > 0)
        return 0;
    refused++;
    return 1;
}

void *__wrap_malloc(size_t size) { return refuses() ? NULL : __real_malloc(size); }
void *__wrap_realloc(void *old, size_t size) { return refuses() ? NULL : __real_realloc(old, size); }

static const char CONFIG[] =
    "size = \"1m\"\nnr_inodes = 16\nblock_grace = 100\ninode_grace = 100\n"
    "[[user]]\nid = 0\nname = \"root\"\n[[user]]\nid = 1000\nname = \"builder\"\nblock_soft = 8\nblock_hard = 16\n"
    "[[group]]\nid = 0\nname = \"root\"\n[[group]]\nid = 100\nname = \"farm\"\n";

static int is_done(uint32_t number) {
    if (number == QFS_OK)
        return 1;
    if (number != QFS_FAULT_MEMORY)
        exit(3);
    told++;
    return 0;
}

/* A call that had been made would be refused, or do more, when it is made again. */
#define TWICE(call) \
    do { \
        if (!is_done(call) && (call) != QFS_OK) \
            exit(4); \
    } while (0)

static void want(int holds) {
    if (!holds)
        exit(5);
}

static void make_calls(qfs_session *session) {
    const qfs_caller builder = {.uid = 1000, .gid = 100, .count = 2, .groups = {0, 100}};
    static uint8_t buffer[4096];
    size_t len;
    qfs_done_reply done;
    qfs_quota_reply quota;
    TWICE(qfs_create(session, &builder, 0, TEXT("/a"), &done));
    TWICE(qfs_write(session, &builder, 0, TEXT("/a"), 0, buffer, sizeof buffer, &done));
    TWICE(qfs_mkdir(session, &builder, 0, TEXT("/d"), &done));
    TWICE(qfs_rename(session, &builder, 0, TEXT("/a"), TEXT("/d/b"), &done));
    TWICE(qfs_link(session, &builder, 0, TEXT("/d/b"), TEXT("/c"), &done));
    TWICE(qfs_read(session, &builder, 0, TEXT("/c"), 0, BUFFER));
    want(len == sizeof buffer);
    TWICE(qfs_quota(session, &builder, 0, QFS_KIND_USER, 1000, &quota));
    want(quota.blocks == 1 && quota.inodes == 2);
    TWICE(qfs_unlink(session, &builder, 0, TEXT("/d/b"), &done));
    TWICE(qfs_rmdir(session, &builder, 0, TEXT("/d"), &done));
    TWICE(qfs_line(session, TEXT("0 1000:100 create /e\n"), BUFFER));
    want(memcmp(buffer, "done 4 ", 7) == 0);
}

static void look(qfs_session *session) {
    /* The journal spells out each byte that was written or read by two. */
    static uint8_t buffer[32768];
    size_t len, count;
    uint64_t differences = 9;
    qfs_tally_reply tally;
    qfs_listed_inode inodes[16];
    qfs_listed_name names[16];
    TWICE(qfs_report(session, 0, BUFFER));
    TWICE(qfs_audit(session, &differences));
    want(differences == 0);
    TWICE(qfs_journal(session, BUFFER));
    TWICE(qfs_tally(session, &tally));
    want(tally.calls == 10 && tally.blocks_charged == 1 && tally.inodes_charged == 3 && tally.inodes_released == 1);
    TWICE(qfs_inodes(session, inodes, 16, &count));
    want(count == 3);
    TWICE(qfs_names(session, names, 16, &count, BUFFER));
    want(count == 2 && len == 2 && memcmp(buffer, "ce", 2) == 0);
}

static void play(void) {
    qfs_session session = QFS_CLOSED;
    uint8_t key[16];
    size_t len;
    TWICE(qfs_open_journaled(&session, TEXT(CONFIG), 7, key, sizeof key, &len));
    make_calls(&session);
    look(&session);
    qfs_close(&session);
}

int main(void) {
    for (long number = 0;; number++) {
        long before = refused;
        left = number;
        play();
        left = -1;
        if (refused == before)
            break;
    }
    printf("%ld refused, %ld told\n", refused, told);
    return 0;
}
