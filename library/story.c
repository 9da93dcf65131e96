/* A builder fills its quota, and a project's: first in a session without a journal, then in one that keeps its own.
 * Prints what each call returns and tells. With two names of files it writes there the configuration and the journal of
 * the second session, for `quotafs replay`. */
#include "quotafs.h"

#include <stdio.h>
#include <string.h>

#define TEXT(s) (const uint8_t *)(s), sizeof(s) - 1
#define KEY key, sizeof key, &len
#define BUFFER buffer, sizeof buffer, &len

static const char CONFIG[] =
    "size = \"1m\"\nnr_inodes = 16\nblock_grace = 100\ninode_grace = 100\n"
    "[[user]]\nid = 0\nname = \"root\"\n"
    "[[user]]\nid = 1000\nname = \"builder\"\nblock_soft = 8\nblock_hard = 16\n"
    "[[group]]\nid = 0\nname = \"root\"\n[[group]]\nid = 100\nname = \"farm\"\n";

static const char PROJECTS[] = "[[project]]\nid = 0\nname = \"none\"\n[[project]]\nid = 7\nname = \"kit\"\nblock_hard = 4\n";

static const qfs_caller root = {0};
static const qfs_caller builder = {.uid = 1000, .gid = 100};
static qfs_done_reply done;
static qfs_stat_reply stat;
static qfs_quota_reply quota;
static uint8_t buffer[4096];
static uint8_t key[16];
static size_t len;

static void tell(const char *what, uint64_t number) {
    printf("%-28s %llu\n", what, (unsigned long long)number);
}

static void tell_text(void) {
    fwrite(buffer, 1, len, stdout);
}

static void open_one(qfs_session *session) {
    tell("create in a closed session", qfs_create(session, &builder, 0, TEXT("/a"), &done));
    tell("open without a size", qfs_open(session, TEXT("nr_inodes = 16"), 7, KEY));
    printf("the key %.*s\n", (int)len, (const char *)key);
    tell("open with no TOML", qfs_open(session, TEXT("size"), 7, KEY));
    tell("open", qfs_open(session, TEXT(CONFIG), 7, KEY));
    tell("open again", qfs_open(session, TEXT(CONFIG), 7, KEY));
}

static void fill_the_quota(qfs_session *session) {
    tell("create", qfs_create(session, &builder, 0, TEXT("/a"), &done));
    tell("its number", done.ino);
    tell("inodes charged", done.inodes_charged);
    tell("create with a space", qfs_create(session, &builder, 0, TEXT("/a b"), &done));
    tell("create again", qfs_create(session, &builder, 0, TEXT("/a"), &done));
    tell("write", qfs_write(session, &builder, 0, TEXT("/a"), 0, TEXT("hello"), &done));
    tell("blocks charged", done.blocks_charged);
    tell("read", qfs_read(session, &builder, 0, TEXT("/a"), 1, buffer, 3, &len));
    printf("the bytes %.*s\n", (int)len, (const char *)buffer);
    tell("fill over the soft limit", qfs_fill(session, &builder, 10, TEXT("/a"), 4096, 8192, 1, &done));
    tell("quota", qfs_quota(session, &builder, 10, QFS_KIND_USER, 1000, &quota));
    tell("blocks", quota.blocks);
    tell("a grace runs", quota.has_block_end);
    tell("until", quota.block_end);
    tell("quota of kind 3", qfs_quota(session, &builder, 10, 3, 1000, &quota));
    tell("fill at its end", qfs_fill(session, &builder, 110, TEXT("/a"), 12288, 4096, 1, &done));
    tell("fill what is there", qfs_fill(session, &builder, 110, TEXT("/a"), 0, 12288, 2, &done));
}

static void raise_the_limit(qfs_session *session) {
    const qfs_new_limits limits = {16, 32, 0, 0};
    tell("builder raises", qfs_setquota(session, &builder, 120, QFS_KIND_USER, 1000, &limits, &done));
    tell("root raises", qfs_setquota(session, &root, 120, QFS_KIND_USER, 1000, &limits, &done));
    tell("fill goes on", qfs_fill(session, &builder, 120, TEXT("/a"), 12288, 4096, 1, &done));
    tell("stat", qfs_stat(session, &builder, 120, TEXT("/a"), &stat));
    tell("size", stat.size);
    tell("blocks", stat.blocks);
}

static void move_about(qfs_session *session) {
    const qfs_new_owners to_root = {.uid = 0, .has_uid = true};
    tell("mkdir", qfs_mkdir(session, &builder, 120, TEXT("/d"), &done));
    tell("link", qfs_link(session, &builder, 120, TEXT("/a"), TEXT("/d/b"), &done));
    tell("rename", qfs_rename(session, &builder, 120, TEXT("/a"), TEXT("/c"), &done));
    tell("rmdir", qfs_rmdir(session, &builder, 120, TEXT("/d"), &done));
    tell("chown", qfs_chown(session, &builder, 120, TEXT("/c"), &to_root, &done));
    tell("truncate", qfs_truncate(session, &builder, 120, TEXT("/c"), 5000, &done));
    tell("blocks released", done.blocks_released);
    tell("setgrace", qfs_setgrace(session, &root, 120, 5, 5, &done));
    tell("unlink", qfs_unlink(session, &builder, 120, TEXT("/c"), &done));
}

static void tell_all(qfs_session *session) {
    uint64_t differences = 9;
    tell("line", qfs_line(session, TEXT("130 1000:100 stat /d/b\n"), BUFFER));
    tell_text();
    tell("no line", qfs_line(session, TEXT("130 nobody stat /d/b\n"), BUFFER));
    tell("two lines", qfs_line(session, TEXT("130 0:0 stat /\n130 0:0 stat /\n"), BUFFER));
    tell("report", qfs_report(session, 130, BUFFER));
    tell_text();
    tell("report without room", qfs_report(session, 130, buffer, 10, &len));
    tell("audit", qfs_audit(session, &differences));
    tell("differences", differences);
    tell("journal of none", qfs_journal(session, BUFFER));
    qfs_close(session);
    qfs_close(session);
    tell("stat in a closed session", qfs_stat(session, &builder, 120, TEXT("/d"), &stat));
}

static void save(const char *name, const void *text, size_t text_len) {
    FILE *file = fopen(name, "wb");
    if (!file || fwrite(text, 1, text_len, file) != text_len || fclose(file)) {
        puts("a file was refused");
    }
}

static void fill_a_project(qfs_session *session, const char *config_name) {
    static char config[sizeof CONFIG + sizeof PROJECTS];
    const qfs_new_owners to_kit = {.project = 7, .has_project = true};
    strcpy(config, CONFIG);
    strcat(config, PROJECTS);
    if (config_name) {
        save(config_name, config, strlen(config));
    }
    tell("open journaled", qfs_open_journaled(session, (const uint8_t *)config, strlen(config), 7, KEY));
    tell("mkdir", qfs_mkdir(session, &builder, 0, TEXT("/p"), &done));
    tell("chown to the project", qfs_chown(session, &root, 1, TEXT("/p"), &to_kit, &done));
    tell("create", qfs_create(session, &builder, 2, TEXT("/p/a"), &done));
    tell("write", qfs_write(session, &builder, 3, TEXT("/p/a"), 0, TEXT("ok"), &done));
    tell("write past the project", qfs_write(session, &builder, 4, TEXT("/p/a"), 4096, TEXT("no"), &done));
    tell("line", qfs_line(session, TEXT("5 0:0 quota project 7\n"), BUFFER));
    tell_text();
    tell("line without room", qfs_line(session, TEXT("6 0:0 stat /p\n"), buffer, 4, &len));
    tell("wants", len);
}

static void tell_of_journal(qfs_session *session, const char *journal_name) {
    qfs_tally_reply tally;
    tell("journal", qfs_journal(session, BUFFER));
    tell_text();
    if (journal_name) {
        save(journal_name, buffer, len);
    }
    tell("tally", qfs_tally(session, &tally));
    tell("calls", tally.calls);
    tell("blocks charged", tally.blocks_charged);
}

static void list_all(qfs_session *session) {
    qfs_listed_inode inodes[4];
    qfs_listed_name names[4];
    size_t count = 0;
    tell("inodes", qfs_inodes(session, inodes, 4, &count));
    for (size_t i = 0; i < count; i++) {
        printf("%llu %s of %u and project %u, blocks %u, links %llu\n", (unsigned long long)inodes[i].ino,
               inodes[i].dir ? "dir" : "file", inodes[i].uid, inodes[i].project, inodes[i].blocks,
               (unsigned long long)inodes[i].links);
    }
    tell("names", qfs_names(session, names, 4, &count, BUFFER));
    for (size_t i = 0; i < count; i++) {
        printf("%.*s is %llu in %llu\n", (int)names[i].len, (const char *)buffer + names[i].at,
               (unsigned long long)names[i].ino, (unsigned long long)names[i].dir);
    }
    tell("names without room", qfs_names(session, names, 1, &count, BUFFER));
    tell("there are", count);
    tell("names without text", qfs_names(session, names, 4, &count, buffer, 1, &len));
    tell("of bytes", len);
    qfs_close(session);
    tell("names in a closed session", qfs_names(session, names, 4, &count, BUFFER));
}

int main(int argc, char **argv) {
    qfs_session session = QFS_CLOSED;
    open_one(&session);
    fill_the_quota(&session);
    raise_the_limit(&session);
    move_about(&session);
    tell_all(&session);
    fill_a_project(&session, argc == 3 ? argv[1] : NULL);
    tell_of_journal(&session, argc == 3 ? argv[2] : NULL);
    list_all(&session);
    return 0;
}
