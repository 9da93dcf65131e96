"""The scripts that `bench/program` counts: for each its name, its lines, the configuration under which they run, and
what a program without proofs takes for such a script. Its figures were counted once, by the same counter, on scripts of
the same kinds; these here are made so that the program of that day takes for them what it took for those, within a
twentieth. That could not be tried of links and renames, which that program did not have yet."""

from typing import NamedTuple


class Workload(NamedTuple):
    name: str
    lines: list
    config: str
    instructions: int  # of the program without proofs, for a line; for the whole process where there are no lines
    peak: float  # of the program without proofs, in MiB
    bar: float = 1.7  # at most so many times its instructions
    peak_bar: float = 2.0  # at most so many times its peak


# Why a script takes more than without proofs, where it does.
SINCE = {
    "60,000 creates, then 5,536 stats":
        "a new name is looked up and kept, both records are charged by the whole rule of grace ends, and the audit"
        " recounts all inodes and names, some 220 a file",
    "60,000 links and renames in one directory":
        "two paths are read a line; a rename looks a name up, takes it away and puts another",
    "stat /":
        "a reply of 88 bytes goes from hand to hand, and a function clears its large values when it begins",
    ".. a third of them reads of 64 bytes":
        "a read makes a list for its reply",
    "setquota":
        "five numbers are tested for their ranges, and both grace ends are computed anew",
    "16 kinds of refusals":
        "one line in 16 has a name of 256 bytes, which is read, kept and tested",
    "64 users and groups, small writes":
        "a new block takes two allocations, and so do the bytes of a write; both records are charged by the whole rule"
        " of grace ends",
    "callers of 16 further groups":
        "as stat /",
    "one byte anywhere in 64 files":
        "a row of 16 slots and a block are made for a lone byte, and two searches of a tree of rows find them",
    "one byte in a file of 100,000 blocks":
        "a tree of 6,250 rows is searched, for some 400",
    "fills of 64 KiB, fresh":
        "16 blocks are allocated one by one, so that each can be given back alone",
    "fills of 64 KiB onto one place":
        "16 blocks are filled one by one",
    "64 KiB a line as hex digits":
        "digits are read 32 at a time, into room that is cleared first",
    "reads of 64 KiB":
        "a read makes a list for its reply, which is written in pieces of 256 bytes",
    ".. with 64 users and 64 groups":
        "a configuration is read twice, for its fields and then for its numbers, which is the order of its faults",
}


LINES = 65_536
CHUNK = 65_536
# The caller of most lines: user 1000 and group 100.
CALLER = "1000:100"


def principals(kind, ids):
    """The tables of these principals, without limits."""
    return "".join(f'[[{kind}]]\nid = {id}\nname = "{kind[0]}{id}"\n' for id in ids)


def config(users=(0, 1000), groups=(0, 100)):
    """A configuration of these users and groups, without limits."""
    head = 'size = "4g"\nnr_inodes = 65536\nblock_grace = 100\ninode_grace = 100\n'
    return head + principals("user", users) + principals("group", groups)


def repeated(*calls, first=(), lines=LINES):
    """So many lines: the first calls, and then the others one after the other, over and over, each with its caller."""
    rest = lines - len(first)
    return [f"0 {call}" for call in (*first, *(calls[i % len(calls)] for i in range(rest)))]


def creates():
    files = [f"{i} {CALLER} create /file{i:05}.txt" for i in range(60_000)]
    return files + [f"{i} {CALLER} stat /file{i * 7:05}.txt" for i in range(5_536)]


def stats_and_quotas(*more):
    """A file of 4 KiB looked at and a record asked for, in turn, and more calls."""
    first = f"{CALLER} create /file00001", f"{CALLER} fill /file00001 0 4096 ab"
    return repeated(f"{CALLER} stat /file00001", f"{CALLER} quota user 1000", *more, first=first)


def links_and_renames(files=5_536):
    """Links and renames in turn, each to a name that is not there: the files are linked one after the other, over and
    over, and each further name is then another."""
    further = [(i % files, i) for i in range((LINES - files) // 2)]
    return [f"0 {CALLER} create /file{i:05}" for i in range(files)] + [
        f"0 {CALLER} {call}" for file, name in further
        for call in (f"link /file{file:05} /link{name:05}", f"rename /link{name:05} /name{name:05}")]


def refusals():
    """16 kinds of refusals, one of them of 64 KiB of data."""
    calls = [
        "create file", "create /" + "n" * 256, "stat /file00009", "stat /file00001/name", "create /file00001",
        "write /file00002 0 0123", "read / 0 1", "fill /file00002 0 65536 ab", "write /file00001 1099511627776 0123",
        "setquota user 1000 400 800 100 200", "setgrace 1000 1000", "quota user 0", "quota group 0", "setgrace 0 1000",
        "read /file00001 0 65537", "stat /file00001/",
    ]
    first = f"{CALLER} create /file00001", "0:0 create /file00002"
    return repeated(*(f"{CALLER} {call}" for call in calls), first=first)


def many_principals():
    """63 users beside the superuser, each with a group and a file, who write 8 bytes into it, block after block."""
    callers = [f"{1000 + u}:{2000 + u}" for u in range(63)]
    first = [f"{caller} create /file{u:05}" for u, caller in enumerate(callers)]
    return [f"0 {call}" for call in first] + [
        f"0 {callers[i % 63]} write /file{i % 63:05} {i // 63 * 4096 % 1_500_000} 0123456789abcdef"
        for i in range(LINES - 63)]


def many_groups():
    caller = f"{CALLER}," + ",".join(str(group) for group in range(200, 216))
    return repeated(f"{caller} stat /")


def long_names(files=60_000):
    """Files under names of 255 bytes, some of them looked at."""
    names = [f"{i:05}" + "n" * 250 for i in range(files)]
    return [f"0 {CALLER} create /{name}" for name in names] + [
        f"0 {CALLER} stat /{name}" for name in names[:LINES - files]]


def scattered():
    """One byte at a time, at offsets all over 64 files of up to 1 GiB."""
    first = [f"0 {CALLER} create /file{i:05}" for i in range(64)]
    return first + [f"0 {CALLER} write /file{i % 64:05} {i * 2_654_435_761 % (1 << 30)} 7f" for i in range(LINES - 64)]


def grown(blocks=100_000):
    """A file of so many blocks, and then one byte at a time in it."""
    first = [f"0 {CALLER} create /file"] + [
        f"0 {CALLER} fill /file {i * CHUNK} {CHUNK} 01" for i in range(blocks // 16)]
    return first + [f"0 {CALLER} write /file {i * 2_654_435_761 % (blocks * 4096)} 7f" for i in range(59_000)]


def fresh_fills():
    """64 files of 128 fills each: 512 MiB."""
    first = [f"0 {CALLER} create /file{i:05}" for i in range(64)]
    return first + [f"0 {CALLER} fill /file{i % 64:05} {i // 64 * CHUNK} {CHUNK} ab" for i in range(8_192)]


def same_fills():
    return repeated(f"{CALLER} fill /file00001 0 {CHUNK} ab", first=[f"{CALLER} create /file00001"], lines=4_096)


def small_writes_and_reads():
    """Writes and reads of 64 bytes, in turn, in 256 files."""
    first = [f"0 {CALLER} create /file{i:05}" for i in range(256)]
    return first + [f"0 {CALLER} write /file{i // 2 % 256:05} {i // 512 * 64} " + "5a" * 64 if i % 2 == 0 else
                    f"0 {CALLER} read /file{i // 2 % 256:05} {i // 512 * 64} 64" for i in range(LINES - 256)]


def hex_lines():
    first = [f"0 {CALLER} create /file00001"]
    return first + [f"0 {CALLER} write /file00001 {i % 16 * CHUNK} " + "a5" * CHUNK for i in range(1_000)]


def long_reads():
    first = [f"0 {CALLER} create /file00001"] + [
        f"0 {CALLER} fill /file00001 {i * CHUNK} {CHUNK} ab" for i in range(16)]
    return first + [f"0 {CALLER} read /file00001 {i % 16 * CHUNK} {CHUNK}" for i in range(2_048)]


def workloads():
    two = config()
    sixty_four = config([0, *range(1000, 1063)], [0, *range(2000, 2063)])
    return [
        Workload("60,000 creates, then 5,536 stats", creates(), two, 1_936, 25, 1.75),
        Workload("60,000 links and renames in one directory", links_and_renames(), two, 2_216, 0),
        Workload("stat /", repeated("0:0 stat /"), two, 1_103, 11),
        Workload("stats and quotas", stats_and_quotas(), two, 1_770, 15),
        Workload(".. a third of them reads of 64 bytes", stats_and_quotas(f"{CALLER} read /file00001 0 64"), two, 1_809, 16),
        Workload("quota", repeated("0:0 quota user 1000"), two, 1_757, 17),
        Workload("setquota", repeated("0:0 setquota user 1000 400 800 100 200"), two, 1_603, 13),
        Workload("16 kinds of refusals", refusals(), two, 1_367, 13.5),
        Workload("64 users and groups, small writes", many_principals(), sixty_four, 2_371, 108),
        Workload("callers of 16 further groups", many_groups(), config(groups=[0, 100, *range(200, 216)]), 1_249, 16),
        Workload("names of 255 bytes", long_names(), two, 5_901, 56),
        Workload("one byte anywhere in 64 files", scattered(), two, 3_072, 287),
        Workload("one byte in a file of 100,000 blocks", grown(), two, 2_762, 407),
        Workload("fills of 64 KiB, fresh", fresh_fills(), two, 8_112, 518),
        Workload("fills of 64 KiB onto one place", same_fills(), two, 6_473, 3),
        Workload("small writes and reads", small_writes_and_reads(), two, 3_267, 58),
        Workload("64 KiB a line as hex digits", hex_lines(), two, 389_925, 192, 1.3),
        Workload("reads of 64 KiB", long_reads(), two, 116_633, 132, 1.3),
        Workload("an empty script, the whole process", [], two, 450_661, 0),
        Workload(".. with 64 users and 64 groups", [], sixty_four, 2_308_861, 0),
    ]
