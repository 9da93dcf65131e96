"""How the program uses its outputs: by how many calls of write, and what becomes of a run, and of its journal, where a
limit or a device stops it."""
import os
import subprocess

from rows import BUILT, ROWS, EMPTY, EXAMPLE, ROOT, call, command_lines, journal_of, preloaded, unwritten

FULL = (4, b"quotafs: output\n")
FIRST = ROWS / "a0/create_write_stat"
# KiB of stack in which the configuration that is nested deepest has to be read: the tried program is given more.
STACK = int(os.environ.get("QUOTAFS_STACK", 2048))


def long_lines(work):
    """Faults that tell a name of 4,000 bytes, each of them escaped by six, and a key of 32,000."""
    yield "a long name", ["run", "--config", EXAMPLE, "\x01" * 4_000], ROWS
    (work / "key").write_text(f"{'k' * 32_000} = 1\n{(ROWS / 'configs/good.toml').read_text()}")
    yield "a long key", ["run", "--config", work / "key", EMPTY], ROWS
    yield "a word that is not UTF-8", ["run", b"\xff"], ROWS


def writes(work):
    """One write for each fault and each help, and one for each 256 KiB of an outcome, none of nothing."""
    library = work / "writes.so"
    subprocess.run(["cc", "-O2", "-shared", "-fPIC", "-o", library, ROWS / "writes.c"], check=True)
    for case in command_lines():
        wanted = b"%d %d" % (case.out != b"", case.status != 0)
        yield f"{case.name}: writes", preloaded(library, case.words, case.folder, "WRITES_TELL")[1], wanted
    for name, words, folder in long_lines(work):
        yield f"{name}: writes", preloaded(library, words, folder, "WRITES_TELL")[1], b"0 1"
    lines = 60_000
    (work / "stats").write_bytes(b"0 0:0 stat /\n" * lines)
    (status, out, _), told = preloaded(library, ["run", "--config", EXAMPLE, work / "stats"], ROOT, "WRITES_TELL")
    yield "a large outcome: writes", (status, told), (0, b"%d 0" % (len(out) // 262_144 + 1))


def limited(limit, words, stdout=subprocess.PIPE):
    """Status and error output of a run under a limit of the shell's."""
    shell = ["bash", "-c", f'ulimit {limit} && exec "$@"', "bash", *words]
    done = subprocess.run(shell, stdout=stdout, stderr=subprocess.PIPE, timeout=60)
    return done.returncode, done.stderr


def deepest(work):
    """A configuration that is nested as deeply as is read: 80 tables in each other, each under a key of 80 parts."""
    key = ".".join(f"k{part}" for part in range(80))
    (work / "deepest").write_text(f"{key} = {f'{{ {key} = ' * 80}1{' }' * 80}\n")
    return work / "deepest"


def limits(work):
    """Runs whose output is a full device or a file at its size limit, and those with little stack."""
    outcome = ["run", "--config", EXAMPLE, EMPTY]
    for name, words in [("an outcome", outcome), ("help", ["--help"])]:
        with open("/dev/full", "wb") as full:
            done = subprocess.run([BUILT, *words], stdout=full, stderr=subprocess.PIPE, timeout=60)
        yield f"{name} to a full device", (done.returncode, done.stderr), FULL
        with open(work / "limited", "wb") as file:
            yield f"{name} to a file at its limit", limited("-f 0", [ROOT / "quotafs", *words], file), FULL
    yield "an outcome with 256 KiB of stack", limited("-s 256", [BUILT, *outcome]), (0, b"")
    words = [BUILT, "run", "--config", deepest(work), EMPTY]
    field = (2, b"quotafs: config: field size\n")
    yield f"the deepest configuration with {STACK} KiB of stack", limited(f"-s {STACK}", words), field


def content(file):
    return file.read_bytes() if file.exists() else None


def run_with_journal(file, script=f"{FIRST}.txt"):
    return ["run", "--config", ROWS / "a0/config.toml", "--journal", file, script]


def journals(work):
    """Journals that cannot be made or are refused, behind the whole outcome, and outputs that refuse before them."""
    outcome, journal, file = content(ROWS / f"{FIRST}.0.out"), content(ROWS / f"{FIRST}.journal"), work / "kept"
    for name, path in [("a full device", "/dev/full"), ("no folder", work / "none/journal"), ("a folder", work)]:
        yield f"a journal to {name}", call(run_with_journal(path)), (4, outcome, unwritten(path))
    for before in [None, b"before\n" * 1_000]:
        if before:
            file.write_bytes(before)
        with open("/dev/full", "wb") as full:
            done = subprocess.run([BUILT, *run_with_journal(file)], stdout=full, stderr=subprocess.PIPE, timeout=60)
        yield "an output that refuses before a journal", (done.returncode, done.stderr, content(file)), (*FULL, before)
    yield "a journal over a longer file", (call(run_with_journal(file)), content(file)), ((0, outcome, b""), journal)
    short = preloaded(work / "writes.so", run_with_journal(file), ROOT, "WRITES_TELL", WRITES_MOST="7")[0]
    yield "a journal by short writes", (short, content(file)), ((0, outcome, b""), journal)
    yield from long_journals(work)


def long_journals(work):
    """Journals that are longer than a limit, and than what is gathered before it is written."""
    for lines in [100, 60_000]:
        script, file = work / f"{lines}.stats", work / f"{lines}.journal"
        script.write_bytes(b"0 0:0 stat /\n" * lines)
        status, out, _ = call(run_with_journal(file, script))
        journal = journal_of(script.read_bytes().splitlines(), out)
        yield f"a journal of {lines} entries", (status, content(file)), (0, journal)
        refused = call(run_with_journal("/dev/full", script))
        yield f"a journal of {lines} entries to a full device", refused, (4, out, unwritten("/dev/full"))
        shell = ["bash", "-c", 'ulimit -f 1 && exec "$@"', "bash", ROOT / "quotafs"]
        file.write_bytes(b"before\n")
        done = subprocess.run([*shell, *run_with_journal(file, script)], capture_output=True, timeout=60)
        answer = done.returncode, done.stdout, done.stderr, content(file)
        yield f"a journal of {lines} entries to a file at its limit", answer, (4, out, unwritten(file), b"before\n")


def checks(work):
    """Each check's name, its answer, and the wanted one."""
    yield from writes(work)
    yield from limits(work)
    yield from journals(work)
