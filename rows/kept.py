"""The file of a journal: whatever ends a run, and whoever else writes to it, under its name there is a whole journal or
what was there before. What must not be written over is refused before anything runs."""
import os
import random
import subprocess
import time
from itertools import count
from threading import Thread

from rows import BUILT, ROWS, HEAD, ROOT, call, journal_of, preloaded, unwritten

CONFIG = ROWS / "a0/config.toml"
FIRST = ROWS / "a0/create_write_stat"
OUTPUT = b"quotafs: output\n"
KILLED = -9
# A good journal of another run, which stands under the name before a run.
BEFORE = FIRST.with_suffix(".journal").read_bytes()


class Run:
    """A run whose journal goes to a file, and what it prints and writes where nothing stops it."""

    def __init__(self, work, name, line, lines):
        self.file, self.script = work / "kept.journal", work / f"{name}.txt"
        self.script.write_bytes(line * lines)
        self.words = ["run", "--config", CONFIG, "--journal", self.file, self.script]
        begun = time.monotonic()
        self.answer = call(self.words)
        self.takes = time.monotonic() - begun
        self.journal = journal_of(self.script.read_bytes().splitlines(), self.answer[1])

    def again(self):
        """Puts the journal of another run under the name, and takes away what runs have left beside it."""
        for part in self.parts():
            part.unlink()
        self.file.write_bytes(BEFORE)

    def parts(self):
        """What stands beside the file under a name of a run's own."""
        return sorted(self.file.parent.glob(f"{self.file.name}.*.part"))

    def found(self):
        """What stands under the name now, and how many parts beside it. A journal that lacks a failed line replays."""
        names = {BEFORE: "before", self.journal: "whole"}
        what = names.get(self.file.read_bytes())
        if not what:
            what = "replays" if call(["replay", "--config", CONFIG, self.file])[0] == 0 else "broken"
        return what, len(self.parts())


def built(work, name):
    library = work / f"{name}.so"
    subprocess.run(["cc", "-O2", "-shared", "-fPIC", "-o", library, ROWS / f"{name}.c"], check=True)
    return library


def at_each(run, library, tell, number, **variables):
    """The ends of runs that are stopped at the first call, at the second, and so on, and whether the outcome is whole."""
    for at in count(1):
        run.again()
        (status, out, err), told = preloaded(library, run.words, ROOT, tell, **{number: str(at)}, **variables)
        if told != b"x":
            return
        yield (status, err, *run.found()), out == run.answer[1]


def killed_at_each_step(run, library):
    """Killed before each call by which it changes files: as before, with a part from the draft's making on, and never
    after the rename, which is the last of them."""
    ends = [end for end, _ in at_each(run, library, "STEP_TELL", "STEP_NUMBER")]
    drafted = [end for end in ends if end[3]]
    yield "killed before each step: as before", {end[:3] for end in ends}, {(KILLED, b"", "before")}
    yield "killed before each step: parts", (ends[-len(drafted) :], len(drafted) > 5), (drafted, True)
    yield "killed before each step: one part", {end[3] for end in drafted}, {1}


def refused_at_each_step(run, library):
    """No space at each of these calls: as before, and no part; the outcome is whole where the journal is refused."""
    ends = list(at_each(run, library, "STEP_TELL", "STEP_NUMBER", STEP_REFUSED="1"))
    ends_so = {(4, OUTPUT, "before", 0), (4, unwritten(run.file), "before", 0)}
    yield "refused at each step", {end for end, _ in ends}, ends_so
    yield "refused at each step: outcomes", {whole for _, whole in ends}, {False, True}


def refused_allocations(run, library):
    """No memory for each allocation: where the run ends with 0 the journal is whole, or lacks the line that has failed;
    else it is as before. No part is left."""
    ends = [end for end, _ in at_each(run, library, "REFUSE_TELL", "REFUSE_NUMBER")]
    found = {(status, what, parts) for status, _, what, parts in ends}
    done = {(0, "whole", 0), (0, "replays", 0)}
    yield "refused allocations of a run with a journal", found - done, {(3, "before", 0), (4, "before", 0)}


def killed_at_random(run, times):
    """Killed after any time: as before or whole, with at most one part."""
    ends = set()
    for _ in range(times):
        run.again()
        process = subprocess.Popen([BUILT, *run.words], stdout=subprocess.DEVNULL, stderr=subprocess.DEVNULL)
        time.sleep(random.uniform(0, 1.1 * run.takes))
        process.kill()
        status, (what, parts) = process.wait(), run.found()
        right = status == KILLED and what in {"before", "whole"} and parts < 2
        ends.add("right" if right or (status, what, parts) == (0, "whole", 0) else (status, what, parts))
    yield f"killed at {times} random times", ends, {"right"}


def pairs(one, other, times):
    """Two runs at once: both end with 0, one of the journals stands there whole, and no part is left."""
    ends = set()
    for _ in range(times):
        one.again()
        both = [subprocess.Popen([BUILT, *run.words], stdout=subprocess.DEVNULL) for run in (one, other)]
        statuses = [process.wait(timeout=60) for process in both]
        whole = one.file.read_bytes() in (one.journal, other.journal)
        ends.add((*statuses, whole, len(one.parts())))
    yield f"{times} pairs at once", ends, {(0, 0, True, 0)}


def limits(run):
    """A file at its size limit: as before, and no part."""
    for limit in [0, 1, 64]:
        run.again()
        shell = ["bash", "-c", f'ulimit -f {limit} && exec "$@"', "bash", ROOT / "quotafs"]
        done = subprocess.run([*shell, *run.words], capture_output=True, timeout=60)
        answer = done.returncode, done.stderr, run.found(), done.stdout == run.answer[1]
        yield f"a file at its limit of {limit} KiB", answer, (4, unwritten(run.file), ("before", 0), True)


def taken(work):
    """What a journal must not be written over, under other names, too: nothing runs, and all stays as it was."""
    config, script, link, twin = [work / f"taken.{name}" for name in ["toml", "txt", "link", "twin"]]
    config.write_bytes(CONFIG.read_bytes())
    script.write_bytes(b"no line\n")
    link.symlink_to(script.name)
    twin.hardlink_to(config)
    texts = config.read_bytes(), script.read_bytes()
    for name, what in [
        (config, "the configuration"),
        (twin, "the configuration"),
        (f"{work}/./{config.name}", "the configuration"),
        (script, "script 2"),
        (link, "script 2"),
        (f"{work}/../{work.name}/{script.name}", "script 2"),
    ]:
        answer = call(["run", "--config", config, "--journal", name, "/dev/null", script])
        told = b"error: the journal would be written over %s\n" % what.encode()
        kept = config.read_bytes(), script.read_bytes()
        yield f"a journal over {name}", (answer, kept), ((2, b"", told), texts)


def outputs(work):
    """Standard output in a file, under each of its names; what was there before stays."""
    file = work / "taken.out"
    for name in [file, "/dev/stdout", "/dev/fd/1", "/proc/self/fd/1", "/dev/fd/7"]:
        file.write_bytes(b"before\n")
        words = [BUILT, "run", "--config", CONFIG, "--journal", name, f"{FIRST}.txt"]
        shell = ["bash", "-c", f'exec "$@" >>{file} 7>&1', "bash", *words]
        done = subprocess.run(shell, stderr=subprocess.PIPE, timeout=60)
        answer = done.returncode, done.stderr, file.read_bytes()
        told = b"error: the journal would be written over the output\n"
        yield f"a journal over the output {name}", answer, (2, told, b"before\n")


def others(work):
    """What is no regular file is written behind the outcome: a FIFO, a descriptor, a device that is the output, too."""
    outcome, held = FIRST.with_suffix(".0.out").read_bytes(), work / "held"
    words = ["run", "--config", CONFIG, "--journal"]
    os.mkfifo(work / "fifo")
    told = []
    reader = Thread(target=lambda: told.append((work / "fifo").read_bytes()), daemon=True)
    reader.start()
    answer = call([*words, work / "fifo", f"{FIRST}.txt"])
    reader.join(timeout=60)
    yield "a journal to a FIFO", (answer, told), ((0, outcome, b""), [BEFORE])
    with open(held, "wb") as file:
        number = file.fileno()
        answer = call([*words, f"/dev/fd/{number}", f"{FIRST}.txt"], pass_fds=[number])
    yield "a journal to a descriptor", (answer, held.read_bytes()), ((0, outcome, b""), BEFORE)
    with open("/dev/null", "wb") as null:
        done = subprocess.run([BUILT, *words, "/dev/null", f"{FIRST}.txt"], stdout=null, timeout=60)
    yield "a journal and an outcome to one device", done.returncode == 0, True


def places(work):
    """Symbolic links, permissions, and names that are taken: the file is the one that the name leads to."""
    folder, text = work / "places", f"{FIRST}.txt"
    folder.mkdir()
    target, link, lost = folder / "target", folder / "link", folder / "lost"
    target.write_bytes(b"before\n")
    target.chmod(0o640)
    link.symlink_to("target")
    lost.symlink_to("nothing")
    long = work / ("n" * 239)
    for name in [link, lost, long]:
        call(["run", "--config", CONFIG, "--journal", name, text])
    found = link.is_symlink(), target.read_bytes(), target.stat().st_mode & 0o777
    yield "a journal through a link", found, (True, BEFORE, 0o640)
    yield "a journal in the place of a link to nothing", (lost.is_symlink(), lost.read_bytes()), (False, BEFORE)
    yield "no parts of these", sorted(file.name for file in folder.iterdir()), ["link", "lost", "target"]
    yield "a name of 239 bytes", long.read_bytes() if long.exists() else None, BEFORE


def checks(work):
    """Each check's name, its answer, and the wanted one."""
    steps, refuse = built(work, "steps"), built(work, "refuse")
    long = Run(work, "long", b"0 0:0 stat /\n", 20_000)
    short = Run(work, "short", b"0 0:0 quota user 0\n", 5_000)
    least = Run(work, "least", b"0 0:0 stat /\n", 2)
    yield "a journal of a run", (long.answer[0], long.journal[: len(HEAD)]), (0, HEAD)
    yield from killed_at_each_step(long, steps)
    yield from refused_at_each_step(long, steps)
    yield from refused_allocations(least, refuse)
    yield from killed_at_random(long, 60)
    yield from pairs(long, short, 20)
    yield from pairs(least, short, 20)
    yield from limits(long)
    yield from [*taken(work), *outputs(work), *others(work), *places(work)]
