"""Starts of threads that are refused: the worker is named, no later one is started, and nothing is printed. And starts
that are not to be refused, where there is little address space."""
import subprocess
from collections import Counter

from outputs import limited
from rows import ROWS, EMPTY, EXAMPLE, ROOT, preloaded

LIMIT = 200 * 1024  # KiB of address space in which 16 workers have to start
RUNS = 20


def built(work):
    library = work / "starts.so"
    subprocess.run(["cc", "-O2", "-shared", "-fPIC", "-o", library, ROWS / "starts.c"], check=True)
    return library


def refused(library, scripts, boards, number):
    """The answer of a run whose start of that number is refused, and what was told of it and of later starts."""
    words = ["run", "--config", EXAMPLE, "--boards", str(boards), *[EMPTY] * scripts]
    return preloaded(library, words, ROOT, "START_TELL", START_NUMBER=str(number))


def own_files(worker):
    """A script of 254 lines: files of a directory of its own, each made, written, looked at and taken away."""
    calls = [f"mkdir /{worker}"]
    for path in (f"/{worker}/{file}" for file in range(63)):
        calls += [f"create {path}", f"fill {path} 0 4096 61", f"stat {path}", f"unlink {path}"]
    return "".join(f"0 0:0 {call}\n" for call in [*calls, f"rmdir /{worker}"])


def with_little_space(work):
    """How 16 workers end, run after run, where the address space has a limit: by ./quotafs, as a user has it."""
    scripts = [work / f"little.{worker}" for worker in range(1, 17)]
    for worker, script in enumerate(scripts, 1):
        script.write_text(own_files(worker))
    words = [ROOT / "quotafs", "run", "--config", ROOT / "examples/farm.toml", *scripts]
    ends = Counter(limited(f"-v {LIMIT}", words) for _ in range(RUNS))
    yield f"16 scripts under {LIMIT} KiB of address space", ends, Counter({(0, b""): RUNS})


def checks(work):
    """Each check's name, and whether what it says holds."""
    library = built(work)
    for scripts, boards in [(1, 0), (3, 0), (3, 2), (15, 1), (16, 0)]:
        # Each text but the last is read in a thread of its own, or where that cannot be started by who would start it.
        readers, threads = scripts - 1, scripts + (boards > 0)
        starts = readers + threads
        ever, told = refused(library, scripts, boards, starts + 1)
        yield f"{scripts} scripts, {boards} boards: no start more", (ever[0], ever[2], told), (0, b"", b"")
        answers = [refused(library, scripts, boards, number) for number in range(1, starts + 1)]
        wanted = [(ever, b"x" + b"y" * (starts - number)) for number in range(1, readers + 1)]
        wanted += [((3, b"", b"quotafs: worker %d not started\n" % worker), b"x") for worker in range(1, threads + 1)]
        yield f"{scripts} scripts, {boards} boards: each start refused", answers, wanted
    yield from with_little_space(work)
