"""What a run tells on a terminal while it goes on: one line, which is written over, for each 4,096 lines of a worker,
and is taken away at the end. Where standard error is no terminal, all other checks see that it tells nothing.
"""
import os
import pty
import subprocess

from rows import BUILT, EXAMPLE

CLEARED = b"\r\x1b[K"


def told_on_terminal(words):
    """The status of a run, and what it told on a terminal that stands for standard error."""
    here, there = pty.openpty()
    with subprocess.Popen([BUILT, *words], stdout=subprocess.DEVNULL, stderr=there) as run:
        os.close(there)
        told = b""
        # Where the last writer of a terminal has gone, a read fails.
        try:
            while piece := os.read(here, 4096):
                told += piece
        except OSError:
            pass
        status = run.wait(60)
    os.close(here)
    return status, told


def progress(lines, *done):
    return b"".join(b"\r%d of %d lines" % (made, lines) for made in done) + CLEARED


def scripts(work, *counts):
    """Scripts of so many lines."""
    names = [work / f"terminal.{place}.{count}" for place, count in enumerate(counts)]
    for name, count in zip(names, counts):
        name.write_bytes(b"0 0:0 stat /\n" * count)
    return names


def checks(work):
    """Each run's name, its answer, and the one that is wanted."""
    for name, options, counts, told in [
        ("a long run", [], [10_000], progress(10_000, 4096, 8192)),
        ("a run of 4,095 lines", [], [4095], b""),
        ("batches of three lines", ["--batch", "3"], [10_000], progress(10_000, 4098, 8196)),
        ("two workers, one of them short", [], [5000, 4000], progress(9000, 4096)),
    ]:
        words = ["run", "--config", EXAMPLE, *options, *scripts(work, *counts)]
        yield f"{name} on a terminal", told_on_terminal(words), (0, told)
    words = ["run", "--config", EXAMPLE, *scripts(work, 5000, 5000)]
    status, told = told_on_terminal(words)
    parts = told.removesuffix(CLEARED).split(b"\r")
    wanted = [b"", b"4096 of 10000 lines", b"8192 of 10000 lines"]
    yield "two long workers on a terminal", (status, sorted(parts), told.endswith(CLEARED)), (0, wanted, True)
    words = ["run", "--config", EXAMPLE, work / "not_there"]
    yield "a fault on a terminal", told_on_terminal(words), (2, f"quotafs: cannot read {work}/not_there\r\n".encode())
