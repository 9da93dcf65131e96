"""Runs of several scripts: what holds of them in every schedule. Each journal is replayed, and has to give the run's
outcome again, but for the lines that failed.

Beside an empty script any other has one outcome: its own, with a worker who was answered nothing."""
import re
import tempfile
from pathlib import Path

from rows import EMPTY, EXAMPLE, FAILED, HEAD, WITHOUT, Case, call, journal_of, played, unwritten

DONE, NO_SPACE = b"done %d blocks +0 -0 inodes +1 -0", b"refused ENOSPC"
TWO = HEAD.replace(b"workers 1", b"workers 2")


# Two workers' scripts that create three files each, where five have room.
SIX_FILES = [b"".join(b"0 1001:0,100 create /%c\n" % name for name in names) for names in [b"abc", b"def"]]
SIX_REPLIES = [*(DONE % ino for ino in range(2, 7)), NO_SPACE]


def run(work, scripts, *options, config=EXAMPLE):
    """The answer of a run of these scripts, its journal, and what a replay of that answers."""
    names = []
    for number, script in enumerate(scripts, 1):
        names.append(work / f"worker.{number}")
        names[-1].write_bytes(script)
    journal = work / "workers.journal"
    answer = call(["run", "--config", config, "--journal", journal, *options, *names])
    return answer, journal.read_bytes(), call(["replay", "--config", config, journal])


def replies_of(journal):
    """The replies of a journal in its order."""
    return [line.partition(b" => ")[2] for line in journal.splitlines()[1:]]


def comes_again(answer, again):
    """Whether a replay gives a run's outcome again, but for its failed lines."""
    return again == (0, re.sub(rb"^- failed \w+\n", b"", answer[1], flags=re.M), b"")


class Workers(Case):
    """Two workers whose journal goes to the output, behind the outcome: which of several comes is open."""

    def __init__(self, name, work, scripts, *options):
        self.work, self.counts = work, [script.count(b"\n") for script in scripts]
        names = [work / f"{name.replace(' ', '_')}.{number}" for number in (1, 2)]
        for path, script in zip(names, scripts):
            path.write_bytes(script)
        words = ["run", "--config", EXAMPLE, "--journal", "/dev/stdout", *options, *names]
        super().__init__(name, words, 0, refuses=True)

    def is_whole(self, outcome):
        """Whether each worker has as many answers as lines, of which at most one has failed."""
        told = re.fullmatch(rb"worker 1\n(.*)worker 2\n(.*)^quota at 0\n.*^audit ok\n", outcome, re.M | re.S)
        counts = told and [answers.count(b"\n") for answers in told.groups()]
        return counts == self.counts and outcome.count(b"- failed ") == outcome.count(FAILED) <= 1

    def comes_again(self, outcome, journal):
        """Whether the journal, replayed, gives the outcome again, and has an entry for each line that has not failed."""
        with tempfile.NamedTemporaryFile(dir=self.work) as file:
            Path(file.name).write_bytes(journal)
            again = call(["replay", "--config", EXAMPLE, file.name])
        entries = sum(self.counts) - outcome.count(FAILED)
        return journal.count(b"\n") == 1 + entries and comes_again((0, outcome, b""), again)

    def ending(self, answer):
        status, out, err = answer
        outcome, head, entries = out.partition(TWO)
        if status == 3:
            return WITHOUT.get(answer)
        if not self.is_whole(outcome):
            return None
        if (status, head, err) == (4, b"", unwritten("/dev/stdout")):
            return "no journal" if FAILED not in outcome else None
        if (status, err) != (0, b"") or not self.comes_again(outcome, head + entries):
            return None
        return "a failed line" if FAILED in outcome else "unchanged"

    def is_right(self):
        return self.ending(self.answer) == "unchanged"


def two_workers(work):
    """Two workers beside each other, each allocation of whom is refused in turn."""
    yield Workers("six files", work, SIX_FILES)
    yield Workers("files apart", work, [
        b"0 1001:0,100 create /a\n1 1001:0,100 write /a 0 78\n2 1001:0,100 stat /a\n3 1001:0,100 unlink /a\n",
        b"0 0:0 mkdir /d\n0 0:0 create /d/e\n1 0:0 fill /d/e 0 8192 7a\n2 0:0 read /d/e 8190 4\n3 0:0 link /d/e /f\n"])
    yield Workers("one file", work, [
        b"0 0:0 create /a\n0 0:0 write /a 0 78\n1 0:0 rename /a /b\n2 0:0 unlink /b\n",
        b"0 0:0 create /a\n5 0:0 write /a 4096 79\n5 0:0 setquota user 1001 1 2 3 4\n6 0:0 quota user 1001\n"])


def beside_empty(_):
    """The worked examples, behind an empty script and before one, with their journals."""
    for out, config, script, refuses in played():
        if not refuses:
            continue
        outcome, lines = out.read_bytes(), script.read_bytes().splitlines(keepends=True)
        name, entries = f"{out.parent.name}/{out.name}", journal_of(lines, outcome).removeprefix(HEAD)
        head = ["run", "--config", config, "--at", out.name.split(".")[1], "--journal", "/dev/stdout"]
        told = outcome.replace(b"\nquota at ", b"\nworker 2\nquota at ", 1)
        yield Case(f"{name}, before an empty script", [*head, script, EMPTY], 0, told + TWO + entries)
        told = outcome.replace(b"worker 1\n", b"worker 1\nworker 2\n", 1)
        entries = re.sub(rb"^1 ", b"2 ", entries, flags=re.M)
        yield Case(f"{name}, behind an empty script", [*head, EMPTY, script], 0, told + TWO + entries)


def places_files(work):
    """Two workers that create three files each, where five have room: whether the journal has them in its order."""
    answer, journal, again = run(work, SIX_FILES)
    return comes_again(answer, again) and replies_of(journal) == SIX_REPLIES


def checks(work):
    """Each check's name, and whether what it says holds."""
    yield "two workers, six files, 50 runs", all(places_files(work) for _ in range(50)), True
    calls = b"".join(b"%d 1001:0,100 %s\n" % (at, call) for at in range(1_024) for call in [
        b"create /a", b"write /a 0 78", b"stat /a", b"unlink /a"])
    answer, _, again = run(work, [calls] * 16)
    yield "16 scripts of 4,096 lines", comes_again(answer, again), True
    for scripts, lines, *batch in [(2, 32_769), (2, 32_769, "--batch", "64"), (16, 65_536)]:
        answer, journal, again = run(work, [b"0 0:0 stat /\n" * lines] * scripts, *batch)
        told = answer[1].count(b"- failed "), journal.count(b"\n"), comes_again(answer, again)
        yield f"{scripts} scripts of {lines:,} lines{' in batches' * bool(batch)}", told, (0, 1 + scripts * lines, True)
