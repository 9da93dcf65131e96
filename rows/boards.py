"""Boards that a run shows, and lines that a worker takes together: what holds of them in every schedule.

The boards are checked against the journal here, too: each has the totals that the replies of as many entries make."""
import os
import re
import subprocess
from contextlib import contextmanager

from rows import ROWS, EMPTY, EXAMPLE, ROOT, Case, played
from workers import SIX_FILES, SIX_REPLIES, Workers, comes_again, replies_of, run

LOOKS = re.compile(rb"^boards (\d+)\n((?:board .*\n)*)(?=quota at )", re.M)
SHOWN = re.compile(rb"board (\d+) blocks (\d+) inodes (\d+)\n")
DONE = re.compile(rb"done \d+ blocks \+(\d+) -(\d+) inodes \+(\d+) -(\d+)")
FIRST, FAILED_LOOK = b"board 0 blocks 0 inodes 1\n", b"board - failed OutOfMemory\n"
NO_TEXT = (ROWS / "a/empty.0.out").read_bytes()


def parted(outcome):
    """An outcome without the lines of its boards, and these lines, but for the first: it tells how many they are."""
    told = LOOKS.search(outcome)
    if not told:
        return outcome, []
    looks = told[2].splitlines(keepends=True)
    return outcome[: told.start()] + outcome[told.end() :], looks if len(looks) == int(told[1]) > 0 else None


def totals_of(journal):
    """The blocks and the inodes after each number of entries of a journal, from none on, by its replies."""
    blocks, inodes = 0, 1
    yield blocks, inodes
    for reply in replies_of(journal):
        change = DONE.fullmatch(reply)
        if change:
            charged, released, made, gone = map(int, change.groups())
            blocks, inodes = blocks + charged - released, inodes + made - gone
        yield blocks, inodes


def are_lawful(looks, journal):
    """Whether each board that was shown is the journal's, and no version falls."""
    totals, last = list(totals_of(journal)), 0
    for look in looks:
        version, *shown = map(int, SHOWN.fullmatch(look).groups())
        if not last <= version < len(totals) or totals[version] != tuple(shown):
            return False
        last = version
    return True


class NoCalls(Case):
    """The boards of a run without a call, of which a look may fail."""

    def ending(self, answer):
        status, out, err = answer
        if FAILED_LOOK in out:
            told = status, out.replace(FAILED_LOOK, FIRST, 1), err
            return "a failed look" if told == self.answer else None
        return super().ending(answer)


class Shown(Workers):
    """Two workers and boards beside them. The thread that takes the boards counts as a third worker."""

    def __init__(self, name, work, scripts, looks, *options):
        self.looks = looks
        super().__init__(name, work, scripts, "--boards", str(looks), *options)

    def ending(self, answer):
        status, out, err = answer
        if status == 3:
            third = err == b"quotafs: worker 3 not started\n" and not out
            return "not started" if third else super().ending(answer)
        rest, looks = parted(out)
        if not looks or len(looks) != self.looks:
            return None
        shown = [look for look in looks if look != FAILED_LOOK]
        if not all(map(SHOWN.fullmatch, shown)):
            return None
        ending, failed = super().ending((status, rest, err)), len(looks) - len(shown)
        if status == 0 and not are_lawful(shown, rest[rest.find(b"quotafs journal ") :]):
            return None
        if failed:
            return "a failed look" if (ending, failed) == ("unchanged", 1) else None
        return ending


def fixed(_):
    """What no schedule changes: boards of a store without a call, and one script in batches. Numbers that are refused
    stand in command_lines.rows."""
    head = ["run", "--config", EXAMPLE]
    told = NO_TEXT.replace(b"quota at ", b"boards 2\n" + FIRST * 2 + b"quota at ", 1)
    yield NoCalls("two boards of an empty script", [*head, "--boards", "2", EMPTY], 0, told, refuses=True)
    yield Case("no boards", [*head, "--boards", "0", EMPTY], 0, NO_TEXT)
    many = NO_TEXT.replace(b"worker 1\n", b"".join(b"worker %d\n" % worker for worker in range(1, 17)), 1)
    yield Case("16 scripts, --boards 0", [*head, "--boards", "0", *[EMPTY] * 16], 0, many)
    for out, config, script, _ in played():
        name = f"{out.parent.name}/{out.name}, in batches"
        words = ["run", "--config", config, "--at", out.name.split(".")[1], "--batch", "2", script]
        yield Case(name, words, 0, out.read_bytes())


def beside_workers(work):
    """Two workers and a few boards, each allocation of whom is refused in turn."""
    scripts = [
        b"0 1001:0,100 create /a\n1 1001:0,100 write /a 0 78\n2 1001:0,100 unlink /a\n",
        b"0 0:0 mkdir /d\n0 0:0 create /d/e\n1 0:0 fill /d/e 0 8192 7a\n"]
    yield Shown("boards beside two workers", work, scripts, 3)
    yield Shown("boards beside batches", work, scripts, 3, "--batch", "2")
    yield Workers("two workers in batches", work, scripts, "--batch", "64")


def holds_files(work):
    """Two workers that create three files each, where five have room, all of a script under one lock."""
    answer, journal, again = run(work, SIX_FILES, "--batch", "64")
    makers = [line[:1] for line in journal.splitlines()[1:]]
    apart = makers in ([b"1"] * 3 + [b"2"] * 3, [b"2"] * 3 + [b"1"] * 3)
    return apart and comes_again(answer, again) and replies_of(journal) == SIX_REPLIES


def busy(worker, times):
    """A script that makes and takes away a file of its own again and again: four lines each time."""
    calls = [b"create /%d", b"write /%d 0 78", b"stat /%d", b"unlink /%d"]
    return b"".join(b"%d 1001:0,100 %s\n" % (at, call % worker) for at in range(times) for call in calls)


@contextmanager
def one_processor():
    """Runs that begin meanwhile have one processor for all of their threads."""
    allowed = os.sched_getaffinity(0)
    os.sched_setaffinity(0, {min(allowed)})
    try:
        yield
    finally:
        os.sched_setaffinity(0, allowed)


def watched(work, scripts, *options, config=EXAMPLE):
    """A run with 1000 boards: whether they are its journal's and that comes again, the outcome without them, the
    journal, and the versions that were shown."""
    (status, out, err), journal, again = run(work, scripts, "--boards", "1000", *options, config=config)
    rest, looks = parted(out)
    whole = looks and len(looks) == 1_000 and all(map(SHOWN.fullmatch, looks)) and are_lawful(looks, journal)
    versions = {look.split()[1] for look in looks} if looks else set()
    return bool(whole and comes_again((status, rest, err), again)), rest, journal, versions


def crowd(work, *options):
    """A run of 15 busy workers and 1000 boards: whether all holds of it, and the versions that were shown."""
    scripts = [busy(worker, 1_024) for worker in range(1, 16)]
    right, _, journal, versions = watched(work, scripts, *options)
    head = journal.startswith(b"quotafs journal 2 workers 15\n") and journal.count(b"\n") == 1 + 15 * 4_096
    return right and head, versions


def six_rows(work):
    """Whether 1000 boards beside a worker that gives a file to another user, group and project, and back, on and on,
    leave its outcome: each such call changes six rows of a board, and the run holds each board against its journal, row
    by row. The last call is that of a row of rows/, and so is the report."""
    row = ROWS / "projects/a_chown_changes_six_rows.txt"
    *begin, there = row.read_bytes().splitlines(keepends=True)
    back, reply = b"0 0:0 chown /w/a 1001 0 7\n", b"%d done 3 blocks +0 -0 inodes +0 -0\n"
    script, first, last = b"".join(begin) + there + (back + there) * 20_000, len(begin) + 1, len(begin) + 40_001
    told = row.with_suffix(".0.out").read_bytes()
    told = told.replace(reply % first, b"".join(reply % place for place in range(first, last + 1)), 1)
    told = told.replace(b" calls %d\n" % first, b" calls %d\n" % last)
    right, rest, _, versions = watched(work, [script], config=row.parent / "config.toml")
    return right and rest == told and len(versions) > 1


def in_batches(work, batch):
    """Whether runs of longer scripts than a lock is held for come again, and that of one script is as it is line by
    line."""
    one, several = [busy(1, 50)], [busy(worker, 50) for worker in range(1, 4)]
    answer, journal, again = run(work, several, "--batch", str(batch))
    alone = run(work, one, "--batch", str(batch))
    return comes_again(answer, again) and journal.count(b"\n") == 1 + 3 * 200 and alone == run(work, one)


def example():
    """Whether examples/boards shows what it says of every run: a file has two blocks or none."""
    done = subprocess.run([ROOT / "examples/boards"], capture_output=True, timeout=60)
    *lines, totals = done.stdout.splitlines() or [b""]
    told = [re.fullmatch(rb" *(\d+) board (\d+) blocks (\d+) inodes (\d+)", line) for line in lines]
    if (done.returncode, done.stderr, totals) != (0, b"", b"totals blocks 0 of 1024 inodes 1 of 64") or not all(told):
        return False
    boards = [tuple(map(int, line.groups())) for line in told]
    versions = [version for _, version, _, _ in boards]
    fit = all(blocks % 2 == 0 and blocks <= 2 * (inodes - 1) <= 30 for _, _, blocks, inodes in boards)
    rise = versions == sorted(set(versions)) and versions[-1] <= 15 * 600
    return fit and rise and len(versions) > 1 and sum(times for times, *_ in boards) == 1_000


def checks(work):
    """Each check's name, and whether what it says holds."""
    yield "two workers, six files, batches of 64, 50 runs", all(holds_files(work) for _ in range(50)), True
    runs = [crowd(work, *options) for options in [(), (), ("--batch", "64"), ("--batch", "7")]]
    yield "15 workers and 1000 boards", all(right for right, _ in runs), True
    with one_processor():
        alone = [crowd(work), crowd(work, "--batch", "7")]
    yield "15 workers and 1000 boards, one processor", all(right for right, _ in alone), True
    yield "15 workers and 1000 boards: the course of use", any(len(versions) > 1 for _, versions in runs), True
    yield ".. on one processor", any(len(versions) > 1 for _, versions in alone), True
    yield "1000 boards beside chowns that change six rows", six_rows(work), True
    yield "examples/boards", example(), True
    for batch in [1, 2, 63, 64]:
        yield f"batches of {batch}", in_batches(work, batch), True
