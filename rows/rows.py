"""The rows of rows/, read: what the program is run on, and what it has to answer.

- FOLDER/ROW.txt is a script, FOLDER/config.toml its configuration, and FOLDER/ROW.MOMENT.out the whole text that it
  prints with the report at that moment. The folder `examples` has the answers for the scripts of examples/, where a
  script has the configuration of its name, or else farm.toml.
- configs/THEME.rows: a line is a list of old and new pieces of configs/good.toml, in pairs, and last what is then told:
  a fault, or a line that the outcome of the empty script has. configs/clients.toml is another good one.
- scripts/THEME.rows: a line is the bytes of a script, and its fault.
- ROW.journal beside ROW.txt is the whole journal of that run; that of any other row is put together of the script and
  of the answers in ROW.MOMENT.out (`journal_of`).
- journals/ROW.journal is a journal, and journals/ROW.0.out the whole text that its replay prints; likewise in
  project_journals, whose configuration has projects.
- journals/THEME.rows: a line is the bytes of a journal, and its fault, or the place of a reply that does not fit;
  likewise in project_journals.
- renames/THEME.rows: a line is a caller, the two paths of a rename after renames/before.txt, the step of its call that
  decides, its answer, and what a stat of some paths answers then.
- options/ROW.words: the status, and the words of a run in the folder `rows`; ROW.in is what stands on its standard
  input, ROW.out and ROW.err what it prints, each nothing where it is not there.
- command_lines.rows: a line is the words, the status, the output and the error output, in the folder `a`. Two dots at
  the end stand for any further text: what faults of the command line say is the library's.
"""
import json
import os
import subprocess
from functools import cached_property
from pathlib import Path

ROOT = Path(__file__).resolve().parent.parent
ROWS = ROOT / "rows"
BUILT = ROOT / "crates/quotafs/out/quotafs"
EXAMPLE = ROWS / "a/config.toml"
EMPTY = ROWS / "a/empty.txt"
# The folders of the worked examples of the formats, and of examples/.
WORKED = "a", "a0", "a0_group_blocks", "a0_group_inodes", "a_projects", "examples"
# The folders of journals, each with its configuration.
JOURNALS = "journals", "project_journals"
FAILED = b"- failed OutOfMemory\n"
MEMORY = b"quotafs: memory\n"
# How a run may end without an outcome where an allocation is refused.
WITHOUT = {
    (3, b"", MEMORY): "memory",
    (3, b"", b"quotafs: no reader\n"): "no reader",
    **{(3, b"", b"quotafs: worker %d not started\n" % worker): "not started" for worker in (1, 2)},
}
HEAD = b"quotafs journal 2 workers 1\n"


def unwritten(file):
    """What is told where no journal can be written to a file."""
    return f"quotafs: cannot write {file}\n".encode()


def call(words, program=BUILT, folder=ROOT, **further):
    """Status, output and error output of a run."""
    done = subprocess.run([program, *words], capture_output=True, cwd=folder, timeout=60, **further)
    return done.returncode, done.stdout, done.stderr


def preloaded(library, words, folder, tell, **variables):
    """The answer of a run with a C library before all others, and what that tells to the descriptor in a variable."""
    end, told = os.pipe()
    env = dict(os.environ, LD_PRELOAD=str(library), **{tell: str(told)}, **variables)
    answer = call(words, folder=folder, env=env, pass_fds=[told])
    os.close(told)
    with open(end, "rb") as tellings:
        return answer, tellings.read()


def is_as(text, wanted):
    """Whether a text is the wanted one, or begins so and goes on where two dots stand at the end."""
    if wanted.endswith(b".."):
        return text.startswith(wanted[:-2]) and len(text) > len(wanted) - 2
    return text == wanted


class Case:
    """A run of the program, and its answer. Where it `refuses`, each of its allocations is refused in turn, too."""

    def __init__(self, name, words, status, out=b"", err=b"", folder=ROOT, refuses=False, given=b""):
        self.name, self.words, self.folder, self.refuses, self.given = name, words, folder, refuses, given
        self.status, self.out, self.err = status, out, err

    @cached_property
    def answer(self):
        return call(self.words, folder=self.folder, input=self.given)

    def is_right(self):
        status, out, err = self.answer
        return status == self.status and is_as(out, self.out) and is_as(err, self.err)

    def ending(self, answer):
        """How a run ends in which one allocation was refused, or None where it may not end so."""
        return "unchanged" if answer == self.answer else WITHOUT.get(self.without_faults(answer))

    def without_faults(self, answer):
        """The answer of a check without the faults that it has told, as with ample memory, before memory was wanting."""
        status, out, err = answer
        told = err.removesuffix(MEMORY)
        return (status, out, MEMORY) if self.words[:1] == ["check"] and self.answer[2].startswith(told) else answer


class Change(Case):
    """A changed configuration that is read: the outcome of the empty script has this line."""

    def is_right(self):
        status, out, err = self.answer
        return (status, err) == (0, b"") and self.out in out.splitlines()


class Rename(Case):
    """A rename after other lines, and the answers to it and to the lines behind it."""

    def is_right(self):
        status, out, err = self.answer
        told = [line.partition(b" ")[2] for line in out.splitlines() if line[:1].isdigit()]
        return (status, err) == (0, b"") and told[-len(self.out) :] == self.out and out.endswith(b"\naudit ok\n")


class Row(Case):
    """A script at a moment, and the whole text that it prints."""

    def __init__(self, out, config, script, refuses, work, further=()):
        name, moment, _ = out.name.split(".")
        self.config = config
        self.head = ["run", "--config", config, "--at", moment, *further]
        self.lines = script.read_bytes().splitlines(keepends=True)
        self.shorter = {}
        self.work = work / f"{out.parent.name}.{name}.{moment}"
        name = f"{out.parent.name}/{name} at {moment}"
        super().__init__(name, [*self.head, script], 0, out.read_bytes(), refuses=refuses)

    def without(self, failed):
        """The answer to the script without a line, which is told as having failed."""
        if failed not in self.shorter:
            self.work.write_bytes(b"".join(self.lines[:failed] + self.lines[failed + 1 :]))
            status, out, err = call([*self.head, self.work])
            told = out.splitlines(keepends=True)
            told.insert(1 + failed, FAILED)
            self.shorter[failed] = (status, b"".join(told), err)
        return self.shorter[failed]

    def ending(self, answer):
        told = answer[1].splitlines(keepends=True)
        if FAILED in told:
            return "a failed line" if answer == self.without(told.index(FAILED) - 1) else None
        return super().ending(answer)


class JournalRow(Row):
    """A run whose journal goes to its output, behind the outcome."""

    def __init__(self, out, config, script, refuses, work):
        super().__init__(out, config, script, refuses, work / "journaled", ["--journal", "/dev/stdout"])
        self.name += ", journal"
        self.outcome, whole = self.out, script.with_suffix(".journal")
        self.journal = journal_of(self.lines, self.out)
        self.out += whole.read_bytes() if whole.exists() else self.journal

    def ending(self, answer):
        no_file = 4, self.outcome, unwritten("/dev/stdout")
        return "no journal" if answer == no_file else super().ending(answer)


def entry_of(line, reply):
    """The entry of a line of a script: `fill` as the write that it is, and data in lower case."""
    moment, caller, verb, *words = line.split()
    if verb == b"fill":
        path, offset, count, byte = words
        verb, words = b"write", [path, offset, byte * int(count) or b"-"]
    if verb == b"write":
        words[2] = words[2].lower()
    return b" ".join([b"1", moment, caller, verb, *words, b"=>", reply]) + b"\n"


def journal_of(lines, out):
    """The journal of a script, none of whose lines has failed, by the answers in its outcome."""
    told = out.splitlines()[1 : 1 + len(lines)]
    replies = [line.removeprefix(b"%d " % place) for place, line in enumerate(told, 1)]
    return HEAD + b"".join(entry_of(line, reply) for line, reply in zip(lines, replies, strict=True))


def shown_call(verb, words):
    """A call as `--calls` shows it: data in lower case, and more than 32 equal bytes as a fill."""
    if verb not in (b"write", b"fill"):
        return [verb, *words]
    if verb == b"fill":
        path, offset, count, byte = words
        data = byte.lower() * int(count)
    else:
        path, offset, data = words[0], words[1], words[2].lower().removeprefix(b"-")
    count, byte = len(data) // 2, data[:2]
    if count > 32 and data == byte * count:
        return [b"fill", path, offset, b"%d" % count, byte]
    return [b"write", path, offset, data or b"-"]


class Calls(Case):
    """A run that shows its calls: each reply stands behind the place and the call of its line, and all else is as ever."""

    def __init__(self, row):
        told = row.out.splitlines(keepends=True)
        for place, line in enumerate(row.lines, 1):
            moment, caller, verb, *words = line.removesuffix(b"\n").split(b" ")
            shown = b" ".join([b"%d" % place, moment, caller, *shown_call(verb, words)])
            told[place] = shown + b" => " + told[place]
        super().__init__(f"{row.name}, calls", [*row.words[:-1], "--calls", row.words[-1]], 0, b"".join(told))


class Replay(Case):
    """The replay of a run's journal, which prints what the run does at moment 0."""

    def __init__(self, row, work):
        work.with_suffix(".replayed").write_bytes(row.journal)
        words = ["replay", "--config", row.config, work.with_suffix(".replayed")]
        super().__init__(f"{row.name}, replayed", words, 0, refuses=row.refuses)
        self.run = ["run", "--config", row.config, row.words[-1]]

    def is_right(self):
        return self.answer == call(self.run) and self.answer[0] == 0


def played():
    """The scripts that are run to their end: the outcome, the configuration, the script, and whether the run's
    allocations are refused, as those of the worked examples are."""
    for out in sorted(ROWS.glob("*/*.*.out")):
        folder, script = out.parent, out.name.split(".")[0] + ".txt"
        refuses = folder.name in WORKED or script == "one_call_of_each_kind.txt"
        if folder.name == "examples":
            own = (ROOT / "examples" / script).with_suffix(".toml")
            config = own if own.exists() else ROOT / "examples/farm.toml"
            yield out, config, ROOT / "examples" / script, refuses
        elif folder.name not in JOURNALS:
            yield out, folder / "config.toml", folder / script, refuses


def outcomes(work):
    """The scripts that are run to their end."""
    for row in played():
        yield Row(*row, work)


def calls(work):
    """The same scripts with their calls."""
    for row in outcomes(work):
        yield Calls(row)


def journals(work):
    """The same scripts with their journals, once each, and the replays of these."""
    rows = {script: (out, config, script, refuses) for out, config, script, refuses in played()}
    (work / "journaled").mkdir()
    for number, row in enumerate(rows.values()):
        run = JournalRow(*row, work)
        yield run
        yield Replay(run, work / str(number))


def replays(work):
    """Journals that are played, those that are refused, and those that do not fit."""
    for folder in JOURNALS:
        head = ["replay", "--config", ROWS / folder / "config.toml"]
        for journal in sorted((ROWS / folder).glob("*.journal")):
            out = journal.with_suffix(".0.out").read_bytes()
            yield Case(f"{folder}/{journal.stem}", [*head, journal], 0, out, refuses=True)
        for name, number, (text, told), file in listed(f"{folder}/*.rows"):
            (work / file).write_bytes(text.encode("latin-1"))
            status, fault = (3, told) if told.startswith("mismatch ") else (2, f"journal: {told}")
            yield Case(name, [*head, work / file], status, err=f"quotafs: {fault}\n".encode(), refuses=number == 1)


def listed(pattern):
    """The name, the number and the content of each line of the tables, and a name of a file of its own."""
    for table in sorted(ROWS.glob(pattern)):
        for number, line in enumerate(table.read_text().splitlines(), 1):
            name = f"{table.parent.name}/{table.stem}"
            yield f"{name} {number}", number, json.loads(line), f"{table.parent.name}.{table.stem}.{number}"


def configs(work):
    """Changes of the good configuration."""
    for name, number, (*pieces, told), file in listed("configs/*.rows"):
        text = (ROWS / "configs/good.toml").read_text()
        for old, new in zip(pieces[::2], pieces[1::2]):
            if old not in text:
                raise ValueError(f"{name}: no {old}")
            text = text.replace(old, new, 1)
        (work / file).write_text(text, newline="")
        words, refuses = ["run", "--config", work / file, EMPTY], number == 1
        if told.startswith("config: "):
            yield Case(name, words, 2, err=f"quotafs: {told}\n".encode(), refuses=refuses)
        else:
            yield Change(name, words, 0, told.encode(), refuses=refuses)


def scripts(work):
    """Scripts that are refused."""
    for name, number, (text, fault), file in listed("scripts/*.rows"):
        (work / file).write_bytes(text.encode("latin-1"))
        words = ["run", "--config", EXAMPLE, work / file]
        yield Case(name, words, 2, err=f"quotafs: script 1: {fault}\n".encode(), refuses=number == 1)


def renames(work):
    """Renames that cross what is renamed, what is replaced, rights and places."""
    folder = ROWS / "renames"
    callers = {"root": "0:0", "ann": "1000:100", "bob": "1001:0,100"}
    before = (folder / "before.txt").read_text()
    for name, _, (caller, old, new, step, answer, after), file in listed("renames/*.rows"):
        calls = [f"rename {old} {new}", *(f"stat {path}" for path in after)]
        (work / file).write_text(before + "".join(f"0 {callers[caller]} {call}\n" for call in calls))
        answers = [answer.encode(), *(found.encode() for found in after.values())]
        yield Rename(f"{name}: {step}", ["run", "--config", folder / "config.toml", work / file], 0, answers)


def options():
    """Runs and replays with options of how they are told."""
    for file in sorted((ROWS / "options").glob("*.words")):
        status, *words = file.read_text().split()
        parts = [file.with_suffix(end) for end in (".out", ".err", ".in")]
        out, err, given = [part.read_bytes() if part.exists() else b"" for part in parts]
        yield Case(f"options/{file.stem}", words, int(status), out, err, ROWS, given=given)


def command_lines():
    """Command lines, with help, faults of each kind, and which of two is told."""
    for name, _, (words, status, out, err), _ in listed("command_lines.rows"):
        yield Case(name, words, status, out.encode(), err.encode(), ROWS / "a", refuses=True)
