"""Images of stores: one that was spelled by hand, those of random scripts, read here by themselves and held beside what
their runs, reads and quota calls have told, and files that an image must not be written to, or cannot."""
import random
import subprocess

from image import MOST, Image
from rows import BUILT, EXAMPLE, ROOT, ROWS, Row, call, unwritten

FIRST = ROWS / "a0/create_write_stat"
WORKED = b"""\
quotafs image 2 at 3
store 10 6 3
graces 100 100
user 0 root 0 1 0 0 0 0 - -
user 1000 ann 0 0 8 16 0 0 - -
user 1001 bob 1 1 0 0 0 0 - -
group 0 root 1 2 0 0 0 0 - -
group 100 staff 0 0 0 0 0 0 - -
dir 1 0 0 -
file 2 1001 0 - 1
block 0 78
name 1 a 2
end
"""
FAR = 1 << 20
CALLERS = ["0:0", "1000:100", "1001:100", "1000:0,100"]


def reported(out):
    """The same as an outcome tells it."""
    lines = out.decode().split("quota at 0\n")[1].split("totals ")[0].splitlines()
    rows = [line.split() for line in lines]
    return [[row[0], row[1], row[3], row[7]] for row in rows]


def path(chance):
    """A path in one of the folders that stand at the beginning, mostly."""
    return chance.choice(["", "/a", "/b", "/a/b", "/c"]) + "/" + chance.choice("abcd")


def line(chance, moment):
    """A call that changes a store."""
    one, other, offset = path(chance), path(chance), chance.choice([0, 1, 4_095, 8_192, 65_535, 1 << 20])
    write = f"write {one} {offset} {chance.randbytes(chance.randint(1, 5_000)).hex()}"
    fill = f"fill {one} {offset} {chance.randint(1, 9_000)} {chance.randrange(256):02x}"
    call = chance.choice([
        f"create {one}", f"create {one}", f"create {one}", f"mkdir {one}", f"unlink {one}", f"rmdir {one}",
        write, write, write, fill, fill,
        f"truncate {one} {chance.choice([0, 1, 4_096, 10_000, 1 << 21])}",
        f"link {one} {other}", f"rename {one} {other}",
        f"chown {one} {chance.choice(['-', '0', '1000', '1001'])} {chance.choice(['-', '0', '100'])}",
        f"chown {one} - - {chance.choice([0, 7, 8, 9])}",
        f"setquota user {chance.choice([1000, 1001])} {' '.join(str(chance.choice([0, 90, 900])) for _ in '1234')}",
        f"setgrace {chance.randint(1, 99)} {chance.randint(1, 99)}",
    ])
    return f"{moment} {chance.choice(CALLERS)} {call}\n"


def faults(work, seed):
    """What is wrong with the image of a random script, which is saved by its run, and by the replay of its journal."""
    chance = random.Random(seed)
    config = chance.choice([ROOT / "examples/farm.toml", ROWS / "projects/config.toml"])
    script, journal, image, again = [work / f"random.{name}" for name in ["txt", "journal", "image", "again"]]
    begun = "".join(f"0 0:0 mkdir {folder}\n" for folder in ("/a", "/b", "/a/b"))
    script.write_text(begun + "".join(line(chance, moment) for moment in range(chance.randint(0, 400))))
    status, out, err = call(["run", "--config", config, "--journal", journal, "--save", image, script])
    said = Image(image.read_bytes())
    replayed = call(["replay", "--config", config, "--save", again, journal])
    files = [(name, inode) for name, inode in said.paths() if said.inodes[inode][0] == "file"]
    calls = [f"read {name} {offset} {MOST}" for name, _ in files for offset in (0, FAR)]
    replies = [f"bytes {said.bytes_at(inode, offset)}" for _, inode in files for offset in (0, FAR)]
    calls += [f"quota {kind} {id}" for kind, id in said.records]
    replies += [f"quota {' '.join(words[1:])}" for words in said.records.values()]
    script.write_text(script.read_text() + "".join(f"0 0:0 {call}\n" for call in calls))
    told = call(["run", "--config", config, script])[1].split(b"quota at 0\n")[0].decode().splitlines()
    found = {
        "the run": (status, err) == (0, b""),
        "its form": said.whole,
        "its order": said.in_order,
        "its place": said.place == len(journal.read_bytes().splitlines()) - 1,
        "its uses": said.are_uses(),
        "its bounds": said.is_bounded(),
        "its blocks": said.are_blocks(),
        "its report": said.report() == reported(out),
        "its paths": len({inode for _, inode in said.paths()} | {1}) == len(said.inodes),
        "its bytes and records": [row.partition(" ")[2] for row in told[-len(calls) :]] == replies,
        "that of its replay": replayed[0] == 0 and again.read_bytes() == image.read_bytes(),
    }
    return [f"{name} of seed {seed}" for name, is_right in found.items() if not is_right]


class ImageRow(Row):
    """A run whose image goes to its output, behind the outcome."""

    def __init__(self, work):
        (work / "imaged").mkdir()
        row = FIRST.with_suffix(".0.out"), EXAMPLE, FIRST.with_suffix(".txt"), True
        super().__init__(*row, work / "imaged", ["--save", "/dev/stdout"])
        self.name += ", image"
        self.outcome = self.out.replace(b"         0         16", b"         8         16")
        self.out = self.outcome + WORKED

    def ending(self, answer):
        """Where memory is wanting for the image, some beginning of it is there, since that output is no file."""
        status, out, err = answer
        is_refused = (status, err) == (4, unwritten("/dev/stdout")) and out.startswith(self.outcome)
        return "no image" if is_refused and self.out.startswith(out) else super().ending(answer)


def outputs(work):
    """Standard output in the file of an image, or in that of the journal that is played, and one that refuses."""
    journal, image, script = work / "out.journal", work / "out.image", f"{FIRST}.txt"
    call(["run", "--config", EXAMPLE, "--journal", journal, script])
    before = journal.read_bytes()
    image.write_bytes(before)
    for words, file, role in [
        (["run", "--save", image, script], image, "the output"),
        (["replay", "--save", image, journal], image, "the output"),
        (["replay", "--save", "-", journal], journal, "the journal"),
    ]:
        with open(file, "ab") as output:
            words = [BUILT, *words, "--config", EXAMPLE]
            done = subprocess.run(words, stdout=output, stderr=subprocess.PIPE, timeout=60)
        told = f"error: the image would be written over {role}\n".encode()
        answer = done.returncode, done.stderr, file.read_bytes()
        yield f"an image over {role} of a {words[1]}", answer, (2, told, before)
    with open("/dev/full", "wb") as full:
        words = [BUILT, "run", "--config", EXAMPLE, "--save", image, script]
        done = subprocess.run(words, stdout=full, stderr=subprocess.PIPE, timeout=60)
    answer = done.returncode, done.stderr, image.read_bytes()
    yield "an image behind an output that refuses", answer, (4, b"quotafs: output\n", before)


def saved(work):
    """The worked image, to a file and behind the outcome, by a run and by a replay, and in edition 1."""
    out, script = (ROWS / f"{FIRST}.0.out").read_bytes(), f"{FIRST}.txt"
    out = out.replace(b"         0         16", b"         8         16")
    file, journal = work / "worked.image", work / "worked.journal"
    words = ["run", "--config", EXAMPLE, "--journal", journal, "--save", file, script]
    yield "an image of a run", (call(words), file.read_bytes()), ((0, out, b""), WORKED)
    words = ["run", "--config", EXAMPLE, "--save", "-", script]
    yield "an image behind an outcome", call(words), (0, out + WORKED, b"")
    words = ["replay", "--config", EXAMPLE, "--save", "-", journal]
    yield "an image of a replay", call(words), (0, out + WORKED, b"")
    old = work / "old.journal"
    old.write_bytes(journal.read_bytes().replace(b"quotafs journal 2", b"quotafs journal 1"))
    words = ["replay", "--config", EXAMPLE, "--save", "-", old]
    yield "an image of edition 1", call(words), (0, out + WORKED.replace(b"image 2", b"image 1"), b"")


def refused(work):
    """What an image must not be written over, and files that refuse it."""
    config, script, journal = work / "own.toml", work / "own.txt", work / "own.journal"
    config.write_bytes(EXAMPLE.read_bytes())
    script.write_bytes(b"0 0:0 stat /\n")
    played = ["run", "--config", config, "--journal", journal, script]
    out = call(played)[1]
    for words, role in [
        (["run", "--save", config, script], "the configuration"),
        (["run", "--save", script, script], "script 1"),
        (["run", "--save", journal, "--journal", journal, script], "the journal"),
        (["run", "--save", f"{work}/./own.journal", "--journal", journal, script], "the journal"),
        (["replay", "--save", config, journal], "the configuration"),
        (["replay", "--save", journal, journal], "the journal"),
    ]:
        told = f"error: the image would be written over {role}\n".encode()
        yield f"an image over {role} of a {words[0]}", call([*words, "--config", config]), (2, b"", told)
    words = ["run", "--config", config, "--journal", "-", "--save", "-", script]
    yield "two files of one stream", call(words), (2, b"", b"error: the journal and the image are one stream\n")
    for name, file in [("a full device", "/dev/full"), ("no folder", work / "none/image"), ("a folder", work)]:
        journal.write_bytes(b"before\n")
        answer = call(["run", "--config", config, "--journal", journal, "--save", file, script])
        kept = journal.read_bytes().count(b"\n")
        yield f"an image to {name}", (answer, kept), ((4, out, unwritten(file)), 2)


def served(work):
    """The image of what a client left."""
    file, script = work / "served.image", f"{FIRST}.txt"
    words = ["serve", "--config", EXAMPLE, "--save", file, f"{script}:{work}/replies"]
    status, _, err = call(words)
    yield "an image of a service", (status, err, file.read_bytes()), (0, b"", WORKED)


def checks(work):
    """Each check's name, its answer, and the wanted one."""
    yield from [*saved(work), *refused(work), *outputs(work), *served(work)]
    for seed in range(40):
        yield f"the image of random script {seed}", (faults(work, seed),), ([],)
