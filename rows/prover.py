"""The kit's check of a crate, run on a copy of it, over the libraries that stand in `out/` of the crates below."""
import os
import re
import subprocess
import tempfile
from functools import cache
from pathlib import Path

ROOT = Path(__file__).resolve().parent.parent
PARTS = "src", "specs", "proofs"


@cache
def kit():
    return Path(subprocess.run(["rt", "doc"], capture_output=True, text=True, check=True).stdout.strip()).parent


@cache
def listed():
    """What crates.txt says: what each crate stands on, the kit's libraries among it; and which are static libraries."""
    below, static = {}, set()
    for line in (ROOT / "crates.txt").read_text().splitlines():
        name, colon, rest = line.partition("#")[0].partition(":")
        if colon:
            name, *said = name.split()
            below[name] = rest.replace(",", " ").split()
            static |= {name} if "staticlib" in said else set()
    return below, static


@cache
def all_below(name):
    """The crates of the repository that one stands on, directly or not, lowest first."""
    below, _ = listed()
    return list(dict.fromkeys(it for dep in below[name] if dep in below for it in [*all_below(dep), dep]))


def library(name):
    return ROOT / "crates" / name / "out/rlib" / f"{name}.rlib"


def words_of(name):
    """The words for a check of the crate, but those that say how."""
    below, static = listed()
    is_program = (ROOT / "crates" / name / "src/main.rt").exists()
    words = ["--crate-name", name, "src/main.rt" if is_program else "src/lib.rt", "--links", f"{name}="]
    for it in ["std", *below[name]]:
        words += ["--extern", f"{it}={library(it) if it in below else kit() / 'rlibs' / f'{it}.rlib'}"]
    for it in [kit() / "rlibs", *(library(dep).parent for dep in all_below(name))]:
        words += ["-L", f"dependency={it}"]
    words += ["--antt-project", kit() / "rattle/logic/antt-project.json", "--logic-built", kit() / "logic_built"]
    return words + (["--crate-type", "staticlib"] if name in static else [])


def texts_of(name):
    """The files of the crate by their paths in it."""
    folder = ROOT / "crates" / name
    files = [it for part in PARTS for it in sorted((folder / part).rglob("*")) if it.is_file()]
    return {str(it.relative_to(folder)): it.read_text() for it in files}


class Said:
    """What a check ended with, what it said, what it said of each function that is not proved, and the seconds that it took."""

    VERDICT = re.compile(r"^fn (\S+): (.*)", re.M)
    UNREFUSED = "proved", "no holes", "depends on a hole"
    # an error in a proof file that names what a text does not have, and one that only follows from another
    LACKING = re.compile(r"has no field|is not in scope|has no `")
    FOLLOWING = re.compile(r"was not admitted")

    def __init__(self, status, text, seconds):
        self.status, self.seconds, self.lines = status, seconds, text.rstrip("\n").split("\n")
        # as `proved, may wait` of a function that waits for others, or past holes `depends on a hole in ..`
        self.refused = {name: it for name, it in self.VERDICT.findall(text) if not it.startswith(self.UNREFUSED)}
        self.errors = [line.removeprefix("./") for line in self.lines if re.match(r"\S+:\d+:\d+: error", line)]

    def errors_of(self, function):
        """The errors in the proof files of a function, without those that only follow from another."""
        folder = "proofs/" + function.partition("::")[2].replace("::", "/") + "/"
        return [line for line in self.errors if line.startswith(folder) and not self.FOLLOWING.search(line)]

    def lacks_names_alone(self, function):
        """Whether a proof fails only since its file names what is not there, which says little of the contract."""
        errors = self.errors_of(function)
        return errors != [] and all(map(self.LACKING.search, errors))


def check(name, texts, kept, functions=()):
    """Checks the crate with these texts, over what checks kept in a folder: all of it, or these functions, past holes."""
    only = [word for it in functions for word in ("--only", it)] + ["--allow-holes"] * (functions != ())
    with tempfile.TemporaryDirectory(prefix=f"quotafs-edits-{name}-") as room:
        for path, text in texts.items():
            file = Path(room, path)
            file.parent.mkdir(parents=True, exist_ok=True)
            file.write_text(text)
        words = [kit() / "bin/rattle", "check", *words_of(name), "--jobs", "1", "--incremental", kept, *only]
        with tempfile.TemporaryFile("w+", errors="replace") as out:
            run = subprocess.Popen(words, cwd=room, stdin=subprocess.DEVNULL, stdout=out, stderr=subprocess.STDOUT)
            _, status, used = os.wait4(run.pid, 0)
            run.returncode = os.waitstatus_to_exitcode(status)
            out.seek(0)
            return Said(run.returncode, out.read(), used.ru_utime + used.ru_stime)
