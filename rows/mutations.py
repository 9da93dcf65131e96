"""Mutations of good texts, from a seed: scripts, journals and configurations as `checks/texts` has them read.

The good texts are those of `rows/` and `examples/`. A mutation damages one in one to four places: bytes are
changed, taken away, put in or doubled; words are replaced by edges of numbers, by words that stand elsewhere and by
words that stand nowhere; lines are doubled, exchanged, taken away or cut. A text keeps to some hundred bytes, so that
200,000 of them are read in seconds. `mutations(seed, part)` is the same list at each run, on each machine.
"""
import random
import re
from pathlib import Path

import rows

ROOT = Path(__file__).resolve().parent.parent
# How many parts there are, each with a generator of its own, and how many mutations each has of each kind of text.
PARTS = 20
COUNTS = {"script": 4000, "journal": 4000, "config": 2000}
# Of a good text that is longer, so many bytes' whole lines are mutated.
LONGEST = 900

NUMBERS = [
    *(b"%d" % number for bits in (16, 17, 30, 32, 40, 63, 64) for number in (2**bits - 1, 2**bits, 2**bits + 1)),
    *b"0 00 1 01 16 17 +1 -1 -0 +0 1.0 1e3 1_000 0x10 0b1 131073 99999999999999999999999".split(),
    b"9" * 400,
]
BYTES = [
    *(b"\0", b"\t", b"\r", b"\n", b" ", b"\x1f", b"\x7e", b"\x7f"),
    *(b"\xff", b"\xc3", b"\xc3\xa9", b"\xef\xbb\xbf", b"-", b","),
]
VERBS = [
    *b"create mkdir write fill truncate read stat link unlink rmdir rename chown setquota setgrace quota walk".split()
]
CALLERS = [
    *b"0:0 0:0, 0: :0 : 0 0:0:0 00:0 0:4294967295 4294967296:0 0:0,01 0:0,-1 1001:0,100 0:0,,1".split(),
    *(b"0:0" + b",7" * groups for groups in (16, 17)),
]
TEXT_WORDS = [
    *NUMBERS,
    *CALLERS,
    *VERBS,
    *b"- -- / // /a a => = user group project User 6 6f 6F 6f6B 0x6f fg done bytes stat quota refused file dir".split(),
    *b"EDQUOT EINVAL ENONE inode-hard block-soft +0 +1 -1 blocks inodes quotafs journal workers Create fill".split(),
    *(b"/" + b"x" * length for length in (255, 256, 600)),
    *(b"a5" * count for count in (200, 257, 600)),
    b"",
    b"a" * 511,
    b"A5" * 300,
]
CONFIG_WORDS = [
    *NUMBERS,
    *b'"40k" "40K" "1" "4g" "4097m" "9999999999g" "12345678901" "" "ann" "Ann" "a b" "sixteen_letters_"'.split(),
    *b'"seventeen_letters" size nr_inodes block_grace inode_grace user group project id name block_soft "a.b"'.split(),
    *b"x block_hard inode_soft inode_hard [user] [[user]] [[group]] [[project]] [[client]]".split(),
    *b'client lines replies caller "-" "a.in" "0:0" "1000:100,0" "0:0,"'.split(),
    *b"share_calls share_kib share_depth share_rate".split(),
    *b"[] {} [{}] [1] [ ] { } = , . # true inf".split(),
    *b'nan 2026-01-01 07:32:00 """ \'\'\' " \' \\ "\\u0000" "\\ud800" "\\e" "\\q" "a\\tb" a.b.c user.id "\\n"'.split(),
    *(b"[" * depth + b"]" * depth for depth in (80, 81, 300)),
    *(b"{a=" * depth + b"}" * depth for depth in (80, 81, 300)),
    *(b".".join([b"a"] * parts) for parts in (80, 81)),
    b"",
    b"\r\n",
    b'"a\nb"',
    b"# \xc3\xa9",
    b"# \xff",
]
WORDS = {"script": TEXT_WORDS, "journal": TEXT_WORDS, "config": CONFIG_WORDS}
# What stands between the words of a text.
BETWEEN = {
    "script": re.compile(rb"([ \n])"),
    "journal": re.compile(rb"([ \n])"),
    "config": re.compile(rb"([\s=,{}\[\]]+)"),
}


def good():
    """The good texts, each kind without repeats: scripts, the journals of their runs and others, configurations."""
    played = list(rows.played())
    scripts = {script.read_bytes() for _, _, script, _ in played}
    files = [file for folder in ("rows", "examples") for file in sorted((ROOT / folder).glob("**/*.*"))]
    journals = {file.read_bytes() for file in files if file.suffix == ".journal"}
    journals |= {rows.journal_of(script.read_bytes().splitlines(), out.read_bytes()) for out, _, script, _ in played}
    configs = {file.read_bytes() for file in files if file.suffix == ".toml"}
    return {"script": sorted(scripts), "journal": sorted(journals), "config": sorted(configs)}


def long_texts():
    """Texts at the edge of the number of lines, each with what it comes to. By the formats a script of 65,536 lines
    and a journal of edition 1 with as many entries are read, and one more is too many, also where it is cut or no line
    at all."""
    head, entry = b"quotafs journal 1 workers 1\n", b"1 0 0:0 stat / => stat 1 dir 0 0 0 0 2\n"
    for kind, before, each, last in (("script", b"", b"0 0:0 stat /\n", 65537), ("journal", head, entry, 65538)):
        most = before + each * 65536
        yield kind, most, "read"
        for further in (each, each[:-1], b"x\n", b"\t", each + b"x\n"):
            yield kind, most + further, f"refused {last} 39 too many lines"


def shortened(text):
    return text if len(text) <= LONGEST else text[: text.rfind(b"\n", 0, LONGEST) + 1]


class Mutator:
    """Makes mutations of one kind of text."""

    def __init__(self, kind, texts, chance):
        self.chance, self.words, self.between = chance, WORDS[kind], BETWEEN[kind]
        self.texts = sorted({shortened(text) for text in texts})
        self.ways = [self.flip, self.cut_out, self.put_in, self.double, self.word, self.word, self.word, self.line]

    def below(self, count):
        return int(self.chance() * count)

    def one_of(self, items):
        return items[int(self.chance() * len(items))]

    def span(self, text, most):
        """The ends of a piece of a text."""
        start = self.below(len(text) + 1)
        return start, start + self.below(most)

    def flip(self, text):
        """One bit is turned."""
        at = self.below(len(text))
        return text[:at] + bytes([text[at] ^ 1 << self.below(8)]) + text[at + 1 :] if text else text

    def cut_out(self, text):
        """Some bytes are gone, or all of the rest."""
        start, end = self.span(text, 6)
        return text[:start] + (text[end:] if self.chance() < 0.9 else b"")

    def put_in(self, text):
        """A byte or two are new."""
        at = self.below(len(text) + 1)
        return text[:at] + self.one_of(BYTES) + text[at:]

    def double(self, text):
        """A piece stands twice."""
        start, end = self.span(text, 12)
        return text[:end] + text[start:]

    def word(self, text):
        """A word is another, of this text or of the list."""
        parts = self.between.split(text)
        at = 2 * self.below((len(parts) + 1) // 2)
        parts[at] = self.one_of(self.words if self.chance() < 0.7 else parts[::2])
        return b"".join(parts)

    def line(self, text):
        """A line stands twice, changes places with another, or is gone; or the last line is cut."""
        lines = text.splitlines(keepends=True) or [b"\n"]
        one, other, way = self.below(len(lines)), self.below(len(lines)), self.below(4)
        if way == 0:
            lines.insert(other, lines[one])
        elif way == 1:
            lines[one], lines[other] = lines[other], lines[one]
        elif way == 2:
            del lines[one]
        else:
            lines[-1] = lines[-1][: self.below(len(lines[-1]))]
        return b"".join(lines)

    def mutation(self):
        """A good text, damaged in one to four places: mostly in one."""
        text = self.one_of(self.texts)
        for _ in range(1 + int(4 * self.chance() ** 3)):
            text = self.one_of(self.ways)(text)
        return text


def mutations(seed, part):
    """The mutations of a part, each with its kind."""
    for kind, texts in good().items():
        mutator = Mutator(kind, texts, random.Random(f"{seed} {part} {kind}").random)
        for _ in range(COUNTS[kind]):
            yield kind, mutator.mutation()
