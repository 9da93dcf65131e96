"""What a line of a script says, read from docs/FORMATS.md alone, and which of its words is at fault."""
import re

MOST, MAX_FILL, LINES = 2**64 - 1, 131_072, 65_536
KINDS = "user", "group", "project"
NUMERAL = re.compile(r"0|[1-9][0-9]*")


class Fault(Exception):
    """What is wrong with a line, and which of its words is, from 0, where one is."""

    word = None


def number(word, most=MOST, fault="bad number"):
    if not NUMERAL.fullmatch(word) or len(word) > 20 or int(word) > most:
        raise Fault(fault)


def ids(word, fault="bad number"):
    number(word, 2**32 - 1, fault)


def caller(word):
    own, *groups = word.split(",")
    if own.count(":") != 1 or len(groups) > 16:
        raise Fault("bad caller")
    for part in own.split(":") + groups:
        ids(part, "bad caller")


def path(word):
    if not word:
        raise Fault("bad word")


def digits(word):
    if word != "-" and (not word or not re.fullmatch("(?:[0-9a-fA-F]{2})*", word)):
        raise Fault("bad hex")


def byte(word):
    if not re.fullmatch("[0-9a-fA-F]{2}", word):
        raise Fault("bad hex")


def kind(word):
    if word not in KINDS:
        raise Fault("bad word")


def owner(word):
    if word != "-":
        ids(word)


def count(word):
    number(word, MAX_FILL)


CALLS = {
    "create": [path], "mkdir": [path], "stat": [path], "unlink": [path], "rmdir": [path],
    "link": [path, path], "rename": [path, path], "write": [path, number, digits],
    "fill": [path, number, count, byte], "truncate": [path, number], "read": [path, number, number],
    "setquota": [kind, ids, number, number, number, number], "setgrace": [number, number], "quota": [kind, ids],
}


def verb(word):
    if word not in CALLS and word != "chown":
        raise Fault("bad verb")


def read(reader, words, at):
    """Reads the word of that number, an empty one where there is none."""
    try:
        reader(words[at] if at < len(words) else "")
    except Fault as fault:
        fault.word = at
        raise


def judge(line):
    """Raises the fault of a line of a script, if it has one."""
    if re.search("[^ -~]", line):
        raise Fault("bad byte")
    words = line.split(" ")
    for at, reader in enumerate([number, caller, verb]):
        read(reader, words, at)
    arguments = words[3:]
    readers = CALLS.get(words[2], [path, owner, owner])
    if words[2] == "chown" and len(arguments) == 4:
        readers = [*readers, ids]
    if len(readers) != len(arguments):
        fault = Fault("word count")
        fault.word = 2
        raise fault
    for at, reader in enumerate(readers, 3):
        read(reader, words, at)
