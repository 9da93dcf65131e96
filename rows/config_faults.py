"""Which faults a configuration has, by docs/FORMATS.md alone, and what `check` tells of it.

`faults` reads a text with Python's own TOML, and answers None where that cannot be: Python reads TOML 1.0, the program
1.1. Each fault is its words without place, value and what is wanted.
"""
import re
import tomllib

WRONGS = "text", "field", "range", "duplicate", "no zero", "sound", "not UTF-8"
KINDS = "user", "group", "project"
MOST_TOLD, MOST_TABLES, MOST_CLIENTS = 100, 64, 16
BOUNDS = {"size": None, "nr_inodes": (1, 2**16), "block_grace": (1, 2**32 - 1), "inode_grace": (1, 2**32 - 1)}
LIMITS = dict.fromkeys(["block_soft", "block_hard", "inode_soft", "inode_hard"], (0, 2**40))
OF_PRINCIPAL = {"id": (0, 2**32 - 1), "name": None, **LIMITS}
SHARES = dict.fromkeys(["share_calls", "share_kib"], (0, 2**20)) | {"share_depth": (1, 2**11), "share_rate": (1, 2**20)}
OF_CLIENT = "lines", "replies", "caller"
ID = "(0|[1-9][0-9]{0,9})"
CALLER = re.compile(f"{ID}:{ID}((?:,{ID}){{0,16}})")
ORDINALS = "first second third fourth fifth sixth seventh eighth ninth tenth".split()
UNITS = {"": 1, "k": 2**10, "m": 2**20, "g": 2**30}
NOT_TEXT = "quotafs: cannot read %s\nquotafs: it is not UTF-8\n"
HEAD = re.compile(r"(?::(\d+):(\d+))?: (text|field|range|duplicate|no zero): (.*)")


class Told:
    """A fault as it is told."""

    def __init__(self, head, line=None, caret=None):
        self.head, self.line, self.caret = head, line, caret
        self.row, self.column, self.wrong, said = HEAD.fullmatch(head).groups()
        self.said = said.partition("; wanted: ")[0]
        # the words without the value
        self.reason = self.wrong if self.wrong == "text" else self.wrong + ": " + self.without_value()

    def without_value(self):
        said = re.sub(r" is no table: .*", " is no table", self.said)
        behind = re.search(r", as the .*$", said) if self.wrong == "duplicate" else None
        return re.sub(r"^((?:\w+ \w+: )?\w+) = .*$", r"\1", said) + (behind[0] if behind and " = " in said else "")

    def key(self):
        """The key at fault, and that of the list for one of its elements."""
        subject = re.sub(r" (is missing|is no key|is no table.*|has .*)$", "", self.said)
        if " is no table" in self.said:
            return self.said.split()[1] if self.said.split()[0] in ORDINALS else self.said.split()[0]
        return re.sub(r"^(\w+ \w+): ", "", subject).partition(" = ")[0]

    def as_read(self):
        """The fault as reading names it."""
        return self.wrong if self.wrong != "field" else f"field {self.key()}"

    def is_in(self, text):
        """Whether the place is in the text, and is that of the key or the value that is told."""
        if self.row is None:
            return self.said.endswith(" is missing") or self.wrong != "text"
        lines = text.removesuffix(b"\n").split(b"\n") if text else [b""]
        line = (lines + [b""])[int(self.row) - 1].removesuffix(b"\r")
        before = int(self.column) - 1
        start = min(max(before - 50, 0), len(line))
        shown = re.sub("[^ -~]", "?", line[start : start + 100].decode("latin-1"))
        there = re.sub("[^ -~]", "?", line[before:].decode("latin-1"))
        value = re.search(r"(?: = | is no table: )(.*?)(?:\.\.)?(?:, as the .*)?$", self.said)
        begins = (value[1] if value else self.key().replace('""', "").removesuffix("..")).split("?")[0]
        # what is missing, or written with an escape, is told at its table
        elsewhere = self.wrong == "text" or self.said.endswith(" is missing") or b"\\" in text and not value
        is_there = elsewhere or there.startswith(begins) or there[1:].startswith(begins)
        return (self.line, self.caret, is_there) == (shown, " " * (before - start) + "^", True)


def told(name, err):
    """The faults that are told of a configuration."""
    lines = err.split("\n")[:-1]
    while lines:
        head = lines.pop(0)
        if not head.startswith(name + ":"):
            return
        head = head.removeprefix(name)
        if re.fullmatch(r": \d+ more", head):
            return
        yield Told(head, lines.pop(0), lines.pop(0)) if re.match(r":\d", head) else Told(head)


def more(name, err):
    """How many more faults a configuration has than those that are told."""
    found = re.search(rf"^{re.escape(name)}: (\d+) more$", err, re.M)
    return int(found[1]) if found else 0


def key_of(text):
    """The key that the reader shows as Rust's Debug does."""
    plain = {"n": "\n", "t": "\t", "r": "\r", "0": "\0"}
    return re.sub(r"\\(?:u\{(\w+)\}|(.))", lambda m: chr(int(m[1], 16)) if m[1] else plain.get(m[2], m[2]), text[1:-1])


def first(answer):
    """What the first fault has to be, by the answer of the reader."""
    refused = re.fullmatch(r"refused \d\d (field )?(.*)", answer)
    if refused is None:
        return "read"
    return "field " + shown(key_of(refused[2])) if refused[1] else refused[2]


def told_by_run(err):
    """The fault that a run tells of a configuration."""
    words = err.removeprefix("quotafs: config: ").removesuffix("\n")
    key = re.sub(r"\\([btnfr]|u00[0-9a-f]{2})", "?", words.removeprefix("field "))
    return "field " + shown(key) if words.startswith("field ") else words


def in_range(key, value, bounds):
    if key == "size":
        number, unit = re.fullmatch(r"(\d+)(.?)", value).groups()
        return int(number) * UNITS[unit] <= 2**32
    return bounds is None or bounds[0] <= value <= bounds[1]


def is_one(key, value):
    """Whether a value is of the kind and form of its key."""
    if key == "size":
        return isinstance(value, str) and re.fullmatch(r"[1-9][0-9]{0,9}[kmg]?", value, re.A) is not None
    if key == "name":
        return isinstance(value, str) and re.fullmatch(r"[a-z][a-z0-9_-]{0,15}", value) is not None
    return type(value) is int


def of_values(where, table, rules, stage):
    """The faults of the values of a table: of their kind and form, or of their range."""
    for key, bounds in rules.items():
        value = table.get(key)
        if value is None:
            if stage == "field" and key not in LIMITS:
                yield f"field: {where}{key} is missing"
        elif stage == "field" and not is_one(key, value):
            yield f"field: {where}{key}"
        elif stage == "range" and is_one(key, value) and not in_range(key, value, bounds):
            yield f"range: {where}{key}"


def named(kind, index):
    return f"{ORDINALS[index]} {kind}" if index < len(ORDINALS) else f"{kind} {index + 1}"


def tables(document):
    """The tables of each list, each with its kind, its name and what stands there."""
    for kind in KINDS:
        if isinstance(document.get(kind), list):
            for index, element in enumerate(document[kind]):
                yield kind, named(kind, index), element


def of_document(document, stage):
    yield from of_values("", document, BOUNDS, stage)
    for kind in KINDS:
        found = document.get(kind)
        mine = [(name, element) for of, name, element in tables(document) if of == kind]
        if stage == "field" and found is None and kind != "project":
            yield f"field: {kind} is missing"
        if stage == "field" and found is not None and not isinstance(found, list):
            yield f"field: {kind}"
        if stage == "field":
            yield from (f"field: {name} is no table" for name, element in mine if not isinstance(element, dict))
        if stage == "range" and isinstance(found, list) and not 1 <= len(found) <= MOST_TABLES:
            yield f"range: {kind} has {len(found)} tables"
        for name, element in mine:
            if isinstance(element, dict):
                yield from of_values(f"{name}: ", element, OF_PRINCIPAL, stage)


def shown(key):
    """A key as it is shown."""
    encoded = key.encode()
    return re.sub("[^ -~]", "?", encoded[:60].decode("latin-1")) + ".." * (len(encoded) > 60) or '""'


def unknown(document):
    for key in sorted(document.keys() - BOUNDS.keys() - {*KINDS, "client"}, key=str.encode):
        yield f"field: {shown(key)} is no key"
    strays = [(key.encode(), at, name, key) for at, (_, name, element) in enumerate(tables(document))
              if isinstance(element, dict) for key in element.keys() - OF_PRINCIPAL.keys()]
    yield from (f"field: {name}: {shown(key)} is no key" for _, _, name, key in sorted(strays))


def duplicates(document):
    for kind in KINDS:
        seen = {}
        mine = [(name, element) for of, name, element in tables(document) if of == kind]
        for name, element in mine[:MOST_TABLES]:
            for key, sort in (("id", int), ("name", str)):
                value = element.get(key) if isinstance(element, dict) else None
                if type(value) is sort and seen.setdefault((key, value), name) != name:
                    yield f"duplicate: {name}: {key}, as the {seen[key, value]}"


def no_zero(document):
    for kind in KINDS:
        mine = [element for of, _, element in tables(document) if of == kind]
        ids = [element.get("id") if isinstance(element, dict) else None for element in mine]
        if ids and all(type(number) is int and number != 0 for number in ids):
            yield f"no zero: {kind} has no id 0"


def is_caller(text):
    return CALLER.fullmatch(text) is not None and all(int(number) < 2**32 for number in re.split("[:,]", text))


def clients(document):
    """The faults of the clients of a service, which come behind all others."""
    found = document.get("client")
    if not isinstance(found, list):
        yield from ["field: client"] * ("client" in document)
        return
    mine = [(named("client", index), element) for index, element in enumerate(found)]
    yield from (f"field: {name} is no table" for name, element in mine if not isinstance(element, dict))
    mine = [(name, element) for name, element in mine if isinstance(element, dict)]
    for name, element in mine:
        for key in OF_CLIENT:
            value = element.get(key)
            if value is None and key != "caller":
                yield f"field: {name}: {key} is missing"
            elif value is not None and not (isinstance(value, str) and value and (key != "caller" or is_caller(value))):
                yield f"field: {name}: {key}"
        yield from (f"field: {name}: {key}" for key in SHARES if key in element and type(element[key]) is not int)
        if "caller" not in element and element.keys() & SHARES.keys():
            yield f"field: {name}: caller is missing"
    strays = [(key.encode(), at, name, key) for at, (name, element) in enumerate(mine)
              for key in element.keys() - {*OF_CLIENT, *SHARES}]
    yield from (f"field: {name}: {shown(key)} is no key" for _, _, name, key in sorted(strays))
    for name, element in mine:
        numbers = [(key, bounds, element.get(key)) for key, bounds in SHARES.items()]
        yield from (f"range: {name}: {key}" for key, (least, most), value in numbers
                    if type(value) is int and not least <= value <= most)
    if not 1 <= len(found) <= MOST_CLIENTS:
        yield f"range: client has {len(found)} tables"


def is_no_toml(value, depth=0):
    """Whether Python reads what is no TOML for the program: past 64 bits, or as deep as may be."""
    if isinstance(value, (list, dict)):
        inner = value.values() if isinstance(value, dict) else value
        return depth >= 80 or any(is_no_toml(item, depth + 1) for item in inner)
    return type(value) is int and not -(2**63) <= value < 2**63


def faults(text):
    """All faults of a configuration, or None where Python cannot tell."""
    try:
        document = tomllib.loads(text.decode().removeprefix("\ufeff"))
    except (tomllib.TOMLDecodeError, UnicodeDecodeError, RecursionError):
        return None
    if is_no_toml(document):
        return None
    return [
        *of_document(document, "field"), *unknown(document), *of_document(document, "range"), *duplicates(document),
        *no_zero(document), *clients(document),
    ]
