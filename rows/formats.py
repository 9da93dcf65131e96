"""Outcomes in the formats for programs, read again by Python's own readers: from the values that they find the text is
written anew, which has to be the worked one.

A worker without lines has a head in the text and nothing in JSON, so such heads are left out of the wanted text. CSV has
the report alone.
"""
import csv
import io
import json
import re

from rows import call, calls, outcomes, replays


def changed(told, sort):
    return f"{sort} +{told[f'{sort}_charged']} -{told[f'{sort}_released']}"


def words(*values):
    """The values as words, each that is null as a dash."""
    return " ".join("-" if value is None else str(value) for value in values)


def reply(told):
    kind = told["reply"]
    if kind == "done":
        return f"done {told['inode']} {changed(told, 'blocks')} {changed(told, 'inodes')}"
    if kind == "bytes":
        return f"bytes {bytes.fromhex(told['data']).hex() or '-'}"
    if kind == "stat":
        sort = "dir" if told["directory"] else "file"
        return words(kind, told["inode"], sort, *(told[key] for key in ("uid", "gid", "size", "blocks", "links")))
    if kind == "quota":
        keys = "blocks", "inodes", "block_soft", "block_hard", "inode_soft", "inode_hard", "block_end", "inode_end"
        return words(kind, *(told[key] for key in keys))
    return words(kind, *(told[key] for key in ("error", "kind", "limit") if key in told))


def asked(told):
    """What stands before an answer where calls are shown."""
    if "call" not in told:
        return ""
    name, *values = told["call"].values()
    if name == "chown" and values[-1] is None:
        values.pop()
    if name == "write":
        values[-1] = values[-1] or None
    return words(told["line"], told["moment"], told["caller"], name, *values) + " => "


def column(text):
    return f" {text:>10}"


def report_line(kind, name, *sorts):
    """The line of a record: of blocks and of inodes what is used, the soft and the hard limit, and the grace left."""
    flags = "".join("+" if 0 < soft < used else "-" for used, soft, _, _ in sorts)
    return f"{kind:7} {name:16} {flags}" + "".join(column(text) for sort in sorts for text in sort)


def grace(left):
    return "-" if left is None else left or "none"


def record(told):
    line = report_line(
        told["kind"],
        told["name"],
        (told["kib"], told["block_soft"], told["block_hard"], grace(told["block_grace"])),
        (told["inodes"], told["inode_soft"], told["inode_hard"], grace(told["inode_grace"])),
    )
    flags = "".join("+" if told[key] else "-" for key in ("block_over", "inode_over"))
    return line if f" {flags} " in line else f"other flags {flags}"


def rest(told):
    kind = told["type"]
    if kind == "quota":
        return f"quota at {told['at']}"
    if kind == "totals":
        sorts = [f"{sort} {told[sort]} of {told[sort + '_bound']}" for sort in ("blocks", "inodes")]
        return words(kind, *sorts)
    if kind == "tally":
        return f"tally {changed(told, 'blocks')} {changed(told, 'inodes')} calls {told['calls']}"
    return words(kind, told["differences"] or "ok")


def text_of(objects):
    """The text of an outcome, by the objects of its lines of JSON."""
    worker = None
    for told in map(json.loads, objects.decode().splitlines()):
        if told["type"] == "line":
            if told["worker"] != worker:
                worker = told["worker"]
                yield f"worker {worker}"
            yield f"{asked(told)}{words(told['place'])} {reply(told)}"
        else:
            yield record(told) if told["type"] == "record" else rest(told)


def status(used, soft, hard):
    """How a use stands to its limits, of which 0 is none."""
    return "hard" if 0 < hard < used else "soft" if 0 < soft < used else "ok"


def report_of(text):
    """The report, by its records of CSV."""
    kind = None
    for name, *fields in csv.reader(io.StringIO(text.decode(), newline="")):
        if fields[0] == "BlockStatus":
            kind = name.lower()
            continue
        sorts = [(*map(int, fields[at : at + 3]), fields[at + 3] or "-") for at in (2, 6)]
        told = [status(*sort[:3]) for sort in sorts]
        yield report_line(kind, name, *sorts) if fields[:2] == told else f"other statuses {fields[:2]}"


def lines(found):
    return "".join(f"{line}\n" for line in found).encode()


def in_format(case, format):
    return call([*case.words[:-1], "--format", format, case.words[-1]])


def json_check(case):
    """The text that the lines of JSON say, and the worked one without the heads of workers that have no line."""
    answer, out, err = in_format(case, "json")
    wanted = re.sub(rb"^worker \d+\n(?=worker |quota at )", b"", case.out, flags=re.M)
    return f"{case.name}, json", (answer, lines(text_of(out)), err), (0, wanted, b"")


def csv_check(case):
    """The report that the records of CSV say, and the worked one."""
    answer, out, err = in_format(case, "csv")
    wanted = re.search(rb"^quota at \d+\n(.*?)^totals ", case.out, re.S | re.M)[1]
    return f"{case.name}, csv", (answer, lines(report_of(out)), err), (0, wanted, b"")


def checks(work):
    """Each check's name, what was found, and what is wanted."""
    cases = [*outcomes(work), *(case for case in replays(work) if case.status == 0)]
    for case in cases:
        yield json_check(case)
        yield csv_check(case)
    for case in calls(work):
        yield json_check(case)
