"""Edits that a check of their crate must refuse, tried many in one check.

An edit is a file with a line `file: PATH`, and then pairs of lines `old: TEXT` and `new: TEXT`, as `rt ci` has them.
"""
import re
import tempfile

import prover
from functions import functions_of_all, standing_on

# What a function's line says where its proof fails for another's alone, and where it fails for declarations that it names.
OF_ANOTHER = re.compile(
    r"(not proved; |no proof: )it (calls|passes) .*, which (is|are) not proved|no proof: .*, which has no proof.*")
STANDS_ON = re.compile(r"it stands on (.*), which antt refuses")
# The place of a text that the check could not read.
UNREAD = re.compile(r"(?:\./)?((?:src|specs)/\S+?):(\d+):\d+: error")
LIMIT = re.compile(r"antt ran out of|outgrew the memory limit|stopped at the step limit")
# What a round comes to for an edit: refused, waiting for a round without the others, or open.
REFUSED, WAITING, OPEN = "refused", "waiting", "open"
# What a function's line ends with where the check of a round knows others by their contracts alone.
OF_CONTRACTS = re.compile(r"; it (calls|passes) [^;]*, which (is|are) not proved$")
# What is said of an edit that shows little of a contract.
OF_NAMES = "only since a proof file names what it took away"
# The proof of a function that is known by its contract alone.
HOLE = """use {module}.Statement.{{statement}}

pub {name}_spec : {{M : Type 1}} → statement M
{name}_spec = ?
"""


def reason(function, verdict, is_of_names):
    """Why an edit is refused, in words."""
    return f"refused at {function}, {OF_NAMES}" if is_of_names else f"refused at {function}: {verdict}"


def is_of_another(function, verdict):
    """Whether the line says that a proof fails for another's alone."""
    refused = STANDS_ON.search(verdict)
    is_own = refused and any(function.stands_on(it) for it in re.findall(r"`(\S+)`", refused[1]))
    return OF_ANOTHER.fullmatch(verdict) or refused and not is_own


def is_unread_in(function, said):
    found = [UNREAD.match(line) for line in said.lines]
    return any(function.holds((it[1], int(it[2]))) for it in found if it)


def lacks_its_body(function, said):
    """Whether a check has no use for a function without a body."""
    return is_unread_in(function, said) or any(map(function.is_called, said.refused))


class Unusable(Exception):
    """Why an edit cannot be applied."""


def pairs_of(text):
    """The pairs of an edit's text, each a path, an old text and a new one."""
    path = old = None
    for line in text.split("\n"):
        kind, _, rest = line.partition(":")
        if kind == "file":
            path = rest.strip()
        elif kind == "old":
            old = rest.removeprefix(" ")
        elif kind == "new":
            if not path or not old:
                raise Unusable("a line 'new:' has no line 'file:' or 'old:' above it")
            yield path, old, rest.removeprefix(" ")
            old = None


class Edit:
    """An edit of a crate: the texts that it makes, the functions that it changes, and those by whose proof it is judged."""

    def __init__(self, place, crate):
        self.name = place.stem
        self.pairs = list(pairs_of(place.read_text()))
        self.texts, places = self.apply(crate.texts)
        if self.texts == crate.texts:
            raise Unusable("it changes nothing")
        found = [(place, next((it for it in crate.functions if it.holds(place)), None)) for place in places]
        self.changed = {it for _, it in found if it}
        self.judges = {it for function in self.changed for it in standing_on(function, crate.functions)}
        # an import belongs to no function, and goes with the one that wants it
        self.is_of_bodies = bool(self.changed) and all(
            it.has_body_at(place) if it else crate.is_import(*place) for place, it in found)

    def apply(self, texts):
        """The texts as the edit makes them, and of each pair its file and line. Each old text stands there once."""
        texts, places = dict(texts), []
        for path, old, new in self.pairs:
            found = texts.get(path, "").count(old)
            if found != 1:
                raise Unusable(f"an old text stands {found} times in {path}, and not once")
            places.append((path, texts[path][: texts[path].index(old)].count("\n") + 1))
            texts[path] = texts[path].replace(old, new)
        return texts, places

    def agrees_with(self, other):
        """Whether both can be tried at once: no function by which one is judged is one of the other's."""
        return self.judges.isdisjoint(other.judges)

    def is_apart_from(self, others):
        """Whether no function by which it is judged names one of the others', or is named there."""
        theirs = [it for other in others if other is not self for it in other.judges]
        return not any(one.names(it) or it.names(one) for one in self.judges for it in theirs)

    def outcome(self, said, tried):
        """What the check of a round says of the functions by which the edit is judged: refused with the reason, waiting for
        another, or open. A goal that is left is a reason of its own, and so is an error in a proof file; a function of which
        no more is said than that it is not proved may lack only what one that it calls was to give."""
        outcome = OPEN, None
        for name, verdict in said.refused.items():
            judge = next((it for it in self.judges if it.is_called(name)), None)
            is_bare = verdict == "not proved" and not self.is_apart_from(tried)
            if judge and (is_of_another(judge, verdict) or is_bare) and not said.errors_of(name):
                outcome = WAITING, None
            elif judge and verdict.startswith(("not proved", "no proof")):
                return REFUSED, reason(judge.path, OF_CONTRACTS.sub("", verdict), said.lacks_names_alone(name))
        return outcome

    def is_unread(self, said):
        """Whether the check could not read a text of a function that it changes, or knows no function of such a name."""
        is_unknown = any(f"has no function `{it.path}`" in line for it in self.judges for line in said.lines)
        return is_unknown or any(is_unread_in(it, said) for it in self.changed)


class Crate:
    """A crate whose edits are tried."""

    def __init__(self, name):
        self.name, self.seconds = name, 0.0
        self.texts = prover.texts_of(name)
        # functions that are not read, or have no proof, without a body
        self.with_bodies = set()
        self.functions = functions_of_all({path: text for path, text in self.texts.items() if path.startswith("src/")})

    def is_import(self, file, line):
        return re.match(r"(ghost |pub )?use ", self.texts[file].split("\n")[line - 1])

    def check(self, *given):
        said = prover.check(self.name, *given)
        self.seconds += said.seconds
        return said

    def try_edits(self, places):
        """Tells of each edit its name, whether it is refused, and what the check said."""
        left, alone = [], []
        for place in places:
            try:
                edit = Edit(place, self)
                (left if edit.is_of_bodies else alone).append(edit)
            except (Unusable, OSError, UnicodeDecodeError) as why:
                yield place.stem, False, f"not applied: {why}"
        with tempfile.TemporaryDirectory(prefix=f"quotafs-kept-{self.name}-") as kept:
            while left:
                tried, left = self.next_round(left)
                judges = {it for edit in tried for it in edit.judges}
                said = self.check(self.round_of(tried, judges), kept, sorted(it.path for it in judges))
                outcomes = {edit: edit.outcome(said, tried) for edit in tried}
                yield from ((it.name, True, why) for it, (kind, why) in outcomes.items() if kind == REFUSED)
                spoilt = [it for it in tried if it.is_unread(said)]
                lacking = {it for it in self.bodiless(judges) if lacks_its_body(it, said)}
                self.with_bodies |= lacking
                # it may be refused in a later round, without those of this one, or with more bodies
                is_spoilt = spoilt or lacking
                waits = [it for it, (kind, _) in outcomes.items() if kind == WAITING or kind == OPEN and is_spoilt]
                waits = [it for it in waits if it not in spoilt]
                left += waits if lacking or len(waits) < len(tried) else []
                alone += [it for it in tried if outcomes[it][0] != REFUSED and it not in left]
            for edit in alone:
                yield edit.name, *self.try_alone(edit, kept)

    def next_round(self, left):
        """The edits that can be tried at once, and those that wait."""
        tried, texts, waiting = [], self.texts, []
        for edit in left:
            try:
                agrees = all(edit.agrees_with(other) for other in tried)
                texts = edit.apply(texts)[0] if agrees else texts
                (tried if agrees else waiting).append(edit)
            except Unusable:
                waiting.append(edit)
        return tried, waiting

    def bodiless(self, judges):
        """The functions by which none is judged. Each is known by its contract alone: neither its body nor its proof has a
        part in a goal of those that call it."""
        return [it for it in self.functions if it.may_lose_its_body and it not in judges | self.with_bodies]

    def round_of(self, tried, judges):
        """The texts that these edits make, where the others have a loop of as many lines, and a hole for their proof."""
        texts = dict(self.texts)
        for it in self.bodiless(judges):
            lines = texts[it.file].split("\n")
            lines[it.begins : it.last - 1] = ["loop {}", *[""] * (it.last - it.begins - 2)]
            texts[it.file] = "\n".join(lines)
            # also those of closures in it, as `proofs/module/fn/name/closure`
            of_proof = tuple(f"{folder}/" for folder in it.proof_folders)
            texts = {path: text for path, text in texts.items() if not path.replace("/fn/", "/").startswith(of_proof)}
            module = f"Rattle.{self.name}.{it.folder.replace('/', '.')}"
            texts[f"{it.folder}/Proof.antt"] = HOLE.format(module=module, name=it.name)
        for edit in tried:
            texts, _ = edit.apply(texts)
        return texts

    def try_alone(self, edit, kept):
        """What a check of the whole crate says of one edit: whether it is refused, and why."""
        said = self.check(edit.texts, kept)
        unread = next((line for line in said.errors if UNREAD.match(line)), None)
        of_itself = [it for it, verdict in said.refused.items() if said.errors_of(it) or not OF_ANOTHER.fullmatch(verdict)]
        first = next((it for it in of_itself if not said.lacks_names_alone(it)), next(iter(of_itself), None))
        if said.status == 0:
            return False, "NOT REFUSED: the crate is still proved"
        if unread:
            return False, f"not read: {unread}"
        if said.status == 3 and any(LIMIT.search(line) for line in said.lines):
            return True, "refused by a limit of the prover"
        if said.status != 1 or not first:
            return False, f"not tried: the check ended with status {said.status}: {said.lines[-1]}"
        return True, f"alone, {reason(first, said.refused[first], said.lacks_names_alone(first))}"
