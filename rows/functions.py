"""The functions of a crate as its sources have them: where each stands, its name as the prover prints it, what it names."""
import re
from dataclasses import dataclass
from pathlib import Path

FUNCTION = re.compile(r"( *)(?:pub(?:\([\w ]+\))? )?(?:const |unsafe |extern \S+ )*fn (\w+)")
OWNER = re.compile(r"(?:unsafe )?(?:impl\b|(?:pub(?:\([\w ]+\))? )?(?:unsafe )?trait (\w+))")
TYPE = re.compile(r"^(?:pub(?:\([\w ]+\))? )?(?:struct|enum) (\w+)", re.M)


@dataclass(frozen=True)
class Function:
    """A function: its file, its first and its last line from 1, that with which its body begins, before its first where no
    lines are its body's alone, its name below the crate, the folder of its proof, whether it is of a trait, whether that
    or a clause says what it ensures, and the words of its text."""

    file: str
    first: int
    begins: int
    last: int
    path: str
    folder: str
    is_of_trait: bool
    has_contract: bool
    words: frozenset

    @property
    def name(self):
        return self.path.rpartition("::")[2]

    @property
    def proof_folders(self):
        """Where files of its proof may stand: in its folder, or in that of a function that calls itself."""
        above, _, name = self.folder.rpartition("/")
        return self.folder, f"{above}/+{name}"

    def stands_on(self, declaration):
        """Whether a declaration, as `Rattle.crate.proofs.module.name.Answers.goal`, is of its proof or of a closure's."""
        return any(f".{it.replace('/', '.')}." in declaration.replace(".fn.", ".") for it in self.proof_folders)

    @property
    def may_lose_its_body(self):
        return not self.is_of_trait and self.first <= self.begins

    def holds(self, place):
        file, line = place
        return file == self.file and self.first <= line <= self.last

    def has_body_at(self, place):
        return self.holds(place) and place[1] >= self.begins

    def is_called(self, name):
        """Whether the prover calls it so, or a closure in it: `crate::module::fn::name::closure`."""
        return f"::{self.path}::" in name.replace("::fn::", "::") + "::"

    def names(self, other):
        return self != other and other.name in self.words


def cut_arguments(text):
    """What stands before the angle brackets with which a text begins or ends, in them, and behind them."""
    if "<" not in text:
        return text, "", ""
    start, depth = text.index("<"), 0
    for at in range(start, len(text)):
        is_arrow = text[at] == ">" and text[at - 1] in "-="
        depth += (text[at] == "<") - (text[at] == ">" and not is_arrow)
        if depth == 0:
            return text[:start], text[start + 1 : at], text[at + 1 :]
    return text[:start], text[start + 1 :], ""


def name_of(kind, parameters, between="+"):
    """What the prover calls a type: `Seat`, or `Seat+S+Viewer+S` of `Seat<S, Viewer<S>>`, and `U64` of `u64`."""
    before, arguments, _ = cut_arguments(kind)
    name = before.rpartition("::")[2].strip(" &")
    words = re.findall(r"\w+", arguments)
    name = name[0].upper() + name[1:]
    return name if set(words) <= parameters else between.join([name, *words])


def owner_of(header):
    """What the name of a method begins with: of a type `Type`, of a trait for it `TypeTrait`; and whether of a trait."""
    trait = OWNER.match(header)[1]
    if trait:
        return trait, True
    text = header.partition("{")[0].partition(" where ")[0].removeprefix("unsafe ").removeprefix("impl")
    declared, rest = "", text
    if text.startswith("<"):
        _, declared, rest = cut_arguments(text)
    parameters = {it for part in declared.split(",") for it in re.findall(r"'?(\w+)", part)[:1]} | {"_"}
    of, _, kind = rest.strip().rpartition(" for ")
    name = name_of(kind.strip(), parameters)
    # of a trait the arguments follow at once, as in `ReplayFaultFromTextFault`
    return (name + name_of(of.strip(), parameters, ""), True) if of else (name, False)


def modules_of(file):
    return () if file in ("src/lib.rt", "src/main.rt") else Path(file).with_suffix("").parts[1:]


def functions_of_all(sources):
    """The functions of all files of a crate, by their paths. The proofs of methods stand with their type."""
    homes = {name: modules_of(file) for file, text in sources.items() for name in TYPE.findall(text)}
    return [it for file, text in sources.items() for it in functions_of(file, text, homes)]


def functions_of(file, text, homes):
    """The functions of a file that `rt fmt` has laid out, by which what is begun is ended in the same column."""
    lines = text.split("\n")
    modules = modules_of(file)
    owner, is_of_trait = "", False
    for at, line in enumerate(lines):
        if OWNER.match(line):
            end = next(it for it in range(at, len(lines)) if "{" in lines[it])
            owner, is_of_trait = owner_of(" ".join(lines[at : end + 1]))
        elif line == "}":
            owner, is_of_trait = "", False
        found = FUNCTION.match(line)
        if found:
            ending = re.compile(re.escape(found[1]) + r"(\S.*)?[};]")
            last = next((it for it in range(at, len(lines)) if ending.fullmatch(lines[it])), at)
            body = lines[at : last + 1]
            opening = [it for it in range(at, last) if lines[it].endswith("{") and lines[last] == found[1] + "}"]
            begins = next((it for it in opening if lines[it] == found[1] + "{"), next(iter(opening), at - 1))
            path = "::".join((*([owner] if owner else modules[-1:]), found[2]))
            home = homes.get(owner.partition("+")[0], modules)
            folder = "/".join(("proofs", *home, *([owner] if owner else []), found[2]))
            has_contract = is_of_trait or any(re.match(r" *ensures\b", it) for it in body)
            words = frozenset(re.findall(r"\w+", re.sub(r"//.*", "", "\n".join(body))))
            yield Function(file, at + 1, begins + 1, last + 1, path, folder, is_of_trait, has_contract, words)


def standing_on(function, functions):
    """The function and, as long as one has no contract, those that name it, since its proof is a part of theirs."""
    standing, left = [], [function]
    while left:
        below = left.pop()
        if below not in standing:
            standing.append(below)
            left += [] if below.has_contract else [it for it in functions if it.names(below)]
    return standing
