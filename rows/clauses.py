"""The functions of a crate with the names of what they ensure, and whether who calls the crate can name them."""
import re
from dataclasses import dataclass

from functions import OWNER, cut_arguments

FUNCTION = re.compile(r"( *)(pub )?(?:pub\([\w ]+\) )?(?:const |unsafe |extern \S+ )*fn (\w+)")
ENSURES = re.compile(r"( *)ensures\b ?(\w*) \{")
EXPORT = "#[unsafe(no_mangle)]"


@dataclass(frozen=True)
class Contract:
    """A function's name, `Type::name` or `name`, the trait that it is of, if any, whether callers of its crate can name it,
    and the names of what it ensures, '' for a clause without one."""

    name: str
    trait: str
    is_public: bool
    ensures: tuple

    @property
    def is_declared(self):
        """Whether a trait asks for it, and no type has it here."""
        return self.name.partition("::")[0] == self.trait


def owner_of(header):
    """Whose the functions of a block are: of a type, or of a trait; and the trait, if any."""
    found = OWNER.match(header)
    if found[1]:
        return found[1], found[1]
    text = header.partition("{")[0].partition(" where ")[0].removeprefix("unsafe ").removeprefix("impl")
    if text.startswith("<"):
        text = cut_arguments(text)[2]
    trait, _, kind = text.rpartition(" for ")
    return tuple(cut_arguments(it)[0].strip(" &").rpartition("::")[2] for it in (kind, trait))


def handed_on(root):
    """The names that the root file of a library has for its callers."""
    used = re.findall(r"^pub use ([^;]*);", root, re.M)
    own = re.findall(r"^pub (?:const |extern \S+ )*(?:fn|struct|enum|trait|type|const|static) (\w+)", root, re.M)
    return {name for use in used for name in re.findall(r"\w+", use)} | set(own)


def ensured_at(lines, at, indent):
    """The names of what the function ensures that begins in a line."""
    for line in lines[at:]:
        clause = ENSURES.match(line)
        if clause and clause[1] == f"{indent}    ":
            yield clause[2]
        # a body begins in the function's own column, and what a trait asks for has none
        is_in_column = line.startswith(indent) and not line.startswith(f"{indent} ")
        if line.endswith("};") or is_in_column and line.endswith(("{", "{}", ";")):
            break


def contracts_in(text, names, traits):
    """The functions of a file that `rt fmt` has laid out, of a crate that hands these names on and has these traits."""
    lines = text.split("\n")
    owner = trait = ""
    for at, line in enumerate(lines):
        if OWNER.match(line):
            end = next(it for it in range(at, len(lines)) if "{" in lines[it])
            owner, trait = owner_of(" ".join(lines[at : end + 1]))
        elif line == "}":
            owner = trait = ""
        found = FUNCTION.match(line)
        if found:
            indent, has_pub, name = found.groups()
            # a function for a trait of this crate is as public as that, also of a type that comes from below
            told_by = trait if trait in traits else owner or name
            is_public = bool(has_pub or trait) and (told_by in names or EXPORT in lines[at - 1])
            full = f"{owner}::{name}" if owner else name
            yield Contract(full, trait, is_public, tuple(ensured_at(lines, at, indent)))


def contracts_of(folder):
    """All functions of a library, those of each name."""
    texts = [source.read_text() for source in sorted((folder / "src").glob("**/*.rt"))]
    traits = {name for text in texts for name in re.findall(r"^(?:pub(?:\(\w+\))? )?trait (\w+)", text, re.M)}
    names = handed_on((folder / "src/lib.rt").read_text())
    found = {}
    for text in texts:
        for contract in contracts_in(text, names, traits):
            found.setdefault(contract.name, []).append(contract)
    return found
