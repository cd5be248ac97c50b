"""Reads mutants, the files NAME.edit: the texts that they change, and the functions that these are
in."""
import dataclasses
import difflib
import pathlib
import re
from collections.abc import Iterator

FUNCTION = re.compile(r"^(\s*)(?:pub(?:\([^)]*\))? )?(?:const )?(?:unsafe )?fn (\w+)")
OWNER = re.compile(r"^(?:unsafe )?(?:impl|trait)\b(.*)")
SAID = re.compile(r"(?:note: )?(?:\./)?(\S+?):(\d+):\d+: ")
UNPROVED = re.compile(r"fn (\S+): no proof: .*`search` did not prove ")
# A stored answer cites a goal or a step that the edited function does not have: this says nothing of its
# contract.
STALE = re.compile(r"(?:module|record) `[^`]*` has no |\(nearest: ")


@dataclasses.dataclass(frozen=True)
class Change:
    """A text of a file of a crate, and the text that takes its place."""

    file: str
    old: str
    new: str


@dataclasses.dataclass(frozen=True)
class Function:
    """A function by the end of its name, and the lines of its file that it takes."""

    name: str
    file: str
    first: int
    last: int

    def is_blamed(self, line: str) -> bool:
        """Whether a line of the prover is about a goal of this function: by its name, in its text, or in the
        answers to its goals."""
        if unproved := UNPROVED.match(line):
            return f"::{unproved[1]}".endswith(f"::{self.name}")
        said = SAID.match(line)
        if not said or STALE.search(line) or "error" not in line and not line.startswith("note: "):
            return False
        if said[1] == self.file and self.first <= int(said[2]) <= self.last + 1:
            return True
        answers = "/" + self.name.replace("::", "/") + "/"
        return said[1].startswith("proofs/") and answers in "/" + said[1]


@dataclasses.dataclass(frozen=True)
class Edit:
    """A mutant: its changes, the functions that these are in (None: not all are in one), the files that it
    changes as it leaves them, the file and line of each change, and whether it is one that the compiler
    refuses: it has a line `by: type`."""

    at: pathlib.Path
    changes: tuple[Change, ...]
    functions: tuple[Function, ...] | None
    texts: dict[str, str]
    lines: tuple[tuple[str, int], ...] = ()
    is_by_type: bool = False

    @property
    def names(self) -> list[str]:
        return [it.name for it in self.functions or ()]


def changes(text: str) -> Iterator[Change]:
    """The changes of an edit, from its lines `file: ..`, `old: ..` and `new: ..`."""
    file = old = ""
    for line in text.split("\n"):
        word, _, rest = line.partition(": ")
        if word == "file":
            file = rest.strip()
        elif word == "old":
            old = rest
        elif line.startswith("new:"):
            yield Change(file, old, rest)


def owner_name(head: str) -> str:
    """How the prover calls what an impl is of: `Tree`, `Tree+Item` of a `Tree<Item>`, `Tree+Box+T` of an
    impl<T> Tree<Box<T>>, `IterIterator` of an Iterator for Iter, `FaultFromError` of a From<Error> for Fault."""
    said = re.match(r"<((?:[^<>]|<[^<>]*>)*)>(.*)", head)
    generics, rest = (said[1], said[2]) if said else ("", head)
    of_trait, _, of_type = rest.rpartition(" for ")
    own = set(re.findall(r"(?:^|,)\s*(\w+)", generics))
    name, arguments, depth = "", list[str](), 0
    for token in re.findall(r"(?<!')\b\w+|[<>]", of_type):
        if token in "<>":
            depth += 1 if token == "<" else -1
        elif not name:
            name = token
        elif depth > 1 or token not in own:
            arguments.append(token)
    trait = [re.findall(r"\w+", it)[-1] for it in re.findall(r"[\w:]+", of_trait)[:2]]
    return "".join([name, *("+" + it for it in arguments), *trait])


def function_at(file: str, text: str, place: int) -> Function | None:
    """The function that encloses this place of a file of src/, or None."""
    lines = text.split("\n")
    for start in range(text.count("\n", 0, place), -1, -1):
        if found := FUNCTION.match(lines[start]):
            break
        if lines[start].startswith("}"):
            return None
    else:
        return None
    last = next(it for it in range(start + 1, len(lines)) if lines[it] == found[1] + "}")
    # (a goal may be told at an attribute)
    first = start
    while first > 0 and lines[first - 1].strip() and not lines[first - 1].endswith("{"):
        first -= 1
    owners = (it[1] for line in reversed(lines[:start]) if (it := OWNER.match(line)))
    owner = next(owners, "") if found[1] else ""
    names = [owner_name(owner)] if owner else []
    module = [it for it in pathlib.Path(file).with_suffix("").parts[1:] if it not in ("lib", "main", "mod")]
    return Function("::".join([*(names or module), found[2]]), file, first + 1, last + 1)


def read(at: pathlib.Path, crate: pathlib.Path) -> Edit | None:
    """The edit of a file, or None where a text that it changes does not stand once in its file of the
    crate."""
    texts: dict[str, str] = {}
    lines: list[tuple[str, int]] = []
    changed, functions = tuple(changes(at.read_text())), []
    for it in changed:
        path = crate / it.file
        text = texts.get(it.file) or (path.read_text() if path.is_file() else "")
        if text.count(it.old) != 1:
            return None
        is_code, place = it.file.startswith("src/"), text.index(it.old)
        functions.append(function_at(it.file, text, place) if is_code else None)
        lines.append((it.file, text.count("\n", 0, place) + 1))
        texts[it.file] = text.replace(it.old, it.new)
    known = tuple(dict.fromkeys(it for it in functions if it))
    is_by_type = "by: type" in at.read_text().split("\n")
    return Edit(at, changed, None if None in functions else known, texts, tuple(lines), is_by_type)


TOKENS = re.compile(r"\w+|\s+|.")


def names_changed(before: str, after: str) -> dict[str, str] | None:
    """The names of a text that stand changed in another, or None where more than names differs."""
    pairs = list(zip(TOKENS.findall(before), TOKENS.findall(after)))
    is_same_length = len(TOKENS.findall(before)) == len(TOKENS.findall(after))
    differing = {one: other for one, other in pairs if one != other}
    is_of_names = all(re.match(r"\w", one) and re.match(r"\w", other) for one, other in differing.items())
    return differing if is_same_length and is_of_names else None


def renamed(change: Change, texts: dict[str, str]) -> Change:
    """A change whose old text does not stand once in its file, as it is once names in it were changed: of the
    lines that differ from the old text in names and stand once in their file, that which is most like it, of
    its own file if there is one, and in the new text the same names changed."""
    own = texts.get(change.file, "")
    if own.count(change.old) == 1:
        return change
    for files in ({change.file: own}, texts):
        lines = ((line, file) for file, text in files.items() for line in text.split("\n"))
        places = {line: file for line, file in lines if files[file].count(line) == 1}
        alike = {line: names for line in places if (names := names_changed(change.old, line))}
        for line in difflib.get_close_matches(change.old, alike, 1):
            new = "".join(alike[line].get(it, it) for it in TOKENS.findall(change.new))
            return Change(places[line], line, new)
    return change


def repaired(text: str, texts: dict[str, str]) -> str:
    """The text of an edit with each change as `renamed` has it; nothing where that applies no better."""
    before = list(changes(text))
    after = [renamed(it, texts) for it in before]
    lines = [f"file: {it.file}\nold: {it.old}\nnew: {it.new}\n" for it in after]
    lines += ["by: type\n"] * ("by: type" in text.split("\n"))
    return "".join(lines) if after != before else ""
