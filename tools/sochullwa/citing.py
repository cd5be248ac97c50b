"""Which definitions a contract rests on: those that it cites, and those that these cite in turn."""
import collections
import functools
import os
import pathlib
import re
from collections.abc import Iterable, Iterator
from typing import NamedTuple

from sochullwa.repository import CRATES, TOP
from sochullwa.tables import heading, row

USE = re.compile(r"^ *(?:ghost )?(?:pub )?use Rattle\.(\w+)\.specs\.([\w.]+?)(?:\.\{([^}]*)\}| as (\w+));?$", re.M)
DECLARED = re.compile(r" *(?:(?:abbrev|unfoldable|pub|record|data) )*(◌?[^\s◌]+◌?)(?= |$)")
# A name, perhaps of a file that has a name of its own here, or an operator.
WORD = re.compile(r"[A-Za-z_]\w*(?:\.[A-Za-z_]\w*)?|[^\w\s(){}\[\],.;]+")


class Definition(NamedTuple):
    """A definition, with its file, the number of its first line and its lines without comments."""

    name: str
    path: pathlib.Path
    line: int
    text: str


@functools.cache
def declared_in(path: pathlib.Path) -> dict[str, Definition]:
    """The definitions of a file: each is a paragraph, the first line of which that is no comment names it."""
    found: dict[str, Definition] = {}
    line = 1
    for part in path.read_text().split("\n\n"):
        lines = part.split("\n")
        kept = [it for it in lines if it.strip() and not re.match(r" *(--|use |pub use |module )", it)]
        name = DECLARED.match(kept[0]) if kept else None
        if name and path.suffix == ".antt":
            first = line + lines.index(kept[0])
            found[name[1].strip("◌")] = Definition(name[1], path, first, "\n".join(kept))
        line += len(lines) + 1
    return found


@functools.cache
def imports_of(path: pathlib.Path) -> dict[str, tuple[pathlib.Path, str]]:
    """What a file calls what it imports from definitions of this repository, each with its file and its name
    there; an alias of a file has no name."""
    found = {}
    for crate, module, names, alias in USE.findall(path.read_text()):
        place = CRATES / crate / "specs" / f"{module.replace('.', '/')}.antt"
        if place.exists() and alias:
            found[alias] = (place, "")
        elif place.exists():
            for it in names.split(","):
                name, _, own = it.replace("◌", "").strip().partition(" as ")
                found[own or name] = (place, name)
    return found


def found_by(path: pathlib.Path, word: str) -> Definition | None:
    """The definition that a word of a file means, if it is one of this repository."""
    first, _, last = word.partition(".")
    if first in declared_in(path):
        return declared_in(path)[first]
    place, name = imports_of(path).get(first, (path, ""))
    if place == path or not (name or last):
        return None
    return found_by(place, name or last)


def cited(path: pathlib.Path, text: str) -> Iterator[Definition]:
    """The definitions that a text of a file cites."""
    found = (found_by(path, it) for it in dict.fromkeys(WORD.findall(text)))
    yield from dict.fromkeys(it for it in found if it)


def behind(path: pathlib.Path, text: str) -> list[Definition]:
    """The definitions that a text of a file cites, and all that these cite, each once."""
    found = list(cited(path, text))
    for it in found:
        found += [more for more in cited(it.path, it.text) if more not in found]
    return found


# A public function, up to the next function or item; and a clause, up to its brace.
FUNCTION = re.compile(r"^ *pub (?:const )?fn .*?(?=^ *(?:pub(?:\(crate\))? )?(?:const )?(?:fn|impl|struct|enum|trait)\b|\Z)", re.M | re.S)
CLAUSE = re.compile(r"^ *(?:ensures|requires)\b[^{\n]*(?=\{)", re.M)


def braces(text: str) -> str:
    """A text up to the brace that closes its first one."""
    depth = 0
    for at, it in enumerate(text):
        depth += (it == "{") - (it == "}")
        if depth == 0:
            return text[: at + 1]
    return text


def public_clauses(text: str) -> str:
    """The clauses of the public functions of a source."""
    found = (function[0] for function in FUNCTION.finditer(text))
    return "\n".join(braces(it[clause.end() :]) for it in found for clause in CLAUSE.finditer(it))


def uncited(crates: Iterable[str]) -> Iterator[pathlib.Path]:
    """The files of definitions of these crates on which no contract of a public function rests."""
    known: dict[Definition, None] = {}
    sources = sorted(it for crate in crates for it in (CRATES / crate / "src").rglob("*.rt"))
    todo = [it for source in sources for it in cited(source, public_clauses(source.read_text()))]
    while todo:
        it = todo.pop()
        if it not in known:
            known[it] = None
            todo += cited(it.path, it.text)
    reached = {it.path for it in known}
    for path in sorted(it for crate in crates for it in (CRATES / crate / "specs").glob("*.antt")):
        if path.name != "Lib.antt" and path not in reached and len(declared_in(path)) > 0:
            yield path


CONTRACT = re.compile(r"```contract (\S+) (\S+)\n(.*?)```\n", re.S)


def crate_of(it: Definition) -> str:
    return it.path.relative_to(CRATES).parts[0]


def sizes(found: Iterable[Definition]) -> str:
    """How many lines definitions have in each crate, the most first."""
    counts: collections.Counter[str] = collections.Counter()
    for it in found:
        counts[crate_of(it)] += it.text.count("\n") + 1
    return ", ".join(f"{crate} {count}" for crate, count in counts.most_common())


def tables(page: pathlib.Path, text: str) -> str:
    """Two tables of a page: the definitions behind each contract of code that it quotes, counted; and the
    definitions that its quotations cite and that it does not quote, as links."""
    blocks = [(TOP / file, name, body) for file, name, body in CONTRACT.findall(text)]
    quoted = {(path, name) for path, name, _ in blocks}
    sizes_of = [heading("Contract", "Definitions", "Lines", "Lines by crate")]
    links: dict[str, list[str]] = {}
    for path, name, body in blocks:
        if path.suffix == ".rt" and (found := behind(path, body)):
            lines = sum(it.text.count("\n") + 1 for it in found)
            sizes_of.append(row(f"`{name}`", len(found), lines, sizes(found)))
        for it in cited(path, body):
            link = f"[`{it.name}`]({os.path.relpath(it.path, page.parent)}#L{it.line})"
            if (it.path, it.name) not in quoted and link not in links.setdefault(crate_of(it), []):
                links[crate_of(it)].append(link)
    lists = [row(crate, ", ".join(found)) for crate, found in sorted(links.items()) if found]
    return "\n".join([*sizes_of, "", heading("Crate", "Cited above and not quoted"), *lists, ""])
