"""The private functions of a crate that one place calls, by why each is a function of its own."""
import collections
import pathlib
import re
from collections.abc import Iterable, Iterator

FUNCTION = re.compile(
    r"^(?P<indent> *)(?P<scope>pub(?:\([a-z]+\))? )?(?:const |unsafe )*fn (?P<name>\w+)"
    r"(?:[^\n]*\{\}$|.*?^(?P=indent)\})",
    re.M | re.S,
)
IMPORT = re.compile(r"^ *(?:pub(?:\([a-z]+\))? )?(?:ghost )?use [^;]*;", re.M)
TEST = re.compile(r"#\[test\]\s*fn (\w+)")
LOOP = re.compile(r"\b(?:for|while|loop)\b")
KINDS = ("loop", "case", "other")


def without_clauses(text: str) -> str:
    """A source without comments, imports and contracts."""
    kept, depth = [], 0
    for line in IMPORT.sub("", re.sub(r"//.*", "", text)).splitlines():
        is_clause = depth > 0 or bool(re.match(r" *(requires|ensures|ghost)\b", line))
        if is_clause:
            depth += line.count("{") - line.count("}")
        else:
            kept.append(line)
    return "\n".join(kept) + "\n"


def kind_of(name: str, body: str, text: str) -> str:
    """Why a function of one caller is one: it has a loop, or it is a case of a match, or neither."""
    if LOOP.search(body):
        return "loop"
    return "case" if re.search(rf"=>\s*(?:\{{\s*)?[^;\n]*(?<!fn )\b{name}\b", text) else "other"


def called_once(texts: Iterable[str]) -> Iterator[str]:
    """For each private function of these sources its kind if one place calls it, else an empty text."""
    text = "".join(map(without_clauses, texts))
    tests = set(TEST.findall(text))
    defined = collections.Counter(it["name"] for it in FUNCTION.finditer(text))
    for it in FUNCTION.finditer(text):
        name = it["name"]
        if it["scope"] == "pub " or name in tests:
            continue
        uses = len(re.findall(rf"\b{name}\b", text)) - defined[name]
        yield kind_of(name, it[0], text) if defined[name] == uses == 1 else ""


def counts(crate: pathlib.Path) -> collections.Counter[str]:
    """How many private functions a crate has of each kind; those of several callers under an empty text."""
    return collections.Counter(called_once(it.read_text() for it in sorted((crate / "src").rglob("*.rt"))))
