"""What pages quote of the repository: files, contracts, lists of files, and counts of crates and mutants."""
import collections
import json
import pathlib
import re
from collections.abc import Callable, Iterable

from sochullwa import callers, citing, repository
from sochullwa.repository import CRATES, TOP, listed

BLOCK = re.compile(
    r"```(script|output|contract|function|files|layers|edits|tried|sizes|lines|callers|uncited) ([^\n]+)\n"
    r"(.*?)```\n",
    re.S,
)
# The crates by subject, for the table of sizes; the tests and all other crates have rows of their own.
SUBJECTS = {
    "names, lists and trees": "names words ordered chunks prefix_tree",
    "access and broker": "authorizer rights producers partition catalog groups broker",
    "journal and threads": "shared",
    "outbox, router, inbox, delivery": "outbox router inbox connections delivery pipeline endpoints "
    "delivery_check topic_check",
    "questions about rules": "policy_review policy_text policy_rows",
    "texts, scenes and programs": "acl_cli script script_run run scene_text scene_play scene_export "
    "mistakes example_service kob",
}


def file(name: str) -> str:
    """A file; a name without a folder is one of examples/."""
    return (TOP / name if "/" in name else TOP / "examples" / name).read_text()


def contract(words: str) -> str:
    """The definition or signature of a name as it stands in its file."""
    name_file, name = words.split()
    text = (TOP / name_file).read_text()
    if name_file.endswith(".rt"):
        found = re.search(rf"^( *)pub fn {name}\b.*?(?=^\1\{{)", text, re.M | re.S)
    else:
        found = re.search(rf"^ *(?:abbrev )?(?:pub )?(?:record )?{name} .*?(?=\n\n|\Z)", text, re.M | re.S)
    return unindented(found, words)


def function(words: str) -> str:
    """A function of a file, with its comment and its body."""
    name_file, name = words.split()
    text = (TOP / name_file).read_text()
    comment = r"(?:^ *(?://|#\[)[^\n]*\n)*"
    whole = rf"{comment}^( *)(?:pub(?:\(crate\))? )?fn {name}\b.*?^\1\}}"
    return unindented(re.search(whole, text, re.M | re.S), words)


def unindented(found: re.Match[str] | None, words: str) -> str:
    """What was found, from the first column on."""
    if not found:
        raise LookupError("{} has no {}".format(*words.split()))
    lines = found[0].rstrip().splitlines()
    indent = len(lines[0]) - len(lines[0].lstrip())
    return "".join(line[min(indent, len(line) - len(line.lstrip())) :] + "\n" for line in lines)


def sources(crate: str) -> list[pathlib.Path]:
    """The files of a crate's code and definitions."""
    return sorted([*(CRATES / crate).glob("src/**/*.rt"), *(CRATES / crate).glob("specs/**/*.antt")])


def files_with(words: str) -> str:
    """The files in which an expression is found, a line for each crate."""
    pattern, _, named = words.partition(" in ")
    others = (it.name for it in CRATES.iterdir() if not it.name.startswith("kob_tests_"))
    lines = []
    for crate in named.split() or sorted(others):
        found = [it for it in sources(crate) if re.search(pattern, it.read_text())]
        if found:
            lines.append(f"{crate}: {', '.join(str(it.relative_to(CRATES / crate)) for it in found)}\n")
    if not lines:
        raise LookupError(f"no file has {pattern}")
    return "".join(lines)


def crates_of(name: str) -> dict[str, list[str]]:
    return listed((TOP / name).read_text())


def layers(name: str) -> str:
    """The crates of a list, the highest layer first; what a crate uses stands below it."""
    uses, heights = crates_of(name), dict[str, int]()

    def height_of(crate: str) -> int:
        if crate not in heights:
            heights[crate] = 1 + max((height_of(it) for it in uses[crate] if it in uses), default=0)
        return heights[crate]

    rows = []
    for level in range(max(map(height_of, uses)), 0, -1):
        named = (it.removeprefix("kob_") for it in uses if heights[it] == level)
        rows.append(f"{level:2}  {'   '.join(named)}\n")
    return "".join(rows)


def lines_of(path: pathlib.Path) -> tuple[int, int]:
    """The lines of a source that are neither empty nor comments: of the code, and of its contracts."""
    code = contracts = depth = 0
    for line in map(str.strip, path.read_text().splitlines()):
        if not line or line.startswith(("//", "--")):
            continue
        is_clause = depth > 0 or bool(re.match(r"(requires|ensures|ghost)\b", line))
        depth = max(0, depth + line.count("{") - line.count("}")) if is_clause and path.suffix == ".rt" else 0
        code, contracts = (code, contracts + 1) if is_clause else (code + 1, contracts)
    return code, contracts


def lines_by_part(crate: str) -> list[int]:
    """How many lines a crate has of code, contracts, definitions and proofs."""
    texts = [lines_of(it) for it in (CRATES / crate / "src").rglob("*.rt")]
    counts = [sum(code for code, _ in texts), sum(contracts for _, contracts in texts)]
    for part in ("specs", "proofs"):
        counts.append(sum(lines_of(it)[0] for it in (CRATES / crate / part).rglob("*.antt")))
    return counts


def row_of(name: str, cells: Iterable[object]) -> str:
    return f"{name:32}" + "".join(f"{it:>13}" for it in cells) + "\n"


HEADS = ("code", "contracts", "definitions", "proofs")


def lines_of_each(name: str) -> str:
    """The lines of each crate of a list."""
    rows = [row_of(it, lines_by_part(it)) for it in crates_of(name)]
    return row_of("lines", HEADS) + "".join(rows)


def called_once(name: str) -> str:
    """The private functions of the crates of a list, tests apart: how many there are, how many one place
    calls, and how many of these have a loop, are a case of a match, or neither."""
    own = {it: callers.counts(CRATES / it) for it in crates_of(name) if "_tests_" not in it}
    own["all"] = sum(own.values(), collections.Counter())
    cells = {
        it: [of.total(), of.total() - of[""], *(of[kind] for kind in callers.KINDS)] for it, of in own.items()
    }
    shares = [f"{100 * it / cells['all'][0]:.0f}%" for it in cells["all"]]
    heads = ("all", "one caller", *callers.KINDS)
    rows = [row_of(it, of) for it, of in [("private functions", heads), *cells.items(), ("", shares)]]
    return "".join(rows)


def sizes(name: str) -> str:
    """The lines of the crates of a list by subject, in thousands: code, contracts, definitions, proofs."""
    own = {it if it == "kob" else f"kob_{it}": of for of, named in SUBJECTS.items() for it in named.split()}
    counts = {subject: [0, 0, 0, 0] for subject in [*SUBJECTS, "all others", "tests"]}
    for crate in crates_of(name):
        subject = own.get(crate, "tests" if "_tests_" in crate else "all others")
        counts[subject] = [was + more for was, more in zip(counts[subject], lines_by_part(crate))]
    counts["all"] = [sum(column) for column in zip(*counts.values())]
    rows = [row_of(of, (f"{it / 1000:.1f}" for it in row)) for of, row in counts.items() if any(row)]
    return row_of("lines, in thousands", HEADS) + "".join(rows)


def edits(name: str) -> str:
    """How many mutants there are in a folder for each crate, and in all."""
    counts = {it.name: len(list(it.glob("*.edit"))) for it in sorted((TOP / name).iterdir()) if it.is_dir()}
    words = [f"{crate} {count}" for crate, count in counts.items()]
    rows = ["   ".join(words[at : at + 5]) for at in range(0, len(words), 5)]
    return "".join(f"{it}\n" for it in [*rows, f"all {sum(counts.values())}"])


def tried(name: str) -> str:
    """What came of the mutants of each crate when their present text was tried, by the file that keeps it."""
    known = {(it, kept["text"]): kept["verdict"] for it, kept in json.loads((TOP / name).read_text()).items()}
    whole: collections.Counter[str] = collections.Counter()
    rows: list[tuple[str, collections.Counter[str]]] = []
    for folder in sorted(it for it in (TOP / name).parent.iterdir() if it.is_dir()):
        found = ((f"{folder.name}/{it.name}", repository.sum_of(it)) for it in folder.glob("*.edit"))
        counts = collections.Counter(known.get(it, "untried") for it in found)
        rows.append((folder.name, counts))
        whole += counts
    kinds = sorted(whole, key=lambda it: (it == "untried", it))
    lines = (row_of(crate, [counts[it] or "-" for it in kinds]) for crate, counts in [*rows, ("all", whole)])
    return row_of("", kinds) + "".join(lines)


def uncited(name: str) -> str:
    """The files of definitions of the libraries of a list that no public function's contract cites, neither
    itself nor by what it cites, with their subjects."""
    libraries = [it for it in crates_of(name) if not (CRATES / it / "src/main.rt").exists()]
    lines = []
    for path in citing.uncited(libraries):
        subject = path.read_text().partition("\n")[0].removeprefix("-- ")
        lines.append(f"{path.parts[-3] + '/' + path.name:38}{subject}\n")
    return "".join(lines)


KINDS: dict[str, Callable[[str], str]] = {
    "script": file,
    "output": file,
    "contract": contract,
    "function": function,
    "files": files_with,
    "layers": layers,
    "edits": edits,
    "tried": tried,
    "sizes": sizes,
    "lines": lines_of_each,
    "callers": called_once,
    "uncited": uncited,
}


def by_files(text: str) -> str:
    """A page with each block as the repository has it."""
    return BLOCK.sub(lambda it: f"```{it[1]} {it[2]}\n{KINDS[it[1]](it[2])}```\n", text)
