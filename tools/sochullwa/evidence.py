"""Finds where a source writes `AllocError` as a value: where it says out of memory without a refused
allocation."""
import re

# Where the error is made, how many times, and of what.
MADE = {
    "kob_names/src/size.rt": (1, "a size of 2^64 or more, which no allocation has"),
    "kob_acl_cli/src/line.rt": (1, "clap's kind of error"),
    "kob_outbox/src/fault.rt": (1, "sqlite's kind of error"),
    "kob_policy_text/src/rows.rt": (1, "json's kind of error"),
    "kob_pipeline/src/line.rt": (1, "the count of the calls that could not be noted"),
    "kob_prefix_tree/src/link.rt": (1, "an allocation of the raw node, whose error has no other value"),
}
# Comments, texts and characters say nothing.
SILENT = re.compile(r'//[^\n]*|b?"(?:\\.|[^"\\])*"|b?\'(?:\\.|[^\'\\])\'')
WORD = re.compile(r"\bAllocError\b")
# A sum that is always too large, or room that no machine has, makes the error where no memory lacks.
ENDLESS = re.compile(r"\b(sum_of|with_capacity|reserve)\([^;{}]*(\bMAX\b|\b\d[\d_]{15,})")
DECLARED = re.compile(r"\b(enum|struct)\b[^;{}()]*\{$")


def times(name: str) -> int:
    """How often a source, CRATE/src/FILE, may write the word as a value."""
    return MADE.get(name, (0, ""))[0]


def opened(before: str) -> int | None:
    """Where the last bracket of a text stands that is not closed in it."""
    depth = 0
    for place in range(len(before) - 1, -1, -1):
        depth += (before[place] in ")]}") - (before[place] in "([{")
        if depth < 0:
            return place
    return None


def is_in_braces(before: str) -> bool:
    place = opened(before)
    return place is not None and before[place] == "{"


def is_declared(before: str) -> bool:
    """Whether a text ends within the braces of an enum or of a struct."""
    place = opened(before)
    while place is not None:
        if DECLARED.search(before[: place + 1]):
            return True
        place = opened(before[:place])
    return False


def is_value(text: str, start: int, end: int) -> bool:
    """Whether the word at a place of a source is a value: no type, no pattern, no path."""
    before, after = text[:start].rstrip(), text[end:].lstrip()
    line = text[text.rfind("\n", 0, start) + 1 : start]
    if after.startswith("::"):
        return False
    # Brought in under its own name: under another it would be a value that nobody sees.
    if re.search(r"\buse\b[^;]*$", before):
        return re.match(r"as\b", after) is not None
    # A pattern: the parentheses around it close, and an arrow, an alternative, a guard or `else` follows.
    if re.match(r"\)*\s*(=>|if\b|\|(?!\|))", after):
        return False
    if re.match(r"\)*\s*=(?!=|>)", after) and re.search(r"\blet\b", line):
        return False
    # The value of a field, where a struct or a variant is made.
    if re.search(r"[^:]:$", before) and re.match(r"[,}]", after) and is_in_braces(before):
        return not is_declared(before)
    # A type: of a parameter, a field, a result, or among the arguments of a type.
    if re.search(r"(:|->|&|\bmut|\bfor|<|\bimpl)$", before) and not before.endswith("::"):
        return False
    if re.search(r"<[^;{}()]*(\([^;{}()]*\))?[^;{}()]*,$", before) and re.match(r"(>|,)", after):
        return False
    # A field, where an enum or a struct is declared. Elsewhere it is a value of a variant, perhaps of one that
    # was brought in by its own name.
    return not is_declared(before)


def values(text: str) -> list[int]:
    """The lines on which a source has the word as a value, or asks for what is always refused."""
    text = SILENT.sub(lambda it: re.sub(r"[^\n]", " ", it[0]), text)
    found = [it.start() for it in WORD.finditer(text) if is_value(text, it.start(), it.end())]
    found += [it.start() for it in ENDLESS.finditer(text)]
    return sorted(text.count("\n", 0, it) + 1 for it in found)
