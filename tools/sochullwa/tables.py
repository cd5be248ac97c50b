"""Tables in Markdown, and the parts of a page that a program writes."""
import pathlib


def row(*cells: object) -> str:
    return f"| {' | '.join(map(str, cells))} |"


def heading(*columns: str) -> str:
    return f"{row(*columns)}\n|{'---|' * len(columns)}"


def put(page: pathlib.Path, writer: str, text: str) -> None:
    """Puts a text between the two marks that a page has for a program."""
    begin, end = f"<!-- begin: {writer} --write -->\n", f"<!-- end of {writer} -->"
    before, found, rest = page.read_text().partition(begin)
    _, closed, after = rest.partition(end)
    if not found or not closed:
        raise LookupError(f"{page} has no part for {writer}")
    page.write_text(f"{before}{begin}{text.strip()}\n{end}{after}")
