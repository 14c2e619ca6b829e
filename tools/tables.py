"""Tables as text, and where they stand in a document: between two marks that name the table and the script."""

import re


def table(head, rows):
    """A table of Markdown."""
    return "\n".join("| " + " | ".join(row) + " |" for row in [head, ["---"] * len(head), *rows]) + "\n"


def put(document, name, script, text):
    """Puts this text between the marks of the table."""
    begin, end = f"<!-- table {name}: made by {script} -->\n", f"<!-- end of {name} -->\n"
    pattern = re.compile(re.escape(begin) + ".*?" + re.escape(end), re.DOTALL)
    before = document.read_text()
    if not pattern.search(before):
        raise SystemExit(f"{document.name} has no mark {begin.strip()}")
    document.write_text(pattern.sub(lambda _: begin + text + end, before))
