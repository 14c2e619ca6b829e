#!/usr/bin/env python3
"""Checks the documents: their lines, links, and the files, names and commands that they speak of.

    tools/documents.py           prints what is wrong, a line each, with the status 1 where anything is
    tools/documents.py --wrap    before that, wraps the paragraphs that have a line of over 120 characters

Documents are all *.md of the repository; no row of a table stands in two of them. Beside them it checks that no file in
tools/, examples/ and companions/ has over 400 lines, and that each script there answers --help and leaves nothing
behind. It takes some seconds.
"""

import argparse
import os
import re
import subprocess
import sys
import tempfile
import textwrap
from concurrent.futures import ThreadPoolExecutor
from functools import cache
from pathlib import Path

ROOT = Path(__file__).resolve().parents[1]
WIDEST, LONGEST = 120, 400
WORKROOMS = ("tools", "examples", "companions")
SECONDS = 60

FENCE = re.compile(r"^\s*```")
QUOTE = re.compile(r"^```antt (\S+)\n(.*?)^```$", re.DOTALL | re.MULTILINE)
SPAN = re.compile(r"`([^`\n]+)`")
RULE = re.compile(r"[|: ]*-[-|: ]*")
LINK = re.compile(r"\[[^]]+\]\(([^)\s]+)\)")
IN_REPOSITORY = re.compile(r"(?:\./)?((?:crates|tools|docs|examples|companions|\.ci)/[\w./*-]+)")
NAME = re.compile(r"(?:[A-Za-z]\w*::)*[A-Za-z]\w*")
ITEM = re.compile(r"(\s*)([-*] |\d+\. )?")


def listed():
    """The files of the repository, as git knows them, with new ones; all files where there is no git."""
    words = ["git", "ls-files", "-z", "--cached", "--others", "--exclude-standard"]
    try:
        done = subprocess.run(words, cwd=ROOT, capture_output=True, check=True)
        found = [ROOT / name for name in done.stdout.decode().split("\0") if name]
    except (OSError, subprocess.CalledProcessError):
        found = [path for path in ROOT.rglob("*") if "out" not in path.parts and ".git" not in path.parts]
    return sorted(path for path in found if path.is_file())


def parts(text):
    """The numbered lines of a document, each with whether it stands in a fenced block; the fences are left out."""
    fenced = False
    for number, line in enumerate(text.split("\n"), 1):
        if FENCE.match(line):
            fenced = not fenced
        else:
            yield number, line, fenced


def lines(path, text):
    for number, line in enumerate(text.split("\n"), 1):
        if len(line) > WIDEST:
            yield number, f"{len(line)} characters"


def anchors(text):
    """The places of a document that a link may name."""
    headings = [line.lstrip("#").strip() for _, line, fenced in parts(text) if not fenced and line.startswith("#")]
    return {re.sub(r"[^\w\- ]", "", heading.lower()).replace(" ", "-") for heading in headings}


def links(path, text):
    for number, line, fenced in parts(text):
        for target in LINK.findall("" if fenced else line):
            name, _, anchor = target.partition("#")
            file = (path.parent / name) if name else path
            if re.match(r"\w+:", target):
                continue
            if not file.exists():
                yield number, f"links to {target}, which isn't there"
            elif anchor and anchor not in anchors(file.read_text()):
                yield number, f"links to {target}, where no heading is called so"


def is_made(name):
    """Whether a file is made by a build or by the reader."""
    return "/out/" in name or name.endswith("/out")


def paths(path, text):
    """Files and folders that are named."""
    for number, line, fenced in parts(text):
        for span in [line] if fenced else SPAN.findall(line):
            for word in span.split():
                found = IN_REPOSITORY.fullmatch(word.strip("();,:'\""))
                name = found and found[1].rstrip(".")
                if name and not is_made(name) and not any(ROOT.glob(name)):
                    yield number, f"names {name}, which isn't there"


@cache
def words_of_crates():
    """All words in the code, definitions and proofs."""
    found = set()
    for end in ("rt", "antt"):
        for file in ROOT.glob(f"crates/*/*/**/*.{end}"):
            if "out" not in file.parts:
                found.update(re.findall(r"\w+", file.read_text()))
    return found


def names(path, text):
    """Crates, and names of code and definitions."""
    in_full = path.name in ("DEFINITIONS.md", "ARCHITECTURE.md")
    for number, line, fenced in parts(text):
        for span in [] if fenced else SPAN.findall(line):
            if not NAME.fullmatch(span):
                continue
            crate, *rest = span.split("::")
            if crate.startswith("hk_") and not (ROOT / "crates" / crate).is_dir():
                if crate not in words_of_crates():
                    yield number, f"names {crate}, and there is no such crate"
            for word in rest or ([crate] if in_full else []):
                if word not in words_of_crates() and not (ROOT / "crates" / word).is_dir():
                    yield number, f"names {span}, which stands in no crate"


def commands(path, text):
    """Scripts that are run, and their options."""
    for number, line, fenced in parts(text):
        found = IN_REPOSITORY.match(line.strip().removeprefix("python3 ")) if fenced else None
        script = ROOT / found[1] if found else None
        if script and script.is_file() and script.suffix == ".py":
            if not os.access(script, os.X_OK):
                yield number, f"{found[1]} can't be run: it isn't executable"
            near = "".join(each.read_text() for each in {script, *script.parent.glob("*.py")})
            for option in re.findall(r"\s(--[a-z-]+)", line.split("#")[0].split("<")[0]):
                if f'"{option}"' not in near and f"{option} " not in near:
                    yield number, f"gives {found[1]} the option {option}, which it hasn't"


def plain(text):
    return " ".join(text.split())


def quotes(path, text):
    """Definitions and clauses that are quoted from a file; a line of two dots parts them."""
    for quote in QUOTE.finditer(text):
        file, number = ROOT / quote[1], text[: quote.start()].count("\n") + 1
        if not file.is_file():
            yield number, f"quotes {quote[1]}, which isn't there"
            continue
        there = plain(file.read_text())
        for part in quote[2].split("\n..\n"):
            if plain(part) not in there:
                yield number, f"quotes what {quote[1]} doesn't have: {plain(part)[:60]}"


def rooms(path, text):
    """In the list of floors each crate is named."""
    if path.name == "ARCHITECTURE.md":
        for line in (ROOT / "crates.txt").read_text().splitlines():
            crate = line.split(":")[0]
            if re.fullmatch(r"\w+", crate) and f"`{crate}`" not in text:
                yield 1, f"doesn't name the crate {crate}"


def repeated(documents):
    """Rows of tables, heads left out, that stand in two documents."""
    first = {}
    for path in documents:
        lines = path.read_text().splitlines()
        for number, (line, below) in enumerate(zip(lines, [*lines[1:], ""]), 1):
            is_row = line.startswith("|") and line.strip("|-: ") and not RULE.fullmatch(below)
            if is_row and first.setdefault(line, path) != path:
                yield path, number, f"repeats a row of a table of {first[line].relative_to(ROOT)}"


def sizes(files):
    for path in files:
        if path.relative_to(ROOT).parts[0] in WORKROOMS and path.suffix in (".py", ".c", ".rs", ".md", ".txt"):
            count = len(path.read_text().splitlines())
            if count > LONGEST:
                yield path, count, f"over {LONGEST} lines"


def helps(files):
    """Scripts that don't answer --help, or leave something behind."""
    scripts = [path for path in files if path.relative_to(ROOT).parts[0] in WORKROOMS and os.access(path, os.X_OK)]

    def fault(script):
        if "argparse" not in script.read_text() and "--help" not in script.read_text():
            return "doesn't answer --help"
        with tempfile.TemporaryDirectory(prefix="documents.") as folder:
            words = {"cwd": folder, "capture_output": True, "timeout": SECONDS, "stdin": subprocess.DEVNULL}
            try:
                done = subprocess.run([script, "--help"], **words, env={**os.environ, "PYTHONDONTWRITEBYTECODE": "1"})
            except (OSError, subprocess.TimeoutExpired) as error:
                return f"--help: {error}"
            if done.returncode or not done.stdout.strip():
                return f"--help ends with the status {done.returncode} and {len(done.stdout)} bytes"
            if os.listdir(folder):
                return f"--help leaves {', '.join(os.listdir(folder))} behind"
        return None

    with ThreadPoolExecutor() as pool:
        for script, found in zip(scripts, pool.map(fault, scripts)):
            if found:
                yield script, 1, found


def wrapped(text):
    """The text with each paragraph wrapped that has a line too long. Tables and fenced blocks stay as they are."""
    out, paragraph = [], []
    fenced = False

    def close():
        if any(len(line) > WIDEST for line in paragraph):
            first = ITEM.match(paragraph[0])
            joined = " ".join(line.strip() for line in paragraph)[len(first[2] or "") :]
            around = {"initial_indent": first[0], "subsequent_indent": " " * len(first[0])}
            paragraph[:] = textwrap.wrap(joined, WIDEST, break_long_words=False, break_on_hyphens=False, **around)
        out.extend(paragraph)
        paragraph.clear()

    for line in text.split("\n"):
        fence = FENCE.match(line)
        begins = fence or fenced or not line.strip() or line.startswith(("#", "|", "<")) or ITEM.match(line)[2]
        if begins:
            close()
        if begins and not ITEM.match(line)[2] or fenced:
            out.append(line)
        else:
            paragraph.append(line)
        fenced ^= bool(fence)
    close()
    return "\n".join(out)


def main():
    parser = argparse.ArgumentParser(description=__doc__, formatter_class=argparse.RawDescriptionHelpFormatter)
    parser.add_argument("--wrap", action="store_true", help="wrap the paragraphs that have a line too long")
    options = parser.parse_args()
    files = listed()
    documents = [path for path in files if path.suffix == ".md"]
    found = []
    for path in documents:
        text = path.read_text()
        if options.wrap and wrapped(text) != text:
            text = wrapped(text)
            path.write_text(text)
        for check in (lines, links, paths, names, commands, quotes, rooms):
            found += [(path, number, fault) for number, fault in check(path, text)]
    found += [*repeated(documents), *sizes(files), *helps(files)]
    for path, number, fault in found:
        print(f"{path.relative_to(ROOT)}:{number}: {fault}")
    print(f"{len(documents)} documents, {len(found)} faults")
    return 1 if found else 0


if __name__ == "__main__":
    sys.exit(main())
