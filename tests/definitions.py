"""Finds the files of definitions that a reader of `valid` has to read: those that the clauses `checked` and `judged` of the
top call cite, and what these cite in turn, definition by definition. Compares them with the list in docs/CERTIFICATES.md.

usage: definitions.py [CRATE FILE NAME]..

With names it prints the files that these definitions rest on, and compares nothing. It reads the definitions as text: a
definition is a paragraph, or a `mutual` block, and cites each word of it that is defined in its file or imported there. So
it may name a file too many where a bound variable has a definition's name; it names none too few.
"""

import pathlib
import re
import sys

ROOT = pathlib.Path(__file__).resolve().parent.parent
PAGE = ROOT / "docs/CERTIFICATES.md"
CLAUSES = [("lv_run", "Top", name) for name in ("TellsItsVerdict", "AsksToCheck", "HasNoFault")] + [
    ("lv_run", "Judged", "verdict_status"),
    ("lv_certcheck", "Verdicts", "IsVerdictOn"),
]
IMPORT = re.compile(r"^(?:pub )?use Rattle\.(\w+)\.specs\.([\w.]+?)(?:\.\{([^}]*)\}| as (\w+))?\s*$", re.M)
HEADER = re.compile(r"^ *(?:(?:abbrev|unfoldable|partial|data|record|pub) +)*([^\s:({]+)[^:\n=]* :", re.M)
WORD = re.compile(r"[A-Za-z_]\w*(?:\.[A-Za-z_]\w*)*")


class File:
    """A file of definitions: what it imports, and the text of each definition."""

    def __init__(self, path):
        text = path.read_text()
        self.imports = {}
        for crate, file, names, alias in IMPORT.findall(text):
            # a file that comes through another crate, which passes it on under its own crate's name
            while passed := re.match(r"(lv_\w+)\.(.+)", file):
                crate, file = passed.groups()
            for name in names.split(",") if names else []:
                own, _, here = name.strip().partition(" as ")
                self.imports[here or own] = (crate, file, own)
            if not names:
                self.imports[alias or file.split(".")[-1]] = (crate, file, None)
        self.texts = {}
        for chunk in chunks_of(text):
            # a record's fields are no names of their own
            is_record = re.match(r"(pub )?record ", chunk)
            for name in HEADER.findall(chunk.split("\n")[0] if is_record else chunk):
                self.texts.setdefault(name, []).append(chunk)


def chunks_of(text):
    """The paragraphs of a file without comments and imports; a `mutual` block is one."""
    chunks = []
    for paragraph in re.split(r"\n\s*\n", text):
        lines = [line for line in paragraph.split("\n") if not re.match(r"\s*--|(pub )?use ", line)]
        if lines and lines[0].startswith(" ") and chunks:
            chunks[-1] += "\n" + "\n".join(lines)
        elif lines:
            chunks.append("\n".join(lines))
    return chunks


class Reader:
    """What was found from some definitions on."""

    def __init__(self):
        self.files = {}
        self.seen = set()
        self.found = set()
        self.unknown = []

    def visit(self, crate, file, name):
        """Follows a definition. The library's, and the structs of the crates' code, are not followed."""
        if (crate, file, name) in self.seen or crate == "std" or file.startswith("declared"):
            return
        self.seen.add((crate, file, name))
        path = ROOT / "crates" / crate / "specs" / (file.replace(".", "/") + ".antt")
        if not path.exists():
            self.unknown.append(f"{crate} {file}")
            return
        if path not in self.files:
            self.files[path] = File(path)
        here = self.files[path]
        if name in here.imports and name not in here.texts:
            self.visit(*here.imports[name])
            return
        self.found.add(f"{crate}/specs/{path.relative_to(path.parents[0])}")
        if name not in here.texts:
            self.unknown.append(f"{crate} {file} {name}")
        for chunk in here.texts.get(name, []):
            self.follow(crate, file, here, chunk)

    def follow(self, crate, file, here, chunk):
        """Follows each word of a definition's text."""
        for word in set(WORD.findall(chunk)):
            head, _, rest = word.partition(".")
            if head in here.imports:
                other, place, own = here.imports[head]
                if own is not None:
                    self.visit(other, place, own)
                elif rest:
                    self.visit(other, place, rest.split(".")[0])
            elif word in here.texts:
                self.visit(crate, file, word)


def main():
    words = sys.argv[1:]
    reader = Reader()
    for root in zip(words[::3], words[1::3], words[2::3]) if words else CLAUSES:
        reader.visit(*root)
    if words:
        print("\n".join(sorted(reader.found)))
        return
    section = PAGE.read_text().split("## What an auditor must read")[1].split("\n## ")[0]
    told = set(re.findall(r"`(\w+/specs/[\w/]+\.antt)`", section))
    for file in sorted(reader.found - told):
        print(f"FAILED: not in {PAGE.name}: {file}")
    for file in sorted(told - reader.found):
        print(f"FAILED: in {PAGE.name} without need: {file}")
    for name in reader.unknown:
        print(f"FAILED: not found: {name}")
    lines = sum(len((ROOT / "crates" / file).read_text().splitlines()) for file in reader.found)
    print(f"{len(reader.found)} files, {lines} lines")
    sys.exit(told != reader.found or bool(reader.unknown))


main()
