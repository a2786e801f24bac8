"""Runs the worked plants and the examples that stand in the documents, and compares what the program writes.

usage: examples.py PROGRAM [NAME..]

A worked plant is a folder of examples/ with model.lv; each NAME.ses of it is run over NAME.lv, or else over model.lv, and
has to write NAME.out with status 0. Of a certificate among the replies the lines that state the question and the answer are
compared, since more than one text shows why it is right; and each certificate is checked over the model.

In a document a fenced block is an example where its first word is one of these:

    lv [FILE]        a model, the current one from here on; with a file's name, that file's whole text
    ses [FILE]       a session, run over the current model (at the start of a document that of examples/valve.lv)
    sh               commands for bash, in a folder with `livingstone` and `examples`
    talk             a conversation: lines behind `> ` are sent, the others are the replies, all with status 0
    cert             a certificate, checked over the current model
    out              what the example before it writes, its status being 0
    err STATUS       the line that the example before it writes on standard error, and its status
    out STATUS       what it writes and its status, where standard error stays empty

A model that its `out` or `err` follows at once is run with an empty session, and is not kept as the current one. Each example but a model has its `out` or `err`; one that
has none is a failure, since nothing would be tried. With names, only the folders and documents of these names are tried.
"""

import os
import pathlib
import re
import subprocess
import sys
import tempfile

ROOT = pathlib.Path(__file__).resolve().parent.parent
DOCUMENTS = [
    "README.md",
    "docs/ERRORS.md",
    "docs/MODELLING.md",
    "docs/PROTOCOL.md",
    "docs/MODEL_LANGUAGE.md",
    "docs/SESSION_LANGUAGE.md",
    "docs/CERTIFICATES.md",
    "examples/README.md",
]
# Pages of which only the names of files are looked up.
PAGES = ["CONTRIBUTING.md", "docs/PROVED.md", "examples/*/README.md"]
# What a page names stands below one of these folders.
FOLDERS = ("", "crates/", "docs/")
SECONDS = 120
# The lines of a certificate that say what was asked and what is answered; the others show why, and may differ.
STATED = ("certificate", "model", "k", "state", "control", "fact", "goal", "listed", "recovery", "good", "end")


class Examples:
    """The program under trial, a folder of its own, and what was found so far."""

    def __init__(self, program, folder):
        self.program = str(pathlib.Path(program).resolve())
        self.folder = pathlib.Path(folder)
        (self.folder / "livingstone").symlink_to(self.program)
        (self.folder / "examples").symlink_to(ROOT / "examples")
        self.passed = 0
        self.failed = 0

    def judge(self, name, wanted, got):
        """Counts one example; what differs is told."""
        if wanted == got:
            self.passed += 1
            return
        self.failed += 1
        print(f"FAILED: {name}")
        for what, one, other in zip(("status", "output", "standard error"), wanted, got):
            if one != other:
                print(f"  {what} wanted:\n{one}\n  {what} got:\n{other}")

    def refuse(self, name):
        """Counts a failure that no comparison shows."""
        self.failed += 1
        print(f"FAILED: {name}")

    def call(self, words, text=""):
        """The status, output and standard error of a call in the folder."""
        try:
            done = subprocess.run(
                words, cwd=self.folder, input=text.encode(), capture_output=True, timeout=SECONDS, check=False
            )
        except subprocess.TimeoutExpired:
            return 124, "", "not ended in time"
        return done.returncode, done.stdout.decode(), done.stderr.decode()

    def run(self, model, session):
        """What a session writes over a model; `model` is a text or the name of a file."""
        if isinstance(model, str):
            (self.folder / "model.lv").write_text(model)
            model = "model.lv"
        return self.call(["./livingstone", "run", str(model), "stdin"], session)

    def compare_plant(self, folder):
        """Runs each session of a worked plant."""
        sessions = sorted(folder.glob("*.ses"))
        if not sessions:
            self.refuse(f"{folder.name}: it has no session")
        for session in sessions:
            model = session.with_suffix(".lv")
            if not model.exists():
                model = folder / "model.lv"
            name = f"{folder.name}/{session.name}"
            status, output, error = self.run(model, session.read_text())
            wanted = session.with_suffix(".out").read_text()
            self.judge(name, (0, stated(wanted), ""), (status, stated(output), error))
            self.check_certificates(name, model, output)

    def check_certificates(self, name, model, output):
        """Has each certificate of an output checked over the model's file."""
        for number, certificate in enumerate(certificates_of(output), 1):
            (self.folder / "shown.cert").write_text(certificate)
            verdict = self.call(["./livingstone", "check", str(model), "shown.cert"])
            self.judge(f"{name}: certificate {number}", (0, "valid\n", ""), verdict)

    def compare_document(self, path):
        """Runs each example of a document."""
        before = self.passed + self.failed
        model = (ROOT / "examples/valve.lv").read_text()
        pending = None
        for number, words, text in blocks_of(path.read_text()):
            place = f"{path.name}:{number}"
            kind = words[0]
            if kind in ("out", "err"):
                if pending is not None and pending[0] == "lv":
                    model = accepted
                if pending is None:
                    self.refuse(f"{place}: nothing stands before it")
                else:
                    self.compare_block(place, pending, model, words, text)
                pending = None
                continue
            if pending is not None and pending[0] != "lv":
                self.refuse(f"{place}: the example before it has no answer")
            pending = (kind, text)
            if kind == "lv":
                accepted, model = model, text
            if len(words) > 1:
                self.judge(f"{place}: {words[1]}", ((ROOT / words[1]).read_text(),), (text,))
            if kind == "talk":
                self.compare_talk(place, model, text)
                pending = None
        if pending is not None and pending[0] != "lv":
            self.refuse(f"{path.name}: the last example has no answer")
        if self.passed + self.failed == before:
            self.refuse(f"{path.name}: it has no example")

    def compare_block(self, place, pending, model, words, text):
        """Runs an example and compares it with the block behind it."""
        kind, source = pending
        if kind == "sh":
            got = self.call(["bash", "-c", "set -o pipefail\n" + source])
        elif kind == "cert":
            (self.folder / "model.lv").write_text(model)
            (self.folder / "shown.cert").write_text(source)
            got = self.call(["./livingstone", "check", "model.lv", "shown.cert"])
        elif kind == "ses":
            got = self.run(model, source)
        else:
            got = self.run(source, "")
        status = int(words[1]) if len(words) > 1 else 0
        if words[0] == "out":
            self.judge(place, (status, stated(text), ""), (got[0], stated(got[1]), got[2]))
            if kind == "ses":
                self.check_certificates(place, "model.lv", got[1])
        else:
            self.judge(place, (status, text), (got[0], got[2]))

    def compare_talk(self, place, model, text):
        """Runs a conversation as one session; that its replies come line by line is the business of serve.sh."""
        lines = text.splitlines(keepends=True)
        session = "".join(line[2:] for line in lines if line.startswith("> "))
        replies = "".join(line for line in lines if not line.startswith("> "))
        self.judge(place, (0, replies, ""), self.run(model, session))


    def look_up_names(self, path):
        """Looks that each file that a page names in backticks is there."""
        absent = []
        for name in re.findall(r"`([\w./@-]+)`", path.read_text()):
            if "NAME" in name:
                continue
            is_crate = re.fullmatch(r"(lv_|livingstone_)\w+|benches", name)
            if is_crate:
                name = "crates/" + name
            elif not re.match(r"(lv_\w+|docs|tests|examples|bench|shell|editors|crates)/", name) and not name.endswith(".md"):
                continue
            places = [ROOT / folder / name for folder in FOLDERS] + [path.parent / name]
            if not any(place.exists() for place in places):
                absent.append(name)
        self.judge(f"{path.relative_to(ROOT)}: names of files that aren't there", ([],), (absent,))


def certificates_of(output):
    """The certificates that stand in an output."""
    found = []
    for line in output.splitlines(keepends=True):
        if line.startswith("certificate "):
            found.append("")
            is_inside = True
        elif not found:
            is_inside = False
        if found and is_inside:
            found[-1] += line
            is_inside = line != "end\n"
    return found


def stated(output):
    """An output of whose certificates only the question and the answer are left."""
    kept = []
    is_inside = False
    for line in output.splitlines(keepends=True):
        is_inside = is_inside or line.startswith("certificate ")
        if not is_inside or line.split()[0] in STATED:
            kept.append(line)
        is_inside = is_inside and line != "end\n"
    return "".join(kept)


def blocks_of(text):
    """The number, the words behind the fence and the text of each fenced block that is an example."""
    words = None
    for number, line in enumerate(text.splitlines(), 1):
        if not line.startswith("```"):
            if words is not None:
                held.append(line + "\n")
        elif words is None:
            words, start, held = line[3:].split() or ["-"], number, []
        else:
            if words[0] in ("lv", "ses", "sh", "talk", "cert", "out", "err"):
                yield start, words, "".join(held)
            words = None


def main():
    program, *names = sys.argv[1:]
    with tempfile.TemporaryDirectory() as folder:
        examples = Examples(program, folder)
        for plant in sorted(ROOT.glob("examples/*/model.lv")):
            if not names or plant.parent.name in names:
                examples.compare_plant(plant.parent)
        for document in DOCUMENTS:
            if not names or os.path.basename(document) in names:
                examples.compare_document(ROOT / document)
        for page in DOCUMENTS + PAGES:
            for path in sorted(ROOT.glob(page)):
                if not names or path.name in names:
                    examples.look_up_names(path)
    print(f"{examples.passed} passed, {examples.failed} failed")
    sys.exit(examples.failed > 0 or examples.passed == 0)


main()
