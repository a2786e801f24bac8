"""Makes the tables of certificates, with the verdicts of an independent reference program, which is not part of this
repository.

usage: make.py FOLDER TABLE.., the folder of the reference program, and the names of tables, or all of them

`worked` has every edit of its kinds of the worked certificates; `random` has edits drawn at random of certificates over
other models; `distinct` has both kinds of edits of certificates of distinct targets.
"""

import os
import random
import sys

from table import all_edited

sys.path.insert(0, sys.argv[1])
import lcert  # noqa: E402
import lmodel  # noqa: E402
import rows  # noqa: E402
from lquery import Context  # noqa: E402

HERE = os.path.dirname(os.path.abspath(__file__))
TOP = os.path.dirname(os.path.dirname(HERE))

# The behaviour of the reference program that this one has.
STAGE = 16

# How many edits are drawn over each model, and the longest certificate that is taken, in bytes.
EDITS = 60
LONGEST = 2500

VALVE = "examples/valve.lv"

# Sessions over models of the worked examples, that a certificate is asked of.
SESSIONS = [
    (VALVE, "goal g v.out = some / recover"),
    (VALVE, "observe o v.out = zero / diagnose / commit / goal g v.out = some / recover"),
    (VALVE, "command v.cmd = close / observe o v.out = some / diagnose"),
    ("tests/certificates/loose.lv", "goal g v.out = some / recover"),
    ("tests/certificates/series.lv", "command v1.cmd = open / command v2.cmd = open / observe o v2.out = zero / diagnose"),
    ("tests/certificates/series.lv", "goal g v2.out = some / recover"),
    ("tests/certificates/box.lv", "observe o b.x = off / diagnose"),
    ("tests/certificates/box.lv", "goal g b.x = off / recover"),
    ("tests/certificates/priced.lv", "goal g v.out = some / recover"),
]

# Models of other tests, by their numbers there, whose sessions have queries with short certificates.
OTHERS = [("recoveries", 160), ("searches", 160), ("random", 140)]


def text_of(path):
    with open(os.path.join(TOP, path), encoding="utf-8") as source:
        return source.read()


def certificates_of(model, session):
    """The certificates of a session's queries, as the reference program writes them."""
    asked = []
    for line in session.split("\n"):
        asked.append(line)
        if line.split("#")[0].split()[:1] in (["diagnose"], ["recover"], ["more"]):
            asked.append("certificate")
    _, out, _ = rows.call("run m s", {"m": model, "s": "\n".join(asked)}, STAGE)
    found, lines = [], None
    for line in out.split("\n"):
        if line.startswith("certificate "):
            lines = []
        if lines is not None:
            lines.append(line)
            if line == "end":
                text = "".join(l + "\n" for l in lines)
                if text not in found:
                    found.append(text)
                lines = None
    return found


def numbers_of(words):
    """The places of numbers among the words of a line."""
    return [at for at, word in enumerate(words) if word.lstrip("-").isdigit()]


def changed(words, at, word):
    return " ".join(words[:at] + [word] + words[at + 1:])


def all_edits(text):
    """Each edit of its kinds of a text."""
    lines = text.split("\n")[:-1]
    yield "same"
    for n, line in enumerate(lines, 1):
        words = line.split(" ")
        for at in numbers_of(words):
            for step in (-1, 1):
                yield "put %d %s" % (n, changed(words, at, str(int(words[at]) + step)))
        if words[0] == "clause":
            first = words.index("0") + 1
            for at in range(first, len(words) - 1):
                yield "put %d %s" % (n, " ".join(words[:at] + words[at + 1:]))
            for at in range(first, len(words) - 2):
                yield "put %d %s" % (n, " ".join(words[:at] + [words[at + 1], words[at]] + words[at + 2:]))
        yield "drop %d" % n
        yield "double %d" % n
        for m in range(1, len(lines) + 1):
            if m != n:
                yield "move %d %d" % (n, m)
    for length in range(len(text)):
        yield "cut %d" % length


# Numbers that stand at limits, and some that don't.
STRANGE = [0, 1, 2, 3, 5, 64, 65, 10 ** 15, 10 ** 15 + 1, 2 ** 32, 2 ** 32 + 1, 2 ** 64, 2 ** 64 + 1, 10 ** 30, 10 ** 30 + 1, -1]


def drawn_number_edit(rng, n, words):
    """An edit of a number of line n, or of two neighbours."""
    at = rng.choice(numbers_of(words))
    kind = rng.randrange(5)
    if kind == 0:
        return "put %d %s" % (n, changed(words, at, str(int(words[at]) + rng.choice([-1, 1]))))
    if kind == 1:
        return "put %d %s" % (n, " ".join(words[:at] + words[at + 1:]))
    if kind == 2 and at + 1 < len(words):
        return "put %d %s" % (n, " ".join(words[:at] + [words[at + 1], words[at]] + words[at + 2:]))
    if kind == 3:
        return "put %d %s" % (n, changed(words, at, str(rng.choice(STRANGE))))
    return "put %d %s" % (n, changed(words, at, str(-int(words[at]))))


def drawn_edit(rng, text):
    lines = text.split("\n")[:-1]
    n = rng.randrange(len(lines)) + 1
    kind = rng.randrange(9)
    words = lines[n - 1].split(" ")
    if kind == 0:
        edit = "drop %d" % n
    elif kind == 1:
        edit = "double %d" % n
    elif kind == 2:
        edit = "move %d %d" % (n, min(n + 1, len(lines)))
    elif kind == 3 or not numbers_of(words):
        edit = "move %d %d" % (n, rng.randrange(len(lines)) + 1)
    else:
        edit = drawn_number_edit(rng, n, words)
    if rng.random() < 0.02:
        length = len(all_edited(text, edit))
        return edit + "\tcut %d" % rng.choice([length - 1, rng.randrange(length)])
    return edit


class Table:
    """A table that is written."""

    def __init__(self, name):
        self.out = open(os.path.join(HERE, name), "w", encoding="utf-8")
        self.rows = self.valid = 0

    def over(self, path):
        model, _ = lmodel.load(text_of(path).encode(), STAGE)
        self.context = Context(model)
        self.out.write("over %s\n" % path)

    def certificate(self, text, edits):
        """A certificate and its rows, no text twice."""
        for line in text.split("\n")[:-1]:
            self.out.write("| %s\n" % line)
        seen = set()
        for edit in edits:
            changed_text = all_edited(text, edit)
            if changed_text in seen:
                continue
            seen.add(changed_text)
            bad = lcert.check(self.context, changed_text.encode(), STAGE)
            self.out.write("%d %s\n" % (bad or 0, edit))
            self.rows += 1
            self.valid += bad is None

    def done(self, name):
        self.out.close()
        print("%s: %d rows, %d of them valid" % (name, self.rows, self.valid))


def make_worked():
    table = Table("worked.txt")
    table.over(VALVE)
    recovery = certificates_of(text_of(VALVE), "goal g v.out = some\nrecover\n")
    for text in [rows.CERT, rows.CERT9] + recovery:
        table.certificate(text, all_edits(text))
    table.done("worked.txt")


def short_certificates(path, session):
    found = certificates_of(text_of(path), session)
    return [text for text in found if len(text) <= LONGEST][:3]


def others(rng, wanted):
    """Models of other tests with short certificates, recoveries among them, and these."""
    for folder, count in OTHERS:
        taken = 0
        numbers = list(range(1, count + 1))
        rng.shuffle(numbers)
        for number in numbers:
            width = len(os.listdir(os.path.join(TOP, "tests", folder))[0].split(".")[0])
            name = "tests/%s/%0*d" % (folder, width, number)
            try:
                session = text_of(name + ".ses")
                model = text_of(name + ".lv")
            except (UnicodeDecodeError, FileNotFoundError):
                continue
            if lmodel.load(model.encode(), STAGE)[0] is None:
                continue
            texts = short_certificates(name + ".lv", session)
            if texts and any("clause" in text for text in texts):
                yield name + ".lv", texts
                taken += 1
                if taken == wanted:
                    break


def make_random():
    rng = random.Random(1)
    table = Table("random.txt")
    chosen = {}
    for path, session in SESSIONS:
        chosen.setdefault(path, []).extend(certificates_of(text_of(path), rows.text(session)))
    chosen = list(chosen.items()) + list(others(rng, 5))
    for path, texts in chosen:
        table.over(path)
        for text in texts:
            edits = [drawn_edit(rng, text) for _ in range(EDITS // len(texts))]
            table.certificate(text, ["same"] + edits)
    table.done("random.txt")
    print("%d models" % len(chosen))


# Sessions whose diagnoses seek distinct targets: those of the worked rows, and over other models.
DISTINCT = [
    (VALVE, "command v.cmd = open / observe o v.out = zero / track 4 distinct / diagnose"),
    (VALVE, "observe o v.out = zero / diagnose / commit / observe p v.out = zero / track 4 distinct / diagnose"),
    (VALVE, "track 64 distinct / diagnose / commit / diagnose / commit / track 3 distinct / diagnose"),
    ("tests/certificates/series.lv", "track 5 distinct / diagnose / commit / observe o v2.out = zero / diagnose"),
    ("tests/certificates/loose.lv", "track 6 distinct / diagnose / commit / track 4 distinct / diagnose"),
    ("tests/certificates/box.lv", "track 4 distinct / diagnose / commit / observe o b.x = off / diagnose"),
]


def drawn_distinct_edit(rng, text):
    """An edit of the limit or of a split, by which distinct targets go or come."""
    lines = text.split("\n")[:-1]
    places = [n for n, line in enumerate(lines, 1) if line.startswith(("k ", "split "))]
    n = rng.choice(places)
    words = lines[n - 1].split(" ")
    if words[0] == "k":
        return "put %d %s" % (n, rng.choice(["k %s" % words[1], "k %s distinct" % words[1], "k distinct", "k %s Distinct" % words[1], "k %s distinct 1" % words[1], "k 65 distinct", "k 1 distinct"]))
    if rng.random() < 0.3:
        return drawn_number_edit(rng, n, words)
    return "put %d %s" % (n, changed(words, 2, rng.choice(["target", "listed", "conflict", "targets"])))


def distinct_texts(rng, wanted):
    """Models of other tests with short certificates of their diagnoses, asked for with distinct targets."""
    for path, texts in others(rng, wanted):
        session = text_of(path[:-3] + ".ses")
        lines = ["track 5 distinct"]
        for line in session.split("\n"):
            lines += [line, "track 5 distinct"] if line.split("#")[0].split()[:1] in (["track"], ["reset"]) else [line]
        asked = [text for text in short_certificates(path, "\n".join(lines)) if "distinct" in text]
        if asked:
            yield path, asked


def make_distinct():
    rng = random.Random(16)
    table = Table("distinct.txt")
    kd = rows.edit(rows.CERT, 3, "k 4 distinct")
    table.over(VALVE)
    for text in [kd, rows.edit(kd, 18, "split 3 target 1")]:
        lines = text.split("\n")[:-1]
        kinds = ["put %d %s" % (n, changed(line.split(" "), 2, kind))
                 for n, line in enumerate(lines, 1) if line.startswith("split ") for kind in ("target", "listed", "conflict")]
        forms = ["put 3 %s" % form for form in ("k 4", "k distinct 4", "k 4 distinct distinct", "k 4 Distinct", "k distinct", "k 0 distinct", "k 64 distinct", "k 65 distinct", "k 01 distinct", "k 4  distinct", "k 4 distinct ")]
        both = ["put 3 k 4\t%s" % kind for kind in kinds]
        edits = [edit for edit in all_edits(text) if not edit.startswith(("cut", "move"))]
        table.certificate(text, edits + kinds + forms + both)
    chosen = {}
    for path, session in DISTINCT:
        found = [text for text in certificates_of(text_of(path), rows.text(session)) if "distinct" in text]
        chosen.setdefault(path, []).extend(text for text in found if len(text) <= LONGEST)
    for path, texts in list(chosen.items()) + list(distinct_texts(rng, 8)):
        table.over(path)
        for text in texts:
            edits = [drawn_distinct_edit(rng, text) if rng.random() < 0.6 else drawn_edit(rng, text) for _ in range(EDITS)]
            table.certificate(text, ["same"] + edits)
    table.done("distinct.txt")


MAKERS = {"worked": make_worked, "random": make_random, "distinct": make_distinct}

for table_name in sys.argv[2:] or MAKERS:
    MAKERS[table_name]()
