#!/usr/bin/env python3
"""The limits of the languages from both sides: texts that just keep to a limit, and texts one beyond it, with what the built
program makes of each, how long it takes and how much memory it has at most.

    limits.py PROGRAM       prints a line for each text: what it is, what was due, seconds, MB; and last how many failed

What is due is what the manuals say; nothing here is taken from the program."""

import os
import subprocess
import sys
import tempfile

ROOT = os.path.dirname(os.path.dirname(os.path.abspath(__file__)))
MOST_OF_MODEL, MOST = 4194304, 67108864


def read(name):
    with open(os.path.join(ROOT, "examples", name), "rb") as file:
        return file.read()


VALVE, WORKED = read("valve.lv"), read("valve.cert")


def numbered(count, before, after):
    return "".join(f"{before}{i}{after}\n" for i in range(count))


# Models.

BARE = "domain d a b\ntype t\nvariable x d\nmode m\nend\n"


def parts(count):
    return BARE + numbered(count, "part p", " t m")


def variables(count):
    """So many variables in 256 parts, each with 15 beside its mode, and what is left beside a last one's."""
    text = "domain d a b\ntype t\n" + numbered(15, "observable x", " d") + "mode m\nend\n" + numbered(255, "part p", " t m")
    return text + "type u\n" + numbered(count - 255 * 16 - 1, "observable x", " d") + "mode m\nend\npart q u m\n"


def law(power):
    """A law of two to this power clauses, which count twice."""
    return "law " + "|".join(["(p.mode=m&p.mode=m)"] * power) + "\n"


def clauses(laws_of_two):
    """A model of 1,048,570 clauses, and of two more for each of these laws."""
    text = "type t\nmode m\nend\npart p t m\npart q t m\n" + law(12) * 127 + "".join(law(n) for n in range(11, 2, -1))
    return text + "law p.mode = m\n" * laws_of_two


def fan(count):
    """So many parts that may break each by itself."""
    text = "domain d a b\ntype t\nobservable x d\nmode good\nmode bad\nin good x = a\nin bad x = b\nfault good -> bad cost 1\nend\n"
    return text + numbered(count, "part p", " t good")


def chain():
    """4,096 variables in 256 parts, of which all but the modes have one value."""
    laws = "".join(f"law x{i} = x{i - 1}\n" for i in range(1, 15))
    text = "domain d a b\ntype t\n" + numbered(15, "observable x", " d") + "mode m\n" + laws + "end\n" + numbered(256, "part p", " t m")
    return text + "".join(f"law p{i}.x0 = p{i - 1}.x14\n" for i in range(1, 256))


def refused_one_by_one():
    """A chain of four parts with 32 moves each that carries nothing on, unless a part has come to a mode that none comes to. So each
    of its 1,048,576 candidates is impossible, and for a reason of its own, since without any of its moves it wouldn't be."""
    text = "domain bit off on\ntype t\nvariable s bit\nobservable t bit\nmode ok\nmode worn\nmode wild\n"
    text += "in ok t = s\nin worn t = s\nin wild t = on\n" + "".join(f"fault ok -> worn cost {i}\n" for i in range(1, 32)) + "end\n"
    return text + numbered(4, "part p", " t ok") + "law p0.s = off\n" + "".join(f"law p{i}.s = p{i - 1}.t\n" for i in range(1, 4))


def wide():
    """A part with 24 observables, of which the first two are known."""
    return "domain d a b\ntype t\n" + numbered(24, "observable x", " d") + "mode m\nin m x0 = a & x1 = a\nend\npart p t m\n"


def large_goal(turned):
    """A goal of 4,096 clauses, of 12 literals each: one of twelve pairs is as the first two are known to be."""
    pairs = [(2 * (i + turned) % 24, 2 * (i + turned) % 24 + 1) for i in range(12)]
    return f"goal g{turned} " + "|".join(f"(p.x{x}=a&p.x{y}=a)" for x, y in pairs) + "\n"


def filled(front, size, line):
    """The front with lines behind it, to so many bytes."""
    room = size - len(front)
    return front + line * (room // len(line) - 1) + b"#" * (room % len(line) + len(line) - 1) + b"\n"


# Certificates.

# In the place of a text: the certificate that the run before wrote.
WRITTEN = None


def certificate(**changed):
    """The worked certificate with some of its first lines in other words."""
    lines = WORKED.decode().splitlines()
    for key, text in changed.items():
        at = next(i for i, line in enumerate(lines) if line.split()[0] == key)
        lines[at : at + 1] = text
    return "\n".join(lines) + "\n"


def row_of_valves(count):
    """So many valves, of which what leaves one enters the next."""
    head = VALVE.decode().split("part ")[0]
    links = "".join(f"law v{i + 1}.inn = v{i}.out\n" for i in range(1, count))
    return head + numbered(count + 1, "part v", " valve closed").split("\n", 1)[1] + "law v1.inn = some\n" + links


def splitting(count, splits):
    """A certificate over the row of so many valves that lists the candidate in which all stay closed, and splits so many zones by it,
    one behind the other: each makes one zone more for each valve, nearly all of which have no members. It is bad at its end, since
    the valves might have been opened."""
    ones = " 1" * count
    values = " 1 1 2 1" + " 1 1 1 1" * (count - 1)
    begins = f"certificate diagnosis\nmodel valve\nk 1\nstate 0{ones}\ncontrol{ones}\nlisted 1{' 2' * count}\nnow{values}\nnext{values}\n"
    return begins + "".join(f"split {n} listed 1\n" for n in range(1, splits + 1)) + "end\n"


def modest():
    """Certificates whose check may take 64 times their bytes beside what one over the same model takes that splits nothing: each with
    its name, the model, that one, itself, and the line on the output that is due."""
    row = row_of_valves(256)
    yield "256 valves, 6,000 zones split", row, splitting(256, 0), splitting(256, 6000), "invalid 6009"


def rows():
    """Each text with the words, the files behind them, and what is due: the status, the line on standard error, and the last line
    of the output or nothing, where it isn't asked for."""
    def run(name, session, last, model=VALVE, status=0, err=""):
        return name, ["run", model, session], status, err, last

    def model(name, text, verdict=None):
        return name, ["run", text, b""], 3 if verdict else 0, verdict or "", ""

    def check(name, text, status, last, err="", model=VALVE):
        return name, ["check", model, text], status, err, last

    flow = "v.out = zero\n"
    yield model("256 parts", parts(256))
    yield model("257 parts", parts(257), "model 262 M12")
    yield model("4,096 variables in 256 parts", variables(4096))
    yield model("4,097 variables in 256 parts", variables(4097), "model 294 M12")
    yield run("the same with 4,096, diagnosed", "diagnose\n", None, model=variables(4096))
    yield model("1,048,576 clauses", clauses(3))
    yield model("1,048,578 clauses", clauses(4), "model 145 M12")
    yield model("a model of 4,194,304 bytes", filled(VALVE, MOST_OF_MODEL, b"# a comment that says nothing at all\n"))
    yield model("a model of 4,194,305 bytes", filled(VALVE, MOST_OF_MODEL + 1, b"# a comment that says nothing at all\n"), "model 0 M01")
    comments = b"# a comment\n"
    yield run("a session of 67,108,864 bytes", filled(b"states\n", MOST, comments), "1 cost 0: v=closed")
    yield run("a session of 67,108,865 bytes", filled(b"states\n", MOST + 1, comments), "1 cost 0: v=closed", status=7, err="session too long")
    yield run("the same with a quit before", filled(b"quit\n", MOST + 1, comments), "ok")
    yield run("67,108,864 bytes of commands", filled(b"", MOST, b"command v.cmd = open\n"), "ok")
    yield run("1,024 observations, diagnosed", numbered(1024, "observe o", " " + flow.strip()) + "diagnose\n", "2 cost 3 from 1: v closed>stuck_closed #3")
    yield run("1,025 observations", numbered(1025, "observe o", " " + flow.strip()), "error S14")
    yield run("64 goals, recovered", numbered(64, "goal g", " " + flow.strip()) + "recover\n", "recovery cost 0: -")
    yield run("65 goals", numbered(65, "goal g", " " + flow.strip()), "error S14")
    yield run("k 64", "track 64\n", "ok")
    yield run("k 65", "track 65\n", "error S09")
    states = "track 64\ndiagnose\ncommit\ndiagnose\n"
    yield run("64 candidates from 64 states of 256 parts", states, "64 cost 1 from 1: p193 good>bad #1", model=fan(256))
    yield run("a certificate of that, written", states + "certificate\n", "end", model=fan(256))
    yield check("that, checked", WRITTEN, 0, "valid", model=fan(256))
    yield run("labels of 4,096 variables in a chain", "observe o p0.x0 = b\nlabels\n", "next p255.x14 = b", model=chain())
    yield run("64 goals of 4,096 clauses", "".join(map(large_goal, range(64))) + "recover\n", "recovery cost 0: -", model=wide())
    yield run("a budget of 1,000,000", "budget 1000000\n", "ok")
    yield run("a budget of 1,000,001", "budget 1000001\n", "error S09")
    unsettled = "budget 1\nobserve o v.out = zero\ncommand v.cmd = open\ndiagnose\n"
    yield run("1,000,000 trials more", unsettled + "more 1000000\n", "1 cost 3 from 1: v closed>stuck_closed #3")
    tries = "budget 20000\nobserve o p3.t = on\ndiagnose\n"
    yield run("20,000 trials, each refused for a reason of its own", tries, "unsettled 0 trials 20000", model=refused_one_by_one())
    yield run("1,000,001 trials more", unsettled + "more 1000001\n", "error S09")
    yield run("a name of 64 bytes", "observe " + "n" * 64 + " " + flow, "ok")
    yield run("a name of 65 bytes", "observe " + "n" * 65 + " " + flow, "error S14")
    yield run("64 parentheses", "goal g " + "(" * 64 + "v.out=zero" + ")" * 64 + "\n", "ok")
    yield run("65 parentheses", "goal g " + "(" * 65 + "v.out=zero" + ")" * 65 + "\n", "error S17")
    yield run("256 negations", "goal g " + "!" * 256 + "v.out=zero\n", "ok")
    yield run("257 negations", "goal g " + "!" * 257 + "v.out=zero\n", "error S17")
    yield run("a goal of 4,096 clauses", "goal g " + "|".join(["(v.out=zero&v.inn=zero)"] * 12) + "\n", "ok")
    yield run("a goal of 8,192 clauses", "goal g " + "|".join(["(v.out=zero&v.inn=zero)"] * 13) + "\n", "error S17")
    yield run("a line of 4,096 bytes", "states" + " " * 4090 + "\n", "1 cost 0: v=closed")
    yield run("a line of 4,097 bytes", "states" + " " * 4091 + "\n", "error S15")
    yield check("a certificate for k 64", certificate(k=["k 64"]), 0, "valid")
    yield check("a certificate for k 65", certificate(k=["k 65"]), 9, "invalid 3")
    yield check("one that states 1,024 facts", certificate(fact=["fact next 4 1"] * 1024), 9, "invalid 1034")
    yield check("one that states 1,025 facts", certificate(fact=["fact next 4 1"] * 1025), 9, "invalid 1030")
    yield check("one that states 65 states", certificate(state=["state 0 1"] * 65), 9, "invalid 68")
    yield check("a cost of 10^15", certificate(state=[f"state {10**15} 1"]), 0, "valid")
    yield check("a cost of 10^15 + 1", certificate(state=[f"state {10**15 + 1} 1"]), 9, "invalid 4")
    yield check("a number of 10^30", certificate(k=["k " + str(10**30)]), 9, "invalid 3")
    yield check("a number of 10^30 + 1 far down", certificate(k=["k 65"], end=["split 4 conflict " + str(10**30 + 1), "end"]), 9, "invalid 20")
    yield check("a certificate of 67,108,864 bytes", filled(b"certificate diagnosis\nmodel valve\nk 4\n", MOST, b"state 0 1\n"), 9, "invalid 68")
    yield check("a certificate of 67,108,865 bytes", filled(b"", MOST + 1, b"state 0 1\n"), 7, "", "certificate too long")


# Runs the words behind the first and writes into that file the status, the seconds and the peak of kilobytes. A process of its
# own does so, since what it begins would have at least the peak of this one, which holds all texts.
MEASURES = """
import os, sys, time
began = time.monotonic()
child = os.fork()
if child == 0:
    os.execv(sys.argv[2], sys.argv[2:])
_, ended, used = os.wait4(child, 0)
with open(sys.argv[1], "w") as file:
    print(os.waitstatus_to_exitcode(ended), time.monotonic() - began, used.ru_maxrss, file=file)
"""


def measured(words):
    """Status, output, standard error, seconds and peak megabytes of a run. A peak below 10 MB is that of what measures."""
    with tempfile.TemporaryFile() as out, tempfile.TemporaryFile() as err, tempfile.NamedTemporaryFile("r") as told:
        subprocess.run([sys.executable, "-S", "-c", MEASURES, told.name, *words], stdin=subprocess.DEVNULL, stdout=out, stderr=err, check=True)
        status, seconds, kilobytes = told.read().split()
        out.seek(0)
        err.seek(0)
        return int(status), out.read(), err.read(), float(seconds), int(kilobytes) / 1024


def written(folder, name, text):
    """The path of a file with the text."""
    path = os.path.join(folder, name)
    with open(path, "wb") as file:
        file.write(text if isinstance(text, bytes) else text.encode())
    return path


def certificates(program, folder):
    """Prints a line for each certificate that has to take little memory, and answers how many there are and how many failed."""
    failed = count = 0
    for name, model, plain, text, due in modest():
        model, plain, path = written(folder, "model", model), written(folder, "plain", plain), written(folder, "certificate", text)
        least = measured([program, "check", model, plain])[4]
        came, out, err, seconds, megabytes = measured([program, "check", model, path])
        most = least + 64 * len(text) / 2**20
        right = came == 9 and out.decode() == due + "\n" and err == b"" and megabytes <= most
        print(f"| a certificate of {len(text):,} bytes: {name} | 9 {due}, at most {most:.0f} MB | {seconds:.2f} | {megabytes:.0f} |" + ("" if right else f" FAILED: {came} {out[:80]!r}"))
        count += 1
        failed += not right
    return count, failed


def main(program):
    failed = count = 0
    out = b""
    with tempfile.TemporaryDirectory() as folder:
        for name, (word, *texts), status, line, last in rows():
            files = []
            for i, text in enumerate(texts):
                text = out[out.index(b"certificate ") :] if text is WRITTEN else text
                files.append(written(folder, f"file{i}", text))
            came, out, err, seconds, megabytes = measured([program, word, *files])
            ends = out.decode("ascii").rstrip("\n").rsplit("\n", 1)[-1]
            right = came == status and err == (line + "\n" if line else "").encode() and (last is None or ends == last)
            due = f"{status} {line or last or ''}".strip()
            print(f"| {name} | {due} | {seconds:.2f} | {megabytes:.0f} |" + ("" if right else f" FAILED: {came} {err!r} {ends[:80]!r}"))
            count += 1
            failed += not right
        more, wrong = certificates(program, folder)
    count, failed = count + more, failed + wrong
    print(f"{count - failed} passed, {failed} failed")
    return 1 if failed else 0


if __name__ == "__main__":
    if len(sys.argv) != 2:
        sys.exit(__doc__)
    sys.exit(main(os.path.abspath(sys.argv[1])))
