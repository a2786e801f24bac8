"""Lays the syntax files over the texts of examples/: each character that isn't a blank has to have a colour, and none that of
an error; and over some wrong texts, in which an error has to be shown. Looks that the words of the languages in the
documents are those of the syntax files, of the manual page and of the completions.

usage: editors.py

Needs no built program. Vim's files are tried by Vim itself, where there is one.
"""

import json
import pathlib
import re
import shutil
import subprocess
import sys
import tempfile

ROOT = pathlib.Path(__file__).resolve().parent.parent
KINDS = {"lv": "model", "ses": "session", "cert": "certificate"}
# Texts with an error, by the ends of names.
WRONG = {
    "lv": ["modl valve\n", "domain bit off, on\n", "domain v 12V\n"],
    "ses": ["jump\n", 'command v.cmd = "open"\n', "track 4x\n"],
    "cert": ["certificat diagnosis\n", "k four\n", "listed 1 3,\n"],
}
# Of each language a file and the heading of the table whose first column has its words.
TABLES = {"lv": ("docs/MODEL_LANGUAGE.md", "## Statements"), "ses": ("docs/SESSION_LANGUAGE.md", "## Lines")}
# Of each text its first character without a colour or with that of an error, or that there is none.
VIM = """
set runtimepath^={editors}
filetype on
syntax on
let told = []
for text in {texts}
  execute 'edit ' . fnameescape(text)
  let fault = ''
  for l in range(1, line('$'))
    for c in range(1, col([l, '$']) - 1)
      if fault == '' && getline(l)[c - 1] !~ '\\s'
        let name = synIDattr(synID(l, c, 1), 'name')
        if name == '' || name =~ 'Error$'
          let fault = 'line ' . l . ' column ' . c . ': ' . (name == '' ? 'no colour' : name)
        endif
      endif
    endfor
  endfor
  call add(told, fault == '' ? 'none' : fault)
endfor
call writefile(told, '{out}')
qall!
"""

passed = 0
failed = 0


def judge(name, holds, what=""):
    global passed, failed
    if holds:
        passed += 1
    else:
        failed += 1
        print(f"FAILED: {name} {what}")


def grammar_scopes(grammar, line):
    """The scope of each character of a line, by the first pattern that matches earliest, as an editor goes."""
    scopes = [None] * len(line)
    patterns = [(re.compile(p["match"]), p["name"]) for p in grammar["patterns"]]
    at = 0
    while at < len(line):
        found = [(m.start(), i, m.end(), name) for i, (p, name) in enumerate(patterns) if (m := p.search(line, at))]
        if not found:
            break
        start, _, end, name = min(found)
        scopes[start:end] = [name] * (end - start)
        at = max(end, at + 1)
    return scopes


def grammar_faults(grammar, text):
    """The first character without a scope or with that of an error."""
    for number, line in enumerate(text.split("\n"), 1):
        for place, (letter, scope) in enumerate(zip(line, grammar_scopes(grammar, line)), 1):
            if letter not in " \t\r" and (scope is None or scope.startswith("invalid")):
                return f"line {number} column {place}: {scope}"
    return ""


def vim_faults(paths):
    """The same by Vim, of each text."""
    with tempfile.TemporaryDirectory() as folder:
        script, out = pathlib.Path(folder) / "look.vim", pathlib.Path(folder) / "out"
        script.write_text(VIM.format(editors=ROOT / "editors/vim", texts=[str(path) for path in paths], out=out))
        words = ["vim", "--not-a-term", "-N", "-u", "NONE", "-i", "NONE", "-n", "-es", "-S", str(script)]
        subprocess.run(words, stdin=subprocess.DEVNULL, capture_output=True, timeout=120, check=False)
        told = out.read_text().splitlines() if out.exists() else []
    if len(told) != len(paths):
        return ["Vim told nothing"] * len(paths)
    return ["" if fault == "none" else fault for fault in told]


def words_of_table(path, heading):
    """The first words of the first column of the table behind a heading."""
    text = (ROOT / path).read_text()
    section = text[text.index(heading + "\n") :].split("\n## ")[0]
    return set(re.findall(r"^\| `([a-z]+)", section, re.M))


def words_of_grammar(grammar):
    """The words that begin a line."""
    return set(re.search(r"\(([a-z|]+)\)", grammar["patterns"][1]["match"]).group(1).split("|"))


def try_texts(grammars, has_vim):
    paths = [path for path in sorted(ROOT.glob("examples/**/*.*")) if path.suffix[1:] in KINDS]
    for path in paths:
        fault = grammar_faults(grammars[path.suffix[1:]], path.read_text())
        judge(f"TextMate: {path.relative_to(ROOT)}", not fault, fault)
    if has_vim:
        for path, fault in zip(paths, vim_faults(paths)):
            judge(f"Vim: {path.relative_to(ROOT)}", not fault, fault)


def try_wrong_texts(grammars, has_vim):
    with tempfile.TemporaryDirectory() as folder:
        paths = []
        for end, texts in WRONG.items():
            for number, text in enumerate(texts):
                judge(f"TextMate: no error in {text!r}", grammar_faults(grammars[end], text))
                paths.append(pathlib.Path(folder) / f"wrong{number}.{end}")
                paths[-1].write_text(text)
        if has_vim:
            for path, fault in zip(paths, vim_faults(paths)):
                judge(f"Vim: no error in {path.read_text()!r}", fault.startswith("line 1 "), fault)


def try_words(grammars):
    manual = (ROOT / "livingstone.1").read_text()
    for end, (path, heading) in TABLES.items():
        told, coloured = words_of_table(path, heading), words_of_grammar(grammars[end])
        judge(f"TextMate: words of {path}", told == coloured and told, f"{sorted(told ^ coloured)}")
        vim = (ROOT / f"editors/vim/syntax/livingstone_{KINDS[end]}.vim").read_text()
        found = set(re.search(r"Word '\^\\s\*\\%\(([a-z\\|]+)\\\)", vim).group(1).split("\\|"))
        judge(f"Vim: words of {path}", told == found, f"{sorted(told ^ found)}")
        if end == "ses":
            absent = [word for word in told if not re.search(rf"^\.(B|BI|BR) {word}\b", manual, re.M)]
            judge("the manual's words of a session", not absent, f"{absent}")


def completions(words):
    """What bash completes the last of the words to."""
    script = f"""
    . {ROOT}/shell/completion.bash
    COMP_WORDS=({' '.join(words)})
    [ {len(words)} = "${{#COMP_WORDS[@]}}" ] || COMP_WORDS+=('')
    COMP_CWORD={len(words) - 1}
    _livingstone
    printf '%s\\n' "${{COMPREPLY[@]}}"
    """
    done = subprocess.run(["bash", "-c", script], cwd=ROOT, capture_output=True, text=True, timeout=60, check=True)
    return sorted(line for line in done.stdout.splitlines() if line)


def try_completions():
    rows = [
        (["livingstone", ""], ["check", "drive", "generate", "lanes", "plant", "print", "run"]),
        (["livingstone", "pr"], ["print"]),
        (["livingstone", "generate", ""], ["model", "session"]),
        (["livingstone", "run", "examples/va"], ["examples/valve.lv"]),
        (["livingstone", "run", "examples/valve.lv", "examples/fi"], ["examples/first.ses"]),
        (["livingstone", "run", "examples/valve.lv", "st"], ["stdin"]),
        (["livingstone", "check", "examples/valve.lv", "examples/val"], ["examples/valve.cert"]),
        (["livingstone", "run", "examples/pow"], ["examples/power_bus"]),
        (["livingstone", "print", "examples/valve.lv", ""], []),
    ]
    for words, wanted in rows:
        got = completions(words)
        judge(f"completion of {words}", got == wanted, f"{got}")


def try_manual():
    if not shutil.which("man"):
        print("no man: the manual page wasn't tried")
        return
    done = subprocess.run(["man", "--warnings", "-l", str(ROOT / "livingstone.1")], capture_output=True, text=True, timeout=60, check=False)
    judge("the manual page", done.returncode == 0 and not done.stderr and "EXIT STATUS" in done.stdout, done.stderr)


def main():
    grammars = {}
    for end, kind in KINDS.items():
        path = ROOT / f"editors/vscode/syntaxes/{kind}.tmLanguage.json"
        grammars[end] = json.loads(path.read_text())
    has_vim = shutil.which("vim") is not None
    if not has_vim:
        print("no vim: its syntax files weren't tried")
    try_texts(grammars, has_vim)
    try_wrong_texts(grammars, has_vim)
    try_words(grammars)
    try_completions()
    try_manual()
    print(f"{passed} passed, {failed} failed")
    sys.exit(failed > 0 or passed == 0)


main()
