"""Says what a model has that is accepted and likely wrong: laws that read controls, modes that no move leads to,
guards that no value meets, steps behind others, variables never read, faults cheaper than their repair, formulas
near the limit of clauses. Status 1 where something was found."""

from __future__ import annotations

import argparse
import json
from pathlib import Path
from typing import List

from ..linting import findings
from ..notices import Notice, source_line
from ..origins import Origins
from ..session import Model
from ..text import cut_lines

HELP = "say what is accepted and likely wrong"


def add_arguments(parser: argparse.ArgumentParser) -> None:
    parser.add_argument("model", metavar="MODEL")
    parser.add_argument("--json", action="store_true", help="write a JSON list")


def run(arguments: argparse.Namespace) -> int:
    notices = lint(Model(arguments.model, arguments.program), arguments.model)
    if arguments.json:
        print(json.dumps([notice.to_dict() for notice in notices]))
    else:
        for notice in notices:
            print(notice)
    return 1 if notices else 0


def lint(model: Model, file: str) -> List[Notice]:
    """The findings over an accepted model, at their places in its file."""
    data = Path(model.path).read_bytes()
    lines = cut_lines(data)
    origins = Origins(data)
    notices = []
    for finding in findings(model.plant):
        line, column = origins.place(finding.line, finding.word)
        source = source_line(lines, line)
        notices.append(Notice(file, line, column, finding.code, finding.message, finding.hint, source))
    return notices
