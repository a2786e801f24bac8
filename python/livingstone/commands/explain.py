"""A filter behind the program: passes on what it wrote, and says of each refusal where it is, what it means and
what may help. For a session: livingstone run MODEL SESSION 2>&1 | lv explain MODEL SESSION. For a model alone:
livingstone print MODEL 2>&1 >/dev/null | lv explain MODEL. With --run it calls the program itself. Status 1 where
there was a refusal."""

from __future__ import annotations

import argparse
import json
import re
import sys
from pathlib import Path
from typing import Iterable, Iterator, List, Optional, Union

from ..declarations import read_plant
from ..notices import Notice, model_refusal, session_refusal
from ..plant import Plant
from ..program import file_name, find_program, run_program
from ..replies import is_last, lines_behind
from ..syntax import ModelFault
from ..text import cut_lines, cut_session, first_word, is_silent

HELP = "say where refusals are, and what they mean"


def add_arguments(parser: argparse.ArgumentParser) -> None:
    parser.add_argument("model", metavar="MODEL")
    parser.add_argument("session", metavar="SESSION", nargs="?")
    parser.add_argument("--run", dest="call", action="store_true", help="call the program, and read no standard input")
    parser.add_argument("--json", action="store_true", help="write the refusals alone, as a JSON list")


def run(arguments: argparse.Namespace) -> int:
    data = Path(arguments.model).read_bytes()
    lines = cut_session(Path(arguments.session).read_bytes()) if arguments.session else []
    given = _called(arguments) if arguments.call else (line.rstrip(b"\n") for line in sys.stdin.buffer)
    notices = []
    for item in explained(given, arguments.model, data, arguments.session or "", lines):
        if isinstance(item, Notice):
            notices.append(item)
        if not arguments.json:
            print(item if isinstance(item, Notice) else item.decode("utf-8", "replace"), flush=True)
    if arguments.json:
        print(json.dumps([notice.to_dict() for notice in notices]))
    return 1 if notices else 0


def _called(arguments: argparse.Namespace) -> List[bytes]:
    program = find_program(arguments.program)
    words = ["run" if arguments.session else "print", "--", file_name(arguments.model)]
    words += [file_name(arguments.session)] if arguments.session else []
    ended = run_program(program, words)
    out = cut_lines(ended.out) if arguments.session else []
    return out + ended.said.encode().splitlines()


def explained(
    given: Iterable[bytes], model: str, data: bytes, session: str, lines: List[bytes]
) -> Iterator[Union[bytes, Notice]]:
    """The lines that the program wrote, and behind each refusal what it means."""
    plant = _plant(data)
    asked = (number for number, line in enumerate(lines, 1) if not is_silent(line))
    behind: Optional[int] = 0
    for line in given:
        yield line
        text = line.decode("ascii", "replace")
        refused = re.fullmatch(r"model (\d+) (M\d\d)", text)
        if behind != 0:
            behind = behind - 1 if behind is not None else 0 if is_last(text) else None
        elif refused:
            yield model_refusal(model, data, int(refused.group(1)), refused.group(2))
        else:
            number = next(asked, None)
            if number is None:
                continue
            behind = lines_behind(first_word(lines[number - 1]), text)
            if re.fullmatch(r"error S\d\d", text):
                yield session_refusal(session, plant, lines, number, text[6:])


def _plant(data: bytes) -> Optional[Plant]:
    try:
        return read_plant(data)
    except ModelFault:
        return None
