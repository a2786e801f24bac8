"""Which line of a model's text each line of its canonical text comes from."""

from __future__ import annotations

from typing import List

from .syntax import Statement, read_statements


class Origins:
    """The canonical text has one line for each statement; its first is the version and its second the model's name, which
    the text may leave out."""

    def __init__(self, data: bytes) -> None:
        statements, _ = read_statements(data)
        versioned = bool(statements) and statements[0].word == "version"
        self.statements = statements[versioned:] or statements
        self.named = bool(self.statements) and self.statements[0].word == "model"

    def statement(self, canonical_line: int) -> Statement:
        """The statement that a line of the canonical text comes from; the first where it is an added one."""
        return self.statements[max(0, canonical_line - (2 if self.named else 3))]

    def place(self, canonical_line: int, word: str = "") -> List[int]:
        """The line, and the column of the statement or of the first place of a word behind its first."""
        statement = self.statement(canonical_line)
        for token in statement.tokens[1:]:
            if word and token.text == word:
                return [statement.line, token.start + 1]
        return [statement.line, statement.column]
