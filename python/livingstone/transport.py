"""How lines reach a session and replies come back: one line in, its reply out."""

from __future__ import annotations

import os
import queue
import subprocess
import tempfile
import threading
from abc import ABC, abstractmethod
from typing import List, Optional, Tuple

from .errors import ProgramFailed, ProgramNotFound, ReplyCut, SessionEnded
from .program import failure, said_of
from .replies import is_last, lines_behind
from .text import first_word, is_silent


class Transport(ABC):
    """A session somewhere. An interrupt during `exchange` leaves it usable: the reply that is still owed is passed over
    before the next line is sent."""

    @abstractmethod
    def exchange(self, line: bytes) -> bytes:
        """Sends one line, without a line feed, and answers its reply, each line of it with one; nothing for a blank
        line or a comment."""

    @abstractmethod
    def close(self) -> None:
        """Lets the session go; this may be called twice."""


class PipeTransport(Transport):
    """A session served by the program, in a process of its own, over pipes.

    A thread writes lines and reads replies, and the caller waits for its reply by a number. Interrupts come to the main
    thread alone, so none is lost in the middle of a read: the reply that nobody waits for any more is passed over. Lines
    and replies go by queues whose calls an interrupt can't leave half done.
    """

    def __init__(self, program: str, model: str) -> None:
        self._model = model
        self._errors = tempfile.TemporaryFile()
        try:
            # In a session of its own, so that an interrupt at the terminal doesn't reach it.
            self._process = subprocess.Popen(
                [program, "run", "--", model, "stdin"],
                stdin=subprocess.PIPE,
                stdout=subprocess.PIPE,
                stderr=self._errors,
                start_new_session=True,
                bufsize=0,
            )
        except OSError as fault:
            self._errors.close()
            raise ProgramNotFound(f"{program} can't be run: {fault.strerror}") from fault
        self._buffer = b""
        self._got: List[bytes] = []
        self._number = 0
        self._closed = False
        self._asked: queue.SimpleQueue[Optional[Tuple[int, bytes]]] = queue.SimpleQueue()
        # Each reply with the number of its line, and nothing behind the last; the last number; why no further line is answered.
        self._replies: queue.SimpleQueue[Tuple[int, Optional[bytes]]] = queue.SimpleQueue()
        self._answered = 0
        self._failed: Optional[Exception] = None
        self._thread = threading.Thread(target=self._serve, daemon=True)
        self._thread.start()

    def exchange(self, line: bytes) -> bytes:
        if b"\n" in line:
            raise ValueError("a session line has no line feed in it")
        if self._closed:
            raise SessionEnded("the session was closed")
        if self._failed is not None:
            raise self._failed
        self._number += 1
        number = self._number
        self._asked.put((number, line))
        while True:
            answered, reply = self._replies.get()
            if reply is None:
                assert self._failed is not None
                raise self._failed
            if answered == number:
                return reply

    def _serve(self) -> None:
        """The thread: sends each line that is asked, and reads its reply."""
        while True:
            asked = self._asked.get()
            if asked is None:
                return
            number, line = asked
            try:
                self._got = []
                self._send(line)
                answer = b"" if is_silent(line) else self._reply(line)
            except (ProgramFailed, ReplyCut) as fault:
                self._failed = fault
                self._replies.put((number, None))
                return
            self._answered = number
            self._replies.put((number, answer))

    def _send(self, line: bytes) -> None:
        assert self._process.stdin is not None
        rest = memoryview(line + b"\n")
        try:
            while rest:
                rest = rest[os.write(self._process.stdin.fileno(), rest):]
        except OSError:
            raise self._broken(line) from None

    def _reply(self, line: bytes) -> bytes:
        word = first_word(line)
        self._got.append(self._line(line))
        behind = lines_behind(word, self._got[0].decode("ascii", "replace"))
        while behind is None and not is_last(self._got[-1].decode("ascii", "replace")) or behind is not None and len(self._got) <= behind:
            self._got.append(self._line(line))
        return b"".join(got + b"\n" for got in self._got)

    def _line(self, asked: bytes) -> bytes:
        assert self._process.stdout is not None
        while b"\n" not in self._buffer:
            piece = os.read(self._process.stdout.fileno(), 65536)
            if not piece:
                raise self._broken(asked)
            self._buffer += piece
        found, self._buffer = self._buffer.split(b"\n", 1)
        return found

    def _broken(self, asked: bytes) -> Exception:
        """Why the program went away while it was asked a line."""
        status = self._end()
        self._errors.seek(0)
        said = said_of(self._errors.read())
        words = asked.decode("utf-8", "backslashreplace")
        got = b"".join(line + b"\n" for line in self._got) + self._buffer
        if status in (2, 3, 4) and not got:
            return failure(status, said, f"run {self._model}")
        return ReplyCut(words, got.decode("utf-8", "replace"), status, said)

    def _end(self) -> int:
        """The status that the program ends with; what doesn't end by itself is stopped."""
        try:
            return self._process.wait(timeout=5)
        except subprocess.TimeoutExpired:
            self._process.kill()
            return self._process.wait()

    def close(self) -> None:
        if self._closed:
            return
        self._closed = True
        if self._failed is None and self._answered < self._number:
            # It is in the middle of a search, which nobody waits for.
            self._process.kill()
        self._asked.put(None)
        self._thread.join()
        for stream in (self._process.stdin, self._process.stdout):
            assert stream is not None
            stream.close()
        self._end()
        self._errors.close()
