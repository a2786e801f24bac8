"""The engine as a library in this process, by ctypes: library/out/liblivingstone.so, or wherever `library/build` put it."""

from __future__ import annotations

import ctypes
import os
import threading
import weakref
from pathlib import Path
from typing import Optional, Tuple

from .errors import LibraryNotFound, ModelRefused, ProgramFailed, ReplyCut, SessionEnded
from .transport import Transport

_DONE, _REFUSED = 0, 1
OUT_OF_MEMORY = 8
"""The status with which the program ends where memory is wanting; the library says so in a call's end."""


class _Refusal(ctypes.Structure):
    _fields_ = [("number", ctypes.c_uint32), ("line", ctypes.c_uint64)]


class _Reply(ctypes.Structure):
    _fields_ = [("text", ctypes.c_void_p), ("length", ctypes.c_size_t)]


_CALLS = {
    "open_model": [ctypes.c_char_p, ctypes.c_size_t, ctypes.c_size_t, ctypes.c_void_p, ctypes.c_void_p],
    "check": [ctypes.c_void_p, ctypes.c_char_p, ctypes.c_size_t, ctypes.c_void_p],
    "open_session": [ctypes.c_void_p, ctypes.c_void_p],
    "answer": [ctypes.c_void_p, ctypes.c_char_p, ctypes.c_size_t, ctypes.c_void_p],
    "close_session": [ctypes.c_void_p],
    "close_model": [ctypes.c_void_p],
}


def find_library(given: Optional[str] = None) -> Optional[str]:
    """The library: the one given, or that of the variable LIVINGSTONE_LIBRARY; none where neither names one."""
    return given or os.environ.get("LIVINGSTONE_LIBRARY") or None


class Library:
    """The library in a file."""

    def __init__(self, path: str) -> None:
        self.path = path
        try:
            # Without a slash the name would be looked for where the system's libraries are.
            loaded = ctypes.CDLL(str(Path(path).resolve()))
            for name, takes in _CALLS.items():
                call = getattr(loaded, f"livingstone_{name}")
                call.argtypes = takes
                call.restype = None if name.startswith("close") else ctypes.c_int
        except (OSError, AttributeError) as fault:
            raise LibraryNotFound(f"{path} is no library of the engine: {fault}") from fault
        self.loaded = loaded


def _close(library: Library, word: str, handle: int, thread: int) -> None:
    """Lets go of a handle, which stays on its thread: what is collected on another one is left where it is."""
    if threading.get_ident() == thread:
        getattr(library.loaded, f"livingstone_close_{word}")(handle)


class LibraryModel:
    """A model that the library accepted."""

    def __init__(self, library: Library, text: bytes, asked: str) -> None:
        self.library = library
        self.thread = threading.get_ident()
        self.asked = asked
        handle, refusal = ctypes.c_void_p(), _Refusal()
        end = library.loaded.livingstone_open_model(text, len(text), 0, ctypes.byref(handle), ctypes.byref(refusal))
        if end == _REFUSED:
            raise ModelRefused(refusal.line, f"M{refusal.number:02}", asked)
        if end != _DONE or handle.value is None:
            raise ProgramFailed(OUT_OF_MEMORY, "out of memory", asked)
        self.handle = handle.value
        weakref.finalize(self, _close, library, "model", self.handle, self.thread)

    def stay_on_thread(self) -> None:
        if threading.get_ident() != self.thread:
            raise RuntimeError("a model of the library and its sessions stay on the thread that opened the model")

    def check(self, certificate: bytes) -> Tuple[bool, Optional[int]]:
        """Whether a certificate is valid, and else its first bad line."""
        self.stay_on_thread()
        refusal = _Refusal()
        end = self.library.loaded.livingstone_check(self.handle, certificate, len(certificate), ctypes.byref(refusal))
        if end == _DONE:
            return True, None
        if end == _REFUSED:
            return False, int(refusal.line)
        raise ProgramFailed(OUT_OF_MEMORY, "out of memory", f"check {self.asked}")


class LibraryTransport(Transport):
    """A session of the library. A line is answered before an interrupt is seen, so none leaves a reply owed."""

    def __init__(self, model: LibraryModel) -> None:
        model.stay_on_thread()
        self._model = model
        self._loaded = model.library.loaded
        handle = ctypes.c_void_p()
        if self._loaded.livingstone_open_session(model.handle, ctypes.byref(handle)) != _DONE or handle.value is None:
            raise ProgramFailed(OUT_OF_MEMORY, "out of memory", model.asked)
        self._handle = handle.value
        self._closing = weakref.finalize(self, _close, model.library, "session", self._handle, model.thread)

    def exchange(self, line: bytes) -> bytes:
        if b"\n" in line:
            raise ValueError("a session line has no line feed in it")
        if not self._closing.alive:
            raise SessionEnded("the session was closed")
        self._model.stay_on_thread()
        if line.endswith(b"\r"):
            # To the program that belongs to the line's end.
            line = line[:-1]
        reply = _Reply()
        if self._loaded.livingstone_answer(self._handle, line, len(line), ctypes.byref(reply)) != _DONE:
            raise ReplyCut(line.decode("utf-8", "backslashreplace"), "", OUT_OF_MEMORY, "out of memory")
        return ctypes.string_at(reply.text, reply.length) if reply.text and reply.length else b""

    def close(self) -> None:
        self._closing()
