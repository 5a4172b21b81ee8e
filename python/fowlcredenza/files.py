"""Files as commands read them; `-` is standard input."""

from __future__ import annotations

import sys
from pathlib import Path

from .declarations import SIZES
from .errors import cannot

STANDARD_INPUT = "-"


def title(name: str) -> str:
    """How messages call a file."""
    return "standard input" if name == STANDARD_INPUT else name


def read_bytes(name: str, limit: int = -1) -> bytes:
    """A file's bytes, no more than the limit."""
    try:
        if name == STANDARD_INPUT:
            return sys.stdin.buffer.read(limit)
        with open(name, "rb", buffering=0) as file:
            return _read_all(file, limit)
    except OSError as error:
        raise cannot(title(name), error) from None


def _read_all(file, limit: int) -> bytes:
    if limit < 0:
        return file.readall()
    parts, left = [], limit
    while left and (part := file.read(left)):
        parts.append(part)
        left -= len(part)
    return b"".join(parts)


def read_scene(name: str) -> bytes:
    """A scene's text; of one that is too long, one byte more than a scene may have."""
    return read_bytes(name, SIZES["SCENE_MAX_LEN"] + 1)


def read_text(name: str) -> str:
    """A text file, its bytes that are no text shown as such."""
    return read_bytes(name).decode("utf-8", "backslashreplace")


def create(path: Path, data: bytes) -> None:
    """Writes a file that is not there yet."""
    try:
        with open(path, "xb") as file:
            file.write(data)
    except OSError as error:
        raise cannot(path, error) from None
