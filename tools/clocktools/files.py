# SPDX-License-Identifier: Apache-2.0 OR MIT
"""The files that a script reads: each may be standard input, named by `-`, and packed by gzip."""

import gzip
import sys
import tempfile
import zlib
from collections.abc import Iterator
from contextlib import contextmanager
from pathlib import Path
from shutil import copyfileobj
from typing import BinaryIO

from .command import Refused, shown

GZ = b"\x1f\x8b"
STDIN = Path("-")


class Unusable(Refused):
    """A file can't be read as what it should be, for this reason, which lacks the file's name."""


def name_of(path: Path) -> str:
    return "standard input" if path == STDIN else shown(path)


@contextmanager
def opened(path: Path) -> Iterator[BinaryIO]:
    """What a file holds, unpacked. It can be read once."""
    if path != STDIN:
        with path.open("rb") as raw:
            yield unpacked(raw)
        return
    if sys.stdin is None:
        raise Refused("standard input is closed, and a file is wanted there")
    try:
        sys.stdin.buffer.peek(1)
    except OSError as fault:
        why = "it is a directory" if isinstance(fault, IsADirectoryError) else str(fault.strerror)
        raise Refused(f"standard input can't be read: {why}") from fault
    yield unpacked(sys.stdin.buffer)


def unpacked(raw: BinaryIO) -> BinaryIO:
    """What a file holds, which may be packed by gzip. A pipe is taken as it is where it can't be looked into."""
    peek = getattr(raw, "peek", None)
    return gzip.open(raw) if peek and peek(2)[:2] == GZ else raw  # type: ignore[return-value]


@contextmanager
def unbroken(path: Path) -> Iterator[None]:
    """Refuses a file whose packed data are broken."""
    try:
        yield
    except (EOFError, gzip.BadGzipFile, zlib.error) as fault:
        raise Refused(f"{name_of(path)}: its gzip data are broken: {fault}") from fault


def read(path: Path) -> bytes:
    """All of a file."""
    with unbroken(path), opened(path) as file:
        return file.read()


@contextmanager
def plain(path: Path) -> Iterator[Path]:
    """The file itself; of one that is packed or no file, a copy that can be read more than once."""
    if path.is_file():
        with path.open("rb") as raw:
            is_packed = raw.read(2) == GZ
        if not is_packed:
            yield path
            return
    with tempfile.NamedTemporaryFile() as copy:
        with unbroken(path), opened(path) as source:
            copyfileobj(source, copy)
        copy.flush()
        yield Path(copy.name)
