# SPDX-License-Identifier: Apache-2.0 OR MIT
"""Reading a log line by line, with its progress, and what a file looks like that is none."""

import re
import sys
from collections.abc import Iterator
from pathlib import Path
from typing import TextIO

from .files import opened, unbroken

HEAD = 1 << 16
"""So many bytes show what a file is."""
SHOWN_EVERY = 1 << 16
"""The progress is shown after so many lines."""
PACKED = {b"\xfd7zXZ": "xz", b"\x28\xb5\x2f\xfd": "zstd", b"BZh": "bzip2", b"PK\x03\x04": "zip"}
QEMU_ACCESS = b"memory_region_ops_"
KVM_EVENT = re.compile(rb"\[\d+\].*:\s+(kvm:)?kvm_\w+:\s")


def lines(path: Path, job: str) -> Iterator[bytes]:
    """The lines of a log. Where standard error is a terminal, how far it has come is shown there."""
    size = path.stat().st_size if path.is_file() and sys.stderr.isatty() else 0
    with opened(path) as file, unbroken(path):
        try:
            for number, line in enumerate(file, 1):
                if size and number % SHOWN_EVERY == 0:
                    show(job, getattr(file, "fileobj", file).tell(), size)
                yield line
        finally:
            if size:
                clear()


class Progress:
    """The lines of an open file. Where standard error is a terminal, how far they have come is shown there."""

    def __init__(self, file: TextIO, path: Path, job: str) -> None:
        self.file, self.job = file, job
        self.size = path.stat().st_size if path.is_file() and sys.stderr.isatty() else 0

    def __iter__(self) -> Iterator[str]:
        for number, line in enumerate(self.file, 1):
            if self.size and number % SHOWN_EVERY == 0:
                show(self.job, self.file.buffer.tell(), self.size)
            yield line
        if self.size:
            clear()


def show(job: str, done: int, size: int) -> None:
    print(f"\r{job}: {100 * done // size} %", end="", file=sys.stderr, flush=True)


def clear() -> None:
    print("\r\033[K", end="", file=sys.stderr)


def looks_like(path: Path) -> str:
    """What a file looks like, by its first bytes."""
    with opened(path) as file:
        head = file.read(HEAD)
    packer = next((name for magic, name in PACKED.items() if head.startswith(magic)), None)
    if not head:
        return "it is empty"
    if packer:
        return f"it is packed by {packer}; unpack it first"
    if QEMU_ACCESS in head:
        return "it looks like a log of QEMU's: tools/import qemu"
    if KVM_EVENT.search(head):
        return "it looks like a log of KVM's tracepoints: tools/import kvm"
    if head.startswith(b"clockboard ") or b"\nclockboard " in head:
        return "it looks like a trace already"
    if b"Servicing hardware INT=" in head or b"IN: " in head or b": v=" in head:
        return "it looks like a log of QEMU's without trace events: -trace 'memory_region_ops_*'"
    if b"\0" in head:
        return "it looks like no text at all"
    return "it looks like some other text"
