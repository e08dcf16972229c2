# SPDX-License-Identifier: Apache-2.0 OR MIT
"""What a file is that is given as a trace and is none, and what makes a trace of it."""

import re

UNPACKERS = {b"\x1f\x8b": ("gzip", "zcat"), b"\xfd7zXZ": ("xz", "xz -dc"), b"\x28\xb5\x2f\xfd": ("zstd", "zstd -dc"),
             b"BZh": ("bzip2", "bzip2 -dc")}
"""By how a packed file begins: what packed it, and what unpacks it."""
MAGIC = {
    b"CLKBOARD": "these are the bytes of a saved state; in a trace they are a line `state` of hexadecimal digits: "
                 "xxd -p STATE | tr -d '\\n'",
    b"PK\x03\x04": "this is a zip archive: unzip it, and give the trace in it",
    b"\x7fELF": "this is a program (ELF), and no text",
    b"\x89PNG": "this is a picture (PNG), and no text",
    b"%PDF": "this is a PDF, and no text",
    b"SQLite format 3": "this is a database (SQLite), and no text",
    b"PERFILE2": "these are records of perf's; perf script prints them, and tools/import kvm makes a trace of that",
    b"\x17\x08Dtracing": "these are records of trace-cmd's; trace-cmd report prints them, and tools/import kvm makes a trace of that",
    b"QEVM": "this is a saved machine of QEMU's, and no trace",
    b"QFI\xfb": "this is a disk image (qcow2), and no trace",
}
"""By how another file begins, what it is."""
FIRST_LINES = (
    (r"\S*@?[0-9.:]+.*memory_region_ops_|memory_region_ops_",
     "this is a log of QEMU's: tools/import qemu LOG TRACE makes a trace of it"),
    (r"edge \d+ \d+ (up|down)|msg \d+ |\d+ \d+( [0-9a-f]+)?$|final \d+ |fault ",
     "this is what is printed for a trace; the trace begins with the line clockboard 1"),
    (r"# What the peer answered|trace [0-9a-f]{64}$|stamp \d+$",
     "this is a peer's file, TRACE.peer; the trace is the file beside it, without .peer"),
    (r"\$(timescale|date|version|comment|scope)\b", "this is a wave file (VCD); the trace is what it was made of"),
    (r"(?i)<!doctype|<html|<\?xml", "this is a page of HTML; tools/page makes one of a trace, and not the other way round"),
    (r"[{\[]\s*($|[\"{\[])", "this is JSON; a trace is lines of words, and begins with the line clockboard 1"),
    (r"(---|\+\+\+|diff|Index:|@@) ", "this is a patch; the trace is what it changes"),
    (r"```", "the lines are between marks of Markdown, ```; leave these out"),
    (r"[$%>] ?\S", "the first line is a prompt of a shell's with a command; leave it out"),
    (r"\s*1[:.|]?\s+clockboard \d", "the lines have their numbers before them; leave these out: sed 's/^ *[0-9]*[:.|]* *//' TRACE"),
    (r"clockboard \d(\\r)?\\n",
     "the two letters \\n stand where a line is to end; printf makes an end of them: printf 'clockboard 1\\nbegin\\n..'"),
)
"""By a pattern of the first line, what the file is."""
CONTROLS = frozenset(range(32)) - {9, 10, 11, 12, 13} | {127}
HEAD = 4096
FEW = 4
"""Fewer bytes that no text has are a slip in one line."""


def of_zeros(data: bytes) -> str:
    if data.strip(b"\0"):
        return ""
    return f"the file is {len(data)} bytes of 00 and nothing else: its text was never written, or is lost"


def of_wide_letters(data: bytes) -> str:
    """UTF-16 and UTF-32, with a byte order mark or without."""
    name = ""
    if data.startswith((b"\xff\xfe\0\0", b"\0\0\xfe\xff")):
        name = "UTF-32"
    elif data.startswith((b"\xff\xfe", b"\xfe\xff")):
        name = "UTF-16"
    else:
        for order, first in (("LE", 0), ("BE", 1)):
            letters, zeros = data[first:64:2], data[1 - first : 64 : 2]
            if len(letters) > 3 and not any(zeros) and all(31 < letter < 127 or letter in (10, 13) for letter in letters):
                name = f"UTF-16{order}"
    if not name:
        return ""
    return f"the file is {name[:6]}: iconv -f {name} -t UTF-8 TRACE | tr -d '\\r' > TRACE.txt"


def of_text(data: bytes) -> str:
    """A text of another kind, by its first line, or by a line of KVM's tracepoints."""
    if re.search(rb": (kvm:)?kvm_\w+: ", data[:HEAD]):
        return "this is a log of KVM's tracepoints: tools/import kvm LOG TRACE makes a trace of it"
    first = data[:HEAD].split(b"\n")[0].decode("utf-8", "replace").rstrip("\r")
    return next((told for pattern, told in FIRST_LINES if re.match(pattern, first)), "")


def of_bytes(data: bytes) -> str:
    """A file that is no text: bytes stand in its head that no text has."""
    head = data[:HEAD]
    wrong = [place for place, byte in enumerate(head) if byte in CONTROLS]
    if len(wrong) < FEW or 50 * len(wrong) < len(head):
        return ""
    return f"this is no text: byte {wrong[0]} is {head[wrong[0]]:02x}h, and {len(wrong)} of the first {len(head)} are such that no text has"


def file_mend(data: bytes) -> str:
    """What a file is that is no trace; nothing where it may be one."""
    for magic, (packer, unpacker) in UNPACKERS.items():
        if data.startswith(magic):
            return f"the file is packed by {packer}: {unpacker} TRACE | bin/clockboard replay"
    told = next((told for magic, told in MAGIC.items() if data.startswith(magic)), "")
    return data and (told or of_zeros(data) or of_wide_letters(data) or of_text(data) or of_bytes(data)) or ""


def end_mend(data: bytes) -> str:
    """How to mend a trace that ends before its line `end`."""
    if not data.strip():
        return "the file is empty: a trace begins with the line clockboard 1"
    if data.rstrip().endswith(b"\nbegin") or b"\nbegin\n" in data:
        how = "echo end" if data.endswith(b"\n") else "printf '\\nend\\n'"
        return f"the last line is `end`: {how} >> TRACE"
    return "the header ends with the line begin, and the trace with the line end"
