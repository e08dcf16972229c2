# SPDX-License-Identifier: Apache-2.0 OR MIT
"""The words of a script, and how it ends: each mistake is one line on standard error that says what is wrong and what to do,
and a status."""

import argparse
import contextlib
import difflib
import io
import os
import re
import sys
from collections.abc import Callable, Sequence
from pathlib import Path
from typing import Any, NoReturn

TOP = Path(__file__).resolve().parents[2]
"""The repository's folder."""
FAILED, USAGE, OUTPUT_LOST, STOPPED = 1, 2, 2, 130
VERSION = re.compile(r'#define CLOCKBOARD_VERSION "(.*)"')


class Refused(Exception):
    """Why a script can't go on, in a line for its user."""


def shown(word: object) -> str:
    """A word as a message has it: what isn't UTF-8 or can't be seen as an escape."""
    text = os.fsencode(str(word)).decode("utf-8", "backslashreplace")
    return "".join(letter if letter.isprintable() else repr(letter)[1:-1] for letter in text)


def nearest(word: str, words: Sequence[str]) -> str:
    """What a word was meant to be, as the end of a sentence; nothing where none of the words is like it."""
    near = difflib.get_close_matches(word.lower(), words, 1, 0.5)
    return f"; is it {near[0]}?" if near else ""


class Words(argparse.ArgumentParser):
    """The words of a script. A mistake is told by the word at fault, what was expected, and the nearest right word."""

    def __init__(self, name: str, about: str | None, example: str) -> None:
        super().__init__(prog=f"tools/{name}", description=about, epilog=f"Example:\n\n    {example}", allow_abbrev=False,
                         formatter_class=argparse.RawDescriptionHelpFormatter)
        self.name = name.split()[0]
        self.add_argument("--version", action="version", version=f"{self.name} of clockboard {version()}")

    def options(self) -> list[str]:
        return [word for action in self._actions for word in action.option_strings]

    def parse_args(self, *given: Any) -> argparse.Namespace:  # type: ignore[override]
        found, rest = self.parse_known_args(*given)
        self.refuse(rest)
        return found

    def refuse(self, rest: list[str]) -> None:
        """Ends the script where words are left."""
        for word in rest:
            if word.startswith("-") and word != "-":
                self.error(f"'{shown(word)}' is no option{nearest(word.split('=')[0], self.options())}")
            self.error(f"'{shown(word)}' is one word too many; {self.expected()}")

    def expected(self) -> str:
        """What the script takes, but for its options."""
        names = [words_of(action) for action in self._actions if not action.option_strings]
        return f"it takes {' '.join(names)}" if names else "it takes options alone"

    def error(self, message: str) -> NoReturn:
        """Ends the script for a mistake in its words. What argparse says is put into the words of a user."""
        said = argparse_says(self, message)
        raise SystemExit(say(self.name, f"{said}; {self.prog} --help has all words", USAGE))


class JobWords(Words):
    """The words of one of a script's jobs, for `add_parser`; `prog` is 'tools/SCRIPT JOB'."""

    def __init__(self, prog: str, about: str | None, example: str) -> None:
        super().__init__(prog.removeprefix("tools/"), about, example)

    def parse_known_args(self, *given: Any) -> tuple[argparse.Namespace, list[str]]:  # type: ignore[override]
        found, rest = super().parse_known_args(*given)
        self.refuse(rest)
        return found, []


def words_of(action: argparse.Action) -> str:
    """What a script's help calls the words of an argument."""
    return " ".join(action.metavar) if isinstance(action.metavar, tuple) else str(action.metavar or action.dest)


def argparse_says(parser: Words, message: str) -> str:
    choice = re.match(r"argument (\S+): invalid choice: '(.*)' \(choose from (.*)\)", message)
    if choice:
        words = re.findall(r"[\w-]+", choice[3])
        return f"'{shown(choice[2])}' is none of {', '.join(words)}{nearest(choice[2], words)}"
    missing = re.match(r"the following arguments are required: (.*)", message)
    if missing:
        return f"{missing[1]} is missing; {parser.expected()}"
    no_value = re.match(r"argument (\S+): expected (.*) arguments?$", message)
    if no_value:
        action = next(it for it in parser._actions if no_value[1].split("/")[0] in it.option_strings)
        return f"{no_value[1].split('/')[-1]} is to have {words_of(action) if action.metavar else 'a value'} after it"
    return re.sub(r"^argument (\S+): ", r"\1: ", message)


def version() -> str:
    """The version of the program, as the header for C has it: that of the repository, or the installed one."""
    for header in (TOP / "c" / "clockboard.h", TOP.parents[1] / "include" / "clockboard" / "clockboard.h"):
        if header.is_file() and (found := VERSION.search(header.read_text())):
            return found[1]
    return "of no number"


def number(name: str, low: int = 0, high: int | None = None) -> Callable[[str], int]:
    """The kind of a word that is a number of something."""
    def taken(word: str) -> int:
        if not re.fullmatch(r"-?[0-9]+", word):
            raise argparse.ArgumentTypeError(f"'{shown(word)}' isn't {name}: digits alone are")
        if int(word) < low:
            raise argparse.ArgumentTypeError(f"{word} is below {low}, the least {name.removeprefix('a ')}")
        if high is not None and int(word) > high:
            raise argparse.ArgumentTypeError(f"{word} is above {high}, the greatest {name.removeprefix('a ')}")
        return int(word)

    return taken


def say(name: str, text: str, status: int) -> int:
    """Says a line on standard error, and gives the status back."""
    if sys.stderr is not None:
        with contextlib.suppress(OSError):
            print(f"{name}: {text}", file=sys.stderr, flush=True)
    return status


def told(fault: OSError) -> str:
    """What a file's fault is, and what to do."""
    if fault.filename is None:
        return str(fault.strerror or fault)
    file = shown(os.fsdecode(fault.filename))
    if isinstance(fault, IsADirectoryError):
        return f"{file}: it is a directory, and a file is wanted"
    if isinstance(fault, FileNotFoundError):
        path = Path(os.fsdecode(fault.filename))
        near = difflib.get_close_matches(path.name, names_in(path.parent), 1)
        return f"{file}: there is no such file" + (f"; is it {shown(path.parent / near[0])}?" if near else "")
    return f"{file}: {fault.strerror}"


def names_in(folder: Path) -> list[str]:
    try:
        return os.listdir(folder)
    except OSError:
        return []


class OutputLost(Exception):
    """Standard output takes no more."""


class Output(io.FileIO):
    """Standard output, whose faults are told from those of other files."""

    def write(self, data: Any) -> int:
        try:
            return super().write(data) or 0
        except OSError as fault:
            raise OutputLost("nobody reads its standard output any more" if isinstance(fault, BrokenPipeError)
                             else f"its standard output takes no more: {fault.strerror}") from fault


def answered(name: str, main: Callable[[], int], failed: int = FAILED) -> int:
    """The status of a script's main function, or `failed` where it refuses what it is given, or a file fails."""
    try:
        return main()
    except SystemExit as end:
        return int(end.code or 0)
    except Refused as fault:
        return say(name, str(fault), failed)
    except OSError as fault:
        return say(name, told(fault), failed)


def run(name: str, main: Callable[[], int], failed: int = FAILED, lost: int = OUTPUT_LOST) -> int:
    """Runs a script's main function: the status is as `answered` has it, or `lost` where standard output fails."""
    if sys.stdout is None:
        return say(name, "its standard output is closed", lost)
    output = io.BufferedWriter(Output(sys.stdout.fileno(), "w", closefd=False))
    sys.stdout = io.TextIOWrapper(output, encoding="utf-8", errors="backslashreplace", line_buffering=sys.stdout.isatty())
    if sys.stderr is not None:
        sys.stderr.reconfigure(errors="backslashreplace")  # type: ignore[union-attr]
    try:
        status = answered(name, main, failed)
        sys.stdout.flush()
        return status
    except (OutputLost, KeyboardInterrupt) as fault:
        os.dup2(os.open(os.devnull, os.O_WRONLY), sys.stdout.fileno())
        is_stopped = isinstance(fault, KeyboardInterrupt)
        return say(name, "stopped" if is_stopped else str(fault), STOPPED if is_stopped else lost)
