# SPDX-License-Identifier: Apache-2.0 OR MIT
"""A guest that goes from QEMU's own devices to the board and back, by tools/state."""

import os
import subprocess
from pathlib import Path

from kinds import ACCEPTED, TOP, need
from monitor import Monitor, go_on, load, save, wait_for


def program() -> str:
    return os.environ.get("CLOCKBOARD") or str(TOP / "release/clockboard-x86_64-linux")


def state(place: Path, *words: str) -> str:
    """What tools/state prints. `losses` keeps what it says is lost; what isn't in `--accept` fails the run."""
    done = subprocess.run([TOP / "tools/state", *words], cwd=place, capture_output=True, text=True, check=False,
                          env={**os.environ, "CLOCKBOARD": program()})
    with (place / "losses").open("a", encoding="utf-8") as file:
        print(*words, done.stderr, sep="\n", file=file)
    need(done.returncode == 0, f"tools/state {' '.join(words)} ends with {done.returncode}: {done.stdout[:200]}{done.stderr}")
    return done.stdout


def from_plain(place: Path, stream: str, name: str) -> None:
    """The state of a stream of QEMU's own devices. The TSC stays QEMU's, whatever its rate."""
    said = state(place, "from", "qemu", stream, "--format", "1", "--rtc-clock", "vm", "--accept", ",".join(ACCEPTED))
    (place / name).write_text(said)


def without_board(words: list[str]) -> list[str]:
    """The same machine with QEMU's own devices."""
    place = words.index("-device")
    return words[:place] + words[place + 2 :]


def take_over(monitor: Monitor, words: list[str], place: Path, process: subprocess.Popen[bytes]) -> subprocess.Popen[bytes]:
    """Moves a guest from QEMU's own devices to the board while it sleeps, and back when it has woken. QEMU's own devices may lose ticks after
    a load, while the guest's processor is slow, and would spoil the sleep."""
    monitor.ask("stop")
    save(monitor, process, place / "plain-1")
    from_plain(place, "plain-1", "state-1")
    state(place, "to", "qemu", "state-1", "board-1", "--template", "plain-1", "--device")
    process = load(words, place, place / "board-1")
    monitor = go_on(place, process)
    wait_for("guest: slept 4", place / "log", process)
    monitor.ask("stop")
    save(monitor, process, place / "board-2")
    (place / "state-2").write_text(state(place, "from", "qemu", "board-2", "--device"))
    state(place, "to", "qemu", "state-2", "plain-2", "--template", "board-2", "--accept", ",".join(ACCEPTED))
    from_plain(place, "plain-2", "state-3")
    process = load(without_board(words), place, place / "plain-2")
    go_on(place, process)
    return process
