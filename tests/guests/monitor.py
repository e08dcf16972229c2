# SPDX-License-Identifier: Apache-2.0 OR MIT
"""QEMU's monitor, and what is done to a guest by it."""

import json
import socket
import subprocess
import time
from pathlib import Path

from kinds import Failed, LIMIT


class Monitor:
    """QEMU's monitor, by its socket."""

    def __init__(self, path: Path, process: subprocess.Popen[bytes]) -> None:
        self.socket = socket.socket(socket.AF_UNIX)
        while not path.exists():
            if process.poll() is not None:
                raise Failed(f"QEMU ended with {process.returncode}")
            time.sleep(0.1)
        self.socket.connect(str(path))
        self.file = self.socket.makefile("rw")
        self.ask("qmp_capabilities")

    def ask(self, command: str, **arguments: object) -> object:
        self.file.write(json.dumps({"execute": command, "arguments": arguments}) + "\n")
        self.file.flush()
        for line in self.file:
            answer = json.loads(line)
            if "error" in answer:
                raise Failed(f"{command}: {answer['error']['desc']}")
            if "return" in answer:
                return answer["return"]
        raise Failed(f"{command}: QEMU ended")

    def human(self, line: str) -> None:
        said = self.ask("human-monitor-command", **{"command-line": line})
        if said:
            raise Failed(f"{line}: {said}")


def image(qemu: str, place: Path) -> Path:
    """An empty qcow2 for savevm, made by QEMU itself."""
    path = place / "disk.qcow2"
    process = subprocess.Popen([qemu, "-machine", "none", "-nodefaults", "-display", "none",
                                "-qmp", f"unix:{place / 'maker'},server=on,wait=off"])
    monitor = Monitor(place / "maker", process)
    size = 1 << 30
    path.write_bytes(b"")
    monitor.ask("blockdev-add", **{"driver": "file", "node-name": "file", "filename": str(path)})
    monitor.ask("blockdev-create", **{"job-id": "make", "options": {"driver": "qcow2", "file": "file", "size": size}})
    while monitor.ask("query-jobs")[0]["status"] != "concluded":  # type: ignore[index]
        time.sleep(0.1)
    monitor.ask("quit")
    process.wait()
    return path


def wait_for(text: str, log: Path, process: subprocess.Popen[bytes]) -> None:
    until = time.monotonic() + LIMIT
    while text not in (log.read_text(errors="replace") if log.exists() else ""):
        if process.poll() is not None or time.monotonic() > until:
            raise Failed(f"the guest never said '{text}'")
        time.sleep(0.2)


def save(monitor: Monitor, process: subprocess.Popen[bytes], stream: Path) -> None:
    """Migrates the guest to a file, and ends its QEMU."""
    monitor.ask("migrate", uri=f"exec:cat >{stream}")
    while (status := monitor.ask("query-migrate")["status"]) != "completed":  # type: ignore[index]
        if status == "failed":
            raise Failed("the migration failed")
        time.sleep(0.1)
    monitor.ask("quit")
    process.wait()


def load(words: list[str], place: Path, stream: Path) -> subprocess.Popen[bytes]:
    """A QEMU that loads the guest of a file. What the guest said before is in a log of its own."""
    (place / "log").rename(place / f"log-{1 + len(list(place.glob('log-*')))}")
    (place / "socket").unlink(missing_ok=True)
    return subprocess.Popen([*words, "-incoming", f"exec:cat {stream}"], stderr=(place / "errors").open("ab"))


def go_on(place: Path, process: subprocess.Popen[bytes]) -> Monitor:
    """Has a guest that was stopped go on once it is loaded."""
    monitor = Monitor(place / "socket", process)
    while monitor.ask("query-status")["status"] == "inmigrate":  # type: ignore[index]
        time.sleep(0.1)
    monitor.ask("cont")
    return monitor
