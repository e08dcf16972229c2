# SPDX-License-Identifier: Apache-2.0 OR MIT
"""A QEMU that QMP controls: migration to a stream and from one."""

import json
import socket
import subprocess
import tempfile
import time
from pathlib import Path
from typing import Any

BARE = ("-display", "none", "-vga", "none", "-net", "none", "-nodefaults")


class Machine:
    """`stopped_ns` is the time of day at the last stop, to the microsecond."""

    def __init__(self) -> None:
        self.folder = tempfile.TemporaryDirectory()
        self.stopped_ns = 0

    def start(self, qemu: str, *words: str) -> None:
        """Begins QEMU with these words and those for QMP."""
        command = [qemu, *words, *BARE, "-qmp", f"unix:{self.path('m')},server=on,wait=off"]
        self.process = subprocess.Popen(command, stdin=subprocess.DEVNULL, stderr=subprocess.DEVNULL)

    def path(self, name: str) -> str:
        return str(Path(self.folder.name) / name)

    def connected(self, name: str) -> Any:
        for _ in range(1200):
            end = socket.socket(socket.AF_UNIX)
            try:
                end.connect(self.path(name))
                return end.makefile("rw")
            except OSError:
                end.close()
                time.sleep(0.05)
        raise RuntimeError("QEMU opens no socket")

    def connect_monitor(self) -> None:
        self.monitor = self.connected("m")
        self.monitor.readline()
        self.ask("qmp_capabilities")

    def ask(self, command: str, **arguments: object) -> Any:
        self.monitor.write(json.dumps({"execute": command, "arguments": arguments}) + "\n")
        self.monitor.flush()
        while True:
            answer = json.loads(self.monitor.readline())
            if answer.get("event") == "STOP":
                self.stopped_ns = (answer["timestamp"]["seconds"] * 1_000_000 + answer["timestamp"]["microseconds"]) * 1000
            if "error" in answer:
                raise RuntimeError(answer["error"]["desc"])
            if "return" in answer:
                return answer["return"]

    def done(self) -> None:
        while (status := self.ask("query-migrate").get("status")) != "completed":
            if status == "failed":
                raise RuntimeError("the migration failed")
            time.sleep(0.02)

    def saved(self) -> bytes:
        self.ask("migrate", uri=f"exec:cat > {self.path('stream')}")
        self.done()
        return Path(self.path("stream")).read_bytes()

    def load(self, stream: bytes) -> None:
        Path(self.path("stream")).write_bytes(stream)
        self.ask("migrate-incoming", uri=f"exec:cat {self.path('stream')}")
        self.done()

    def end(self) -> None:
        self.ask("quit")
        self.process.wait(30)
        self.folder.cleanup()
