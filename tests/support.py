# SPDX-License-Identifier: Apache-2.0 OR MIT
"""What the tests of tools/ share."""

import os
import subprocess
import sys
from pathlib import Path

HERE = Path(__file__).resolve().parent
TOP = HERE.parent
TOOLS = TOP / "tools"
LOGS = HERE / "logs"
MEMORY = """import resource, subprocess, sys
subprocess.run(sys.argv[1:], check=True, stdout=subprocess.DEVNULL, stderr=subprocess.DEVNULL)
print(resource.getrusage(resource.RUSAGE_CHILDREN).ru_maxrss)"""
"""Runs a command, and prints how much memory it had at most, in kilobytes."""
sys.dont_write_bytecode = True
sys.path.insert(0, str(TOOLS))


def run(tool: str, *words: str, text: str = "", env: dict[str, str] | None = None) -> subprocess.CompletedProcess[str]:
    """Runs a tool with a text as its standard input."""
    command = [str(TOOLS / tool), *words]
    return subprocess.run(command, input=text, capture_output=True, text=True, check=False,
                          env={**os.environ, "PYTHONDONTWRITEBYTECODE": "1", **(env or {})})


def program() -> str:
    return os.environ.get("CLOCKBOARD") or str(TOP / "bin" / "clockboard")


def program_that_says(folder: str, text: str, status: int = 0) -> dict[str, str]:
    """An environment in which the program prints this text, whatever it is asked, and ends with this status."""
    said = Path(folder) / "said"
    said.write_text(text)
    program = Path(folder) / "program"
    program.write_text(f"#!/bin/sh\ncat >/dev/null\ncat '{said}'\nexit {status}\n")
    program.chmod(0o755)
    return {"CLOCKBOARD": str(program)}
