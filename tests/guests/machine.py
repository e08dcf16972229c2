# SPDX-License-Identifier: Apache-2.0 OR MIT
"""A QEMU with a guest: its words, and a run of it."""

import shutil
import subprocess
import time
from pathlib import Path

from kinds import BASE, Failed, KERNEL, LIMIT, Run, Seen
from monitor import Monitor, image, load, save, wait_for
from packages import cloud_kernel, download, initrd
from taken_over import take_over, without_board


def command(run: Run, qemu: str, folder: Path, place: Path) -> list[str]:
    firmware = [download(folder, "seabios") / "usr/share/seabios", download(folder, "qemu-system-data") / "usr/share/qemu"]
    words = [qemu, "-nodefaults", "-display", "none", "-m", "256", "-no-reboot", "-rtc", f"base={BASE},clock=vm",
             "-serial", f"file:{place / 'log'}", "-qmp", f"unix:{place / 'socket'},server=on,wait=off",
             *(word for path in firmware for word in ("-L", str(path))), *run.words]
    if run.device:
        words += ["-device", f"{run.device},trace={place / 'trace'}"]
    if run.check in ("linux", "icount", "messages", "suspend", "taken-over"):
        words += ["-kernel", str(cloud_kernel(folder)), "-initrd", str(initrd(folder, run.check == "suspend")),
                  "-append", f"{KERNEL} {run.kernel}".strip()]
    if run.check == "memtest":
        words += ["-kernel", str(download(folder, "memtest86+") / "boot/memtest86+x64.bin"),
                  "-append", "console=ttyS0,115200"]
    if run.meanwhile == "savevm":
        words += ["-drive", f"if=none,id=disk,format=qcow2,file={image(qemu, place)}"]
    if run.meanwhile == "reset":
        words.remove("-no-reboot")
    return words


def interfere(run: Run, words: list[str], place: Path, process: subprocess.Popen[bytes]) -> subprocess.Popen[bytes]:
    """Does what the run is for while the guest sleeps; the process that the guest is in then."""
    monitor = Monitor(place / "socket", process)
    if run.meanwhile.isdigit():
        time.sleep(int(run.meanwhile))
        monitor.ask("quit")
        return process
    wait_for("guest: middle", place / "log", process)
    if run.meanwhile == "taken-over":
        return take_over(monitor, words, place, process)
    time.sleep(1)
    if run.meanwhile == "savevm":
        monitor.human("savevm middle")
        time.sleep(1)
        monitor.human("loadvm middle")
    elif run.meanwhile == "reset":
        monitor.ask("system_reset")
        (place / "log").write_text("")  # what the second boot says is checked
    elif run.meanwhile == "migration":
        save(monitor, process, place / "moved")
        process = load([word.replace(f"{place / 'trace'}", f"{place / 'trace-after'}") for word in words], place, place / "moved")
    return process


def make(run: Run, qemu: str, folder: Path) -> Seen:
    """Makes a run, and gives its log and traces."""
    place = folder / "runs" / run.name
    shutil.rmtree(place, ignore_errors=True)
    place.mkdir(parents=True)
    words = command(run, qemu, folder, place)
    (place / "command").write_text(" ".join(words) + "\n")
    process = subprocess.Popen(without_board(words) if run.meanwhile == "taken-over" else words, stderr=(place / "errors").open("wb"))
    try:
        if run.meanwhile:
            process = interfere(run, words, place, process)
        status = process.wait(timeout=LIMIT)
    except subprocess.TimeoutExpired as error:
        raise Failed(f"not over after {LIMIT} seconds") from error
    finally:
        process.kill()
        process.wait()
    errors = (place / "errors").read_text(errors="replace")
    if status or errors:
        raise Failed(f"QEMU ended with {status}: {errors.strip()}")
    logs = [path.read_text(errors="replace") for path in (*sorted(place.glob("log-*")), place / "log")]
    return Seen(run, "".join(logs), sorted(place.glob("trace*")), place, logs)
