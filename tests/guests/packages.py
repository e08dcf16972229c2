# SPDX-License-Identifier: Apache-2.0 OR MIT
"""The packages of the guests, and the archive that Linux boots with."""

import re
import shutil
import subprocess
from pathlib import Path

from kinds import HERE, Skipped


def download(folder: Path, package: str) -> Path:
    """The unpacked files of a package."""
    place = folder / "packages" / package
    if not (place / "root").is_dir():
        shutil.rmtree(place, ignore_errors=True)
        place.mkdir(parents=True)
        try:
            subprocess.run(["apt-get", "download", package], cwd=place, check=True, capture_output=True)
            subprocess.run(["dpkg-deb", "-x", *map(str, place.glob("*.deb")), "new"], cwd=place, check=True, capture_output=True)
        except (OSError, subprocess.CalledProcessError) as error:
            raise Skipped(f"the package {package} can't be had") from error
        (place / "new").rename(place / "root")
    return place / "root"


def cloud_kernel(folder: Path) -> Path:
    words = ["apt-cache", "depends", "linux-image-cloud-amd64"]
    said = subprocess.run(words, capture_output=True, text=True, check=False).stdout
    found = re.search(r"Depends: (linux-image-\S+)", said)
    if not found:
        raise Skipped("the package linux-image-cloud-amd64 isn't known")
    return next(download(folder, found[1]).glob("boot/vmlinuz-*"))


RTCWAKE = (("util-linux", "usr/sbin/rtcwake", "bin/rtcwake"),
           ("libc6", "lib/x86_64-linux-gnu/libc.so.6", "lib/x86_64-linux-gnu/libc.so.6"),
           ("libc6", "lib/x86_64-linux-gnu/ld-linux-x86-64.so.2", "lib64/ld-linux-x86-64.so.2"))
"""What busybox doesn't have: a package, a file in it, and its place in the guest."""


def initrd(folder: Path, has_rtcwake: bool) -> Path:
    """The archive of init and busybox, in the form that Linux takes."""
    archive = bytearray()

    def add(name: str, mode: int, text: bytes) -> None:
        numbers = (0, mode, 0, 0, 1, 0, len(text), 0, 0, 0, 0, len(name) + 1, 0)
        archive.extend(("070701" + "".join(f"{number:08x}" for number in numbers) + name).encode() + b"\0")
        archive.extend(b"\0" * (-len(archive) % 4) + text)
        archive.extend(b"\0" * (-len(archive) % 4))

    add("bin", 0o040755, b"")
    add("bin/busybox", 0o100755, (download(folder, "busybox-static") / "bin/busybox").read_bytes())
    add("init", 0o100755, (HERE / "init").read_bytes())
    for name in ("lib", "lib/x86_64-linux-gnu", "lib64") if has_rtcwake else ():
        add(name, 0o040755, b"")
    for package, file, name in RTCWAKE if has_rtcwake else ():
        add(name, 0o100755, (download(folder, package) / file).read_bytes())
    add("TRAILER!!!", 0, b"")
    path = folder / ("initrd-rtcwake" if has_rtcwake else "initrd")
    path.write_bytes(archive)
    return path
