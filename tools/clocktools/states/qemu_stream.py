# SPDX-License-Identifier: Apache-2.0 OR MIT
"""A migration stream of QEMU, version 3: its device sections, read by the description in JSON at its end, with the place of each
field, so that one can be written again. The bytes of RAM and of devices that aren't described are passed over."""

import json
import re
from collections.abc import Iterator
from dataclasses import dataclass
from typing import Any

from .saved import Unreadable

HEAD = b"QEVM\0\0\0\x03"
END, START, PART, LAST_PART, FULL, SUBSECTION, DESCRIPTION, CONFIGURATION, COMMAND, FOOTER = 0, 1, 2, 3, 4, 5, 6, 7, 8, 0x7E
RAM_ZERO, RAM_SIZES, RAM_PAGE, RAM_END, RAM_SAME_BLOCK, RAM_HOOK = 2, 4, 8, 0x10, 0x20, 0x80
BYTES = ("buffer", "unused_buffer")

Key = tuple[str, int]
"""A section: its name and its instance."""


@dataclass(frozen=True)
class Place:
    """Where a field is: its first byte, its size, its type."""

    at: int
    size: int
    kind: str

    @property
    def is_signed(self) -> bool:
        return self.kind.startswith("int") or self.kind == "timer"


class Stream:
    """The sections of a stream, and its bytes."""

    def __init__(self, data: bytes) -> None:
        self.data = bytearray(data)
        self.sections: dict[Key, dict[str, Place]] = {}
        self.spans: list[tuple[Key, int, int]] = []
        """Of each section and part of one the first byte, that of its kind, and the end, after its footer."""
        self.end = 0
        """The place of the end mark of the sections."""
        self.described = 0, 0
        """The place of the description, that of its kind, and its end."""
        if not self.data.startswith(HEAD):
            raise Unreadable("no migration stream of version 3")
        self.description = self.read_description()
        self.devices = {(device["name"], device["instance_id"]): device for device in self.description["devices"]}
        try:
            self.read_sections()
        except (IndexError, KeyError) as fault:
            raise Unreadable(f"the stream's sections can't be read: {fault}") from fault

    def read_description(self) -> dict[str, Any]:
        data = bytes(self.data)
        for found in reversed(list(re.finditer(rb"\x06....\{", data, re.DOTALL))):
            begin = found.start() + 5
            try:
                told = json.loads(data[begin : begin + int.from_bytes(data[begin - 4 : begin], "big")])
            except ValueError:
                continue
            if "devices" in told and "page_size" in told:
                self.described = found.start(), begin + int.from_bytes(data[begin - 4 : begin], "big")
                return dict(told)
        raise Unreadable("the stream has no description (a machine with suppress-vmdesc=on?)")

    def number(self, at: int, size: int, is_signed: bool = False) -> int:
        if at + size > len(self.data):
            raise IndexError("the stream ends early")
        return int.from_bytes(self.data[at : at + size], "big", signed=is_signed)

    def after_ram(self, at: int) -> int:
        """The place after the pages of a RAM section."""
        page = self.description["page_size"]
        while True:
            flags = self.number(at, 8) & (page - 1)
            left = self.number(at, 8) & ~(page - 1)
            at += 8
            if flags & RAM_SIZES:
                while left > 0:
                    at += 1 + self.data[at]
                    left -= self.number(at, 8)
                    at += 8
            if flags & (RAM_ZERO | RAM_PAGE):
                at += 0 if flags & RAM_SAME_BLOCK else 1 + self.data[at]
                at += 1 if flags & RAM_ZERO else page
            if flags & RAM_END:
                return at
            if flags & ~(RAM_ZERO | RAM_SIZES | RAM_PAGE | RAM_END | RAM_SAME_BLOCK):
                raise Unreadable("pages of RAM are compressed, or elsewhere: migrate without capabilities")

    def elements(self, described: dict[str, Any]) -> Iterator[tuple[dict[str, Any], str]]:
        """The fields of a struct with the names of their places."""
        for field in described.get("fields", []):
            if "array_len" in field:
                yield from ((field, f"{field['name']}[{number}]") for number in range(field["array_len"]))
            else:
                yield field, field["name"] + (f"[{field['index']}]" if "index" in field else "")

    def after_struct(self, described: dict[str, Any], at: int, path: str, found: dict[str, Place]) -> int:
        for field, name in self.elements(described):
            if field["type"] == "struct":
                at = self.after_struct(field["struct"], at, f"{path}{name}.", found)
            else:
                name = path + name
                found[name + "+" if name in found else name] = Place(at, field["size"], field["type"])
                at += field["size"]
        for part in described.get("subsections", []):
            if self.data[at] != SUBSECTION:
                raise Unreadable(f"the subsection {part['vmsd_name']} isn't at {at}")
            at += 2 + self.data[at + 1] + 4
            at = self.after_struct(part, at, part["vmsd_name"] + ":", found)
        return at

    def read_sections(self) -> None:
        at, keys = len(HEAD), dict[int, Key]()
        while (kind := self.data[at]) != END:
            begin, at = at, at + 1
            if kind == CONFIGURATION:
                at = self.after_configuration(at)
                continue
            if kind == COMMAND:  # its number, its length, and its bytes
                at += 4 + self.number(at + 2, 2)
                continue
            if kind not in (START, PART, LAST_PART, FULL):
                raise Unreadable(f"a section of the kind {kind} at {begin}")
            number, at = self.number(at, 4), at + 4
            if kind in (START, FULL):
                size = self.data[at]
                keys[number] = (self.data[at + 1 : at + 1 + size].decode(), self.number(at + 1 + size, 4))
                at += 1 + size + 8
            key = keys[number]
            if key[0] == "ram":
                at = self.after_ram(at)
            else:
                found: dict[str, Place] = {}
                at = self.after_struct(self.devices[key], at, "", found)
                self.sections[key] = found
            at += 5 if self.data[at] == FOOTER else 0
            self.spans.append((key, begin, at))
        self.end = at

    def after_configuration(self, at: int) -> int:
        """The machine's name, and the subsections of its configuration."""
        at += 4 + self.number(at, 4)
        while self.data[at] == SUBSECTION:
            described = self.description.get("configuration", {})
            if not described.get("subsections"):
                raise Unreadable("a configuration that isn't described")
            at = self.after_struct({"subsections": described["subsections"]}, at, "", {})
        return at

    def instances(self, section: str) -> list[int]:
        return sorted(number for name, number in self.sections if name == section)

    def has(self, section: str, name: str = "") -> bool:
        return any(not name or name in self.sections[section, number] for number in self.instances(section))

    def place(self, section: str, name: str, instance: int | None = None) -> Place | None:
        instances = self.instances(section)
        if not instances:
            return None
        return self.sections[section, instances[0] if instance is None else instance].get(name)

    def bytes_of(self, section: str, name: str) -> bytes:
        place = self.place(section, name)
        if place is None:
            raise Unreadable(f"the stream has no {section}.{name}")
        return bytes(self.data[place.at : place.at + place.size])

    def get(self, section: str, name: str, default: int | None = None, instance: int | None = None) -> int:
        """A field's number; a stream without it is refused where there is no default."""
        place = self.place(section, name, instance)
        if place is None:
            if default is None:
                raise Unreadable(f"the stream has no {section}.{name}")
            return default
        return self.number(place.at, place.size, place.is_signed)

    def put(self, section: str, name: str, value: int | bytes, instance: int | None = None) -> bool:
        """Writes a field in its place. False where the stream hasn't it."""
        place = self.place(section, name, instance)
        if place is None:
            return False
        data = value if isinstance(value, bytes) else (value % 256**place.size).to_bytes(place.size, "big")
        self.data[place.at : place.at + place.size] = data.ljust(place.size, b"\0")[: place.size]
        return True

    def without(self, section: str) -> bytes:
        """The stream's bytes without a section."""
        data = bytes(self.data)
        for (name, _), begin, end in reversed(self.spans):
            data = data[:begin] + data[end:] if name == section else data
        return data

    def with_section(self, name: str, version: int, parts: list[tuple[str, bytes]]) -> bytes:
        """The stream's bytes with another section as the last one, of these fields, and its description."""
        number = 1 + max(self.number(begin + 1, 4) for _, begin, _ in self.spans)
        mark, content = number.to_bytes(4, "big"), b"".join(part for _, part in parts)
        section = (bytes([FULL]) + mark + bytes([len(name)]) + name.encode() + bytes(4) + version.to_bytes(4, "big") + content
                   + bytes([FOOTER]) + mark)
        told = {"name": name, "instance_id": 0, "vmsd_name": name, "version": version,
                "fields": [{"name": field, "type": "buffer", "size": len(part)} for field, part in parts]}
        described = json.dumps({**self.description, "devices": [*self.description["devices"], told]}).encode()
        begin, end = self.described
        return (bytes(self.data[: self.end]) + section + bytes(self.data[self.end : begin]) + bytes([DESCRIPTION])
                + len(described).to_bytes(4, "big") + described + bytes(self.data[end:]))
