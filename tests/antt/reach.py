# SPDX-License-Identifier: Apache-2.0 OR MIT
"""Which definitions a clause rests on: those that it names, and all that these name in turn."""

import re
from pathlib import Path

from .syntax import Declared, Module, modules

NAME = re.compile(r"[^\s(){}\[\],;.λ:=→×]+")
GHOST = re.compile(r"ghost use Rattle\.([\w.]+)\.\{(.*?)\};", re.DOTALL)

Place = tuple[str, str]


class Reach:
    """The definitions of a folder of crates, with what each names."""

    def __init__(self, crates: Path) -> None:
        self.crates = crates
        self.modules = modules(crates, with_rows=False)

    def resolved(self, module: Module, name: str) -> Place | None:
        """Where a name of a module is declared, if that is a definition of these crates."""
        if name in module.declared:
            return module.key, name
        if name in module.makers:
            return module.key, module.makers[name]
        where, original = module.imports.get(name, ("", None))
        return self.declared(where, original) if original else None

    def declared(self, where: str, name: str) -> Place | None:
        module = self.modules.get(where)
        if module is None:
            return None
        return where, module.makers.get(name, name)

    def of(self, place: Place) -> Declared | None:
        return self.modules[place[0]].declared.get(place[1])

    def named(self, place: Place) -> list[Place]:
        """What a definition names, in the order in which it names it."""
        module, declared = self.modules[place[0]], self.of(place)
        words = dict.fromkeys(NAME.findall("\n".join(declared.lines)) if declared else [])
        found = (self.resolved(module, it) for it in words)
        return [it for it in dict.fromkeys(found) if it and it != place]

    def imported(self, text: str) -> dict[str, Place]:
        """The definitions that a file of code takes for its clauses, by the names that it gives them."""
        found = {}
        for where, names in GHOST.findall(text):
            for item in filter(None, (it.strip() for it in names.replace("\n", " ").split(","))):
                name, _, other = item.partition(" as ")
                place = self.declared(where, name.strip())
                if place and self.of(place):
                    found[(other or name).strip()] = place
        return found

    def clauses(self, path: Path, function: str) -> dict[str, list[Place]]:
        """The definitions that each clause of a public function cites, by the clause's name."""
        text = path.read_text(encoding="utf-8")
        cited = self.imported(text)
        head = re.search(rf"pub fn {function}\b.*?\n\s*\{{\n", text, re.DOTALL).group(0)
        found = {}
        for name, body in re.findall(r"ensures (\w*) ?\{(.*?)\}\n", head, re.DOTALL):
            found[name] = [cited[it] for it in dict.fromkeys(NAME.findall(body)) if it in cited]
        return found

    def all(self, roots: list[Place]) -> list[Place]:
        """All that these rest on, each behind the first that names it."""
        seen: dict[Place, None] = {}

        def visit(place: Place) -> None:
            if place not in seen and self.of(place):
                seen[place] = None
                for it in self.named(place):
                    visit(it)

        for root in roots:
            visit(root)
        return list(seen)
