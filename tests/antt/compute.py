# SPDX-License-Identifier: Apache-2.0 OR MIT
"""Computes definitions: each is made a Python function, equation by equation, in the order in which they stand.

Numbers are Python's integers from 0 on, lists are Python's lists, a record is a dict of its fields, and a value of an enum
is a tuple that begins with the variant's name. A subtraction ends at 0; a division by 0 gives 0. The words that the specs
take from the toolchain's library are the few in LIBRARY, in plain Python.
"""

import functools
import sys
import threading
from collections.abc import Callable
from pathlib import Path

from . import syntax
from .syntax import Declared, Module

SIGNS = {"×": "({} and {})", "⊎": "({} or {})", "<": "({} < {})", "≤": "({} <= {})",
         "&&": "({} and {})", "||": "({} or {})", "==": "({} == {})", "≡": "({} == {})", "≢": "({} != {})",
         "∷": "[{}, *{}]", "++": "({} + {})", "+": "({} + {})", "-": "max({} - {}, 0)", "*": "({} * {})",
         "/": "quotient({}, {})", "%": "remainder({}, {})", "^": "({} ** {})"}
# Words that give what their first value decides, if it is there: by each, the places of the values that are computed only where
# it isn't. They may be what a run of years gives, on a board that the first one refuses.
UNLESS_THERE = {"option_or": (1,), "answer_unless": (2, 3)}


class Gap(Exception):
    """The definitions' language goes beyond what this reads."""


def deeply(main: Callable[[], int]) -> int:
    """Runs a program on a stack that is deep enough: definitions recur once a byte, and once a nanosecond. What it returns
    is the status, 2 where it ended by an error."""
    sys.setrecursionlimit(10**7)
    threading.stack_size(2**30)
    status: list[int] = []
    thread = threading.Thread(target=lambda: status.append(main()))
    thread.start()
    thread.join()
    return status[0] if status else 2


class Fields(dict):
    """A record."""

    def changed(self, **fields: object) -> "Fields":
        if unknown := set(fields) - set(self):
            raise Gap(f"no field {unknown}")
        return Fields(self, **fields)


def quotient(a: int, b: int) -> int:
    return a // b if b else 0


def remainder(a: int, b: int) -> int:
    return a % b if b else a


def arity_of(function: Callable) -> int:
    """How many values a function still takes."""
    if isinstance(function, functools.partial):
        return arity_of(function.func) - len(function.args)
    return TAKES.get(getattr(function, "__name__", "")) or function.__code__.co_argcount


def applied(function: Callable, *given: object) -> object:
    """A function of its values, which may be fewer or more than it takes at once; or a variant with its values."""
    if isinstance(function, tuple):
        return (*function, *given)
    while given:
        takes = arity_of(function)
        if len(given) < takes:
            return functools.partial(function, *given)
        function, given = function(*given[:takes]), given[takes:]
    return function


def set_place(items: list, place: int, value: object) -> list:
    return [*items[:place], value, *items[place + 1:]] if place < len(items) else items


def split(is_end: Callable, items: list) -> list:
    found: list[list] = [[]]
    for it in items:
        if is_end(it):
            found.append([])
        else:
            found[-1].append(it)
    return found


def signed(bits: int, number: int) -> tuple:
    low = number % 2**bits
    return ("pos", low) if low < 2**(bits - 1) else ("negsuc", 2**bits - 1 - low)


def unsigned(bits: int, number: tuple) -> int:
    return (number[1] if number[0] == "pos" else -number[1] - 1) % 2**bits


def digit_value(code: int) -> int:
    """The value of a digit up to 'z', and 36 of any other sign."""
    sign = chr(code)
    return int(sign, 36) if code < 128 and sign.isalnum() else 36


def digits_value(radix: int, text: list[int]) -> int:
    return functools.reduce(lambda so_far, code: so_far * radix + digit_value(code), text, 0)


def decoded(text: list[int]) -> tuple:
    """What hex digits give: Ok and the bytes, or Err where their number is odd or one is none."""
    digits = bytes(text)
    if len(digits) % 2 or not all(it in b"0123456789abcdefABCDEF" for it in digits):
        return ("Err", "no hex")
    return ("Ok", list(bytes.fromhex(digits.decode())))


LIBRARY: dict[str, object] = {
    "zero": 0, "true": True, "false": False, "⊥": False, "IsTrue": lambda b: b, "All": lambda f, xs: all(map(f, xs)),
    "w8": 8, "w16": 16, "w32": 32, "w64": 64,
    "suc": lambda n: n + 1, "not": lambda b: not b, "max": max, "min": min,
    "nat_lt": lambda a, b: a < b, "nat_le": lambda a, b: a <= b, "nat_eq": lambda a, b: a == b,
    "bytes_eq": lambda a, b: a == b, "beq": lambda a, b: a == b,
    "starts_with": lambda same, xs, front: len(front) <= len(xs) and all(same(x, y) for x, y in zip(xs, front)),
    "bit_and": lambda a, b: a & b, "bit_or": lambda a, b: a | b, "length": len, "ap": lambda f, a: f(a),
    "map": lambda f, xs: [f(x) for x in xs], "filter": lambda f, xs: [x for x in xs if f(x)],
    "flat_map": lambda f, xs: [y for x in xs for y in f(x)],
    "filter_map": lambda f, xs: [y[1] for y in map(f, xs) if y[0] == "Some"],
    "fold": lambda f, first, xs: functools.reduce(f, xs, first),
    "last_or": lambda other, xs: ("Some", xs[-1]) if xs else other,
    "list_any": lambda f, xs: any(map(f, xs)), "list_all": lambda f, xs: all(map(f, xs)),
    "take": lambda n, xs: xs[:n], "drop": lambda n, xs: xs[n:], "replicate": lambda n, x: [x] * n,
    "zip": lambda xs, ys: list(zip(xs, ys)),
    "items_where_true": lambda bs, xs: [x for b, x in zip(bs, xs) if b],
    "slice_index": lambda xs, k: xs[k] if k < len(xs) else 0,
    "slice_index_or": lambda xs, k, other: xs[k] if k < len(xs) else other,
    "get_or": lambda xs, k, other: xs[k] if k < len(xs) else other, "tt": (),
    "slice_set": set_place, "set": set_place, "slice_split": split,
    "slice_range": lambda a, b, xs: xs[a:b],
    "option_map": lambda f, x: ("Some", f(x[1]) if callable(f) else (*f, x[1])) if x[0] == "Some" else x,
    "option_map_or": lambda f, x, other: (f(x[1]) if callable(f) else (*f, x[1])) if x[0] == "Some" else other,
    "ok_or": lambda x, reason: ("Ok", x[1]) if x[0] == "Some" else ("Err", reason),
    "result_ok": lambda r: ("Some", r[1]) if r[0] == "Ok" else ("None",),
    "option_and_then": lambda f, x: f(x[1]) if x[0] == "Some" else x,
    "is_some": lambda x: x[0] == "Some", "is_none": lambda x: x[0] == "None",
    "unwrap_or": lambda x, other: x[1] if x[0] == "Some" else other,
    "cast_signed": signed, "cast_unsigned": unsigned,
    "little_bytes": lambda n, x: [x >> 8 * k & 255 for k in range(n)],
    "little_number": lambda n, xs: sum(x << 8 * k for k, x in enumerate(xs[:n])),
    "codes": lambda s: [ord(c) for c in s], "decimal": lambda n: [ord(c) for c in str(n)],
    "signed_decimal": lambda z: [ord(c) for c in str(z[1] if z[0] == "pos" else -z[1] - 1)],
    "ltb": lambda a, b: a < b, "cond": lambda test, yes, no: yes if test else no,
    "option_or": lambda first, second: second if first == ("None",) else first,
    "digit_value": digit_value, "digits_value": digits_value,
    "digit_char": lambda d: ord("0123456789abcdefghijklmnopqrstuvwxyz"[d]),
    "decode_of": decoded,
}
# How many values Python's own functions take here.
TAKES = {"max": 2, "min": 2, "len": 1}
MAKERS = ("Some", "None", "Ok", "Err", "pos", "negsuc")


class Made(dict):
    """Functions by their places, each made when it is first asked for."""

    def __init__(self, make: Callable[[tuple[str, str]], Callable]) -> None:
        super().__init__()
        self.make = make

    def __missing__(self, place: tuple[str, str]) -> Callable:
        self[place] = self.make(place)
        return self[place]


class Definitions:
    """All definitions below a folder of crates, each made a function when it is first asked for."""

    def __init__(self, crates: Path, with_rows: bool = True) -> None:
        self.modules = syntax.modules(crates, with_rows)
        self.constants = syntax.constants(crates)
        self.made = Made(lambda place: self.function(self.modules[place[0]], self.modules[place[0]].declared[place[1]]))
        self.arities: dict[tuple[str, str], int] = {}
        # a definition with other equations: each by its number, or None where it is left out
        self.instead: tuple[tuple[str, str], dict[int, tuple | None]] | None = None
        # which equations gave a value, where that is asked for: whose, and which
        self.given: set[tuple[tuple[str, str], int]] | None = None
        self.names = {"quotient": quotient, "remainder": remainder, "Fields": Fields, "partial": functools.partial,
                      "made": self.made, "applied": applied, "library": LIBRARY, "max": max, "Gap": Gap}

    def value(self, key: str, name: str, *given: object) -> object:
        return self.made[key, name](*given)

    def arity(self, key: str, name: str) -> int:
        place = key, name
        if place not in self.arities:
            declared = self.modules[key].declared[name]
            if not declared.equations:
                raise Gap(f"{key}.{name} has no equation")
            self.arities[place] = len(self.equation(declared.equations[0])[0])
        return self.arities[place]

    @staticmethod
    def equation(text: str) -> tuple[list[tuple], tuple]:
        try:
            return syntax.equation(text)
        except SyntaxError as error:
            raise Gap(str(error)) from error

    def function(self, module: Module, declared: Declared) -> Callable:
        writer = Writer(self, module)
        lines = [f"def it({', '.join(f'a{k}' for k in range(self.arity(module.key, declared.name)))}):"]
        place, others = self.instead or (None, {})
        for number, text in enumerate(declared.equations):
            read = self.equation(text)
            if place == (module.key, declared.name):
                read = others.get(number, read)
            if read is None:
                continue
            patterns, given = read
            known: dict[str, str] = {}
            tests: list[str] = []
            for k, pattern in enumerate(patterns):
                writer.match(pattern, f"a{k}", known, tests)
            mark = "" if self.given is None else f"given.add(({(module.key, declared.name)}, {number})); "
            lines.append(f"  if {' and '.join(tests) or 'True'}: {mark}return {writer.write(given, known)}")
        lines.append(f"  raise Gap('no equation of {declared.name} fits')")
        return self.run("\n".join(lines), "it")

    def run(self, text: str, name: str) -> Callable:
        made: dict[str, object] = {}
        exec(text, self.names | {"given": self.given}, made)
        return made[name]

    def expression(self, module: Module, read: tuple) -> Callable[[], object]:
        """What computes an expression of a module."""
        text = compile(Writer(self, module).write(read, {}), module.key, "eval")
        return lambda: eval(text, self.names)


class Writer:
    """Writes expressions of one module as Python."""

    def __init__(self, definitions: Definitions, module: Module) -> None:
        self.all, self.module, self.count = definitions, module, 0

    def fresh(self) -> str:
        self.count += 1
        return f"v{self.count}"

    def place(self, name: str) -> tuple[str, str, str]:
        """What a name is: a definition, a variant, a constant, a module's name, or a word of the library."""
        if name in self.module.declared:
            return ("definition", self.module.key, name)
        if name in self.module.makers:
            return ("variant", "", name)
        if name in self.module.imports:
            where, original = self.module.imports[name]
            if original is None:
                return ("module", where, "")
            if where.split(".")[-1] == "TheVariants":
                return ("variant", "", original)
            if where.split(".")[-1] == "TheConstants":
                return ("constant", where.split(".")[0], original)
            if where in self.all.modules:
                is_maker = original in self.all.modules[where].makers
                return ("variant", "", original) if is_maker else ("definition", where, original)
            name = original
        return ("variant", "", name) if name in MAKERS else ("word", "", name)

    def write(self, read: tuple, known: dict[str, str]) -> str:
        kind = read[0]
        if kind in ("num", "str"):
            return repr(read[1])
        if kind == "nil":
            return "[]"
        if kind == "tup":
            return f"({', '.join(self.write(it, known) for it in read[1])},)"
        if kind == "if":
            test, yes, no = (self.write(it, known) for it in read[1:])
            return f"({yes} if {test} else {no})"
        if kind == "op":
            return SIGNS[read[1]].format(self.write(read[2], known), self.write(read[3], known))
        return getattr(self, f"write_{kind}")(read, known)

    def write_var(self, read: tuple, known: dict[str, str]) -> str:
        return known[read[1]] if read[1] in known else self.named(read[1], [])

    def write_app(self, read: tuple, known: dict[str, str]) -> str:
        given = [self.write(it, known) for it in read[2]]
        head = read[1]
        if head[0] == "var" and head[1] not in known:
            return self.named(head[1], given)
        if head[0] == "fld" and self.is_module(head[1], known):
            return f"({', '.join([repr(head[2]), *given])},)"
        return f"applied({', '.join([self.write(read[1], known), *given])})"

    def write_lam(self, read: tuple, known: dict[str, str]) -> str:
        names = [(it, self.fresh()) for it in read[1]]
        return f"(lambda {', '.join(it for _, it in names)}: {self.write(read[2], known | dict(names))})"

    def write_let(self, read: tuple, known: dict[str, str]) -> str:
        name = self.fresh()
        inner = self.write(read[3], {**known, read[1]: name})
        return f"(lambda {name}: {inner})({self.write(read[2], known)})"

    def write_rec(self, read: tuple, known: dict[str, str]) -> str:
        fields = ", ".join(f"{name!r}: {self.write(value, known)}" for name, value in read[2])
        return f"Fields({{{fields}}})" if read[1] is None else f"{self.write(read[1], known)}.changed(**{{{fields}}})"

    def write_fld(self, read: tuple, known: dict[str, str]) -> str:
        if self.is_module(read[1], known):
            return f"({read[2]!r},)"
        field = int(read[2]) if read[2].isdigit() else read[2]
        return f"{self.write(read[1], known)}[{field!r}]"

    def is_module(self, read: tuple, known: dict[str, str]) -> bool:
        return read[0] == "var" and read[1] not in known and self.place(read[1])[0] == "module"

    def named(self, name: str, given: list[str]) -> str:
        kind, where, original = self.place(name)
        if kind == "variant":
            return f"({', '.join([repr(original), *given])},)"
        if kind == "constant":
            return str(self.all.constants[where, original])
        later = UNLESS_THERE.get(original, ())
        if later and len(given) == later[-1] + 1:
            first, decides = self.fresh(), given[0]
            given = [f"({it} if {first} == ('None',) else None)" if place in later else it for place, it in enumerate(given)]
            return f"(lambda {first}: {self.called(name, [first, *given[1:]])})({decides})"
        return self.called(name, given)

    def called(self, name: str, given: list[str]) -> str:
        """The same, where all values are computed first."""
        kind, where, original = self.place(name)
        if kind == "definition":
            return self.applied(f"made[{where!r}, {original!r}]", self.all.arity(where, original), given)
        if original not in LIBRARY:
            raise Gap(f"{self.module.key}: unknown word {original}")
        word = LIBRARY[original]
        if not callable(word):
            return repr(word)
        return self.applied(f"library[{original!r}]", arity_of(word), given)

    @staticmethod
    def applied(head: str, takes: int, given: list[str]) -> str:
        if takes == 0:
            head = f"{head}()"
        first, rest = given[:takes], given[takes:]
        if takes and len(first) == takes:
            head = f"{head}({', '.join(first)})"
        elif first:
            head = f"partial({', '.join([head, *first])})"
        return f"applied({', '.join([head, *rest])})" if rest else head

    def match(self, pattern: tuple, value: str, known: dict[str, str], tests: list[str]) -> None:
        kind = pattern[0]
        if kind == "var":
            self.match_name(pattern[1], value, known, tests)
        elif kind == "nil":
            tests.append(f"not {value}")
        elif kind == "num":
            tests.append(f"{value} == {pattern[1]}")
        elif kind == "op" and pattern[1] == "∷":
            tests.append(f"{value}")
            self.match(pattern[2], f"{value}[0]", known, tests)
            self.match(pattern[3], f"{value}[1:]", known, tests)
        elif kind == "app" and pattern[1][1] == "suc":
            tests.append(f"{value} > 0")
            self.match(pattern[2][0], f"({value} - 1)", known, tests)
        elif kind == "app" and self.place(pattern[1][1])[0] == "variant":
            tests.append(f"{value}[0] == {self.place(pattern[1][1])[2]!r}")
            for k, it in enumerate(pattern[2]):
                self.match(it, f"{value}[{k + 1}]", known, tests)
        else:
            raise Gap(f"{self.module.key}: a pattern {pattern}")

    def match_name(self, name: str, value: str, known: dict[str, str], tests: list[str]) -> None:
        if name == "_":
            return
        if name in ("true", "false"):
            tests.append(value if name == "true" else f"not {value}")
        elif name == "zero":
            tests.append(f"{value} == 0")
        elif self.place(name)[0] == "variant":
            tests.append(f"{value}[0] == {self.place(name)[2]!r}")
        else:
            known[name] = value
