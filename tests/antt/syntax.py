# SPDX-License-Identifier: Apache-2.0 OR MIT
"""Reads the files of crates/*/specs and proofs: which names a file takes from elsewhere, and what it declares.

An expression is a tuple whose first place is its kind: ('num', n), ('str', s), ('nil',), ('var', name), ('app', f, args),
('op', sign, left, right), ('if', test, yes, no), ('lam', names, body), ('let', name, value, body),
('rec', base or None, [(field, value)]), ('tup', items), ('fld', value, field).
"""

import re
from dataclasses import dataclass, field
from pathlib import Path

TOKEN = re.compile(r"""\s*(?:
    (?P<hex>0x[0-9a-fA-F_]+) | (?P<num>\d[\d_]*) | (?P<str>"(?:[^"\\]|\\.)*") | (?P<nil>\[\]) | (?P<lam>λ)
  | (?P<id>[A-Za-zℕℤ_«](?:[\w»']|-(?=\w))*|⊥|⊤)
  | (?P<op>\+ℤ|-ℤ|\+\+|\|\||&&|==|≡|≢|∷|→|×|⊎|↔|≤|<|[-+*/%^(){}\[\]=;:,.])
)""", re.VERBOSE)

# How tightly a sign binds, and to which side it groups.
BINDS = {"⊎": (-2, "r"), "×": (-1, "r"), "≡": (0, "n"), "≢": (0, "n"), "<": (0, "n"), "≤": (0, "n"), "||": (1, "r"),
         "&&": (2, "r"), "==": (3, "n"), "∷": (4, "r"), "++": (4, "r"), "+": (6, "l"), "-": (6, "l"), "*": (7, "l"),
         "/": (7, "l"), "%": (7, "l"), "^": (8, "r")}

HEAD = re.compile(r"^((?:(?:abbrev|unfoldable|opaque|private) )*)(pub )?(?:(record|data) )?(\S+)")
IMPORT = re.compile(r"use (?:(?:Rattle|mathlib)\.)?([\w.]+?)(?:\.\{(.*)\}|(?: as (\w+)))?$")
CONSTANT = re.compile(r"pub(?:\(crate\))? const (\w+): \w+ = ([^;]+);")
BYTES = re.compile(r'pub(?:\(crate\))? const (\w+): &\[u8\] =\s+b"((?:[^"\\]|\\.)*)";', re.DOTALL)


@dataclass
class Token:
    kind: str
    text: str
    spaced: bool
    before_name: bool


@dataclass
class Declared:
    """One declaration with its equations. `lines` are those of the file that tell it, without comments."""

    name: str
    kind: str
    type: str
    public: bool
    lines: list[str]
    equations: list[str] = field(default_factory=list)


@dataclass
class Module:
    key: str
    crate: str
    path: Path
    imports: dict[str, tuple[str, str | None]] = field(default_factory=dict)
    declared: dict[str, Declared] = field(default_factory=dict)
    makers: dict[str, str] = field(default_factory=dict)


def tokens(text: str) -> list[Token]:
    found, at = [], 0
    while match := TOKEN.match(text, at):
        kind = match.lastgroup
        start, end = match.span(kind)
        spaced = start == 0 or text[start - 1].isspace()
        found.append(Token(kind, match.group(kind), spaced, bool(re.match(r"[A-Za-z_«0-9]", text[end:end + 1]))))
        at = match.end()
    if text[at:].strip():
        raise SyntaxError(f"unknown sign at: {text[at:at + 30]}")
    return [*found, Token("end", "", True, False)]


class Parser:
    """Reads expressions and patterns from the tokens of one text."""

    def __init__(self, text: str) -> None:
        self.all, self.at = tokens(text), 0

    @property
    def next(self) -> Token:
        return self.all[self.at]

    def take(self, text: str | None = None) -> Token:
        token = self.next
        if text is not None and token.text != text:
            near = " ".join(it.text for it in self.all[max(0, self.at - 6):self.at + 6])
            raise SyntaxError(f"{text} wanted, {token.text or 'the end'} found in: {near}")
        self.at += 1
        return token

    def is_sign(self, text: str) -> bool:
        return self.next.kind == "op" and self.next.text == text

    def whole(self) -> tuple:
        read = self.expression()
        self.take("")
        return read

    def expression(self, least: int = -2) -> tuple:
        if self.next.kind == "lam" or self.next.text in ("if", "let"):
            return self.prefixed()
        left = self.application()
        while self.next.kind == "op" and self.next.text in BINDS:
            binds, side = BINDS[self.next.text]
            if binds < least:
                break
            sign = self.take().text
            is_prefixed = self.next.kind == "lam" or self.next.text in ("if", "let")
            right = self.prefixed() if is_prefixed else self.expression(binds if side == "r" else binds + 1)
            left = ("op", sign, left, right)
        return left

    def prefixed(self) -> tuple:
        word = self.take()
        if word.kind == "lam":
            names = []
            while not self.is_sign("."):
                names += self.binder()
            self.take(".")
            return ("lam", names, self.expression(1))
        if word.text == "if":
            test = self.expression(1)
            self.take("then")
            yes = self.expression(1)
            self.take("else")
            return ("if", test, yes, self.expression(1))
        name = self.take().text
        if self.is_sign(":"):
            while not self.is_sign("="):
                self.take()
        self.take("=")
        value = self.expression(1)
        self.take("in")
        return ("let", name, value, self.expression(1))

    def binder(self) -> list[str]:
        """The names that a part of a λ binds: one, or some in parentheses with their type."""
        token = self.take()
        if token.text != "(":
            return [token.text]
        names = []
        while not self.is_sign(":"):
            names.append(self.take().text)
        while self.take().text != ")":
            pass
        return names

    def application(self) -> tuple:
        head, given = self.atom(), []
        while self.begins_atom():
            given.append(self.atom())
        return ("app", head, given) if given else head

    def begins_atom(self) -> bool:
        if self.next.kind == "id":
            return self.next.text not in ("then", "else", "in", "if", "let")
        return self.next.kind in ("hex", "num", "str", "nil") or self.is_sign("(")

    def atom(self) -> tuple:
        token = self.take()
        if token.kind in ("hex", "num"):
            read = ("num", int(token.text.replace("_", ""), 16 if token.kind == "hex" else 10))
        elif token.kind == "str":
            read = ("str", token.text[1:-1].encode().decode("unicode_escape"))
        elif token.kind == "nil":
            read = ("nil",)
        elif token.text == "record":
            read = self.record()
        elif token.text == "Unit":
            self.take("{")
            self.take("0")
            self.take("}")
            read = ("var", "true")
        elif token.kind == "id":
            read = ("var", token.text)
        elif token.text == "(":
            read = self.grouped()
        else:
            raise SyntaxError(f"no expression begins with {token.text or 'the end'}")
        while self.is_sign(".") and not self.next.spaced and self.next.before_name:
            self.take()
            read = ("fld", read, self.take().text.strip("«»"))
        return read

    def record(self) -> tuple:
        base = None if self.is_sign("{") else self.atom()
        self.take("{")
        fields = []
        while not self.is_sign("}"):
            name = self.take().text.strip("«»")
            self.take("=")
            fields.append((name, self.expression(1)))
            if self.is_sign(";"):
                self.take()
        self.take("}")
        return ("rec", base, fields)

    def grouped(self) -> tuple:
        items = [self.expression()]
        while self.is_sign(","):
            self.take()
            items.append(self.expression())
        self.take(")")
        return items[0] if len(items) == 1 else ("tup", items)


def equation(text: str) -> tuple[list[tuple], tuple]:
    """The patterns of an equation, and what it gives."""
    parser = Parser(text)
    parser.take()
    patterns = []
    while not parser.is_sign("="):
        patterns.append(parser.atom())
    parser.take("=")
    return patterns, parser.whole()


def is_closed_row(declared: Declared) -> bool:
    """Whether it is `left ≡ right`, proved by `refl`, or `IsLegal ..`, with no variable."""
    ends = len(declared.equations) == 1 and declared.equations[0].split()[-2:] == ["=", "refl"]
    says = (ends and "≡" in declared.type) or declared.type.lstrip().startswith("IsLegal ")
    return says and not re.search(r"^\s*\(\w[\w ]* : |\w \{\w+ = |\w\{", declared.type)


def row(declared: Declared) -> tuple:
    return Parser(re.split(r"\n\s*unfolding", declared.type)[0]).whole()


def without_comment(line: str) -> str:
    return re.sub(r"(^|\s)--(\s.*)?$", "", line)


def pieces(text: str) -> list[list[str]]:
    """A file's declarations, equations and imports: a line that begins at the margin, and those that go on with it."""
    found: list[list[str]] = []
    depth = 0
    for line in map(without_comment, text.split("\n")):
        if not line.strip():
            continue
        goes_on = line[0] == " " or (depth > 0 and line[0] == "}") or (line.startswith("unfolding") and found)
        if goes_on and found:
            found[-1].append(line)
        else:
            found.append([line])
            depth = 0
        depth += sum(line.count(it) for it in "{(") - sum(line.count(it) for it in "})")
    return found


def read_module(path: Path, key: str, crate: str) -> Module:
    made = Module(key, crate, path)
    for lines in pieces(path.read_text(encoding="utf-8")):
        text = "\n".join(lines)
        if text.startswith("use "):
            take_import(made, " ".join(text.split()))
        elif not re.match(r"(pub )?mod |syntax |infix", text):
            take_declaration(made, lines, text)
    return made


def take_import(made: Module, text: str) -> None:
    match = IMPORT.match(text)
    if not match:
        raise SyntaxError(f"{made.path}: {text}")
    place, names, whole = match.groups()
    if names is None:
        made.imports[whole or place.split(".")[-1]] = (place, None)
        return
    for item in filter(None, (it.strip() for it in names.split(","))):
        name, _, other = item.partition(" as ")
        made.imports[(other or name).strip()] = (place, name.strip())


def take_declaration(made: Module, lines: list[str], text: str) -> None:
    marks, public, kind, name = HEAD.match(text).groups()
    if not (marks or public or kind) and name in made.declared:
        made.declared[name].equations.append(text)
        made.declared[name].lines.extend(lines)
        return
    type_of = text[HEAD.match(text).end():].lstrip().removeprefix(":")
    made.declared[name] = Declared(name, kind or "def", type_of, bool(public), list(lines))
    if kind == "record":
        made.declared[name].equations.extend(conjunction(name, type_of))
    if kind == "data":
        for maker in re.findall(r"^\s+(?:pub )?(\w+) :", text, re.MULTILINE):
            made.makers[maker] = name


def conjunction(name: str, type_of: str) -> list[str]:
    """A record of facts of some values, as the equation that gives all of them at once."""
    head, _, body = type_of.partition(" where\n")
    names = " ".join(re.findall(r"\((\w[\w ]*) : ", head))
    facts = re.split(r"^\s+pub \w+ :", body, flags=re.MULTILINE)[1:]
    is_fact = names and facts and ": Type 0)" not in head
    return [f"{name} {names} = {' × '.join(f'({it})' for it in facts)}"] if is_fact else []


def constants(crates: Path) -> dict[tuple[str, str], int | dict[str, list[int]]]:
    """The public numbers and texts of the crates' code, by crate and name. A text is the record of its bytes."""
    found = {}
    for path in sorted(crates.glob("*/src/**/*.rt")):
        crate = path.relative_to(crates).parts[0]
        code = path.read_text(encoding="utf-8")
        for name, text in BYTES.findall(code):
            text = re.sub(r"\\\n\s*", "", text)  # a line that goes on: Rust drops the spaces at the start of the next
            found[crate, name] = {"now": list(text.encode().decode("unicode_escape").encode("latin-1"))}
        for name, text in CONSTANT.findall(code):
            plain = re.sub(r"(?<=[0-9a-fA-F])(u8|u16|u32|u64|u128|usize)\b", "", text).replace("u64::MAX", str(2**64 - 1))
            for other, value in list(found.items()):
                if other[0] == crate:
                    plain = re.sub(rf"\b{other[1]}\b", str(value), plain)
            if re.fullmatch(r"[\d_xa-fA-F\s<>()+*-]+", plain):
                found[crate, name] = eval(plain, {"__builtins__": {}})  # digits and signs alone, by the test before
    return found


def modules(crates: Path, with_rows: bool = True) -> dict[str, Module]:
    """All modules of definitions by their place, as `board_core.specs.Time`, and those of rows where they are wanted."""
    found = {}
    for path in sorted(crates.glob("*/*/**/*.antt")):
        crate, part, *rest = path.relative_to(crates).with_suffix("").parts
        is_row = part == "proofs" and len(rest) == 1 and re.fullmatch(r"\w*Rows\w*", rest[0])
        if rest[-1] not in ("Lib", "private") and (part == "specs" or (with_rows and is_row)):
            key = ".".join((crate, part, *rest))
            found[key] = read_module(path, key, crate)
    for module in found.values():
        for name, (where, original) in module.imports.items():
            place = where.rpartition(".")[0]
            # a variant may be taken from its type, too
            if where not in found and place in found and original in found[place].makers:
                module.imports[name] = (place, original)
    return found
