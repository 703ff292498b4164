"""Texts of queries: those of the repository, and random ones, right and wrong."""
from __future__ import annotations

import random
import re

from conftest import TOP
from shared.calls import all_tests

STRING = re.compile(r'"((?:[^"\\]|\\.)*)"')
SHELL = re.compile(r"echo '([^']*)' > q")
BLOCK = re.compile(r"```file \S+\n(.*?)```", re.S)


def of_repository() -> list[bytes]:
    """Each text that stands in a table of calls, in a page, an example or a test, and has to do with a query."""
    found = set()
    for call in [call for test in all_tests() for call in test.calls if "prefixes" not in call]:
        found |= {text for text in call.get("files", {}).values() if isinstance(text, str)}
    for page in [*TOP.glob("docs/*.md"), *TOP.glob("examples/*/README.md"), TOP / "README.md"]:
        text = page.read_text()
        found |= set(SHELL.findall(text)) | set(BLOCK.findall(text))
    for test in TOP.glob("crates/tilt_tests_*/src/*.rt"):
        found |= {one.replace("\\n", "\n").replace('\\"', '"').replace("\\t", "\t") for one in STRING.findall(test.read_text())}
    for query in TOP.glob("examples/**/*.tilt"):
        found.add(query.read_text())
    return sorted({text.encode() for text in found if re.search(r"\b(input|let|emit)\b", text)})


class Draw:
    """Random queries that are mostly taken, and what becomes of them by small mistakes."""

    def __init__(self, seed: int) -> None:
        self.draws = random.Random(seed)
        self.names: dict[str, str] = {}

    def one(self, *choices):
        return self.draws.choice(choices)

    def offset(self) -> str:
        return self.one(
            "t", "t", f"t-{self.draws.randrange(9)}", f"t+{self.draws.randrange(4)}", f"t-{self.one(10**11, 10**12, 10**12 + 1)}"
        )

    def name(self, kind: str) -> str:
        known = [name for name, its in self.names.items() if its == kind]
        return self.draws.choice(known) if known else "x" if self.draws.random() < 0.2 else "1" if kind == "int" else "true"

    def expression(self, kind: str, depth: int = 0) -> str:
        if self.draws.random() < 0.03:
            kind = "bool" if kind == "int" else "int"
        if depth > 2 or self.draws.random() < 0.3:
            return self.leaf(kind)
        a, b, c = (lambda kind=kind: self.expression(kind, depth + 1) for _ in range(3))
        shared = [
            lambda: f"{a()} when {b('bool')}",
            lambda: f"if {a('bool')} then {b()} else {c()}",
            lambda: f"ifnull({a()}, {b()})",
            lambda: f"({a()})",
        ]
        if kind == "int":
            own = [lambda: f"{a()} {self.one('+', '-', '*', '/', '%')} {b()}", lambda: f"-{a()}", lambda: f"{a()} + {b()} * {c()}"]
        else:
            own = [
                lambda: f"{a('int')} {self.one('<', '<=', '>', '>=', '==', '!=')} {b('int')}",
                lambda: f"{a()} {self.one('and', 'or')} {b()}",
                lambda: f"not {a()}",
                lambda: f"isnull({a('int')})",
                lambda: f"{a()} {self.one('==', '!=')} {b()}",
            ]
        return self.draws.choice(shared + own)()

    def leaf(self, kind: str) -> str:
        known = [name for name, its in self.names.items() if its == kind]
        if not known or self.draws.random() < 0.2:
            return str(self.one(0, 1, 7, 2**63 - 1)) if kind == "int" else self.one("true", "false")
        name = self.draws.choice(known)
        low = self.one("t-5", "t-3", "t-1", self.offset())
        high = self.one("t", "t", "t+1", self.offset())
        reducers = ["first", "last"] + (["sum", "avg", "min", "max", "count"] if kind == "int" else ["any", "all"])
        return self.one(name, name, f"{name}[{self.offset()}]", f"{self.draws.choice(reducers)}({name}[{low}:{high}])")

    def domain(self, needed: bool) -> str:
        period = self.one(1, 1, 2, 5, 10, 0, 10**12 + 1, 10**12 + 2) if self.draws.random() < 0.5 else None
        offset = self.one(0, 1, 2, 5) if period and self.draws.random() < 0.3 else None
        text = ""
        if needed or self.draws.random() < 0.2:
            text += f" over ({self.one(0, 0, 10, -10, 7)}, {self.one(10, 20, 100, 4 * 10**18, 4 * 10**18 + 1)}]"
        text += f" every {period}" if period is not None else ""
        return text + (f" from {offset}" if offset is not None else "")

    def query(self) -> str:
        self.names = {}
        lines = []
        for name in ("x", "y", "z")[: self.draws.randrange(4)]:
            lines.append(f"input {name};")
            self.names[name] = "int"
        for name in ("a", "b", "x", "c")[: self.draws.randrange(4)] if self.draws.random() < 0.7 else ():
            kind = self.one("int", "int", "bool")
            lines.append(f"let {name} = {self.expression(kind)}{self.domain(False)};")
            self.names.setdefault(name, kind)
        lines.append(f"emit {self.expression('int')}{self.domain(True)};")
        return self.one("\n", " ", "\r\n").join(lines)

    def mistaken(self, text: str) -> bytes:
        """A token more or less, in another's place, or another byte."""
        parts = re.findall(r"\s+|\w+|[^\w\s]", text)
        for _ in range(self.draws.randrange(3)):
            at = self.draws.randrange(len(parts))
            what = self.draws.randrange(5)
            if what == 0:
                del parts[at]
            elif what == 1:
                parts.insert(at, self.one(*SPARE))
            elif what == 2:
                parts[at] = self.one(*SPARE)
            elif what == 3:
                other = self.draws.randrange(len(parts))
                parts[at], parts[other] = parts[other], parts[at]
            else:
                parts = parts[: at + 1]
            parts = parts or [" "]
        return "".join(parts).encode()


SPARE = [
    "x",
    "y",
    "unknown",
    "emit",
    "let",
    "input",
    "over",
    "every",
    "from",
    "if",
    "then",
    "else",
    "when",
    "or",
    "and",
    "not",
    "true",
    "isnull",
    "ifnull",
    "t",
    "sum",
    "avg",
    "any",
    "all",
    "count",
    "(",
    ")",
    "[",
    "]",
    ",",
    ":",
    ";",
    "=",
    "==",
    "<",
    "+",
    "-",
    "*",
    "/",
    "%",
    "!",
    "&",
    ".",
    "#",
    "é",
    "\t",
    "\n",
    "0",
    "12",
    "9223372036854775807",
    "9223372036854775808",
    "00000000000000000000000000001",
]
