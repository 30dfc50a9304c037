#!/usr/bin/env python3
"""Works out what names and bounds answer to a table of calls, and writes the table and the answers.

    checks/theorycalls.py          write crates/theorycalls/stdin and stdout
    checks/theorycalls.py --check  only compare them

A theory is kept here as the primitives told. What is admitted is worked out anew for every question: the operands told
the same are found by a search through the told equations, and together they have the values between the greatest lower
and the least upper end told of any of them. None of this is taken from the programs that it checks.
"""
import random
import sys
from pathlib import Path

LOW, HIGH, CAPACITY = -1_000_000, 1_000_000, 256
HERE = Path(__file__).resolve().parent.parent / "crates" / "theorycalls"


def is_value(n):
    return LOW <= n <= HIGH


class Theory:
    def __init__(self, ordered):
        self.ordered = ordered
        self.clear()

    def clear(self):
        self.made, self.broken = 0, False
        self.equals, self.least, self.most = {}, {}, {}
        return "cleared"

    def make(self):
        if self.made == CAPACITY:
            return "full"
        self.made += 1
        return str(self.made - 1)

    def known_operand(self, a):
        kind, n = a
        return is_value(n) if kind == "value" else n < self.made

    def known(self, p):
        kind, a, b = p
        return self.known_operand(a) and (self.known_operand(b) if kind == "same" else is_value(b))

    def joined(self, a):
        """The operands that the told equations join to a."""
        seen, todo = {a}, [a]
        while todo:
            for y in self.equals.get(todo.pop(), ()):
                if y not in seen:
                    seen.add(y)
                    todo.append(y)
        return seen

    def ends(self, a):
        """The least and greatest value of an operand, as if nothing else were told."""
        low, high = LOW, HIGH
        for x in self.joined(a):
            if x[0] == "value":
                low, high = max(low, x[1]), min(high, x[1])
            low = max([low] + self.least.get(x, []))
            high = min([high] + self.most.get(x, []))
        return low, high

    def has_failed(self):
        """Whether something told can no longer be met; what was not told of last is as it was."""
        return self.broken

    def tell(self, p):
        if not self.known(p):
            return "unknown"
        kind, a, b = p
        if kind == "same":
            self.equals.setdefault(a, set()).add(b)
            self.equals.setdefault(b, set()).add(a)
        else:
            (self.least if kind == "least" else self.most).setdefault(a, []).append(b)
        low, high = self.ends(a)
        self.broken |= low > high or (kind != "same" and not self.ordered)
        return "failed" if self.has_failed() else "kept"

    def follows(self, p):
        kind, a, b = p
        if not self.known(p):
            return False
        if self.has_failed():
            return True
        low, high = self.ends(a)
        if kind == "same":
            return b in self.joined(a) or (low == high and self.ends(b) == (low, high))
        if not self.ordered:
            return False
        return b <= low if kind == "least" else high <= b

    def fixed(self, x):
        if x >= self.made:
            return False
        low, high = self.ends(("variable", x))
        return self.has_failed() or low == high

    def range(self, x):
        if x >= self.made or self.has_failed():
            return "none"
        return "%d..%d" % self.ends(("variable", x))

    def answer(self, words):
        call, rest = words[0], words[1:]
        if call in ("clear", "make"):
            return getattr(self, call)()
        if call == "count":
            return str(self.made)
        if call == "range":
            return self.range(int(rest[0]))
        if call == "tell":
            return self.tell(primitive(rest))
        yes = {"failed": self.has_failed, "fixed": lambda: self.fixed(int(rest[0])), "ask": lambda: self.follows(primitive(rest))}[call]()
        return "yes" if yes else "no"


def operand(word):
    return ("variable", int(word[1:])) if word[0] == "v" else ("value", int(word))


def primitive(words):
    kind, a, b = words
    return kind, operand(a), operand(b) if kind == "same" else int(b)


STORY = """
clear; count; failed; make; make; make; make; make; count
range 0; range 4; range 5; range 255; fixed 0; fixed 5
ask same v0 v0; ask same v0 v1; ask same 3 3; ask same 3 4; ask same v0 3; ask same 3 v0
ask same v5 v5; ask same v0 v5; ask same 1000001 1000001; ask same -1000001 v0; ask same 1000000 1000000; ask same -1000000 -1000000
tell same v0 v5; tell same v5 v0; tell same v0 1000001; tell same -1000001 v0; tell same 1000001 1000001; failed
tell same v0 v1; ask same v0 v1; ask same v1 v0; ask same v0 v2; range 1; fixed 1
tell same v2 v3; tell same v1 v3; ask same v0 v2; ask same v2 v0; ask same v0 v4
tell same v3 7; range 0; range 2; fixed 0; fixed 3; fixed 4; ask same v0 7; ask same 7 v0; ask same v0 8; ask same v0 v4
tell same v4 7; ask same v4 v0; ask same v0 v4; tell same 7 v1; tell same 7 7; failed
tell same v1 8; failed; range 0; fixed 0; fixed 5; ask same v0 9; ask same 1 2; ask same v5 v5; ask same 1000001 2; count
tell same v0 v1; tell same 3 3; tell same v9 v9; make; count; fixed 5; clear; count; failed; range 0
make; make; tell same 3 4; failed; ask same 5 6; clear
make; make; tell same v0 -1000000; range 0; tell same v1 1000000; range 1; ask same v0 v1; tell same v0 v1; failed; clear
make; make; make; tell same v0 5; tell same v1 6; tell same v2 v0; tell same v2 v1; failed; ask same v0 v2; clear
""".replace("\n", ";")

ORDER = """
make; make; make; ask least v0 -1000000; ask most v0 1000000; ask least v0 -999999; ask most v0 999999
ask least 5 5; ask least 5 6; ask most 5 5; ask most 5 4; ask least 5 1000001; ask least 1000001 5; ask most v0 -1000001; ask most v3 5; ask least v3 -1000000
tell least v0 1000001; tell most v0 -1000001; tell least v3 0; tell most v3 0; tell least 1000001 0; failed
tell least v0 10; range 0; tell most v0 20; range 0; ask least v0 10; ask least v0 11; ask most v0 20; ask most v0 19; fixed 0
tell least v1 15; tell most v1 30; tell same v0 v1; range 0; range 1; ask least v1 15; ask most v0 20; failed
tell least v0 5; range 1; tell most v1 25; range 0; tell most v1 15; range 0; fixed 0; fixed 1; fixed 2; ask same v0 15; ask same v0 v1; ask same v0 v2
tell least v2 15; tell most v2 15; ask same v2 v0; ask same v0 v2; fixed 2; tell least v2 16; failed; range 2; ask least v0 1000000; ask most v0 -1000000; ask least v0 1000001; clear
make; tell least 3 3; tell most 3 3; failed; tell least 3 4; failed; clear; make; tell most 4 3; failed; clear
make; tell least v0 1000000; range 0; fixed 0; tell most v0 999999; failed; clear
make; tell most v0 -1000000; range 0; fixed 0; ask same v0 -1000000; tell least v0 -999999; failed; clear
make; make; tell least v0 6; tell most v1 5; tell same v0 v1; failed; range 0; range 1; clear
make; make; tell same v1 4; tell least v0 4; tell same v0 v1; range 0; tell most v0 3; clear
""".replace("\n", ";")


def chains():
    """Long chains of equalities, told up, down and by halves, and the capacity."""
    n = CAPACITY
    yield "clear"
    yield from ["make"] * (n + 1)
    yield "count"
    for x in range(n - 1, 0, -1):
        yield f"tell same v{x - 1} v{x}"
    yield from ("ask same v0 v255", "ask same v255 v1", "tell same v128 -44", "range 255", "range 0", "fixed 17", "tell same v200 -43", "failed", "clear")
    yield from ["make"] * n
    step = 1
    while step < n:
        for x in range(0, n, 2 * step):
            yield f"tell same v{x} v{x + step}"
        step *= 2
    yield from ("ask same v0 v255", "ask same v3 v4", "range 77", "tell same 9 v255", "range 0", "clear")


def chance(ordered, rounds=25, calls=16):
    """Calls by lot over few variables and few numbers."""
    lot = random.Random(20 + ordered)
    kinds = ["same", "same", "least", "most"] if ordered else ["same"] * 9 + ["least"]
    for _ in range(rounds):
        yield "clear"
        yield from ["make"] * lot.randrange(2, 6)
        for _ in range(calls):
            kind = lot.choice(kinds)
            variable = lambda: f"v{lot.randrange(5)}"
            a = variable() if lot.random() < 0.85 else str(lot.randrange(-3, 4))
            b = str(lot.randrange(-3, 4)) if kind != "same" or lot.random() < 0.35 else variable()
            yield f"{lot.choice(['tell', 'ask', 'ask'])} {kind} {a} {b}"
            yield lot.choice([f"range {lot.randrange(5)}", f"fixed {lot.randrange(5)}", "failed"])


def table():
    for name in ("names", "bounds"):
        theory = Theory(ordered=name == "bounds")
        for part in (STORY.split(";"), ORDER.split(";"), chains(), chance(theory.ordered)):
            for call in part:
                if call.strip():
                    yield f"{name} {call.strip()}", theory.answer(call.split())


def main():
    rows = list(table())
    files = {HERE / "stdin": "".join(c + "\n" for c, _ in rows), HERE / "stdout": "".join(a + "\n" for _, a in rows)}
    if "--check" in sys.argv:
        return int(any(path.read_text() != text for path, text in files.items()))
    for path, text in files.items():
        path.write_text(text)
    print(len(rows), "calls;", ", ".join(f"{a} {sum(1 for _, b in rows if b == a)}" for a in ("cleared", "full", "kept", "failed", "unknown", "yes", "no", "none")))
    return 0


if __name__ == "__main__":
    sys.exit(main())
