#!/usr/bin/env python3
"""Writes the input of the program `tablecalls`, and works out its output.

A partner table is a set of records, at most one under each identifier. It is written here as a dict and looked
through in order, with no rows, no links and no fronts: the five tables differ only in how many records they hold.

    checks/tablecalls.py            writes crates/tablecalls/stdin and crates/tablecalls/stdout
    checks/tablecalls.py --check    says whether they are what it would write
"""
import random
import sys
from pathlib import Path

TABLES = [
    ("scan", 256),
    ("chain", 256),
    ("front before scan", 32 + 256),
    ("front before chain", 32 + 256),
    ("front before front", 32 + 32 + 256),
]


class Table:
    def __init__(self, capacity):
        self.capacity = capacity
        self.records = {}

    def clear(self):
        self.records = {}
        return "done"

    def count(self):
        return str(len(self.records))

    def put(self, identifier, symbol, *arguments):
        if not 1 <= identifier <= 1_000_000:
            return "unfit"
        if not 0 <= symbol <= 31 or len(arguments) > 4:
            return "unfit"
        for argument in arguments:
            if isinstance(argument, int) and not -1_000_000 <= argument <= 1_000_000:
                return "unfit"
        if identifier in self.records:
            return "twice"
        if len(self.records) == self.capacity:
            return "full"
        self.records[identifier] = (symbol, arguments)
        return "added"

    def remove(self, identifier):
        return "false" if self.records.pop(identifier, None) is None else "true"

    def next(self, symbol, key, above):
        for identifier in sorted(self.records):
            its_symbol, arguments = self.records[identifier]
            is_open = not arguments or isinstance(arguments[0], str)
            if identifier <= above:
                continue
            if symbol is not None and its_symbol != symbol:
                continue
            if key is not None and not is_open and arguments[0] != key:
                continue
            return str(identifier)
        return "none"

    def symbol(self, identifier):
        return str(self.records[identifier][0]) if identifier in self.records else "none"

    def argument(self, identifier, place):
        if identifier not in self.records or place >= len(self.records[identifier][1]):
            return "none"
        return str(self.records[identifier][1][place])


def by_hand():
    """Calls chosen for what they show."""
    yield "count",
    yield "next", None, None, 0
    # what is unfit, in each way, and what is just fit
    yield "put", 0, 0
    yield "put", 1_000_001, 0
    yield "put", 1, 32
    yield "put", 1, 255
    yield "put", 1, 0, 1, 2, 3, 4, 5
    yield "put", 1, 0, 1_000_001
    yield "put", 1, 0, "x255", -1_000_001
    yield "count",
    yield "put", 1, 0, -1_000_000, 1_000_000, "x0", "x255"
    yield "put", 1_000_000, 31
    # unfit comes before twice
    yield "put", 1, 32
    yield "put", 1, 0
    yield "count",
    for place in range(6):
        yield "argument", 1, place
    yield "argument", 1_000_000, 0
    yield "argument", 2, 0
    for identifier in (0, 1, 2, 1_000_000, 4_294_967_295):
        yield "symbol", identifier
    # keys and open records
    yield "put", 10, 3, 7
    yield "put", 8, 3, "x1"
    yield "put", 12, 3, 8, 7
    yield "put", 9, 4, 7
    yield "put", 6, 3
    for symbol in (None, 3, 4, 5, 31, 32, 255):
        for key in (None, 7, 8, -7, 1_000_001):
            for above in (0, 6, 8, 11, 12, 999_999, 1_000_000, 4_294_967_295):
                yield "next", symbol, key, above
    # out of the middle, the head and the end of a chain
    for gone in (8, 6, 12, 10):
        yield "remove", gone
        yield "remove", gone
        for above in (0, 6, 8, 10, 12):
            yield "next", 3, None, above
    yield "remove", 0
    yield "remove", 77
    yield "put", 8, 3, 1
    yield "next", 3, None, 0
    yield "count",
    yield "clear",
    yield "count",
    yield "next", None, None, 0
    yield "symbol", 1


def filled():
    """Until each is full, and then one row freed and filled again."""
    yield "clear",
    for step in range(325):
        yield "put", 1 + (step * 7919) % 1_000_000, step % 5, step % 3
        if step in (255, 256, 287, 288, 319, 320):
            yield "count",
    yield "put", 5, 32
    yield "put", 1, 0
    # the first records went into the rows of the fronts: they are freed while the tables behind are full
    for step in range(40):
        yield "remove", 1 + (step * 7919) % 1_000_000
    yield "count",
    for step in range(45):
        yield "put", 500_000 + step, 2, 1
    yield "count",
    for symbol in (None, 0, 2):
        yield "next", symbol, None, 499_990
        yield "next", symbol, 1, 500_030
        yield "next", symbol, 2, 500_044


def at_random(how_many):
    rng = random.Random(1998)
    yield "clear",
    for _ in range(how_many):
        identifier = rng.randrange(1, 40)
        symbol = rng.choice([None, 0, 1, 2])
        key = rng.choice([None, 1, 2])
        kind = rng.randrange(10)
        if kind < 4:
            arguments = [rng.choice([1, 2, -3, "x1", "x2"]) for _ in range(rng.randrange(5))]
            yield ("put", identifier, rng.randrange(3), *arguments)
        elif kind < 6:
            yield "remove", identifier
        elif kind < 9:
            yield "next", symbol, key, identifier - 1
        else:
            yield rng.choice([("symbol", identifier), ("argument", identifier, rng.randrange(4)), ("count",)])


def main():
    script = [*by_hand(), *filled(), *at_random(400)]
    calls = [" ".join([name] + ["-" if a is None else str(a) for a in arguments]) for name, *arguments in script]
    answers = []
    for kind, capacity in TABLES:
        table = Table(capacity)
        answers.append(f"{kind} holds {capacity}")
        answers += [getattr(table, name)(*arguments) for name, *arguments in script]
    folder = Path(__file__).resolve().parent.parent / "crates" / "tablecalls"
    for name, lines in (("stdin", calls), ("stdout", answers)):
        text = "\n".join(lines) + "\n"
        if "--check" not in sys.argv:
            (folder / name).write_text(text)
        elif (folder / name).read_text() != text:
            sys.exit(f"crates/tablecalls/{name} differs from what is worked out")


main()
