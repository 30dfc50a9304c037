#!/usr/bin/env python3
"""The rule files of the crate rulechecks, with what loading each must answer.

Each case has its answer written down by hand; a reader of the format written here, independent of the
one in Rattle, must agree with it. The script writes the program's input and the output to expect:

    python3 checks/rulefiles.py crates/rulechecks
"""
import sys

MARK = [67, 72, 82, 49]
NOON = MARK + [
    2, 2, 2, 3,
    0, 1, 0, 1, 2, 1, 1, 252, 63, 0, 1, 3, 1, 1, 0, 1, 1,
    0, 1, 0, 1, 1, 1, 1, 254, 63, 1, 2, 3, 1, 1, 0, 1, 2, 1, 1, 2, 254, 63,
    1, 1, 1, 1, 1, 0, 1, 0, 1, 2, 0, 1, 0, 1, 1, 1, 3,
]


class Refused(Exception):
    pass


class File:
    """A file that is read number by number."""

    def __init__(self, data):
        self.data, self.at = data, 0

    def number(self):
        start, total = self.at, 0
        for power in range(3):
            if self.at == len(self.data):
                raise Refused(3, len(self.data))
            byte = self.data[self.at]
            self.at += 1
            total += (byte & 127) << (7 * power)
            if byte < 128:
                if byte == 0 and power > 0:
                    raise Refused(4, start)
                return total, start
        raise Refused(4, start)

    def ranged(self, low, high):
        n, start = self.number()
        if not low <= n <= high:
            raise Refused(5, start)
        return n

    def index(self, count):
        n, start = self.number()
        if n >= count:
            raise Refused(6, start)
        return n

    def value(self):
        code, start = self.number()
        value = -(code + 1) // 2 if code % 2 else code // 2
        if abs(value) > 1_000_000:
            raise Refused(5, start)

    def operand(self, slots):
        if self.ranged(0, 1):
            self.index(slots)
        else:
            self.value()

    def primitive(self, kind, slots):
        self.operand(slots)
        if kind == 0:
            self.operand(slots)
        else:
            self.value()

    def rule(self, arities):
        kept, _ = self.number()
        removed, start = self.number()
        if not 1 <= kept + removed <= 3:
            raise Refused(5, start)
        slots = sum(arities[self.index(len(arities))] for _ in range(kept + removed))
        for _ in range(self.ranged(0, 4)):
            self.primitive(self.ranged(0, 2), slots)
        slots += self.ranged(0, 4)
        for _ in range(self.ranged(0, 6)):
            kind = self.ranged(0, 3)
            if kind < 3:
                self.primitive(kind, slots)
            else:
                for _ in range(arities[self.index(len(arities))]):
                    self.operand(slots)


def answer(data):
    """What loading answers."""
    if len(data) > 4096:
        return "refused 1 0"
    if data[:4] != MARK:
        return "refused 2 0"
    file = File(data)
    file.at = 4
    try:
        arities = [file.ranged(0, 4) for _ in range(file.ranged(1, 32))]
        rules = file.ranged(0, 32)
        for _ in range(rules):
            file.rule(arities)
    except Refused as why:
        return "refused %d %d" % why.args
    if file.at < len(data):
        return "refused 7 %d" % file.at
    return "accepted %d %d" % (len(arities), rules)


def number(n):
    """A number as it is written."""
    out = []
    while n > 127:
        out.append(n % 128 + 128)
        n //= 128
    return out + [n]


def value(n):
    return number(2 * n if n >= 0 else -2 * n - 1)


def one(rule, arities=(2,)):
    """A file of one rule."""
    return MARK + [len(arities), *arities, 1] + rule


def long_file(size):
    """A valid file of exactly so many bytes: rules with one head, four guards and bodies of large and small values."""
    head = MARK + [1, 4, 32]
    full = [0, 1, 0, 4] + [0, 0, 0, 0, 0] * 4 + [0, 6]
    spare = size - len(head) - 32 * len(full)
    small, large = [0, 0], [0] + value(1_000_000)
    # 32 rules of 6 items with 4 operands of 2 to 4 bytes each, and 2 bytes for each item's kind and symbol
    spare -= 32 * 6 * (2 + 4 * len(small))
    out = head[:]
    for _ in range(32):
        out += full
        for _ in range(6):
            out += [3, 0]
            for _ in range(4):
                if spare >= 2:
                    out, spare = out + large, spare - 2
                elif spare == 1:
                    out, spare = out + [0] + value(64), 0
                else:
                    out += small
    assert len(out) == size, len(out)
    return out


KEPT = [1, 0, 0]  # one kept head of symbol 0
CASES = [
    # the start of a file
    ("nothing", [], "refused 2 0"),
    ("one byte", [67], "refused 2 0"),
    ("three bytes", MARK[:3], "refused 2 0"),
    ("another last byte", [67, 72, 82, 50], "refused 2 0"),
    ("another first byte", [66] + NOON[1:], "refused 2 0"),
    ("4,096 bytes that start otherwise", [0] * 4096, "refused 2 0"),
    ("4,097 bytes that start otherwise", [0] * 4097, "refused 1 0"),
    ("a valid file of 4,096 bytes", long_file(4096), "accepted 1 32"),
    ("a file of 4,097 bytes", long_file(4097), "refused 1 0"),
    ("the four bytes alone", MARK, "refused 3 4"),
    # symbols
    ("no symbol", MARK + [0, 0], "refused 5 4"),
    ("one symbol", MARK + [1, 0, 0], "accepted 1 0"),
    ("32 symbols", MARK + [32] + [4] * 32 + [0], "accepted 32 0"),
    ("33 symbols", MARK + [33] + [0] * 33 + [0], "refused 5 4"),
    ("130 symbols", MARK + [130, 1], "refused 5 4"),
    ("four arguments", MARK + [1, 4, 0], "accepted 1 0"),
    ("five arguments", MARK + [2, 4, 5, 0], "refused 5 6"),
    ("ends in the argument counts", MARK + [2, 0], "refused 3 6"),
    ("ends before the number of rules", MARK + [1, 0], "refused 3 6"),
    # numbers
    ("a last byte 0 after one", MARK + [128, 0], "refused 4 4"),
    ("a last byte 0 after two", MARK + [129, 128, 0], "refused 4 4"),
    ("three bytes with the top bit", MARK + [129, 128, 128, 1], "refused 4 4"),
    ("three bytes with the top bit at the end", MARK + [129, 129, 129], "refused 4 4"),
    ("ends after a byte with the top bit", MARK + [129], "refused 3 5"),
    ("ends after two bytes with the top bit", MARK + [129, 129], "refused 3 6"),
    ("a last byte 0 in the argument counts", MARK + [2, 1, 129, 0, 0], "refused 4 6"),
    ("three bytes with the top bit in a value", one(KEPT + [1, 1, 1, 0, 255, 255, 255, 0, 0]), "refused 4 14"),
    # the number of rules
    ("32 rules", MARK + [1, 0, 32] + (KEPT + [0, 0, 0]) * 32, "accepted 1 32"),
    ("33 rules", MARK + [1, 0, 33] + (KEPT + [0, 0, 0]) * 33, "refused 5 6"),
    ("ends after 31 of 32 rules", MARK + [1, 0, 32] + (KEPT + [0, 0, 0]) * 31, "refused 3 193"),
    # heads
    ("no head", one([0, 0, 0, 0, 0]), "refused 5 8"),
    ("three kept heads", one([3, 0, 0, 0, 0, 0, 0, 0]), "accepted 1 1"),
    ("three removed heads", one([0, 3, 0, 0, 0, 0, 0, 0]), "accepted 1 1"),
    ("two kept and one removed", one([2, 1, 0, 0, 0, 0, 0, 0]), "accepted 1 1"),
    ("four kept heads", one([4, 0, 0, 0, 0, 0, 0, 0, 0]), "refused 5 8"),
    ("two kept and two removed", one([2, 2, 0, 0, 0, 0, 0, 0, 0]), "refused 5 8"),
    ("200 kept heads", one([200, 1, 0, 0]), "refused 5 9"),
    ("200 kept heads and the end", one([200, 1]), "refused 3 9"),
    ("a kept count with a last byte 0", one([128, 0, 1, 0]), "refused 4 7"),
    ("a removed count with a last byte 0", one([200, 1, 130, 0]), "refused 4 9"),
    ("the last symbol in a head", one([0, 1, 1, 0, 0, 0], (0, 0)), "accepted 2 1"),
    ("the symbol after the last in a head", one([0, 1, 2, 0, 0, 0], (0, 0)), "refused 6 10"),
    ("the symbol after the last in the third head", one([1, 2, 0, 0, 1, 0, 0, 0]), "refused 6 11"),
    # guards
    ("four guards", one(KEPT + [4] + [0, 1, 0, 1, 1] * 4 + [0, 0]), "accepted 1 1"),
    ("five guards", one(KEPT + [5] + [0, 1, 0, 1, 1] * 5 + [0, 0]), "refused 5 10"),
    ("a guard of kind 3", one(KEPT + [1, 3, 0, 1, 0, 1, 1, 0, 0]), "refused 5 11"),
    ("a guard on the last slot", one(KEPT + [1, 1, 1, 1, 0, 0, 0]), "accepted 1 1"),
    ("a guard on the slot after the last", one(KEPT + [1, 1, 1, 2, 0, 0, 0]), "refused 6 13"),
    ("a guard on a fresh variable", one(KEPT + [1, 1, 1, 2, 0, 1, 0]), "refused 6 13"),
    ("a guard on the last of twelve slots", one([1, 2, 0, 0, 0, 1, 1, 1, 11, 0, 0, 0], (4,)), "accepted 1 1"),
    ("a guard on the slot after twelve", one([1, 2, 0, 0, 0, 1, 1, 1, 12, 0, 0, 0], (4,)), "refused 6 15"),
    ("an operand of kind 2", one(KEPT + [1, 0, 2, 0, 1, 1, 0, 0]), "refused 5 12"),
    ("a second part of kind 2", one(KEPT + [1, 0, 1, 0, 2, 1, 0, 0]), "refused 5 14"),
    # values
    ("the greatest value", one(KEPT + [1, 1, 1, 0] + value(1_000_000) + [0, 0]), "accepted 1 1"),
    ("one above the greatest", one(KEPT + [1, 1, 1, 0] + value(1_000_001) + [0, 0]), "refused 5 14"),
    ("the least value", one(KEPT + [1, 2, 1, 0] + value(-1_000_000) + [0, 0]), "accepted 1 1"),
    ("one below the least", one(KEPT + [1, 2, 1, 0] + value(-1_000_001) + [0, 0]), "refused 5 14"),
    ("the greatest number", one(KEPT + [1, 1, 1, 0, 255, 255, 127, 0, 0]), "refused 5 14"),
    ("a value of one byte, 63", one(KEPT + [1, 1, 1, 0] + value(63) + [0, 0]), "accepted 1 1"),
    ("a value of two bytes, 64", one(KEPT + [1, 1, 1, 0, 128, 1, 0, 0]), "accepted 1 1"),
    ("a value of one byte, -64", one(KEPT + [1, 1, 1, 0, 127, 0, 0]), "accepted 1 1"),
    ("a value of two bytes, 8191", one(KEPT + [1, 1, 1, 0] + value(8191) + [0, 0]), "accepted 1 1"),
    ("a value of three bytes, 8192", one(KEPT + [1, 1, 1, 0] + value(8192) + [0, 0]), "accepted 1 1"),
    ("ends in a value", one(KEPT + [1, 1, 1, 0, 128, 128]), "refused 3 16"),
    # fresh variables and the body
    ("four fresh variables", one(KEPT + [0, 4, 0]), "accepted 1 1"),
    ("five fresh variables", one(KEPT + [0, 5, 0]), "refused 5 11"),
    ("six items", one(KEPT + [0, 0, 6] + [0, 1, 0, 1, 1] * 6), "accepted 1 1"),
    ("seven items", one(KEPT + [0, 0, 7] + [0, 1, 0, 1, 1] * 7), "refused 5 12"),
    ("an item of kind 4", one(KEPT + [0, 0, 1, 4, 1, 0, 1, 1]), "refused 5 13"),
    ("a body on the last fresh variable", one(KEPT + [0, 1, 1, 1, 1, 2, 0]), "accepted 1 1"),
    ("a body on the variable after the last", one(KEPT + [0, 1, 1, 1, 1, 3, 0]), "refused 6 15"),
    ("a body with no fresh variable", one(KEPT + [0, 0, 1, 1, 1, 2, 0]), "refused 6 15"),
    ("a new constraint without arguments", one([0, 1, 0, 0, 0, 1, 3, 0], (0,)), "accepted 1 1"),
    ("a new constraint of no symbol", one([0, 1, 0, 0, 0, 1, 3, 1], (0,)), "refused 6 14"),
    ("a new constraint that lacks an argument", one(KEPT + [0, 0, 1, 3, 0, 1, 0]), "refused 3 17"),
    ("a new constraint with one argument more", one(KEPT + [0, 0, 1, 3, 0, 1, 0, 1, 1, 1, 1]), "refused 7 19"),
    ("two faults, the first answers", one(KEPT + [1, 1, 1, 2, 0, 5, 7]), "refused 6 13"),
    # whole files
    ("no rules and a byte more", MARK + [1, 0, 0, 0], "refused 7 7"),
    ("the noon rules", NOON, "accepted 2 3"),
    ("the noon rules without the last byte", NOON[:-1], "refused 3 63"),
    ("the noon rules cut in a value", NOON[:16], "refused 3 16"),
    ("the noon rules and a byte more", NOON + [0], "refused 7 64"),
    ("the noon rules twice", NOON + NOON, "refused 7 64"),
]


def written(data):
    """A line of input: runs of one byte as BYTExCOUNT."""
    words, i = [], 0
    while i < len(data):
        j = i
        while j < len(data) and data[j] == data[i]:
            j += 1
        words.append(str(data[i]) if j == i + 1 else "%dx%d" % (data[i], j - i))
        i = j
    return " ".join(words)


def main():
    folder = sys.argv[1]
    assert len(NOON) == 64
    assert [value(n) for n in (0, -1, 64, -64)] == [[0], [1], [128, 1], [127]]
    lines, answers = [], []
    for name, data, expected in CASES:
        assert answer(data) == expected, (name, answer(data), expected)
        lines += ["# " + name, written(data)]
        answers.append(expected + (" same" if expected.startswith("accepted") else ""))
    open(folder + "/stdin", "w").write("".join(line + "\n" for line in lines))
    open(folder + "/stdout", "w").write("".join(line + "\n" for line in answers))
    print(len(CASES), "files")


main()
