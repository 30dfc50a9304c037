#!/usr/bin/env python3
"""Brings the repository's own definitions and lemmas to today's spelling. Run once, at the top, after Rattle's port.py.

Types go to camel case; functions, fields, constructors, lemmas and local names to snake case.
Functions of src/, strings, inputs and outputs, and the names that Rattle makes for goals and steps keep theirs.
Prints each name that it changes, and stops where two names would fall together.
"""

import glob
import re
import sys

# names that would fall together with others under the rule, and what they get instead
OTHERS = {"Some-step": "StepFrom"}
# names with a capital inside that an earlier script wrote
GARBLED = {"all_Known": "all_known", "cases_Bool": "cases_bool"}
PARTS = re.compile(r"[^\s(){}\[\].,;:\"`«»|]+|.", re.S)
SIGNATURE = re.compile(r"^(\s*)((?:(?:pub|abbrev|unfoldable|data|record)\s+)*)([^\s(){}\[\].,;:\"]+)\s*(?:\{ℓ\}\s*)?(?=[:({]|where\b)(.*)$")


def proof_files():
    return sorted(glob.glob("crates/*/specs/**/*.antt", recursive=True) + glob.glob("crates/*/proofs/**/*.antt", recursive=True))


def is_answers(path):
    return path.endswith(("/Answers.antt", "/Invariants.antt", "/Proof.antt"))


def dashed(name):
    return "-" in name[1:-1] and (name[0].isalpha())


def declared():
    """Own dashed names by kind: 'type', 'function', 'member' (a field or a constructor) or 'lemma'."""
    kinds = {}
    for path in proof_files():
        block, inside = None, 0
        for line in open(path, encoding="utf-8").read().split("\n"):
            if line.startswith("use ") or line.lstrip().startswith("--") or not line.strip():
                continue
            found = SIGNATURE.match(line)
            indent = len(line) - len(line.lstrip())
            if block is not None and indent <= inside:
                block = None
            if not found:
                continue
            words, name, rest = found.group(2).split(), found.group(3), found.group(4)
            if is_answers(path) and re.match(r":\s*(goal|need)\.", rest):
                continue
            if name in ("use", "module", "let", "elim", "mod", "where", "in", "record", "pub", "data"):
                continue
            if "data" in words or "record" in words:
                kind, block, inside = "type", words, indent
            elif block is not None:
                kind = "member"
            elif "abbrev" in words or "unfoldable" in words:
                kind = "type" if name[0].isupper() else "function"
            elif rest.startswith(":"):
                kind = "type" if name[0].isupper() else "lemma"
            else:
                continue
            if dashed(name):
                kinds.setdefault(name, set()).add(kind)
    return kinds


def snake(name):
    return name.replace("-", "_")


def camel(name):
    return "".join(part[0].upper() + part[1:] for part in name.split("-"))


def spelling(name, kinds):
    if name in OTHERS:
        return OTHERS[name]
    return camel(name) if "type" in kinds else snake(name)


def local_names(text):
    """Dashed names that a file binds by a let, a λ, a clause's pattern, a type of a function, or an import under another name."""
    names = set()
    for line in text.split("\n"):
        if line.startswith(("use ", "ghost use ")):
            names |= set(re.findall(r" as ([^\s,{}();]+)", line))
            continue
        names |= set(re.findall(r"\blet ([^\s(){}.,:=]+) ?[:=]", line))
        for bound in re.findall(r"λ ([^.]*)\. ", line):
            names |= set(re.findall(r"[^\s(){}.,:]+", bound))
        for bound in re.findall(r"\(([^\s(){}.,:]+(?: [^\s(){}.,:]+)*) : ", line):
            names |= set(bound.split())
        left = re.match(r"^\s*[^\s:=|]+((?: [^\s=:|]+)*) =(?: |$)", line)
        if left and not line.lstrip().startswith(("let ", "|", "use ")):
            names |= set(re.findall(r"[^\s(){}.,:]+", left.group(1)))
    return {n for n in names if dashed(n)}


def turn(text, path, names, fields, locals_):
    aliases = set(re.findall(r"(?m)^use \S+ as (\S+)$", text)) | set(re.findall(r"(?m)^ghost use \S+ as (\S+);$", text))
    out, before = [], ""
    parts = PARTS.findall(text)
    for i, part in enumerate(parts):
        new = part
        if part in GARBLED:
            new = GARBLED[part]
        elif "-" in part:
            after_dot = i > 1 and parts[i - 1] == "."
            holder = parts[i - 2] if after_dot else ""
            if after_dot and holder in ("goal", "need"):
                pass
            elif after_dot and is_answers(path) and part not in fields and holder not in aliases and not holder[:1].isupper():
                pass
            elif part in names:
                new = names[part]
            elif part in locals_ and not after_dot:
                new = camel(part) if part[0].isupper() else snake(part)
        out.append(new)
    return "".join(out)


def turn_code(text, path, names, fields):
    lines, locals_ = [], local_names("\n".join(l for l in text.split("\n") if l.startswith("ghost use ")))
    for line in text.split("\n"):
        bare = line.lstrip()
        if bare.startswith("//") and not bare.startswith("// ghost") or "\"" in line:
            lines.append(line)
        else:
            lines.append(turn(line, path, names, fields, locals_))
    return "\n".join(lines)


def main():
    kinds = declared()
    names = {name: spelling(name, its) for name, its in kinds.items()}
    names = {old: new for old, new in names.items() if old != new}
    fields = {name for name, its in kinds.items() if "member" in its}
    clash = False
    by_new = {}
    for old, new in names.items():
        by_new.setdefault(new, set()).add(old)
    for new, olds in sorted(by_new.items()):
        if len(olds) > 1:
            print("fall together:", new, sorted(olds))
            clash = True
    texts = {p: open(p, encoding="utf-8").read() for p in proof_files()}
    for path, text in texts.items():
        parts = PARTS.findall(text)
        tokens = {t for i, t in enumerate(parts) if not (0 < i < len(parts) - 1 and (parts[i - 1] == "." and parts[i + 1] == "."))}
        for old, new in names.items():
            if old in tokens and new in tokens and GARBLED.get(new) is None:
                print("both in one file:", path, old, new)
                clash = True
    if clash:
        sys.exit("respell: nothing was changed")
    for path, text in texts.items():
        locals_ = local_names(text) - set(names)
        new = turn(text, path, names, fields, locals_)
        if new != text:
            open(path, "w", encoding="utf-8").write(new)
    for path in sorted(glob.glob("crates/*/src/**/*.rt", recursive=True) + glob.glob("crates/*/must-fail/*.edit")):
        text = open(path, encoding="utf-8").read()
        new = turn_code(text, path, names, fields)
        if new != text:
            open(path, "w", encoding="utf-8").write(new)
    for old in sorted(names):
        print(old, "->", names[old])


if __name__ == "__main__":
    main()
