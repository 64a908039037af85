#!/usr/bin/env python3
"""Spells the repository's own definitions and lemmas in snake case, and its types and facts in camel case.

    python3 tools/respell.py

Run it once, at the top of the repository, behind the toolchain's own port of an older repository. It turns the texts of
crates/: .antt files, and the clauses and ghost lines of .rt files. Names that the library gives, names that the checker
makes and the functions of src/ stay. A line 'meets:' tells of two names that would fall together in one file.
"""
import collections
import glob
import os
import re
import sys

NAME = r'[^\s(){}.;,@"«»:⟨⟩|]+'
PLAIN = re.compile(r"[A-Za-z][A-Za-z0-9_'′-]*")
# Names that would fall together where both are used.
SPECIAL = {"with-mark": "with_any_mark", "in-halt": "in_halt_same"}


def spelled(name):
    if name in SPECIAL:
        return SPECIAL[name]
    name = name.replace("′", "'")
    if name[0].isupper():
        return "".join(part[:1].upper() + part[1:] for part in name.split("-"))
    name = re.sub(r"(?<=[a-z0-9])[A-Z]", lambda m: "_" + m[0].lower(), name)
    return name.replace("-", "_")


def code_of(text):
    return "\n".join(re.sub(r"(^|\s)--.*", "", line) for line in text.split("\n"))


def answers(path):
    return os.path.basename(path) in ("Answers.antt", "Invariants.antt", "Proof.antt")


def gathered(files):
    """The names that the repository declares, and those that it takes from a library."""
    own, lent = set(), set()
    for path, text in files.items():
        code = code_of(text)
        for items in re.findall(r"(?m)^\s*use (?!Rattle\.(?!std\b))\S+?\.\{(.*)\}", code):
            lent.update(name.strip().split(" as ")[0] for name in items.split(","))
        for line in code.split("\n"):
            head = re.match(r"\s*(?:(?:abbrev|pub|unfoldable|opaque)\s+)*(" + NAME + r")\s*(?:\{[^}]*\}\s*)*:(.*)", line)
            if head and not re.match(r"\s*(goal|Goal)", head[2]):
                own.add(head[1])
            kind = re.match(r"\s*(?:pub\s+)?(?:record|data)\s+(" + NAME + ")", line)
            own.update([kind[1]] if kind else [])
            own.update(re.findall(r"\blet (" + NAME + r")\s*[:=]", line))
            for bound in re.findall(r"[({]((?:" + NAME + r" )+):", line) + re.findall(r"λ ([^.]*)\.", line):
                own.update(bound.split())
        if not answers(path):
            own.update(name for name in re.findall(NAME, code) if turns(name))
    return own, lent


def turns(name):
    return bool(PLAIN.fullmatch(name)) and spelled(name) != name


def clauses(text):
    """The spans of a source file that are clauses, ghost lines and invariants."""
    spans = []
    for head in re.finditer(r"(?m)^[ \t]*(?:ghost\b|ensures\b|requires\b|invariant\b|pub ghost\b)[^\n]*", text):
        spans.append(head.span())
    return spans


def turned(text, table):
    old = re.compile(r"(?<![^\s(){}.;,@\"«»:⟨⟩|])(" + NAME + r")")
    return old.sub(lambda m: table.get(m[1], m[1]), text)


def main():
    paths = glob.glob("crates/*/specs/**/*.antt", recursive=True) + glob.glob("crates/*/proofs/**/*.antt", recursive=True)
    files = {path: open(path).read() for path in sorted(paths)}
    own, lent = gathered(files)
    table = {name: spelled(name) for name in own - lent if turns(name)}
    for path, text in files.items():
        used = set(re.findall(NAME, code_of(text)))
        back = collections.defaultdict(set)
        for name in used:
            back[table.get(name, name)].add(name)
        for new, olds in back.items():
            if len(olds) > 1:
                print("meets:", path, new, sorted(olds))
        lines = []
        for line in text.split("\n"):
            cut = re.search(r"(^|\s)--", line)
            at = cut.start() if cut else len(line)
            code = turned(line[:at], table)
            code = re.sub(r"«([a-z][a-z0-9]*_[a-z0-9_]*)»", r"\1", code)
            lines.append(code + line[at:])
        with open(path, "w") as out:
            out.write("\n".join(lines))
    for path in sorted(glob.glob("crates/*/src/**/*.rt", recursive=True)):
        text = open(path).read()
        new, at = [], 0
        for start, end in clauses(text):
            new += [text[at:start], turned(text[start:end], table)]
            at = end
        with open(path, "w") as out:
            out.write("".join(new) + text[at:])


if __name__ == "__main__":
    sys.exit(main())
