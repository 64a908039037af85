#!/usr/bin/env python3
"""Counts in crates/*/src the places that the page of the design pass speaks of, point by point.

    python3 tools/places.py            the files as they lie here
    python3 tools/places.py COMMIT     the files of a commit
    python3 tools/places.py -v ..      with each place

It goes by text and finds candidates: which of them is a place, the page says.
"""
import re
import subprocess
import sys
from collections import defaultdict


def files(commit):
    if commit:
        names = subprocess.run(["git", "ls-tree", "-r", "--name-only", commit], capture_output=True, text=True).stdout.split()
    else:
        names = subprocess.run(["git", "ls-files"], capture_output=True, text=True).stdout.split()
    for name in sorted(names):
        if re.match(r"crates/[a-z_]+/src/.*\.rt$", name):
            if commit:
                yield name, subprocess.run(["git", "show", f"{commit}:{name}"], capture_output=True, text=True).stdout
            else:
                try:
                    yield name, open(name, encoding="utf-8").read()
                except FileNotFoundError:
                    pass


def blank(text):
    """The text without comments and without what its strings hold, line for line."""
    text = re.sub(r"//[^\n]*", "", text)
    return re.sub(r'"(\\.|[^"\\])*"', lambda m: '"' + re.sub(r"[^\n]", "s", m.group(0)[1:-1]) + '"', text)


def closing(text, at, pair):
    depth = 0
    while at < len(text):
        depth += {pair[0]: 1, pair[1]: -1}.get(text[at], 0)
        at += 1
        if depth == 0:
            return at
    return at


class Fn:
    def __init__(self, file, line, name, params, result, clauses, body):
        self.file, self.line, self.name = file, line, name
        self.params, self.result, self.clauses, self.body = params, result, clauses, body

    def place(self):
        return f"{self.file}:{self.line} {self.name}"


def functions(file, text):
    for m in re.finditer(r"\bfn (\w+)(<[^(]*>)?\(", text):
        at = m.end() - 1
        end = closing(text, at, "()")
        params = text[at + 1 : end - 1]
        head = re.match(r"\s*(->\s*[^\n{;]+)?", text[end:])
        result = (head.group(1) or "").strip()
        at = end + head.end()
        clauses = []
        while True:
            c = re.match(r"\s*(requires|ensures)\s*(\w*)\s*\{", text[at:])
            if not c:
                break
            open_at = at + c.end() - 1
            stop = closing(text, open_at, "{}")
            clauses.append((c.group(1), c.group(2), " ".join(text[open_at + 1 : stop - 1].split())))
            at = stop
        b = re.match(r"\s*\{", text[at:])
        body = ""
        if b:
            open_at = at + b.end() - 1
            body = text[open_at : closing(text, open_at, "{}")]
        yield Fn(file, text.count("\n", 0, m.start()) + 1, m.group(1), params, result, clauses, body)


def shape(body):
    """A body with each type, literal and name of a function called put out of sight."""
    body = re.sub(r"\b(b?'(\\.|[^'\\])'|\d[\d_]*(?:usize|u\d+)?|0x\w+)", "N", body)
    body = re.sub(r"\b[A-Z]\w*\b", "T", body)
    body = re.sub(r"\b[a-z_]\w*(?=\()", "f", body)
    return re.findall(r"\w+|[^\s\w]", body)


HAND = [
    r"None\s*=>\s*(return\s+)?(Ok\()?None",
    r"None\s*=>\s*(return\s+)?Err\(",
    r"Err\(\w+\)\s*=>\s*(return\s+)?Err\(",
    r"Err\(_\)\s*=>\s*(None|return None)",
    r"let (Some|Ok)\([^=]*=[^;{}]*else\s*\{\s*return\s+(None|Ok\(None\)|Err\([^;]*\));\s*\}",
    r"_\s*=>\s*(Ok\()?None\b",
    r"Some\((\w+)\)\s*=>\s*\w+[^,\n]*,\s*None\s*=>\s*\w+",
]


def main():
    args = [a for a in sys.argv[1:] if a != "-v"]
    full = "-v" in sys.argv[1:]
    found = defaultdict(list)
    fns = []
    types = []
    for name, raw in files(args[0] if args else None):
        text = blank(raw)
        own = list(functions(name, text))
        fns += own
        for p in HAND:
            for m in re.finditer(p, text):
                line = text.count("\n", 0, m.start()) + 1
                found["1 Option or Result taken apart by hand"].append(f"{name}:{line} {' '.join(m.group(0).split())}")
        for m in re.finditer(r"\benum (\w+)[^{;]*\{", text):
            inner = text[m.end() : closing(text, m.end() - 1, "{}") - 1]
            flat = re.sub(r"\{[^{}]*\}", "{}", re.sub(r"\([^()]*\)", "()", inner))
            cases = [c.strip() for c in flat.split(",") if c.strip()]
            units = [c for c in cases if re.fullmatch(r"\w+(\s*=\s*\d+)?", c)]
            if len(cases) == 2 and len(units) == 1:
                found["1 own enum of two cases, one of them bare"].append(f"{name} {m.group(1)}")
            if len(cases) == 3 and {"Accepted", "Refused"} & set(re.findall(r"\w+", flat)):
                found["1 own enum of answer and refusal"].append(f"{name} {m.group(1)}")
        for m in re.finditer(r"\bstruct (\w+)[^{;]*\{", text):
            inner = text[m.end() : closing(text, m.end() - 1, "{}") - 1]
            fields = re.findall(r"^\s*(?:pub(?:\([^)]*\))? )?(\w+): ([^\n]+),$", inner, re.M)
            if any(t == "bool" for _, t in fields) and len(fields) > 1:
                found["1 struct with a flag beside values"].append(f"{name} {m.group(1)}")
            buffers = [f for f, t in fields if re.search(r"\[[^\]]*\]|Vec<", t)]
            counts = [f for f, t in fields if t in ("usize", "u32", "u8") or re.search(r"\bEnd\b", t)]
            if buffers and counts:
                found["6 struct with a buffer and a number beside it"].append(f"{name} {m.group(1)}: {', '.join(buffers)} | {', '.join(counts)}")
        for m in re.finditer(r"\b(struct|enum) (\w+)[^{;]*\{", text):
            inner = text[m.end() : closing(text, m.end() - 1, "{}") - 1]
            if m.group(1) == "struct":
                names = re.findall(r"^\s*(?:pub(?:\([^)]*\))? )?(\w+): ", re.sub(r"\bghost[^\n]*", "", inner), re.M)
            else:
                flat = re.sub(r"\{[^{}]*\}", "{}", re.sub(r"\([^()]*\)", "()", inner))
                names = [re.match(r"\w+", c.strip()).group(0) for c in flat.split(",") if re.match(r"\w+", c.strip())]
            types.append((f"{name} {m.group(2)}", frozenset(names)))
        for f in own:
            if re.fullmatch(r"\{\s*Self::[A-Z_]+\s*\}", f.body):
                found["2 function that answers a constant of its type"].append(f.place())
            if re.fullmatch(r"\{\s*\w+\((\w+(, )?)+\)\s*\}", f.body):
                found["2 function that hands all on to another"].append(f.place())
            if re.match(r"->\s*u8$", f.result) and f.name in ("kind", "code", "number"):
                arms = re.findall(r"=>\s*\d+", f.body)
                found["1 a kind or refusal as a number"].append(f.place())
                if arms:
                    found["4 conversion by a match of numbers"].append(f.place())
            if re.match(r"->\s*i64|->\s*u8|->\s*\(\w+, u8\)", f.result) and "_tests/" in name and "code()" in f.body:
                found["1 a test's answer as a number"].append(f.place())
            if f.name in ("is_same", "eq", "ne", "cmp", "lt", "same_as", "clone"):
                found["4 equality or order by hand"].append(f.place())
            if f.name in ("named", "form", "seat_word", "ordered_series", "read", "code_of", "month_of", "series_of", "of") and f.body:
                found["4 conversion or printing by a function of its own"].append(f.place())
            for m in re.finditer(r"\bfor (\w+) in ([^{]*\.\.[^{]*)\{", f.body):
                stop = closing(f.body, m.end() - 1, "{}")
                inner = f.body[m.end() : stop]
                if re.search(r"\[[^\]]*\b%s\b[^\]]*\]" % re.escape(m.group(1)), inner) or m.group(1) == "_":
                    found["3 loop over an index"].append(f.place())
            for m in re.finditer(r"\bwhile (?!let)", f.body):
                found["3 loop over an index"].append(f.place())
            for m in re.finditer(r"\b(for|while)\b[^{]*\{", f.body):
                inner = f.body[m.end() : closing(f.body, m.end() - 1, "{}")]
                if re.search(r"\b\w+ \+= (1|\w+\([^;]*\));|= \w+\.saturating_add\(1\)", inner):
                    found["3 loop that counts beside what it walks"].append(f.place())
                elif re.search(r"if [^;]*\{\s*return (Some|None)", inner):
                    found["3 loop that looks for one thing"].append(f.place())
            for m in re.finditer(r"\bmatch \w+(\.\w+)? \{", f.body):
                inner = f.body[m.end() : closing(f.body, m.end() - 1, "{}") - 1]
                calls = re.findall(r"\b([a-z]\w*)\(([^(){}]*)\)", inner)
                if len(calls) >= 3 and len({c for c in calls}) == 1:
                    found["7 match that calls one thing on each case"].append(f.place())
    groups = defaultdict(list)
    for f in fns:
        key = shape(f.body)
        if len(key) >= 14:
            groups[" ".join(key)].append(f)
    for key, group in groups.items():
        if len(group) > 1:
            found["2 functions of one shape"].append(" = ".join(f.place() for f in group))
    for i, (one, names) in enumerate(types):
        for other, others in types[i + 1 :]:
            if len(names) >= 2 and (names == others or len(names & others) >= 3):
                found["2 types with the same fields or cases"].append(f"{one} = {other}: {', '.join(sorted(names & others))}")
    clauses = defaultdict(set)
    for f in fns:
        for kind, _, text in f.clauses:
            text = re.sub(r"^result ≡ .*|^numbered result ≡ .*", "", text)
            text = re.sub(r"\b(self|day|roster|writer)\b(?=\.(old|new|now))", "it", text)
            if text:
                clauses[f"{kind} {text}"].add(f.place())
    for text, who in clauses.items():
        if len(who) >= 3:
            found["5 clause in three or more contracts"].append(f"{text}: {', '.join(sorted(who))}")
    pairs = defaultdict(set)
    for f in fns:
        names = re.findall(r"(\w+): (&?(?:'\w+ )?(?:mut )?\w+)", f.params)
        for i in range(len(names)):
            for j in range(i + 1, len(names)):
                pairs[(names[i], names[j])].add(f.place())
    for (a, b), who in pairs.items():
        if len(who) >= 4:
            found["5 two parameters together in four or more functions"].append(f"{a[0]}: {a[1]}, {b[0]}: {b[1]}: {len(who)} functions")
    for title in sorted(found):
        print(f"{len(found[title]):4} {title}")
        if full:
            for place in found[title]:
                print(f"       {place}")


main()
