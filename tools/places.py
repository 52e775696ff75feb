#!/usr/bin/env python3
"""Counts, in crates/*/src, the places that today's forms could replace; docs/DESIGN-PASS.md has the counts.

    tools/places.py                 how many places each pattern finds, crate by crate
    tools/places.py -v [KEY]        each place, with its line
    tools/places.py -C FOLDER ..    the same in another checkout

Comments and clauses are left out of points 1 to 4, 6 and 7; test crates count too. The patterns go by text and miss some
kinds (docs/DESIGN-PASS.md, "The second count"); what they find is read by a person, who says there what became of it.
"""
import re
import sys
from collections import defaultdict
from pathlib import Path

ARGS = sys.argv[1:]
ROOT = Path(__file__).resolve().parent.parent
if "-C" in ARGS:
    ROOT = Path(ARGS.pop(ARGS.index("-C") + 1)).resolve()
    ARGS.remove("-C")

# point and key, what is looked for, the pattern (over code without comments and clauses)
PATTERNS = [
    ("1a flag", "a field or a result that is a flag beside a value", r"pub \w+: bool,|-> \((?:[^()]*, )?bool"),
    ("1b rewrap", "a match or an if that takes an Option or a Result apart only to wrap it again, or to return at once",
     r"Err\(\w+\) => (?:return )?Err\(|None => None\b|Ok\(\w+\) => Ok\(\w+\),\s*(?:None|Err)|"
     r"let (?:Some|Ok)\([^;=]*\) = [^;{]*(?:\{[^{}]*\}[^;{]*)?else \{\s*return|"
     r"\bSome\(\w+\) => Ok\(|None => (?:0|false|true|\w+\.\w+),|None => \w+\.\w+,|"
     r"\{\s*Some\([^;{}]*\)\s*\} else \{\s*None\s*\}|\{\s*None\s*\} else \{\s*Some\("),
    ("1d sentinel", "a constant that stands for none", r"const NOT_\w+"),
    ("3a while", "a while or a loop", r"\bwhile\b|\bloop\b"),
    ("3b index", "a for whose counter takes elements", r"\bfor (\w+) in [^{]*\.\.[^{]*\{(?:[^{}]|\{[^{}]*\})*?\[\1\]"),
    ("3c enumerate", "a for over an enumeration", r"\.enumerate\(\)"),
    ("3d for", "a for over numbers or items, which could perhaps be a chain", r"\bfor \w+ in (?:[^{]*\.\.[^{]*|\w+) \{"),
    ("4a convert", "a conversion by a method of its own", r"\bfn (?:of_code|code|number|of_word|word|of_season|reason|notice|firm_demand)\("),
    ("4b equal", "an equality by a function of its own, or by a number that stands for a variant", r"\bfn is_word\(|\.code\(\) [=<>!]+ \d|\bcode [<>]=? \d|\d <= code"),
    ("4c derive", "a plain public type that derives neither equality nor Debug", r"#\[derive\(Clone, Copy\)\]\s*pub(?:\(crate\))? (?:struct|enum)"),
    ("4d print", "digits or words put together by hand in a format", r"\{tens\}\{ones\}|\{year\}-"),
    ("6a array with count", "an array with a count beside it", r"\[\w+; \d+\],\s*(?:pub(?:\(crate\))? )?count: usize|\(\[\w+; \d+\], usize\)"),
    ("6b indexed table", "a table taken by a fixed index", r"\b[A-Z_]{3,}\[\d\]"),
    ("7a step", "a match whose arms only call one of several functions with the same arguments", r"=> \w+\((\w+)\),\s*[\w:]+ => \w+\(\1\)"),
]


def code(text):
    """The text without comments, ghost lines and clauses."""
    text = re.sub(r"//[^\n]*", "", text)
    text = re.sub(r"ghost use [^;]*;", "", text)
    out, i = [], 0
    for m in re.finditer(r"\b(?:requires|ensures|ghost)\b[^{;=]*(?:= )?\{", text):
        if m.start() < i:
            continue
        out.append(text[i:m.start()])
        depth, j = 1, m.end()
        while depth and j < len(text):
            depth += {"{": 1, "}": -1}.get(text[j], 0)
            j += 1
        out.append("\n" * text[m.start():j].count("\n"))
        i = j
    out.append(text[i:])
    return "".join(out)


def functions(text):
    """Name, signature, clauses and body of each function."""
    for m in re.finditer(r"\bfn (\w+)", text):
        depth, j, clauses = 0, m.end(), []
        start = j
        while j < len(text):
            w = re.compile(r"\s*(requires|ensures)(?: \w+)? \{").match(text, j)
            if w and depth == 0:
                d, k = 1, w.end()
                while d:
                    d += {"{": 1, "}": -1}.get(text[k], 0)
                    k += 1
                clauses.append((w.group(1), " ".join(text[w.end():k - 1].split())))
                j = k
                continue
            c = text[j]
            if depth == 0 and c in "{;":
                break
            depth += {"(": 1, ")": -1, "<": 0}.get(c, 0)
            j += 1
        signature = text[start:j]
        d, k = 1, j + 1
        while text[j:j + 1] == "{" and d and k < len(text):
            d += {"{": 1, "}": -1}.get(text[k], 0)
            k += 1
        yield m.group(1), signature, clauses, text[j:k], text.count("\n", 0, m.start()) + 1


def shape(body):
    """A body with names, numbers and texts blanked."""
    body = re.sub(r'"[^"]*"', "s", body)
    words = re.findall(r"[A-Za-z_]\w*|\d[\d_]*|[^\s\w]", body)
    keep = {"if", "else", "for", "in", "while", "match", "return", "let", "mut", "Some", "None", "Ok", "Err", "self"}
    return " ".join(w if w in keep or not (w[0].isalnum() or w[0] == "_") else "n" for w in words)


def main():
    verbose = "-v" in ARGS
    only = [a for a in ARGS if a != "-v"]
    found = defaultdict(list)
    numbers = []
    twins, facts, together = defaultdict(list), defaultdict(set), defaultdict(set)
    for path in sorted(ROOT.glob("crates/*/src/**/*.rt")):
        crate = path.relative_to(ROOT / "crates").parts[0]
        text = path.read_text()
        bare = code(text)
        for key, _, pattern in PATTERNS:
            for m in re.finditer(pattern, bare):
                line = bare.count("\n", 0, m.start()) + 1
                found[key].append((crate, f"{path.relative_to(ROOT)}:{line}: {' '.join(m.group(0).split())[:90]}"))
        plain = re.sub(r"//[^\n]*", "", text)
        for name, signature, clauses, body, line in functions(plain):
            where = f"{path.relative_to(ROOT)}:{line} {name}"
            if re.search(r"\w+::\w+(?:\([^)]*\))? => \d|\b\d+ => (?:Some|Ok)\([A-Z]\w*::\w+\)", body):
                numbers.append((crate, where))
            if "test" not in crate:
                s = shape(body)
                if len(s.split()) >= 12:
                    twins[(crate, s)].append(where)
                for kind, fact in clauses:
                    if kind == "requires":
                        for part in re.findall(r"\(([^()]*)\)", fact) or [fact]:
                            facts[(crate, part)].add(where)
                    elif "≤" in fact and "result" in fact and "≡" not in fact:
                        facts[(crate, fact)].add(where)
                params = re.findall(r"(\w+): ([^,()]+)", signature.split("->")[0].partition("(")[2])
                for i, a in enumerate(params):
                    for b in params[i + 1:]:
                        together[(crate, f"{a[0]}: {a[1].strip()}, {b[0]}: {b[1].strip()}")].add(where)
    groups = [
        ("2 twins", "functions of one crate whose bodies differ only in names, numbers and texts", twins, 2),
        ("5a fact", "a fact that stands in the clauses of three or more functions of a crate", facts, 3),
        ("5b together", "two parameters that three or more functions of a crate take together", together, 3),
    ]
    for key, _, table, least in groups:
        for (crate, what), places in sorted(table.items()):
            if len(places) >= least:
                text = what if key != "2 twins" else "twins"
                found[key].append((crate, f"{text[:90]}\n      " + "\n      ".join(sorted(places))))
    for (crate, where) in numbers:
        found["1c number"].append((crate, where))
    notes = [("1c number", "a function that gives each variant a number, or a variant for a number, by a table of its own")]
    notes += [(k, n) for k, n, _ in PATTERNS] + [(k, n) for k, n, _, _ in groups]
    for key, note in sorted(notes):
        if only and not any(key.startswith(o) for o in only):
            continue
        crates = defaultdict(int)
        for crate, _ in found[key]:
            crates[crate] += 1
        per = ", ".join(f"{c} {n}" for c, n in sorted(crates.items()))
        print(f"{key:22} {len(found[key]):3}  {per}")
        if verbose:
            print(f"  {note}")
            for _, line in found[key]:
                print(f"    {line}")


main()
