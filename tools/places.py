#!/usr/bin/env python3
"""Lists the places of older forms in crates/*/src, point by point, as docs/DESIGN-PASS.md counts them.

    tools/places.py [FOLDER]     FOLDER is a checkout; without it, this one

It finds candidates by their text; whether one is a place is for a reader to say.
"""
import collections
import glob
import os
import re
import sys

ROOT = sys.argv[1] if len(sys.argv) > 1 else os.path.join(os.path.dirname(os.path.abspath(__file__)), "..")
FILES = {os.path.relpath(f, ROOT): open(f, encoding="utf-8").read().split("\n")
         for f in sorted(glob.glob(os.path.join(ROOT, "crates/*/src/**/*.rt"), recursive=True))}
CODE = {f: t for f, t in FILES.items() if "trials" not in f and not f.endswith("tests.rt")}


def lines(pattern, files=CODE):
    wanted = re.compile(pattern)
    return [f"{f}:{n}: {line.strip()}" for f, text in files.items() for n, line in enumerate(text, 1)
            if wanted.search(line) and not line.strip().startswith("//")]


def functions(files=CODE):
    """Every function: where it stands, and its text from the name on."""
    for f, text in files.items():
        n = 0
        while n < len(text):
            head = re.match(r"(\s*)(pub(\([a-z]+\))? )?fn (\w+)", text[n])
            if not head:
                n += 1
                continue
            end = n
            while end + 1 < len(text) and not (text[end] == head.group(1) + "}" or text[end].rstrip().endswith(";")):
                end += 1
            yield f, n + 1, head.group(4), text[n:end + 1]
            n = end + 1


def twins():
    """Functions whose texts are the same but for names, numbers and strings; shorter ones than five lines do not count."""
    keep = r"fn|if|else|match|for|while|let|return|in|mut|ensures|requires|self|Some|None|Ok|Err|true|false|result"
    shapes = collections.defaultdict(list)
    for f, n, name, text in functions():
        if len(text) < 5:
            continue
        body = "\n".join(text)
        body = re.sub(r'b?"[^"]*"|b?\'[^\']*\'|\b\d\w*\b', "0", body)
        body = re.sub(rf"\b(?!(?:{keep})\b)[A-Za-z_][\w:]*", "x", body)
        shapes[re.sub(r"\s+", " ", body)].append(f"{f}:{n}: fn {name}")
    return [" = ".join(group) for group in shapes.values() if len(group) > 1]


def clauses():
    """Clauses that stand word for word in three functions or more."""
    seen = collections.defaultdict(list)
    for f, n, name, text in functions():
        for fact in {m.group(2) for line in text for m in [re.match(r"\s*(ensures|requires)\*? \w* ?\{ (.*) \}$", line)] if m}:
            seen[(f.split("/")[1], fact)].append(name)
    return [f"{crate}: {fact}  in {', '.join(names)}" for (crate, fact), names in seen.items() if len(names) > 2]


def together():
    """Pairs of parameters that stand together in three functions or more."""
    seen = collections.defaultdict(set)
    for f, n, name, text in functions():
        head = re.sub(r"\s+", " ", " ".join(text)).split(" ensures ")[0].split(" requires ")[0].split(") ->")[0]
        given = re.findall(r"(\w+): ([&\w<'][^,()]*)", head)
        given = [f"{a}: {t.strip()}" for a, t in given if t.strip() not in ("u32", "usize", "u16", "u8", "Global")]
        for a in given:
            for b in given:
                if a < b:
                    seen[(f.split("/")[1], a, b)].add(name)
    return [f"{c}: {a} with {b}  in {', '.join(sorted(names))}" for (c, a, b), names in seen.items() if len(names) > 2]


def answers():
    found = {}
    for f in glob.glob(os.path.join(ROOT, "crates/*/proofs/**/Answers.antt"), recursive=True):
        crate = os.path.relpath(f, ROOT).split("/")[1]
        found[crate] = found.get(crate, 0) + open(f, encoding="utf-8").read().count("\npub ") + open(f, encoding="utf-8").read().startswith("pub ")
    return [f"{c}: {n}" for c, n in sorted(found.items())]


POINTS = [
    ("1a a case of an enum that means nothing, all well, or a refusal", lines(r"^\s*(Nothing|Silent|Past|Other|Unknown|Lawful|Bad\(\w+\)|Offends \{.*),?( \{)?,?$")),
    ("1b a field or case that holds a number for a kind, a spacing, a text or a refusal", lines(r"^\s*((pub )?(delimiter|spacing|text|kind): u(8|16|32),|[A-Z]\w+ \{.*\b(delimiter|spacing): u(8|32).*\},?|NoGroup\(u8\),)$")),
    ("2 functions of one shape", twins()),
    ("2b a question of a store, or a refusal's type, written once for each store", lines(r"^    fn (kind|distance|delimiter|character|spacing|text|stamps)\(&self, at: usize\)|struct Refused|enum \w*Fault")),
    ("3 loops with while, a range or enumerate", lines(r"\bwhile\b|\bfor .* in .*(\.\.|enumerate)")),
    ("4 conversion, comparison or printing by hand", lines(r"fn \w*number\(&?self\)|\.number\(\) [!=]= |impl.* (fmt::Display|PartialEq|Eq|Ord|Clone) for|impl.* From<Alloc\w+.*for")),
    ("5a clauses that stand in three functions or more", clauses()),
    ("5b parameters that travel together", together()),
    ("5c the rest of a line as Option<&[u8]> seen through option_map", lines(r"option_map \(λ x\. x\.now\)")),
    ("6 an array with its length beside it", lines(r"depth: usize|: \[\w+; [A-Z]\w+\]")),
    ("7 a chain of comparisons with words, tables of functions", lines(r'if \w+ == b?"|fn\(')),
    ("8 answers, by crate", answers()),
]

for title, found in POINTS:
    print(f"{title}: {len(found)}")
    for place in found:
        print("    " + place)
