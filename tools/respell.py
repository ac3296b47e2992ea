#!/usr/bin/env python3
"""Brings this repository's own definitions and lemmas to the spelling of today's Rattle: functions, lemmas, fields and
constructors in snake case, types and facts in camel case. It was run once, at the top, right after the kit's own script.

usage: python3 tools/respell.py [--list]

A name is renamed where a file of specs/ or proofs/ defines it, or gives it to an import by `as`. Names that Rattle makes,
such as those of goals, and names of the library keep their spelling, and so does all that stands in strings. It stops where
two names would fall together.
"""
import glob
import re
import sys

NAME = r"[A-Za-z][A-Za-z0-9_'≢ℕ+-]*"
DEFINES = re.compile(r"^( *)(?:abbrev |unfoldable )?(?:pub )?(?:abbrev |unfoldable )?(?:pub )?(data |record )?(" + NAME + r")(?= *(?::|\{|\())")
GOAL = re.compile(r":\s*(?:goal|need|given)\.")
ALIAS = re.compile(r" as (" + NAME + r")")
IMPORT = re.compile(r"^(?:pub )?(?:ghost )?use (\S+?)\.\{(.*)\}", re.M)


def files(*ends):
    for end in ends:
        yield from sorted(p for p in glob.glob("crates/*/**/" + end, recursive=True) if "/out/" not in p)


def read(path):
    with open(path, encoding="utf-8") as f:
        return f.read()


# A definition that would have the name of a function or of a type of src/ gets another one.
CHOSEN = {
    "Fill-question": "FillQuestionSaid",
    "fill-question": "fill_question_said",
    "No-group": "NoGroupThere",
}
for n in ("call-of", "call-site", "counts-text", "first-line", "gap-after", "hex-digit", "verb-of"):
    CHOSEN[n] = n.replace("-", "_") + "_lem"

# These meet only the label of a clause, which is no name of the same kind.
KEPT = {"any_table", "one_sheet", "own_sheet", "reads_back"}


def respelled(name):
    if name in CHOSEN:
        return CHOSEN[name]
    if name[0].isupper():
        return "".join(p[:1].upper() + p[1:] for p in name.split("-"))
    return name.replace("-", "_")


def names():
    defined, fields, made, library = set(), set(), set(), set()
    for path in files("*.antt", "*.rt"):
        text = read(path)
        for line in text.splitlines():
            m = DEFINES.match(line)
            if path.endswith(".antt") and m and "-" in m[3]:
                if GOAL.search(line):
                    made.add(m[3])
                elif len(m[1]) == 0:
                    defined.add(m[3])
                elif len(m[1]) == 2 and " pub " in line[:6] + " ":
                    fields.add(m[3])
                elif len(m[1]) == 2:
                    defined.add(m[3])
        for m in IMPORT.finditer(text):
            for item in m[2].split(","):
                item = item.strip()
                if " as " in item:
                    alias = item.split(" as ")[1]
                    if "-" in alias:
                        defined.add(alias)
                    item = item.split(" as ")[0]
                if m[1].startswith("Rattle.std") or not m[1].startswith("Rattle."):
                    library.add(item)
    return defined - made - library, fields - made - library, library


def main():
    defined, fields, library = names()
    table = {n: respelled(n) for n in defined | fields}
    back = {}
    for old, new in table.items():
        back.setdefault(new, []).append(old)
    tokens = set()
    for path in files("*.antt", "*.rt"):
        tokens.update(re.findall(NAME, read(path)))
    bad = {new: olds for new, olds in back.items() if len(olds) > 1 or new in tokens or new in library}
    if "--list" in sys.argv:
        for old in sorted(table):
            print(old, table[old], "field" if old in fields else "", "FALLS TOGETHER" if table[old] in bad and table[old] not in KEPT else "")
        return
    bad = {new: olds for new, olds in bad.items() if new not in KEPT}
    if bad:
        raise SystemExit(f"these fall together: {bad}")
    edge = r"[\w'≢ℕ+-]"
    free = re.compile(r"(?<!" + edge + r")(?<!\.)(" + "|".join(sorted(map(re.escape, table), key=len, reverse=True)) + r")(?!" + edge + r")")
    field = re.compile(r"(?<=\.)(" + "|".join(sorted(map(re.escape, fields & set(table)), key=len, reverse=True)) + r")(?!" + edge + r")")
    quoted = re.compile(r'("(?:[^"\\\n]|\\.)*")')
    for path in files("*.antt", "*.rt"):
        text = read(path)
        parts = quoted.split(text)
        for k in range(0, len(parts), 2):
            parts[k] = field.sub(lambda m: table[m[1]], free.sub(lambda m: table[m[1]], parts[k]))
        new = "".join(parts)
        if new != text:
            with open(path, "w", encoding="utf-8") as f:
                f.write(new)

if __name__ == "__main__":
    main()
