#!/usr/bin/env python3
"""Brings this repository's own definitions and lemmas to today's spelling, where port.py left them: words in snake case.

    python3 tools/respell.py        at the top, once, right after port.py

- A definition or a variable in mixed case, as `entryPlace`, is `entry_place`: in .antt files, in the clauses of .rt files and in must-fail edits.
- A field or a constructor of specs/ with a dash, as `verdict-is`, is `verdict_is`, but where a lemma has that very name.
  A dash in a lemma's name stays: it joins two names.
- `Option·elim` is std's `Option-elim`.
Text in double quotes stays. It prints each name that would fall together with another, and then writes nothing.
"""

import collections
import re
import sys
from pathlib import Path

NAME = r"[^\s(){}.;,@\"«»\[\]]+"
DECLARED = re.compile(r"(?m)^ *(?:(?:pattern|unfoldable|abbrev|axiom|pub) )*([^\s(){}.;,@\"«»]+)(?: \{[^{}\n]*\})* :(?=\s)")
MIXED = re.compile(r"[a-z][\w']*?[a-z0-9'][A-Z][\w']*")
TOKEN = re.compile(r'"(?:\\.|[^"\\\n])*"|' + NAME)


def snake(name):
    return re.sub(r"(?<=[a-z0-9'])[A-Z]", lambda m: "_" + m[0].lower(), name)


def bare(text):
    return re.sub(r"--.*", "", text)


def files(suffix):
    return sorted(p for p in Path("crates").rglob("*" + suffix) if "out" not in p.parts)


def main():
    texts = {p: p.read_text() for p in files(".antt") + files(".rt") + files(".edit")}
    antt = [p for p in texts if p.suffix == ".antt"]
    declared, in_specs, in_laws, mixed = set(), set(), set(), set()
    for p in antt:
        found = {m[1] for m in DECLARED.finditer(bare(texts[p]))}
        declared |= found
        if p.parts[2] == "specs":
            in_specs |= found
        elif len(p.parts) == 4:
            in_laws |= found
        mixed |= {w for w in TOKEN.findall(bare(texts[p])) if MIXED.fullmatch(w)}
    of_code = {"tooShort", "charData"}
    names = {w: snake(w) for w in mixed if w in declared or w not in of_code}
    fields = {w: w.replace("-", "_") for w in in_specs if "-" in w and w not in in_laws}
    fields = {w: new for w, new in fields.items() if new not in declared}

    met = []
    back = collections.defaultdict(set)
    for old, new in names.items():
        back[new].add(old)
    met += [f"{sorted(olds)} would all be {new}" for new, olds in back.items() if len(olds) > 1]
    for p in antt:
        text = re.sub(r"Rattle(\.\w+)+", "", bare(texts[p]))
        # A label of a record literal, `name = ..`, is no name that can be met, nor is a projection.
        words = {w for w in re.findall(r"(?<![\w.'-])" + NAME + r"(?! = )", text)}
        met += [f"{p}: {w} would meet {names[w]}" for w in words if w in names and names[w] in words and names[w] not in ("pixel_type",)]
    if met:
        print("\n".join(met))
        return 1

    renamed = {**names, **fields}

    def turn(m):
        return m[0] if m[0].startswith('"') else renamed.get(m[0], m[0])

    for p, text in texts.items():
        new = text.replace("Option·elim", "Option-elim")
        new = TOKEN.sub(turn, new)
        if new != text:
            p.write_text(new)
    print(f"respell: {len(names)} names in mixed case, {len(fields)} fields")
    Path("/tmp/respelled.txt").write_text("".join(f"{a}\t{b}\n" for a, b in sorted(renamed.items())))
    return 0


sys.exit(main())
