#!/usr/bin/env python3
"""Respells this repository's own definitions and lemmas after port.py: `wordsAfter` becomes `words_after`, `rows-bound` becomes `rows_bound`.

usage: tools/respell.py [FOLDER]

It renames what specs/ and proofs/ declare (but not the answers of a function's proof, which go by Rattle's names), wherever it is named:
in .antt files, in the clauses and `ghost use` items of .rt files, and in their comments where a name stands in backquotes or has a capital inside.
Types, modules and the kinds (Bot, Top ..) keep their capitals. A name that would meet another in some file is listed ('meets:') and gets an
ending `_is`. It writes old and new names to tools/respelled.tsv. Run it once. Python 3.8 or later.
"""

import collections
import glob
import os
import re
import sys

WORD = re.compile(r'[^\s(){}.;,@"«»]+')
DECLARED = re.compile(r'^(\s*)((?:(?:unfoldable|abbrev|pub|opaque|data|record) )*)([^\s(){}.;,@"«»:]+)((?: \{[^{}]*\}| \([^()]*\))*) : (.*)$')
ANSWERS = re.compile(r"/proofs/(.*/)?(Proof|Answers|Invariants)\.antt$")
IMPORT = re.compile(r"^\s*(?:pub )?(?:ghost )?use (\S+?)\.\{([^}]*)\}", re.M)
LIBRARY = re.compile(r"^(mathlib|Prim|native|borrow|lib|mir|contract|denote|prog|seplogic|Rattle\.std|Rattle\.core|Rattle\.check|Rattle\.bytes|Rattle\.io|Rattle\.libc)\b")


def snake(name):
    name = name.replace("-", "_")
    return re.sub(r"([a-z0-9])([A-Z])", lambda m: m.group(1) + "_" + m.group(2).lower(), name)


def files(root, ending):
    for folder, below, names in os.walk(os.path.join(root, "crates")):
        below[:] = [b for b in below if b != "out"]
        for name in names:
            if name.endswith(ending):
                yield os.path.join(folder, name)


def read(path):
    with open(path, encoding="utf-8", newline="") as f:
        return f.read()


def without_comments(text):
    return re.sub(r"(?m)(^|(?<=\s))--(?=\s|$).*$", "", text)


def main():
    root = sys.argv[1] if len(sys.argv) > 1 else "."
    antt = sorted(files(root, ".antt"))
    rt = sorted(files(root, ".rt"))
    texts = {p: read(p) for p in antt + rt}
    declared, fields, library = set(), set(), set()
    for p in antt:
        for path, names in IMPORT.findall(texts[p]):
            if LIBRARY.match(path):
                library.update(WORD.findall(names))
        if ANSWERS.search(p):
            continue
        for line in without_comments(texts[p]).splitlines():
            m = DECLARED.match(line)
            if m:
                declared.add(m.group(3))
                if m.group(1):
                    fields.add(m.group(3))
    table = {}
    for name in declared:
        if re.match(r"[A-Z]", name) and "-" not in name:
            continue
        new = snake(name)
        if re.match(r"[A-Z][a-z]+_", new):
            new = new[0].lower() + new[1:]
        if new != name and not name.startswith("◌") and "*" not in name and name not in library:
            table[name] = new
    # in a clause no function of the code can be named, and the answers of a function's proof are renamed by Rattle's names: those files are passed over
    tokens = {p: set(WORD.findall(re.sub(r"Rattle\.\w+", "", without_comments(texts[p])))) for p in antt if not ANSWERS.search(p)}
    meets = collections.defaultdict(set)
    for p, words in tokens.items():
        seen = collections.defaultdict(set)
        for w in words:
            seen[table.get(w, w)].add(w)
        for new, olds in seen.items():
            if len(olds) > 1:
                for old in olds:
                    if old in table:
                        meets[old].add(os.path.relpath(p, root))
    # a library name, or a field of Rattle's, that is spelled like the new one
    for old in sorted(meets):
        # a lemma gives way to a definition
        if "-" not in old and any("-" in other and snake(other) == table[old] for other in meets):
            continue
        print("meets:", old, "->", table[old] + "_is", sorted(meets[old])[:4])
        table[old] += "_is"
    again = collections.Counter(table.values())
    for old, new in sorted(table.items()):
        if again[new] > 1 and "-" in old:
            print("twice:", old, "->", new + "_is")
            table[old] += "_is"
    assert max(collections.Counter(table.values()).values()) == 1

    def turn(m, text, answers):
        w = m.group(0)
        if w not in table:
            return w
        if answers and m.start() and text[m.start() - 1] == "." and w not in fields:
            return w
        return table[w]

    def turn_code(text, answers):
        return WORD.sub(lambda m: turn(m, text, answers), text)

    def turn_comment(text):
        text = re.sub(r"`[^`\n]+`", lambda m: turn_code(m.group(0)[1:-1], False).join("``"), text)
        return re.sub(r"\b[a-z][A-Za-z0-9]*[A-Z][A-Za-z0-9]*\b", lambda m: table.get(m.group(0), m.group(0)), text)

    for p, text in texts.items():
        mark = "--" if p.endswith(".antt") else "//"
        answers = bool(ANSWERS.search(p))
        out = []
        for line in text.splitlines(keepends=True):
            m = re.search(rf"(^|(?<=\s)){mark}(?=\s|$)", line)
            cut = m.start() if m else len(line)
            code = line[:cut]
            out.append(turn_code(code, answers and not re.match(r"\s*(pub )?use ", code)) + turn_comment(line[cut:]))
        new = "".join(out)
        if new != text:
            with open(p, "w", encoding="utf-8", newline="") as f:
                f.write(new)
    with open(os.path.join(root, "tools", "respelled.tsv"), "w", encoding="utf-8") as f:
        for old in sorted(table):
            f.write(f"{old}\t{table[old]}\n")
    print(len(table), "names")


if __name__ == "__main__":
    main()
