#!/usr/bin/env python3
"""Brings the must-fail edits of the landed commit to today's spelling, and looks whether each can still be made.

usage: tools/edits.py [FOLDER]           turns each edit that stands as it landed; the others it leaves alone
       tools/edits.py --check [FOLDER]   changes nothing; lists each edit that is gone, that is new, or whose `old:` text does not stand once

An edit's texts go through the same renamings as the files: our own names by tools/respelled.tsv, paths, and projections written tight. Where the
text that comes out does not stand once in today's file, the line that it landed in is shown with today's line that is nearest to it, to be mended by
hand. Python 3.8 or later.
"""

import difflib
import glob
import os
import re
import subprocess
import sys

LANDED = "409d479"
# the edits that went with their function into another crate
MOVED = {
    "crates/names/must-fail/compared_but_not_counted.edit": "crates/words/must-fail/compared_but_not_counted.edit",
    "crates/names/must-fail/hashed_by_its_last_word.edit": "crates/index/must-fail/hashed_by_its_last_word.edit",
}
WORD = re.compile(r'[^\s(){}.;,@"«»]+')
# what ends an application on the left of a projection
OPERATORS = set("≡ ∷ ++ + - * → ↔ × ⊎ && || = gives ≤ <".split())


def names(root):
    with open(os.path.join(root, "tools", "respelled.tsv"), encoding="utf-8") as f:
        return dict(line.rstrip("\n").split("\t") for line in f)


def snake(word):
    """What port.py made of a name that is a library's too, `typesIn`: types keep their capitals."""
    return re.sub(r"([a-z0-9])([A-Z])", lambda m: m.group(1) + "_" + m.group(2).lower(), word) if re.match(r"[a-z]", word) else word


def tight(text):
    """`(r .at)` becomes `r.at`, and `f x .words` becomes `(f x).words`."""
    while True:
        m = re.search(r"(?<=[\w')]) \.(?=[A-Za-z])", text)
        if not m:
            return text
        start, depth = m.start(), 0
        while start:
            c = text[start - 1]
            if c == "(" and not depth:
                break
            if c == " " and not depth:
                word = re.search(r"\S*$", text[: start - 1]).group(0)
                if word in OPERATORS:
                    break
            depth += (c == ")") - (c == "(")
            start -= 1
        operand, field = text[start : m.start()], re.match(r"\.[\w']+", text[m.end() - 1 :]).group(0)
        rest = m.end() - 1 + len(field)
        if " " in operand and not re.fullmatch(r"\([^()]*\)", operand):
            operand = f"({operand})"
        if start and text[start - 1] == "(" and text[rest : rest + 1] == ")":
            start, rest = start - 1, rest + 1
        text = text[:start] + operand + field + text[rest:]


def turned(text, file, table):
    """Only files of specs/ and proofs/ name what was respelled: the code's own names stayed."""
    if not file.endswith(".antt"):
        return text
    text = re.sub(r"Rattle·(\w+)[.·]", r"Rattle.\1.", text)
    return tight(WORD.sub(lambda m: table.get(m.group(0)) or snake(m.group(0)), text))


def shown(root, path):
    ran = subprocess.run(["git", "show", f"{LANDED}:{path}"], cwd=root, capture_output=True)
    return ran.stdout.decode() if ran.returncode == 0 else None


def read(root, path):
    try:
        with open(os.path.join(root, path), encoding="utf-8") as f:
            return f.read()
    except OSError:
        return None


def landed(root):
    ran = subprocess.run(["git", "ls-tree", "-r", "--name-only", LANDED], cwd=root, capture_output=True, check=True)
    return [p for p in ran.stdout.decode().splitlines() if re.fullmatch(r"crates/[^/]+/must-fail/[^/]+\.edit", p)]


def misfits(root, path, text):
    """What keeps the edit from being made: each pair applies to what the earlier ones made."""
    crate, file, old, pairs, texts, found = "/".join(path.split("/")[:2]), "", None, 0, {}, []
    for line in text.splitlines():
        if line.startswith("file: "):
            file = line[6:].strip()
        elif line.startswith("old: "):
            old = line[5:]
        elif line.startswith("new:"):
            pairs += 1
            if file not in texts:
                texts[file] = read(root, f"{crate}/{file}") or ""
            n = texts[file].count(old) if old else 0
            if n == 1:
                texts[file] = texts[file].replace(old, line[5:])
            else:
                found.append((file, old, n))
            old = None
    return found if pairs else [(file, None, 0)]


def nearest(root, path, file, old, table):
    """The landed line with this text, and today's line that is nearest to it."""
    crate = "/".join(path.split("/")[:2])
    before, today = shown(root, f"{crate}/{file}") or "", (read(root, f"{crate}/{file}") or "").splitlines()
    line = next((l for l in before.splitlines() if old in l or old in turned(l, file, table)), None)
    near = difflib.get_close_matches(turned(line, file, table), today, 1, 0.3) if line else []
    return line, near[0] if near else None


def tell(root, path, found, table):
    for file, old, n in found:
        print(f"{path}: in {file} {n} times: {old}")
        line, near = nearest(root, path, file, old or "", table)
        print(f"    landed: {(line or '(no such line)').strip()}")
        print(f"    today:  {(near or '(no line near it)').strip()}")


def main():
    words = [w for w in sys.argv[1:] if w != "--check"]
    root, check = words[0] if words else ".", "--check" in sys.argv
    table, were = names(root), landed(root)
    now = sorted(os.path.relpath(p, root) for p in glob.glob(os.path.join(root, "crates/*/must-fail/*.edit")))
    wrong = 0
    for path in sorted(set(were) | set(now)):
        text = read(root, path)
        if text is None and MOVED.get(path) in now:
            print(f"{path}: moved to {MOVED[path]}")
            continue
        if text is None or path not in were:
            print(f"{path}: {'gone' if text is None else 'new'}")
            wrong += text is None
            continue
        found = misfits(root, path, text)
        if not check and text == shown(root, path):
            file, out = "", []
            for line in text.splitlines():
                m = re.match(r"(old: |new: |file: )(.*)", line)
                if m and m.group(1) == "file: ":
                    file = m.group(2).strip()
                elif m:
                    line = m.group(1) + turned(m.group(2), file, table)
                elif line.startswith("#"):
                    line = re.sub(r"`[^`]+`", lambda m: turned(m.group(0)[1:-1], ".antt", table).join("``"), line)
                out.append(line)
            new = "\n".join(out) + "\n"
            left = misfits(root, path, new)
            if new != text and (not left or len(left) < len(found)):
                with open(os.path.join(root, path), "w", encoding="utf-8") as f:
                    f.write(new)
                print(f"{path}: turned")
                found = left
        if found:
            tell(root, path, found, table)
            wrong += 1
    print(f"{len(now)} edits, {len(were)} landed, {wrong} to mend")
    return 1 if wrong else 0


if __name__ == "__main__":
    sys.exit(main())
