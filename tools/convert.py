#!/usr/bin/env python3
"""Writes today's names into the proof files of a crate: the goals, the steps and the loops of proofs/F/Proof.antt.

usage: tools/convert.py CRATE NAMES

NAMES is the file names.json that `rt check --generated FOLDER --old-names` writes for the crate. Where a name of the file is not in it, a line says so.
Python 3.8 or later.
"""

import json
import os
import re
import sys

WORD = re.compile(r'[^\s(){}.;,@"«»]+')


def norm(name):
    name = re.sub(r"^overflow-(?=(add|sub|mul|div|rem|shl|shr|cast|neg)-)", "", name)
    name = re.sub(r"^slice-bounds-", "part-", name)
    name = re.sub(r"^nonzero-(?=div|rem)", "", name)
    return re.sub(r"_(\d+)$", r"\1", name.replace("-", "_"))


GENERIC = set("args requires ensures before result new old now invariant true false lifetimes ranges given 0 1 2 3 4 5 is value".split())
HEAD = re.compile(r"^(?:pub |abbrev |unfoldable )*([^\s:(){}]+) : ", re.M)


class Function:
    """What names.json says of one function: its goals, places, steps and loops, by their old names."""

    def __init__(self, d):
        self.needs, self.at, self.places, self.parent, self.step, self.arm, self.merged = {}, {}, {}, {}, {}, {}, set()
        self.any, self.callee = {}, {}
        for i, (old, new) in enumerate(d.get("needs", [])):
            self.needs[norm(old)] = new
            if i < len(d.get("asked_at", [])):
                self.at[norm(old)] = norm(d["asked_at"][i][0])
        for i, place in enumerate(d.get("places", [])):
            name = norm(place[0])
            self.places[name] = d["places_by_name"][i]
            self.parent[name] = norm(place[1]) if place[1] else None
            if isinstance(place[2], list) and place[2][0]:
                self.step[name] = (norm(place[2][0]), place[2][1])
                self.any.setdefault(norm(place[2][0]), place[2][1])
                if place[3]:
                    self.callee[place[2][1]] = d.get("params", {}).get(place[3], [])
            arm = d["arms"][i] if i < len(d.get("arms", [])) else None
            if arm:
                self.arm[name] = arm
                if arm[1] == 2:
                    self.merged.add(name)
        self.loops = {}
        for it in d.get("loops", []):
            old, new = it[0]
            self.loops[norm("invariant-" + old)] = "invariant-" + new
            self.loops[norm("decreases-" + old)] = "decreases-" + new

    def above(self, place):
        while place:
            yield place
            place = self.parent.get(place)

    def plain(self, field):
        """A step's name where another script gave it an ending or a capital."""
        if norm(field) not in self.any and field.endswith("_is") and norm(field[:-3]) in self.any:
            return field[:-3]
        if norm(field) not in self.any and norm(field).lower() in self.any and "-" in field:
            return norm(field).lower()
        return field

    def by_name(self, step, fields):
        """The fields behind a step, where a number stood for a reference that was passed."""
        refs = self.callee.get(step)
        if refs and len(fields) > 1 and fields[0] in ("new", "auto", "last", "kept"):
            k = 1
            while k < len(fields) and fields[k] == "1":
                k += 1
            if k < len(fields) and fields[k] == "0" and k - 1 < len(refs):
                return [WORDS.get(fields[0], fields[0]), refs[k - 1]] + fields[k + 1 :]
            if k == len(fields):
                return [WORDS.get(fields[0], fields[0])]
            if all(f == "1" for f in fields[1:]):
                return [WORDS.get(fields[0], fields[0])]
        return fields

    def count(self, place, target):
        """How many `before`s lead from a place to one above it."""
        n, p = 0, place
        while p and p != target:
            n += 1
            # an arm's record takes in as many places as it is deep
            for _ in range(self.arm[p][1] if p in self.arm else 1):
                p = self.parent.get(p)
                if p == target or p is None:
                    break
        return n

    def path(self, place, fields):
        """The new path for the old one, behind a variable at the place; or None. And the place that a bare path leads to."""
        fields = [self.plain(f) for f in fields]
        changed, at = self.raw_path(place, fields)
        if changed and at is None:
            changed = changed[:1] + self.by_name(changed[0], changed[1:])
            if len(changed) > 1 and changed[1] in WORDS and changed[0] not in ("args", "result", "new"):
                changed[1] = WORDS[changed[1]]
        return changed, at

    def raw_path(self, place, fields):
        here, k = place, 0
        while k < len(fields) and fields[k] == "before" and here:
            here, k = self.parent.get(here), k + 1
        if here is None:
            # an older Rattle had more places above: fields go by their name alone
            while k < len(fields) and fields[k] == "before":
                k += 1
            if k == len(fields):
                # there the function's start was meant
                last = list(self.above(place))[-1]
                return ["before"] * self.count(place, last), last
            here = place
        if k == len(fields):
            n = self.count(place, here)
            return ["before"] * n, here
        rest = fields[k:]
        chain = list(self.above(place))
        # an older Rattle had more places: where the step is not found above, the nearest below is meant
        for p in list(self.above(here)) + chain:
            step = self.step.get(p)
            if p in self.arm:
                name, _, ways = self.arm[p]
                for to, old, tail in sorted(ways, key=lambda w: -len(w[2])):
                    if norm(old) == norm(rest[0]) and [norm(t) for t in tail] == [norm(t) for t in rest[1 : 1 + len(tail)]]:
                        return [name, to] + rest[1 + len(tail) :], None
            if step and step[0] == norm(rest[0]):
                return [step[1]] + rest[1:], None
        if norm(rest[0]) == "pre":
            return ["requires"] + rest[1:], None
        return rest, None


def convert(path, d, crate, function, said):
    with open(path, encoding="utf-8") as f:
        text = f.read()
    aliases = {}
    for m in re.finditer(rf"^use Rattle\.{crate}\.proofs\.(\S+)\.(?:Tie|Lts)(\S*) as (\S+)$", text, re.M):
        key = f"Rattle-{crate}-proofs.{m.group(1)}.Lts{m.group(2)}"
        if "needs" in d.get(key, {}):
            aliases[m.group(3)] = Function(d[key])
        else:
            said.append(f"{path}: no {key}")
    any_alias = "|".join(re.escape(a) for a in sorted(aliases, key=len, reverse=True)) or "tie|lts"
    global ALIAS
    ALIAS = any_alias
    labels = {}
    for m in re.finditer(rf"^(pub )?(\S+) : (?:\(.*?\) → )?({any_alias})\.Need-([^\s()]+)", text, re.M):
        new = aliases[m.group(3)].needs.get(norm(m.group(4)))
        if new:
            labels[m.group(2)] = new if not function.startswith("+") else m.group(3).replace("-lts", "").replace("-tie", "").replace("-", "_") + "-" + new
    for m in re.finditer(rf"^abbrev (\S+) : ({any_alias})\.((?:invariant|decreases)-[^\s()]+)", text, re.M):
        new = aliases[m.group(2)].loops.get(norm(m.group(3)))
        if new:
            labels[m.group(1)] = new if not function.startswith("+") else m.group(2).replace("-lts", "").replace("-tie", "").replace("-", "_") + "-" + new
    it = aliases
    own = {m.group(1) for m in HEAD.finditer(text)}
    helpers = places_of(text, aliases)
    cuts = [m.start() for m in HEAD.finditer(text)] + [len(text)]
    out = [text[: cuts[0]]] if cuts[0] else []
    for a, b in zip(cuts, cuts[1:]):
        out.append(block(text[a:b], it, labels, own, function, path, said, helpers))
    result = "".join(out)
    result = goals(result, aliases, said, path, function)
    result = negated(result).replace(".type-inv", ".type_inv")
    result = re.sub(r"(?m)^(use \S+ as )(\S+)$", lambda m: m.group(1) + (m.group(2).replace("-", "_") if m.group(2) in aliases else m.group(2)), result)
    with open(path, "w", encoding="utf-8") as f:
        f.write(result)


def negated(text):
    """A test `!x` tells of x itself now, and no longer of `not x`."""
    test = r"[^\s(){};,]+-not-[^\s(){};,.]+\.%s"
    for name, side in (("not-true", "true"), ("not-false", "false")):
        arg = rf"{name} (?:_|[^\s()]+|\([^()]*\)) \(?({test % side})\)?"
        text = re.sub(rf"\({arg}\)", lambda m: "\0" + m.group(1), text)
        text = re.sub(arg, lambda m: "\0" + m.group(1), text)
    lines = []
    used = False
    for line in text.split("\n"):
        if re.search(r"\b(use|--)\s", line) is None:
            new = re.sub(r"(?<![\0\w.])(c\.if-not-[^\s(){};,.]+\.(?:true|false))(?![^\s(){};,])", lambda m: f"(ap not {m.group(1)})", line)
            used = used or new != line
            line = new
        lines.append(line)
    text = "\n".join(lines).replace("\0", "")
    if used:
        text = bring(bring(text, "mathlib.Core.Path", "ap"), "mathlib.Core.Bool", "not")
    return text


def bring(text, module, name):
    """Imports a name, where it is not imported."""
    if re.search(rf"(?m)^use [^\n]*[{{ ]{re.escape(name)}[,}}]", text):
        return text
    m = re.search(rf"(?m)^use {re.escape(module)}\.\{{", text)
    if m:
        return text[: m.end()] + name + ", " + text[m.end() :]
    m = re.search(r"(?m)^use ", text)
    return text[: m.start()] + f"use {module}.{{{name}}}\n" + text[m.start() :]


def goals(text, aliases, said, path, function):
    """Takes out the goals that are no longer asked, and adds those that are new."""
    for alias, it in aliases.items():
        asked = list(it.needs.values())
        has = {}
        for m in list(re.finditer(rf"^(?:pub )?(\S+) : {re.escape(alias)}\.Need-([^\s()]+)([^\n]*)\n", text, re.M)):
            has[m.group(2)] = (m.group(1), m.group(3))
        if not has:
            continue
        for goal, (label, rest) in has.items():
            if goal not in asked:
                said.append(f"{path}: no longer asked: {goal}")
                text = re.sub(rf"(?ms)^{re.escape(label)} : .*?(?=^\S[^\n]* : |\Z)", "", text, count=1)
                text = re.sub(rf"(?m)^ +{re.escape(label)}(?=\)*$)\n?", lambda m: "", text) if not re.search(rf"(?m)^ +{re.escape(label)}\)", text) else text
        missing = [g for g in asked if g not in has]
        # an answer may stand in the list itself
        if len(re.findall(r"(?m)^ +\(λ c", text)) >= len(missing):
            continue
        for goal in missing:
            at = asked.index(goal)
            rest = next(iter(has.values()))[1]
            prefix = "" if not function.startswith("+") else next(iter(has.values()))[0].rsplit(next(iter(has)), 1)[0]
            label = prefix + goal
            args = " c κs" if goal.endswith("requires") or "-requires-" in goal else " c"
            said.append(f"{path}: newly asked: {goal}")
            end = re.search(r"(?m)^pub \S*spec : ", text)
            if not end:
                continue
            text = text[: end.start()] + f"{label} : {alias}.Need-{goal}{rest}\n{label}{args} = search rules\n\n" + text[end.start() :]
            before = [has[g][0] for g in asked[:at] if g in has]
            after = [has[g][0] for g in asked[at + 1 :] if g in has]
            if before:
                text = re.sub(rf"(?m)^( +){re.escape(before[-1])}(\)*)$", lambda m: m.group(1) + before[-1] + "\n" + m.group(1) + label + m.group(2), text, count=1)
            elif after:
                text = re.sub(rf"(?m)^( +){re.escape(after[0])}(\)*)$", lambda m: m.group(1) + label + "\n" + m.group(1) + after[0] + m.group(2), text, count=1)
            has[goal] = (label, rest)
    return text


WORDS = dict(pre="requires", taken="true", left="false", inv="invariant", kept="auto", last="new", typed="type_inv", came="branch")


def renamed(fields, it, head=None):
    """Fields behind something whose place is not known."""
    for k, f in enumerate(fields):
        if f == "before":
            continue
        if norm(f) in it.any and f not in GENERIC and (fields[k - 1] if k else head) != "args":
            fields[k] = it.any[norm(f)]
        elif f in WORDS:
            fields[k] = WORDS[f]
        break
    return fields


def places_of(text, aliases):
    """The place of the first argument, and of the result, of each lemma of the file."""
    found = {}
    for m in HEAD.finditer(text):
        rest = text[m.end() : m.end() + 400]
        a = re.match(rf"\(?(?:[^\s():]+ : )?({ALIAS})\.([^\s()]+)", rest)
        if a and not a.group(2).startswith(("Need-", "invariant-", "decreases-")):
            b = re.match(rf"({ALIAS})\.[^\s()]+[^→\n]*→ ({ALIAS})\.([^\s()]+)", rest)
            found[m.group(1)] = (norm(a.group(2)), norm(b.group(3)) if b else None)
    return found


def block(text, it, labels, own, function, path, said, helpers):
    head = HEAD.match(text)
    name = head.group(1)
    all_of, it, root, place = it, None, None, None
    first = re.search(rf"^{re.escape(name)}((?: [^\s=(){{}}]+)*) =", text[head.end() :], re.M)
    names = first.group(1).split() if first else []
    need = re.match(rf"(?:\([^()]*\) → )*({ALIAS})\.Need-([^\s()]+)", text[head.end() :])
    if need:
        it = all_of[need.group(1)]
        root = "c" if "c" in names else names[0] if names else None
        place = it.at.get(norm(need.group(2)))
    else:
        m = re.search(rf"\(([^\s():]+) : ({ALIAS})\.([^\s()]+)[^()]*\)", text)
        if m:
            it = all_of[m.group(2)]
            if norm(m.group(3)) in it.places:
                root, place = m.group(1), norm(m.group(3))
        else:
            m = re.match(rf"({ALIAS})\.([^\s()]+)", text[head.end() :])
            if m:
                it = all_of[m.group(1)]
                if norm(m.group(2)) in it.places and names:
                    root, place = names[0], norm(m.group(2))
    if it is None:
        it = next(iter(all_of.values())) if all_of else Function({})
    if place is None:
        root = None
    listed = re.search(rf"\(({ALIAS})\.spec\n", text)
    if listed:
        # answers that stand in the list itself
        it = all_of[listed.group(1)]
        entries = re.split(r"\n(?=    [^ ])", text[listed.end() :])
        ats = list(it.at.values())
        first_goal = len(it.loops)
        for k, entry in enumerate(entries):
            if entry.lstrip().startswith("(λ c") and 0 <= k - first_goal < len(ats):
                entries[k] = turned(entry, it, all_of, "c", ats[k - first_goal], labels, own, function, path, said, helpers, name)
            else:
                entries[k] = turned(entry, it, all_of, None, None, labels, own, function, path, said, helpers, name)
        return turned(text[: listed.end()], it, all_of, None, None, labels, own, function, path, said, helpers, name) + "\n".join(entries)
    return turned(text, it, all_of, root, place, labels, own, function, path, said, helpers, name)


def turned(text, it, all_of, root, place, labels, own, function, path, said, helpers, name):
    # the variables that a `let` binds to a place above
    above = {root: []} if root else {}
    bare = {}
    for m in re.finditer(rf"let ([^\s:]+) = (?:([^\s().]+) )?([^\s(){{}}.;,]+)((?:\.before)*) in\b", text):
        if m.group(3) in above and (m.group(2) is None or helpers.get(m.group(2), (None, None))[1]):
            above[m.group(1)] = above[m.group(3)] + m.group(4).split(".")[1:]
            if m.group(2):
                above[m.group(1)] = ["start"]
    out, at = [], 0
    for m in re.finditer(r'(?<![^\s(){};,"«»])([^\s(){}.;,@"«»]+)((?:\.[^\s(){}.;,@"«»]+)*)|(?<=\))((?:\.[^\s(){}.;,@"«»]+)+)', text):
        line = text[text.rfind("\n", 0, m.start()) + 1 : m.start()]
        if re.match(r"\s*(pub )?use ", line) or re.search(r"(^|\s)--(\s|$)", line):
            continue
        if line.endswith("let "):
            continue
        if m.group(3):
            new = "." + ".".join(renamed(m.group(3)[1:].split("."), it))
        else:
            word, fields = m.group(1), [f for f in m.group(2).split(".") if f]
            new = m.group(0)
            bound = re.search(r"let (\S+) = $", text[: m.start()])
            k = 0
            while k < len(fields) and fields[k] == "before":
                k += 1
            if word in all_of and fields:
                its = all_of[word]
                w = fields[0]
                if w.startswith("Need-"):
                    x = its.needs.get(norm(w[5:]))
                    if x is None:
                        said.append(f"{path}: no goal {w}")
                    else:
                        fields[0] = "Need-" + x
                elif norm(w) in its.loops:
                    fields[0] = its.loops[norm(w)]
                elif norm(w) in its.places:
                    fields[0] = its.places[norm(w)]
                elif w not in ("close", "spec", "Claims", "the-claims"):
                    said.append(f"{path}: no place {w}")
                new = ".".join([word] + fields)
            elif word in above and k < len(fields):
                changed, _ = it.path(place, fields[k:])
                if changed == fields[k:] and fields[k] in WORDS and norm(fields[k]) not in it.any:
                    changed = [WORDS[fields[k]]] + fields[k + 1 :]
                new = ".".join([root] + changed)
                if bound:
                    bare[bound.group(1)] = changed[0] if len(changed) == 1 else ""
            elif word in above:
                before = re.search(r"([^\s(){};,.]+) $", text[: m.start()])
                target = helpers.get(before.group(1), (None, None))[0] if before else None
                if target in list(it.above(place)):
                    new = ".".join([root] + ["before"] * it.count(place, target))
                elif above[word] == ["start"]:
                    pass
                else:
                    changed, _ = it.path(place, above[word] + fields)
                    if changed is not None:
                        new = ".".join([root] + changed)
                    if bound:
                        new = m.group(0)
            elif word in bare:
                new = ".".join([word] + it.by_name(bare[word], [WORDS.get(fields[0], fields[0])] + fields[1:] if fields else fields))
            elif fields:
                new = ".".join([word] + renamed(fields, it))
            if not fields and word in labels:
                new = labels[word]
            elif not fields and word in own and ("-" in word or re.search(r"[a-z][A-Z]", word)) and not word.endswith("-spec"):
                new = re.sub(r"([a-z0-9])([A-Z])", lambda x: x.group(1) + "_" + x.group(2).lower(), word.replace("-", "_"))
            if word in all_of:
                new = word.replace("-", "_") + new[len(word) :]
            if word.replace("-", "_") == function + "_spec" and not fields:
                new = function + "_spec"
        if new != m.group(0):
            out.append(text[at : m.start()] + new)
            at = m.end()
    text = "".join(out) + text[at:]
    # a `let` that nothing reads any more
    for word in reversed([w for w in above if w != root]):
        uses = re.findall(rf'(?<![^\s(){{}};,"«»]){re.escape(word)}(?![^\s(){{}}.;,@"«»])', text)
        if len(uses) == 1:
            text = re.sub(rf"\n?[ ]*let {re.escape(word)} = [^\n]*? in(?=\n)", "", text, count=1) if re.search(rf"let {re.escape(word)} = [^\n]*? in\n", text) else re.sub(rf"let {re.escape(word)} = [^\n()]*? in ", "", text, count=1)
    return text


def main():
    crate, names = sys.argv[1], sys.argv[2]
    with open(names, encoding="utf-8") as f:
        d = json.load(f)
    name = os.path.basename(os.path.abspath(crate))
    said = []
    top = os.path.join(crate, "proofs")
    for folder, below, files in os.walk(top):
        if "Proof.antt" not in files:
            continue
        steps = os.path.relpath(folder, top).split(os.sep)
        convert(os.path.join(folder, "Proof.antt"), d, name, steps[-1], said)
    print("\n".join(said))


if __name__ == "__main__":
    main()
