#!/usr/bin/env python3
"""Brings this repository's own definitions and lemmas to the spelling of today's Rattle.

usage: python3 tools/respell.py [--check]     at the top of the repository, once, after port.py

    splitBit, boardIn            ->  split_bit, board_in            (definitions, also in clauses and comments)
    dot-last, key-few            ->  dot_last, key_few              (lemmas, fields, constructors, local names)
    length-drop                  ->  length-drop                    (a dash stays between the names of two definitions)

A name's new spelling depends on the name alone, so that it is the same in each file. What stays: functions, types and
constants of src/, what a file imports from Rattle's library, and the names that Rattle makes for proofs (after a dot, unless
a record of this repository has a field of that name). It prints each pair of names of one file that would fall together, and
then writes nothing.
"""

import glob
import os
import re
import sys

W = r"[^\s(){}.;,@\"«»\[\]\\]+"
TOKEN = re.compile(r"--[^\n]*|//[^\n]*|\"(?:[^\"\\]|\\.)*\"|«[^»]*»|" + W)
USE = re.compile(r"(?m)^(\s*)((?:pub )?(?:ghost )?use )([^\s;{]+?)(?:\.\{([^}]*)\})?(?: as (\S+?))?(;?)$")
DECLARED = re.compile(r"^\s*(?:(?:pub|abbrev|unfoldable|data|record)\s+)*(%s)((?:\s+\{[^}]*\}|\s+\([^)]*\)|\s+[\w']+)*)\s+:\s" % W)
# Modules of a crate that Rattle makes.
MADE = re.compile(r"\.(declared|contracts)(\.|$)|\.(Statement|Tie|Lts|Goals|Given|Reads|Code|Met)$")
# Lemmas that would take the name of the definition that they are about.
LEMMAS = "board-size fresh-tag fresh-group empty-board half-bytes is-less is-engine tier2-by-name panel-bytes nan-bits is-same in-tier".split()
LEMMAS = {it: it.replace("-", "_") + "_lem" for it in LEMMAS}
# The same, of those that port.py has respelled.
LEMMAS.update({it: it + "_lem" for it in "goes_on is_same by_name each_at".split()})
# Functions of Rattle's library that lemmas here are about.
LIBRARY = set("length take drop set map get_or append filter replicate insert min max cond".split())


def read(path):
    with open(path, encoding="utf-8") as f:
        return f.read()


def sources():
    out = []
    for end in ("specs/**/*.antt", "proofs/**/*.antt", "src/**/*.rt"):
        out += glob.glob("crates/*/" + end, recursive=True)
    return sorted(p for p in out if "/out/" not in p)


def is_own(module, crates):
    m = re.match(r"Rattle\.(\w+)\.(specs|proofs)(\.|$)", module)
    return bool(m and m[1] in crates and not MADE.search(module))


def imports(text, crates):
    """The names that a file has from elsewhere, but for this repository's own."""
    out = set()
    for m in USE.finditer(text):
        if is_own(m[3], crates):
            continue
        for it in (m[4] or m[3].rsplit(".", 1)[-1]).split(","):
            out.update(x for x in it.strip().split(" as ") if x)
        if m[5]:
            out.add(m[5])
    return out


def aliases(text, crates):
    """The names under which a file has whole modules of this repository's own."""
    own = [m for m in USE.finditer(text) if is_own(m[3], crates) and not m[4]]
    return {m[5] or m[3].rsplit(".", 1)[-1] for m in own}


def snake(word):
    return re.sub(r"(?<=[a-z0-9])[A-Z]", lambda m: "_" + m[0].lower(), word)


def new(name, known):
    """The new spelling of a name of this repository's own."""
    if not re.match(r"[a-zα-ωµ]", name):
        parts = name.split("-")
        if len(parts) > 1 and all(re.fullmatch(r"[\w']+", p) for p in parts):
            return parts[0] + "".join(("-" if parts[0] in known and i == 0 else "_") + snake(p) for i, p in enumerate(parts[1:]))
        return name
    parts = [snake(p) if re.match(r"[a-z]", p) else p for p in name.split("-")]
    if not all(parts):
        return name
    out = parts[0]
    for a, b in zip(parts, parts[1:]):
        out += ("-" if a in known and b in known else "_") + b
    return out


def main(argv):
    crates = set(os.listdir("crates"))
    paths = sources()
    texts = {p: read(p) for p in paths}
    definitions, fields, declared = set(), set(), set()
    for p, t in texts.items():
        if not p.endswith(".antt"):
            continue
        in_record = False
        for line in t.split("\n"):
            if re.match(r"\s*(pub )?(record|data)\b.*where\s*$", line):
                in_record = True
            elif line[:1].strip() and not line.startswith("--"):
                in_record = False
            m = DECLARED.match(line)
            if not m or line.lstrip().startswith(("--", "use ", "let ", "in ")):
                continue
            if in_record and line[:1].isspace():
                fields.update(re.sub(r"^pub ", "", line.strip()).split(" : ")[0].split())
            else:
                declared.add(m[1])
                if "/specs/" in p and not line[:1].isspace() and " tie." not in line:
                    definitions.add(m[1])
    known = LIBRARY | {snake(d) for d in definitions if "-" not in d}
    fields = {f for f in fields if re.fullmatch(r"[\w'-]+", f)}
    bad, outs = [], {}
    for p, t in texts.items():
        foreign = imports(t, crates)
        modules = aliases(t, crates)
        is_code = p.endswith(".rt")
        seen = {}

        def turned(word, told):
            if word in foreign or (is_code and not re.match(r"[a-z]+[A-Z]|[a-z]\w*[a-z0-9][A-Z]", word) and word not in declared):
                out = word
            elif not re.fullmatch(r"[\w'₀-₉-]+", word) or re.fullmatch(r"[\d_-]+", word):
                out = word
            elif word in LEMMAS and not is_code:
                out = LEMMAS[word]
            else:
                out = new(word, known)
            if told:
                seen.setdefault(out, set()).add(word)
            return out

        def inside(comment):
            one = lambda m: new(m[0], known) if m[0] in declared and m[0] not in foreign and re.search(r"[a-z0-9][A-Z]|-", m[0]) else m[0]
            return re.sub(r"(?<=`)[^`]+(?=`)", lambda q: re.sub(r"[\w'-]+", one, q[0]), comment) if "`" in comment else re.sub(r"\b[a-z]\w*[a-z0-9][A-Z]\w*", one, comment)

        def piece(text):
            buf, pos, prev = [], 0, ""
            for m in TOKEN.finditer(text):
                gap, word = text[pos : m.start()], m[0]
                pos = m.end()
                if word.startswith(("--", "//")):
                    word = inside(word)
                elif not word.startswith(('"', "«")):
                    after_dot = gap.endswith(".") and not gap.endswith("..")
                    of_module = gap == "." and prev in modules
                    prev = m[0]
                    if of_module:
                        word = turned(word, False)
                    elif after_dot:
                        word = new(word, known) if word in fields else word
                    else:
                        word = turned(word, True)
                buf += [gap, word]
            return "".join(buf + [text[pos:]])

        def use(m):
            if not is_own(m[3], crates):
                return m[0]
            if not m[4]:
                return "%s%s%s%s%s" % (m[1], m[2], m[3], " as " + turned(m[5], False) if m[5] else "", m[6])
            items = re.sub(r"[^\s,]+", lambda w: w[0] if w[0] == "as" else turned(w[0], True), m[4])
            return "%s%s%s.{%s}%s%s" % (m[1], m[2], m[3], items, " as " + m[5] if m[5] else "", m[6])

        out, pos = [], 0
        for m in USE.finditer(t):
            out += [piece(t[pos : m.start()]), use(m)]
            pos = m.end()
        outs[p] = "".join(out + [piece(t[pos:])])
        bad += ["%s: %s fall together as %s" % (p, ", ".join(sorted(w)), n) for n, w in seen.items() if len(w) > 1]
        bad += ["%s: %s falls together with what is imported" % (p, n) for n, w in seen.items() if n in foreign and w != {n}]
    if bad:
        print("\n".join(bad))
    if bad and "--force" not in argv or "--check" in argv:
        return 1
    # Rattle makes a module specs.contracts of its own.
    old, now = "crates/turns/specs/Contracts.antt", "crates/turns/specs/EntryContracts.antt"
    if os.path.exists(old):
        os.rename(old, now)
        outs[now], texts[now] = outs.pop(old), ""
        paths[paths.index(old)] = now
        outs = {p: t.replace("Rattle.turns.specs.Contracts.", "Rattle.turns.specs.EntryContracts.") for p, t in outs.items()}
        lib = "crates/turns/specs/Lib.antt"
        outs[lib] = outs[lib].replace("pub mod Contracts\n", "pub mod EntryContracts\n")
    for p, t in outs.items():
        if t != texts[p]:
            with open(p, "w", encoding="utf-8") as f:
                f.write(t)
    print("respell: %d files changed" % sum(outs[p] != texts[p] for p in paths))
    return 0


if __name__ == "__main__":
    raise SystemExit(main(sys.argv[1:]))
