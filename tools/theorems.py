#!/usr/bin/env python3
"""Lists the public lemmas of proofs/ that are gone or say something else than in another checkout.

usage: python3 tools/theorems.py OLD     at the top of the repository; OLD is a folder with an older commit

By text alone: a reader judges whether a changed statement says less. NAMED marks what a paper of the older checkout names.
"""

import glob
import os
import re
import sys

LEMMA = re.compile(
    r"(?m)^( *)((?:unfoldable |abbrev )?pub (?:record |data )?)([^\s:()]+)( \([^\n]*\))? : "
    r"([^\n]*(?:\n\1 {2,}(?![^\n]* = )[→≡×∷:(][^\n]*)*)"
)
MADE = ("Answers.antt", "Invariants.antt", "Links.antt", "Lib.antt")


def lemmas(root):
    """Statements by crate, file and name."""
    found = {}
    for path in glob.glob(root + "/crates/*/proofs/**/*.antt", recursive=True):
        if path.endswith(MADE):
            continue
        crate = os.path.relpath(path, root + "/crates").split("/")[0]
        with open(path, encoding="utf-8") as f:
            for m in LEMMA.finditer(f.read()):
                says = re.sub(r"\s+", " ", (m.group(4) or "") + " : " + m.group(5)).strip()
                found[crate, os.path.basename(path), m.group(3)] = says
    return found


def main():
    old, new = lemmas(sys.argv[1]), lemmas(".")
    papers = glob.glob(sys.argv[1] + "/docs/*.md") + glob.glob(sys.argv[1] + "/*.md")
    named = set()
    for path in papers:
        with open(path, encoding="utf-8") as f:
            named.update(re.findall(r"`([^`\s]+)`", f.read()))
    places = {}
    for crate, file, name in new:
        places.setdefault(name, "%s/%s" % (crate, file))
    for key in sorted(old):
        mark = " NAMED" if key[2] in named else ""
        if key not in new:
            print("gone%s: %s/%s %s%s" % (mark, *key, ", now in " + places[key[2]] if key[2] in places else ""))
        elif old[key] != new[key]:
            print("changed%s: %s/%s %s\n  - %s\n  + %s" % (mark, *key, old[key], new[key]))


main()
