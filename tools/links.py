#!/usr/bin/env python3
"""Writes proofs/Links.antt of each crate whose code the entry points reach, and the part of crates/possible/proofs/World.antt that
joins them, from what the last checks made.

usage: python3 tools/links.py     at the top of the repository, after `rt check` in crates/capi_c

A crate's Links hand out its table, what it asks of the crates below it, and a link for each of its functions that another crate
calls. Run it when a function begins or ceases to be called from another crate. A crate that begins to call std has no link to give:
it names the function here.
"""

import glob
import json

ROOTS = ["calls::wz_set_tier", "calls::wz_load", "calls::wz_write", "calls::wz_stop", "calls::wz_step", "creation::wz_create"]
HEAD = """-- For a link: the table of this crate's functions, what it asks of the crates below it, and that each function that another crate calls is found with its own code and all that it calls.
-- `possible` puts the tables together and runs the entry points.
use mathlib.Core.Bool.{true}
use prog.Linked.{Tree, World, Holds, in_world}
use prog.LinkedThreads.{HasT}
use prog.Wired.{Code}
use Rattle.%s.proofs.TheLink as link
"""
BODY = """
abbrev pub table : Tree
table = link.table

abbrev pub Below : World → Type 0
Below W = link.Below W

abbrev pub Linked : Code → Type 0
Linked c = (W : World) → Holds W "%s" table → Below W → HasT (in_world W) true c
"""


WORLD = "crates/possible/proofs/World.antt"
BEGIN = "-- What each crate asks of those below it, lowest first, and then what it gives to those above.\n"
END = "-- ---- an environment of this look-up\n"


def name_of(it):
    return "_".join(it.split("::")[1:])


def joined(crate, below):
    """What World.antt has for one crate."""
    text = "below_%s : %s.Below world\nbelow_%s =" % (crate, crate, crate)
    if not below:
        text += " tt\n"
    else:
        text += "\n"
        line, more = "    ", ""
        for part in ["in_%s %s.%s" % (it.split("::")[0], it.split("::")[0], name_of(it)) for it in below] + ["tt"]:
            if len(line) + len(more) + len(part) > 150:
                text += line.rstrip() + "\n"
                line, more = "    ", "& "
            line += more + part
            more = " & "
        text += line + "\n"
    return text + """
in_%s : {T : World → Type 0} → ((W : World) → Holds W "%s" %s.table → %s.Below W → T W) → T world
unfolding world
in_%s f = f world refl below_%s

""" % (crate, crate, crate, crate, crate, crate)


def main():
    units, crate_of, unit_of = {}, {}, {}
    for path in glob.glob("crates/*/out/rlib/*.rlib/lang/antt/made.json"):
        lines = open(path, encoding="utf-8").read().split("\n")
        for a, b in zip(lines, lines[1:]):
            if a == '"proofs/TheLink"':
                link = json.loads(b)["LinkOfCrate"]
                units[link["krate"]] = link["units"]
                for unit, module in link["units"]:
                    for it in unit["entries"]:
                        crate_of[it], unit_of[it] = link["krate"], module.split(".")[-1]

    def outside(crate):
        return sorted({it for unit, _ in units[crate] for it in unit["below"] if crate_of.get(it) != crate})

    order = []

    def visit(crate):
        if crate not in order:
            for it in outside(crate):
                if it not in crate_of:
                    raise SystemExit("%s calls %s, which no crate of this repository has" % (crate, it))
                visit(crate_of[it])
            order.append(crate)

    visit("capi")
    called = {crate: set() for crate in order}
    for crate in order:
        for it in outside(crate):
            called[crate_of[it]].add(it)
    called["capi"].update("capi::" + it for it in ROOTS)
    for crate in order:
        text = HEAD % crate
        text += "".join("use Rattle.%s.proofs.TheLinks.%s\n" % (crate, unit_of[it]) for it in sorted(called[crate]))
        text += BODY % crate
        for it in sorted(called[crate]):
            name = name_of(it)
            text += "\npub %s : Linked %s.code\n%s = link.linked-%s\n" % (name, unit_of[it], name, it)
        with open("crates/%s/proofs/Links.antt" % crate, "w", encoding="utf-8") as f:
            f.write(text)
    text = open(WORLD, encoding="utf-8").read()
    before, after = text[:text.index(BEGIN)], text[text.index(END):]
    text = before + BEGIN + "".join(joined(crate, outside(crate)) for crate in order) + after
    with open(WORLD, "w", encoding="utf-8") as f:
        f.write(text)
    print("links: %d crates" % len(order))


main()
