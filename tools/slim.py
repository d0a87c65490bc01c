#!/usr/bin/env python3
"""Takes answers out of a crate's proofs that the check finds by itself.

usage: python3 tools/slim.py CRATE [FUNCTION ..]     at the top of the repository; a function as module::name

Each answer of proofs/*/Answers.antt (of all functions, or of those named) is taken out, the crate is checked, and what the check
asks for is put back, until it asks for nothing. A file that is left without an answer goes. Read the diff: a comment at the head
of a file must still be true, and an edit that was refused by an answer must still be refused (`rt must-fail CRATE`).
"""

import os
import re
import subprocess
import sys

START = re.compile(r"(?m)^(?=(?:-- [^\n]*\n)*pub [^\s:]+ : goal\.)")
NAME = re.compile(r"(?m)^pub ([^\s:]+) : goal\.")


def split(text):
    """The head of a file, and its answers, each with the comment above it."""
    parts = START.split(text)
    head, answers = parts[0], []
    for part in parts[1:]:
        if answers and not NAME.search(answers[-1]):
            answers[-1] += part
        else:
            answers.append(part)
    return head, answers


def used(name, text):
    """Whether an imported name stands in the text; of an operator, each of its parts."""
    for part in name.split(" as ")[-1].replace("◌", " ").split():
        word = re.escape(part)
        if re.match(r"[\w-]", part):
            word = r"(?<![\w-])" + word + r"(?![\w-])"
        if not re.search(word, text):
            return False
    return True


def without_imports(head, body):
    """The head without the imports that neither its own lemmas nor the answers use."""
    text = body + "\n".join(line for line in head.split("\n") if not line.startswith("use "))
    lines = []
    for line in head.split("\n"):
        m = re.match(r"use ([^\s{]+)\.\{(.*)\}$", line)
        if m:
            kept = [n.strip() for n in m.group(2).split(",") if used(n.strip(), text)]
            if not kept:
                continue
            line = "use %s.{%s}" % (m.group(1), ", ".join(kept))
        lines.append(line)
    return "\n".join(lines)


class Answers:
    def __init__(self, path):
        self.path = path
        with open(path, encoding="utf-8") as f:
            self.head, self.answers = split(f.read())
        self.out = {NAME.search(a).group(1) for a in self.answers}

    def write(self):
        kept = "".join(a for a in self.answers if NAME.search(a).group(1) not in self.out)
        if kept:
            with open(self.path, "w", encoding="utf-8") as f:
                f.write(without_imports(self.head, kept) + kept.rstrip() + "\n")
        elif os.path.exists(self.path):
            os.remove(self.path)


def main():
    os.chdir(os.path.join("crates", sys.argv[1]))
    named = [f.replace("::", "/") for f in sys.argv[2:]]
    files = {}
    for folder, _, inside in os.walk("proofs"):
        function = os.path.relpath(folder, "proofs")
        if "Answers.antt" in inside and (not named or function in named):
            files[function] = Answers(os.path.join(folder, "Answers.antt"))
    asked = len(files)
    while asked:
        for file in files.values():
            file.write()
        said = subprocess.run(["rt", "check", "--allow-holes"], capture_output=True, text=True, check=False)
        asked = 0
        for line in (said.stdout + said.stderr).split("\n"):
            m = re.search(r"\./proofs/(.+?)/Answers\.antt", line)
            if m and m.group(1) in files:
                out = files[m.group(1)].out
                for name in re.findall(r"`([^`\s]+)`", line):
                    for form in (name, re.sub(r"-clause-.*", "", name)):
                        if form in out:
                            out.discard(form)
                            asked += 1
        print("put back: %d" % asked)
    print("taken out: %d" % sum(len(file.out) for file in files.values()))


main()
