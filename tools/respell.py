#!/usr/bin/env python3
"""Brings the repository's own definitions and lemmas to today's spelling: words in snake case, types in camel case.

usage: python3 tools/respell.py [--look] [FOLDER]     once, after the toolchain's own script; --look changes nothing and lists names that fall together

A name that a library gave, or that the check makes for a goal, a step or a loop, keeps its spelling.
"""

import collections
import os
import re
import sys

NAME = re.compile(r"[^\W\d][\w'₀-₉]*(?:-[\w'₀-₉≡≤≢]+)*")
# The library's names that the toolchain's script left between two spellings, and ours that hold such a name.
HALF = {"bit-xor": "bit_xor", "bitXor": "bit_xor", "getD-listed": "get_or_listed", "getD-zeros": "get_or_zeros"}
MADE = ("Answers.antt", "Invariants.antt", "Proof.antt")
USE = re.compile(r"use ([\w.·]+)\.\{([^}]*)\}")


def files(root):
    for folder, dirs, names in os.walk(os.path.join(root, "crates")):
        dirs[:] = sorted(d for d in dirs if d != "out")
        for name in sorted(names):
            if name.endswith((".antt", ".rt")):
                yield os.path.join(folder, name)


def pieces(text, antt):
    """The text in pieces, each with whether it is code: comments and strings are not."""
    mark = r"(?:(?<=\s)|^)--(?=\s|$).*" if antt else r"//.*"
    at = 0
    for m in re.finditer(r'"(?:[^"\\\n]|\\.)*"|' + mark, text, re.M):
        yield text[at : m.start()], True
        yield m.group(0), False
        at = m.end()
    yield text[at:], True


def code(text, antt):
    return "".join(p if is_code else " " for p, is_code in pieces(text, antt))


def dashed(name):
    return "-" in name


class Names:
    def __init__(self, root):
        self.crates = set(os.listdir(os.path.join(root, "crates")))
        self.texts = {}
        for path in files(root):
            with open(path, encoding="utf-8") as f:
                self.texts[path] = f.read()
        self.types = set()
        self.own = set()
        for path, text in self.texts.items():
            self.read(path, code(text, path.endswith(".antt")))

    def libraries(self, text):
        """The names that a file takes from a library."""
        got = set()
        for m in USE.finditer(text):
            words = m.group(1).split(".")
            if words[0] == "Rattle" and len(words) > 1 and words[1] in self.crates:
                continue
            got |= set(NAME.findall(m.group(2)))
        return got

    def goals(self, text):
        """The names of goals and rules that a file answers."""
        return {n for m in re.finditer(r"\b(?:goal|rules|given)\.(" + NAME.pattern + ")", text) for n in [m.group(1)]}

    def read(self, path, text):
        taken = self.libraries(text)
        if path.endswith(MADE):
            taken |= self.goals(text)
            found = {n for m in re.finditer(r"(?m)^\s*(?:pub |abbrev pub |abbrev |unfoldable pub |unfoldable )*(" + NAME.pattern + r") :", text) for n in [m.group(1)]}
        else:
            found = set(NAME.findall(text))
        self.own |= {n for n in found if dashed(n) and n not in taken}
        for m in re.finditer(r"(?m)^\s*(?:pub |abbrev |unfoldable |record |data )*(" + NAME.pattern + r")\b[^\n]*:[^\n]*\bType 0\s*(?:where)?$", text):
            self.types.add(m.group(1))

    def spelled(self, name):
        if name in self.types and name[0].isupper():
            return "".join(w[0].upper() + w[1:] for w in re.split(r"[-_]", name))
        return name.replace("-", "_")

    def turned(self, path):
        text = self.texts[path]
        antt = path.endswith(".antt")
        plain = code(text, antt)
        keep = self.libraries(plain)
        made = path.endswith(MADE)
        if made:
            keep |= self.goals(plain)

        def one(m):
            name = m.group(0)
            if name in HALF:
                return HALF[name]
            if not dashed(name) or name in keep or name not in self.own:
                return name
            return self.spelled(name)

        return "".join(NAME.sub(one, p) if is_code else p for p, is_code in pieces(text, antt))


def main():
    words = [w for w in sys.argv[1:] if w != "--look"]
    names = Names(words[0] if words else ".")
    if "--look" in sys.argv:
        to = collections.defaultdict(set)
        for n in names.own:
            to[names.spelled(n)].add(n)
        for new, olds in sorted(to.items()):
            if len(olds) > 1:
                print("together:", new, sorted(olds))
        for path in names.texts:
            antt = path.endswith(".antt")
            here = set(NAME.findall(code(names.texts[path], antt)))
            for n in sorted(here):
                if dashed(n) and n in names.own and names.spelled(n) in here:
                    print("there already:", names.spelled(n), path)
        print("capitals that are no types:", sorted(n for n in names.own if n[0].isupper() and n not in names.types))
        return
    for path in names.texts:
        text = names.turned(path)
        if text != names.texts[path]:
            with open(path, "w", encoding="utf-8") as f:
                f.write(text)


main()
