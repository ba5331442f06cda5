#!/usr/bin/env python3
"""Counts the places in src/ that docs/DESIGN-PASS.md speaks of: python3 tools/places.py [COMMIT] [POINT] lists those of a point."""
import collections
import re
import subprocess
import sys

COMMIT = sys.argv[1] if len(sys.argv) > 1 else "HEAD"
SHOWN = sys.argv[2] if len(sys.argv) > 2 else None


def git(*words):
    return subprocess.run(["git", *words], check=True, capture_output=True, text=True).stdout


def sources():
    names = git("ls-tree", "-r", "--name-only", COMMIT, "--", "crates").splitlines()
    for name in names:
        if "/src/" in name and name.endswith(".rt"):
            yield name, git("show", f"{COMMIT}:{name}")


TEXTS = dict(sources())

# What stands for each point in a line of code.
LINES = {
    "1 flags beside a value": r"^\s+(pub )?\w+: bool,$",
    "1 answers that say nothing": r"^(pub )?fn \w+\(\) -> u8$",
    "1 numbers and texts for kinds": r"^\s+[0-9]{2,} => |^\s+2 => |^const LETTER_|^pub const NOT_UNDERSTOOD|^\s+(pub )?ring: u32,|length = ROOM",
    "3 loops": r"^\s*(for|while|loop)\b",
    "3 loops that count or index by hand": r"^\s*(for \w+ in [^{]*\.\.|while \w+ [<>])",
    "4 equality, printing and conversion by hand": r"^\s*(pub )?fn (same\w*|holds_\w+|mark|word|reason|letter|print_(codes|degrees|standing|line|answers))\b",
    "6 a length or a degree beside what it is of": r"^\s+(pub )?(length|numbers|codes|bytes|at|\w+_degrees): (usize|\[usize)",
    "7 tables and switches of what to do": r"^static \w+: \[|words == b|= match form \{",
}


def hits(pattern):
    rule = re.compile(pattern)
    return [f"{name}:{i}: {line.strip()}" for name, text in TEXTS.items() for i, line in enumerate(text.splitlines(), 1) if rule.search(line)]


def functions():
    """Each function of a crate: its file, name, parameters and the facts that it requires."""
    for name, text in TEXTS.items():
        for found in re.finditer(r"^\s*(?:pub(?:\([a-z]+\))? )?fn (\w+)", text, re.M):
            at = text.index("(", found.end())
            depth, end = 0, at
            while True:
                depth += {"(": 1, ")": -1}.get(text[end], 0)
                end += 1
                if depth == 0:
                    break
            rest = text[end:]
            body = re.search(r"\n\s*\{\n|\{\}\n|;\n| \{\n", rest)
            clauses = rest[: body.start()] if body else ""
            facts = {re.sub(r"\s+", " ", fact) for fact in re.findall(r"requires(?: \w+)? \{ (.*) \}", clauses)}
            parts = [re.sub(r"\s+", " ", part.strip()) for part in re.split(r",(?![^(<\[]*[)>\]])", text[at + 1 : end - 1])]
            params = sorted({part for part in parts if part and not re.fullmatch(r"(&(mut )?)?(mut )?self", part)})
            yield name, found.group(1), params, facts


def together():
    facts, pairs, files = collections.defaultdict(set), collections.defaultdict(set), collections.defaultdict(set)
    for name, function, params, required in functions():
        crate = name.split("/")[1]
        for fact in required:
            facts[crate, fact].add(f"{name}:{function}")
        for i, one in enumerate(params):
            for other in params[i + 1 :]:
                pairs[crate, one, other].add(f"{name}:{function}")
    for name, text in TEXTS.items():
        for kind, what in re.findall(r"^(?:pub(?:\([a-z]+\))? )?(fn|struct|enum|const|static) (\w+)", text, re.M):
            files[kind, what].add(name)
    return (
        [f"{len(where)} contracts of {crate}: {fact}" for (crate, fact), where in sorted(facts.items()) if len(where) > 2],
        [f"{len(where)} functions of {crate}: {one}; {other}" for (crate, one, other), where in sorted(pairs.items()) if len(where) > 2],
        [f"{kind} {what}: {', '.join(sorted(where))}" for (kind, what), where in sorted(files.items()) if len(where) > 1 and what != "main"],
    )


found = {what: hits(pattern) for what, pattern in LINES.items()}
facts, pairs, twins = together()
found["2 names that stand in several files, outside impl blocks"] = twins
found["5 facts in three contracts or more"] = facts
found["5 pairs of parameters in three functions or more"] = pairs
proofs = [name for name in git("ls-tree", "-r", "--name-only", COMMIT, "--", "crates").splitlines() if "/proofs/" in name]
found["8 files of answers and invariants"] = [name for name in proofs if name.endswith(("/Answers.antt", "/Invariants.antt"))]
for what in sorted(found):
    if SHOWN is None or what.startswith(SHOWN):
        print(f"{what}: {len(found[what])}")
        if SHOWN is not None:
            print("\n".join("    " + place for place in found[what]))
