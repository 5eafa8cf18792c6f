#!/usr/bin/env python3
"""Respells the names of this repository's own definitions and lemmas: words in snake case, facts and types in camel case.

usage: python3 tools/respell.py        at the top of the repository, once, after the toolchain's own port script

A name counts as ours if a file of specs/ or proofs/ declares it and no statement that the check generates gives its type.
Rewritten are the .antt files, the .rt files outside of text in quotes, the must-fail edits, and what stands in backticks in
README.md and docs/. Names without a dash stay, but for the facts in FACTS.
"""

import os
import re
import sys

NAME = r"[^\s:(){};,.∷`\"]+"
FACTS = {"fails": "Fails"}
WORDS = r"(?:abbrev |unfoldable |pub )*"
KIND = re.compile(rf"^(\s*){WORDS}(data|record|ruleset)\s+({NAME})")
SIGNATURE = re.compile(rf"^(\s*){WORDS}({NAME})((?:\s+[({{].*?[)}}])*)\s*:\s*(.*)$")
GOES_ON = re.compile(r"^\s+(→|×|≡)")
STEP = re.compile(r"(?<![\w'.])c\.$")


def files(root, *endings):
    for folder, dirs, names in os.walk(os.path.join(root, "crates")):
        dirs[:] = sorted(d for d in dirs if d != "out")
        for name in sorted(names):
            if name.endswith(endings):
                yield os.path.join(folder, name)


def read(path):
    with open(path, encoding="utf-8") as f:
        return f.read()


def declared(root):
    """Each name that an .antt file declares, with the types it is given; a data or record has the type 'Type 0'."""
    found = {}
    for path in files(root, ".antt"):
        lines = [line.split("--")[0] for line in read(path).split("\n")]
        for i, line in enumerate(lines):
            kind = KIND.match(line)
            if kind:
                found.setdefault(kind.group(3), []).append("Type 0" if kind.group(2) != "ruleset" else "")
                continue
            match = SIGNATURE.match(line)
            if not match or match.group(2) in ("let", "in", "elim", "λ", "record"):
                continue
            text = match.group(4)
            j = i + 1
            while j < len(lines) and (not text.strip() or GOES_ON.match(lines[j])):
                text += " " + lines[j].strip()
                j += 1
            found.setdefault(match.group(2), []).append(text.strip())
    return {name: types for name, types in found.items() if not all(t.startswith("goal.") for t in types)}


def respelled(name, types):
    is_fact = any(t.endswith("Type 0") for t in types)
    if name in FACTS and is_fact:
        return FACTS[name]
    if "-" not in name:
        return name
    words = [w for w in name.split("-") if w]
    if is_fact or name[0].isupper():
        return "".join(w[0].upper() + w[1:] for w in words)
    return "_".join(words)


def source_names(root):
    """The names of functions in src/, which steps of a proof are named by."""
    found = set()
    for path in files(root, ".rt"):
        found.update(re.findall(r"\bfn (\w+)", read(path)))
    return found


def turner(names, functions):
    pattern = re.compile(r"(?<![\w'’-])(" + "|".join(sorted(map(re.escape, names), key=len, reverse=True)) + r")(?![\w'-])")

    def turn(text):
        def one(match):
            new = names[match.group(1)]
            before = text[max(0, match.start() - 3) : match.start()]
            if STEP.search(before) and new not in functions:
                return match.group(1)
            return new

        return pattern.sub(one, text)

    return turn


def outside_quotes(turn, text):
    parts = re.split(r'("(?:[^"\\\n]|\\.)*")', text)
    return "".join(part if i % 2 else turn(part) for i, part in enumerate(parts))


def outside_comments(turn, text):
    return "\n".join(turn(a) + b for a, b in (re.match(r"^(.*?)((?:--|//).*)?$", line).groups("") for line in text.split("\n")))


def in_backticks(turn, text):
    parts = re.split(r"(`[^`\n]*`)", text)
    return "".join(turn(part) if i % 2 else part for i, part in enumerate(parts))


def main(root):
    names = {n: respelled(n, types) for n, types in declared(root).items()}
    names = {n: m for n, m in names.items() if n != m}
    together = {}
    for n, m in names.items():
        together.setdefault(m, []).append(n)
    both = [v for v in together.values() if len(v) > 1]
    if both:
        print(f"respell: names that fall together: {both}", file=sys.stderr)
        return 1
    functions = source_names(root)
    dashed = turner({n: m for n, m in names.items() if "-" in n}, functions)
    older = {n.replace("_", "-"): n for n in declared(root) if "_" in n}
    in_pages = turner(older | {n: m for n, m in names.items() if "-" in n}, functions)
    plain_names = {n: m for n, m in names.items() if "-" not in n}
    plain = turner(plain_names, functions) if plain_names else (lambda t: t)
    changed = 0
    for path in list(files(root, ".antt", ".rt", ".edit")) + docs(root):
        old = read(path)
        if path.endswith(".antt"):
            new = outside_comments(plain, dashed(old))
        elif path.endswith(".md"):
            new = in_backticks(in_pages, old)
        else:
            new = outside_quotes(dashed, old)
        if new != old:
            changed += 1
            with open(path, "w", encoding="utf-8") as f:
                f.write(new)
    print(f"respell: {len(names)} names, {changed} files")
    return 0


def docs(root):
    folder = os.path.join(root, "docs")
    pages = [os.path.join(folder, n) for n in sorted(os.listdir(folder)) if n.endswith(".md")] if os.path.isdir(folder) else []
    return [p for p in [os.path.join(root, "README.md"), *pages] if os.path.isfile(p)]


if __name__ == "__main__":
    raise SystemExit(main(sys.argv[1] if len(sys.argv) > 1 else "."))
