#!/usr/bin/env python3
"""Spells the names that this repository's definitions and lemmas declare as today's Rattle does, after port.py.

usage: python3 tools/respell.py [--check]      at the top of the repository; --check writes nothing

A word that a file of specs/ or proofs/ declares gets plain underscores: `charsAt` and `chars-at` are `chars_at`, a constant as `LAST-MARK` is
`LAST_MARK`. A name that begins with a capital keeps its first part (`Reach-end` is `Reach_end`). The names that a function's proof gives
to the goals of Rattle's making stay. Words are turned in .antt and .rt files outside quoted text, in must-fail edits, and in the
code spans of the documents. A lemma that would have a definition's name gets
`_lem` behind it. A name whose new spelling a file has already for something else is listed and stays.
"""
import os
import re
import subprocess
import sys

NAME = r'[^\s(){}.;,@"«»]+'
WORD = re.compile(NAME)
QUIET = re.compile(r'"(?:[^"\\\n]|\\.)*"')
DECLARED = re.compile(r"^(?: *)(?:(?:unfoldable|abbrev|pub|pattern) +)*(" + NAME + r")(?: \{[^{}\n]*\})? :(?= |$)(.*)", re.M)
HEAD = re.compile(r"^(?: *)(?:pub )?(?:abbrev )?(?:pub )?(?:data|record) (" + NAME + ")", re.M)


def snake(name):
    if "◌" in name:
        return name
    parts = name.split("-")
    if re.fullmatch(r"[A-Z0-9_'-]+", name):
        return "_".join(parts)
    first, rest = (parts[0], parts[1:]) if name[0].isupper() else ("", parts)
    rest = [re.sub(r"(?<=[a-z0-9])[A-Z]+", lambda m: "_" + m[0].lower(), p) for p in rest]
    return "_".join(([first] if first else []) + rest)


def files(*ends):
    said = subprocess.run(["git", "ls-files"], capture_output=True, text=True, check=True).stdout.split("\n")
    return [p for p in said if p.endswith(ends) and os.path.isfile(p)]


def read(path):
    with open(path, encoding="utf-8") as f:
        return f.read()


def in_code(path):
    return path.startswith("crates/")


def declared(path, text):
    """The names that a file declares, but for the answers to the goals that Rattle makes."""
    text = re.sub(r"(?m)--.*$", "", text)
    found = {m[1] for m in DECLARED.finditer(text) if not re.match(r"\s*(?:tie|goal)\.|\s*\{M : Type 1\} → statement", m[2])}
    return found | {m[1] for m in HEAD.finditer(text)}


def table(sources):
    names = set()
    for path, text in sources.items():
        names |= declared(path, text)
    rows = {n: snake(n) for n in names if snake(n) != n}
    # A lemma whose name port.py turned already, so that it meets a definition's new name.
    rows |= {n: n + "_lem" for n in {b for a, b in rows.items() if "-" not in a} & names}
    # A lemma that would have the name of a definition gets `_lem`.
    camel = {b for a, b in rows.items() if "-" not in a} | (names - rows.keys())
    return {a: b + "_lem" if "-" in a and b in camel else b for a, b in rows.items()}


def tokens(text):
    """The words of a file's code, but for the paths of modules and what stands behind a dot."""
    text = QUIET.sub(" ", re.sub(r"(?m)(^|\s)--.*$", " ", text))
    text = re.sub(r"(?m)^use [\w.'-]+\.(?=\{)", " ", text)
    text = re.sub(r"(?m)^(use|mod|pub mod) .*[^}]$", " ", text)
    return set(WORD.findall(re.sub(r"\." + NAME, " ", text)))


def meets(rows, sources):
    """The names whose new spelling a file has already beside the old one."""
    back = {}
    for a, b in rows.items():
        back.setdefault(b, set()).add(a)
    twice = {a: "two names become " + b for b, olds in back.items() if len(olds) > 1 for a in olds}
    for path, text in sources.items():
        if not path.endswith(".antt"):
            continue
        have = tokens(text)
        for a in have & rows.keys():
            if rows[a] in have - rows.keys() and a not in twice:
                twice[a] = f"{path} has {rows[a]} too"
    return twice


def turned(rows, text):
    def words(part):
        return WORD.sub(lambda m: rows.get(m[0], m[0]), part)

    out, at = [], 0
    for m in QUIET.finditer(text):
        out += [words(text[at : m.start()]), m[0]]
        at = m.end()
    return "".join(out + [words(text[at:])])


def comment_spans(rows, text, names=frozenset()):
    """The text with the names in its code spans turned, also those that port.py turned in the code."""

    def one(m):
        word = m[0]
        if word in rows or word in names:
            return rows.get(word, word)
        return snake(word) if snake(word) in names and word[0].islower() else word

    return re.sub(r"`[^`\n]+`", lambda m: re.sub(r"[\w'-]+", one, m[0]), text)


def respelled(text, names):
    """An edit's text as port.py spells the rest: names that it turned, projections written tight, primes."""
    text = WORD.sub(lambda m: snake(m[0]) if snake(m[0]) in names and m[0][0].islower() else m[0], text).replace("′", "'")
    return re.sub(r"(?<=[\w'»)]) \.(?=[a-z])", ".", text)


def main(argv):
    sources = {p: read(p) for p in files(".antt") if in_code(p)}
    rows = table(sources)
    names = set().union(*(declared(p, t) for p, t in sources.items())) | set(rows.values())
    clash = meets(rows, sources)
    for a in sorted(clash):
        print(f"left: {a}: {clash[a]}")
    rows = {a: b for a, b in rows.items() if a not in clash}
    print(f"{len(rows)} names")
    count = 0
    for path in files(".antt", ".rt", ".edit", ".md"):
        old = read(path)
        if path.endswith(".md"):
            new = comment_spans(rows, old, names)
        else:
            new = comment_spans(rows, turned(rows, old), names)
            if path.endswith(".edit"):
                new = respelled(new, names)
        if new != old:
            count += 1
            if "--check" not in argv:
                with open(path, "w", encoding="utf-8") as f:
                    f.write(new)
    print(f"{count} files")


if __name__ == "__main__":
    main(sys.argv[1:])
