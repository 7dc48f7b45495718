#!/usr/bin/env python3
"""Respells the repository's own definitions and lemmas as today's Rattle does: words in snake case, types and modules in camel case.

usage: python3 tools/respell.py [--map FILE]     at the top, once, after the kit's port.py; --map also writes old and new names

What it turns: each lower-case name of two words that a file of specs/ declares, `tableWords` and `stored-words` alike, and each name in
capitals alone, in specs/, proofs/, ghost lines and clauses of src/, must-fail/ and the pages. Other names that begin with a capital,
functions of src/, strings, and the names that Rattle makes in a function's Proof.antt stay. Where a definition and a lemma would fall
together, the lemma ends in `_lem`.
"""
import collections
import os
import re
import sys

DECLARED = re.compile(r"^\s*(?:(?:pub|abbrev|unfoldable|record|data|let|in)\s+)*([^\s(){}\[\],;:.|=]+)\s+(?:\{|\(|:)", re.M)
IMPORTED = re.compile(r"\buse (?!Rattle\.(?!std\b|core\b))[\w.]+\.\{([^}]*)\}")
TOKEN = re.compile(r"[^\s(){}\[\],;:.\"«»`|]+")
PAGES = ["README.md", "CONTRIBUTING.md", "crates.txt"]


def files(*ends):
    for top in ("crates", "docs"):
        for folder, dirs, names in os.walk(top):
            dirs[:] = sorted(d for d in dirs if d != "out")
            for name in sorted(names):
                if name.endswith(ends):
                    yield os.path.join(folder, name)


def read(path):
    with open(path, encoding="utf-8") as f:
        return f.read()


def snake(name):
    name = re.sub(r"(?<=[a-z0-9])([A-Z]+)", lambda m: "_" + m[1].lower(), name) if re.search(r"[a-z]", name) else name
    return re.sub(r"-+", "_", name)


def two_words(name):
    return bool(re.fullmatch(r"[A-Z]+(-[A-Z]+)+", name)) or bool(re.match(r"[a-z]", name)) and (re.search(r"[a-z0-9][A-Z]", name) or re.search(r"\w-\w", name)) and not re.search(r"[^\w'?-]", name)


def of_a_function(path):
    return path.endswith("/Proof.antt")


def names():
    """old name -> new name, and the names that would have fallen together."""
    declared, imported, all_names = collections.OrderedDict(), set(), set()
    for path in files(".antt", ".rt"):
        text = read(path)
        for m in IMPORTED.finditer(text):
            imported |= {w for part in m[1].split(",") for w in part.split()}
        if not path.endswith(".antt") or of_a_function(path):
            continue
        code = re.sub(r"--.*", "", text)
        all_names |= set(TOKEN.findall(code))
        for m in DECLARED.finditer(code):
            declared[m[1]] = True
        # what a clause, a λ or a pattern binds
        for t in TOKEN.findall(code):
            if two_words(t):
                declared.setdefault(t, True)
    old = [n for n in declared if two_words(n) and n not in imported]
    groups = collections.defaultdict(set)
    for n in all_names | set(old):
        groups[snake(n) if n in old else n].add(n)
    new, together = {}, {}
    for n in old:
        s = snake(n)
        rivals = groups[s] - {n}
        if rivals:
            together[s] = groups[s]
            camel = [r for r in groups[s] if re.search(r"[a-z0-9][A-Z]", r)]
            plain = camel[0] if camel else (s if s in groups[s] else sorted(groups[s])[0])
            s = s if n == plain else s + "_lem"
        new[n] = s
    # a snake-case lemma that a definition takes the name of
    for s, group in together.items():
        if s in group and any(re.search(r"[a-z0-9][A-Z]", r) for r in group):
            new[s] = s + "_lem"
    return new, together


def respell(text, new, dots=True):
    def one(m):
        if not dots and text[m.start() - 1 : m.start()] == ".":
            return m[0]
        return new.get(m[0], m[0])

    return TOKEN.sub(one, text)


def of_the_proof(text, new):
    """In a function's proof only what its `use` lines bring from the repository's own files."""
    brought = set()
    for m in re.finditer(r"\buse Rattle\.(?!std\b|core\b)[\w.]+\.(?:specs|proofs)\.[\w.]+\.\{([^}]*)\}", text):
        brought |= {w for part in m[1].split(",") for w in part.split()}
    return respell(text, {k: v for k, v in new.items() if k in brought}, dots=False)


def in_source(text, new):
    """In src/ the ghost lines and clauses, and comments; a lower-case name of two words in camel case or with a dash is none of Rust's."""
    kept = {k: v for k, v in new.items() if "-" in k or re.search(r"[a-z0-9][A-Z]", k)}
    return respell(text, kept)


def main(argv):
    new, together = names()
    for path in list(files(".antt", ".rt", ".edit")):
        text = read(path)
        if path.endswith(".rt"):
            turned = in_source(text, new)
        elif of_a_function(path):
            turned = of_the_proof(text, new)
        else:
            turned = respell(text, new)
        if turned != text:
            with open(path, "w", encoding="utf-8") as f:
                f.write(turned)
    for path in PAGES + [p for p in files(".md") if not os.path.basename(p).startswith("PORT")]:
        text = read(path)
        turned = re.sub(r"`[^`\n]*`", lambda m: respell(m[0], {k: v for k, v in new.items() if two_words(k)}), text)
        if turned != text:
            with open(path, "w", encoding="utf-8") as f:
                f.write(turned)
    if argv[:1] == ["--map"]:
        with open(argv[1], "w", encoding="utf-8") as f:
            for k in sorted(new):
                f.write(f"{k} {new[k]}\n")
    print(f"{len(new)} names; fell together: " + ", ".join(sorted(together)))


if __name__ == "__main__":
    main(sys.argv[1:])
