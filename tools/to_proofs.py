#!/usr/bin/env python3
"""Moves whole files of laws from a crate's specs/ to its proofs/, with every import of them.

usage: python3 tools/to_proofs.py CRATE FILE..     at the top; FILE as in 'pub mod FILE'
"""
import os
import re
import subprocess
import sys


def texts():
    for top in ("crates", "docs", "compare", "reference", "bindings"):
        for folder, dirs, names in os.walk(top):
            dirs[:] = [d for d in dirs if d not in ("out", "target")]
            for name in names:
                if name.endswith((".antt", ".rt", ".edit", ".md", ".rs")) and not name.startswith("PORT"):
                    yield os.path.join(folder, name)
    yield from ("README.md", "CONTRIBUTING.md")


def main(argv):
    crate, moved = argv[0], argv[1:]
    specs, proofs = f"crates/{crate}/specs", f"crates/{crate}/proofs"
    os.makedirs(proofs, exist_ok=True)
    lib = open(f"{specs}/Lib.antt", encoding="utf-8").read().split("\n")
    order = [l for l in lib if l.replace("pub mod ", "") in moved]
    with open(f"{specs}/Lib.antt", "w", encoding="utf-8") as f:
        f.write("\n".join(l for l in lib if l not in order))
    was = open(f"{proofs}/Lib.antt", encoding="utf-8").read() if os.path.exists(f"{proofs}/Lib.antt") else ""
    with open(f"{proofs}/Lib.antt", "w", encoding="utf-8") as f:
        f.write(was + "\n".join(order) + "\n")
    for name in moved:
        subprocess.run(["git", "mv", f"{specs}/{name}.antt", f"{proofs}/{name}.antt"], check=True)
    path = re.compile(r"Rattle\.%s\.specs\.(%s)(?![\w'])" % (crate, "|".join(moved)))
    page = re.compile(r"(?<![\w/])((?:\.\./)?(?:crates/)?%s/)specs/(%s)\.antt" % (crate, "|".join(moved)))
    for p in texts():
        t = open(p, encoding="utf-8").read()
        n = path.sub(r"Rattle.%s.proofs.\1" % crate, t)
        if p.endswith((".md", ".rs")):
            n = page.sub(r"\1proofs/\2.antt", n)
        if p.startswith(f"crates/{crate}/must-fail/"):
            n = re.sub(r"(?m)^file: specs/(%s)\.antt" % "|".join(moved), r"file: proofs/\1.antt", n)
        if n != t:
            with open(p, "w", encoding="utf-8") as f:
                f.write(n)
    for name in os.listdir(specs):
        t = open(f"{specs}/{name}", encoding="utf-8").read()
        for m in re.finditer(r"Rattle\.%s\.proofs\.[\w.]+" % crate, t):
            print(f"{specs}/{name} names {m[0]}")


if __name__ == "__main__":
    main(sys.argv[1:])
