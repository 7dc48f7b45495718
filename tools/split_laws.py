#!/usr/bin/env python3
"""Leaves the named declarations of a file in specs/, and puts the others into proofs/ under the file's name, with every import of them.

usage: python3 tools/split_laws.py CRATE FILE NAME..        at the top
       python3 tools/split_laws.py CRATE FILE --to NAME     what stands up to the declaration NAME stays
"""
import os
import re
import sys

from to_proofs import texts

NAME = r"[^\s(){}\[\],;:.|=]+"
DECLARED = re.compile(r"^(?:(?:pub|abbrev|unfoldable|record|data)\s+)*(%s)(?=\s)" % NAME)


def blocks(text):
    """Top-level pieces: comments, a declaration's signature and clauses, a section."""
    out, cur = [], []
    for line in text.split("\n"):
        if line.strip() == "":
            if cur:
                cur.append(line)
            continue
        if line[0].isspace() and cur:
            cur.append(line)
            continue
        if cur and not all(l.startswith("--") or not l.strip() for l in cur) and not goes_on(cur, line):
            out.append(cur)
            cur = []
        cur.append(line)
    if cur:
        out.append(cur)
    return out


def goes_on(cur, line):
    """A clause of the declaration that cur began, or its `unfolding` line."""
    if line.startswith("use ") or line.startswith("pub use "):
        return all(l.startswith(("use ", "pub use ")) or not l.strip() for l in cur if not l.startswith("--"))
    if line.startswith(("--", "infix", "module ")):
        return False
    if line.startswith("unfolding "):
        return True
    name = name_of(cur)
    m = re.match(r"(%s)(?=\s)" % NAME, line)
    return bool(name and m and (m[1] == name or "◌" in name and not re.match(r"(pub|abbrev|unfoldable|record|data)\b", line) and not re.match(r"%s :" % NAME, line)))


def name_of(block):
    for l in block:
        if l.startswith("--") or not l.strip():
            continue
        if l.startswith("infix"):
            continue
        if l.startswith("module "):
            return None
        m = DECLARED.match(l)
        return m[1] if m else None
    return None


def names_in(block):
    """Every name that a piece declares, those of a section, of fields and of constructors too."""
    out = set()
    for l in block:
        m = re.match(r"^\s*(?:(?:pub|abbrev|unfoldable|record|data)\s+)*(%s)\s+(?::|\(|\{)" % NAME, l)
        if m:
            out.add(m[1])
        m = re.match(r"^(?:\s*)(?:(?:pub|abbrev|unfoldable|record|data)\s+)+(%s)" % NAME, l)
        if m:
            out.add(m[1])
    return out


def main(argv):
    crate, name, keep = argv[0], argv[1], argv[2:]
    specs, proofs = f"crates/{crate}/specs/{name}.antt", f"crates/{crate}/proofs/{name}.antt"
    pieces = blocks(open(specs, encoding="utf-8").read())
    head = [p for p in pieces if any(l.startswith(("use ", "pub use ")) for l in p)]
    rest = [p for p in pieces if p not in head]
    if keep[:1] == ["--to"]:
        n = next(i for i, p in enumerate(rest) if keep[1] in names_in(p))
        stay = rest[: n + 1]
    else:
        stay = [p for p in rest if name_of(p) in keep]
        # an operator's fixity goes with it
        stay = [p for i, p in enumerate(rest) if p in stay or (p[0].startswith("infix") and i + 1 < len(rest) and rest[i + 1] in stay)]
        missing = set(keep) - {name_of(p) for p in stay}
        if missing:
            print("not there:", missing, "; there are:", [name_of(p) for p in rest])
            sys.exit(1)
    go = [p for p in rest if p not in stay]
    staying = set().union(*[names_in(p) for p in stay])
    going = set().union(*[names_in(p) for p in go]) - staying
    gone_text = "\n".join("\n".join(p) for p in go)
    words = set(re.findall(r"[^\s(){}\[\],;:.\"]+", gone_text))
    tops = [name_of(p) for p in stay if name_of(p)]
    # what the laws name has to be public
    for p in stay:
        n = name_of(p)
        used = n and (n in words or "◌" in n and all(x in gone_text for x in n.split("◌") if x))
        if used:
            for i, l in enumerate(p):
                m = DECLARED.match(l)
                if m and m[1] == n and not l.startswith("--") and not l.startswith("infix"):
                    if " pub " not in f" {l}" .split(n)[0]:
                        p[i] = re.sub(r"^(abbrev|unfoldable) ", r"\1 pub ", l) if l.startswith(("abbrev ", "unfoldable ")) else "pub " + l
                    break
    brought = [n for n in tops if n in words or "◌" in n and all(x in gone_text for x in n.split("◌") if x)]

    def write(path, parts, more=""):
        text = "\n".join("\n".join(p).rstrip("\n") + "\n" for p in head) + more + "\n" + "\n".join("\n".join(p).rstrip("\n") + "\n" for p in parts)
        with open(path, "w", encoding="utf-8") as f:
            f.write(text.rstrip("\n") + "\n")

    os.makedirs(f"crates/{crate}/proofs", exist_ok=True)
    if os.path.exists(proofs):
        print("there is already", proofs)
        sys.exit(1)
    write(proofs, go, f"use Rattle.{crate}.specs.{name}.{{{', '.join(brought)}}}\n" if brought else "")
    write(specs, stay)
    lib = f"crates/{crate}/proofs/Lib.antt"
    was = open(lib, encoding="utf-8").read() if os.path.exists(lib) else ""
    with open(lib, "w", encoding="utf-8") as f:
        f.write(was + f"pub mod {name}\n")
    line = re.compile(r"^((?:pub |ghost )?use )Rattle\.%s\.specs\.%s\.\{([^}]*)\}(;?)$" % (crate, name), re.M)

    def both(m):
        items = [x.strip() for x in m[2].split(",") if x.strip()]
        kept = [x for x in items if x.split(" as ")[0] not in going]
        moved = [x for x in items if x not in kept]
        out = []
        if kept:
            out.append(f"{m[1]}Rattle.{crate}.specs.{name}.{{{', '.join(kept)}}}{m[3]}")
        if moved:
            out.append(f"{m[1]}Rattle.{crate}.proofs.{name}.{{{', '.join(moved)}}}{m[3]}")
        return "\n".join(out)

    for p in texts():
        if os.path.abspath(p) in (os.path.abspath(specs), os.path.abspath(proofs)):
            continue
        t = open(p, encoding="utf-8").read()
        n = line.sub(both, t)
        n = re.sub(r"Rattle\.%s\.specs\.%s\.(%s)\." % (crate, name, NAME), lambda m: m[0].replace(".specs.", ".proofs.") if m[1] in going else m[0], n)
        if n != t:
            with open(p, "w", encoding="utf-8") as f:
                f.write(n)
            if p.startswith(f"crates/{crate}/specs/") and f"Rattle.{crate}.proofs" in n:
                print(p, "names", set(re.findall(r"Rattle\.%s\.proofs\.\w+" % crate, n)))
    print(f"{crate}/{name}: {len(stay)} stay ({', '.join(x for x in tops)}), {len(go)} go")


if __name__ == "__main__":
    main(sys.argv[1:])
