#!/usr/bin/env python3
"""Functions of src/ that are alike: whose text, without comments and clauses, is the same once names are left out.

    tools/alike.py [COMMIT]           of the files here, or as they were in COMMIT
    tools/alike.py --wide [COMMIT]    in place of it: functions of five parameters and more

A line for each group: how many, and their names. What differs within a group is a name alone: of a constant, of a
function that is called, of a field or of a parameter."""
import re
import subprocess
import sys


def git(*args):
    return subprocess.run(["git", *args], capture_output=True, text=True, check=True).stdout


wide = "--wide" in sys.argv
args = [word for word in sys.argv[1:] if word != "--wide"]
rev = args[0] if args else None
listed = git("ls-tree", "-r", "--name-only", rev, "crates") if rev else git("ls-files", "crates")
groups = {}
many = []
for path in listed.split("\n"):
    if not re.match(r"crates/\w+/src/.*\.rt$", path):
        continue
    text = git("show", f"{rev}:{path}") if rev else open(path).read()
    text = re.sub(r"//.*", "", text)
    for found in re.finditer(r"^ *(?:pub )?(?:extern \"C\" )?fn (\w+)(?:<[^(]*>)?\(([^)]*)\)", text, re.M):
        taken = [word for word in re.split(r",\s*(?=\w+:|&|mut )", found.group(2)) if word.strip()]
        if len(taken) > 4:
            many.append(f"{len(taken)} {path.split('/')[1]}::{found.group(1)}")
    for found in re.finditer(r"^((?:pub )?fn (\w+)\(.*?)\n\{\n(.*?)^\}", text, re.M | re.S):
        head, name, body = found.groups()
        head = re.split(r"\n    (?:requires|ensures)", head)[0]
        shape = re.sub(r"[A-Za-z_]\w*", "x", re.sub(r"\s+", " ", head + "{" + body))
        shape = re.sub(r"\b(x::)+x", "x", shape)
        groups.setdefault(shape, []).append(path.split("/")[1] + "::" + name)
if wide:
    print("\n".join(sorted(many, reverse=True)))
    print(len(many), "functions")
    sys.exit()
alike = sorted((g for g in groups.values() if len(g) > 1), key=len, reverse=True)
for group in alike:
    print(len(group), " ".join(group))
print(sum(map(len, alike)), "functions in", len(alike), "groups")
