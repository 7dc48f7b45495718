#!/usr/bin/env python3
"""Turns the Proof.antt of each function of a crate, in the older form, to Invariants.antt and Answers.antt.

usage: python3 tools/answers.py MAP CRATE [FUNCTION..]    at the top, after port.py and respell.py; MAP is what respell.py --map wrote

The names of goals and steps are those that `rt check --generated DIR --old-names` lists. An answer that was a bare search is left to the check.
What it can't turn stays as Proof.antt, and is named.
"""
import json
import os
import re
import subprocess
import sys
import tempfile

KIT = os.path.dirname(subprocess.run(["rt", "doc"], stdout=subprocess.PIPE, text=True, check=True).stdout.strip())
with open(f"{KIT}/rattle/std/proofs/Common.antt", encoding="utf-8") as f:
    COMMONS = {w.strip() for m in re.finditer(r"\{([^}]*)\}", f.read()) for w in m[1].split(",")}
TRIVIAL = re.compile(r"^\(λ c(?: κs)?\. search rules\)$")
WORD = r"[^\s(){}\[\],;:.\"«»`|=]+"
COMMON = "Rattle.std.proofs.Common"


class Cannot(Exception):
    pass


def split_args(text):
    out, depth, cur = [], 0, ""
    for ch in text:
        if ch in "([{":
            depth += 1
        if ch in ")]}":
            if depth == 0:
                break
            depth -= 1
        if ch.isspace() and depth == 0:
            if cur:
                out.append(cur)
            cur = ""
        else:
            cur += " " if ch.isspace() else ch
    if cur:
        out.append(cur)
    return [re.sub(r"\s+", " ", a) for a in out]


def blocks(text):
    """The top-level declarations, each with the comment lines above it."""
    out, cur = [], []
    for line in text.split("\n"):
        starts = line and not line[0].isspace()
        if starts and re.match(r"(--|use |(?:abbrev )?(?:pub )?%s (?:\{|\(|:))" % WORD, line) and cur and not (
            all(x.startswith("--") for x in cur)
        ):
            out.append("\n".join(cur).rstrip())
            cur = []
        cur.append(line)
    if cur:
        out.append("\n".join(cur).rstrip())
    return [b for b in out if b.strip()]


def under(name):
    return name.replace("-", "_")


def turn(path, made, own):
    """The texts of Invariants.antt and Answers.antt."""
    text = open(path, encoding="utf-8").read()
    crate, fn = re.search(r"crates/(\w+)/proofs/(.*)/Proof\.antt$", path).groups()
    parts = blocks(text)
    head, uses, defs, order, spec = [], [], {}, [], None
    for b in parts:
        lines = b.split("\n")
        while lines and (lines[0].startswith("--") or not lines[0].strip()) and not order and not uses:
            head.append(lines.pop(0))
        if not lines:
            continue
        comment = []
        while lines and lines[0].startswith("--"):
            comment.append(lines.pop(0))
        if not lines:
            continue
        if lines[0].startswith("use "):
            uses += [l for l in lines if l.strip()]
            continue
        body = "\n".join(lines)
        m = re.match(r"(?:abbrev )?(?:pub )?(%s)\s" % WORD, body)
        if "tie.spec" in body:
            spec = body
        else:
            defs[m[1]] = (comment, body)
            order.append(m[1])
    if spec is None:
        raise Cannot("no tie.spec")
    opened = "".join(l + "\n" for l in spec.split("\n") if l.startswith("unfolding "))
    args = split_args(re.split(r"tie\.spec\s", spec, maxsplit=1)[1])
    needs, loops = made["needs"], made["loops"]
    places = {p[0]: p for p in made["places"]}
    by_name = dict(zip([p[0] for p in made["places"]], made["places_by_name"]))
    named_places = []
    if len(args) != len(needs) + 2 * len(loops):
        raise Cannot(f"{len(args)} arguments, {len(needs)} goals and {len(loops)} loops")
    uses_text = "\n".join(uses)
    keep_uses = [u for u in uses if not re.search(r"\.(Statement|Tie)\b", u)]

    def own_words(t):
        return re.sub(WORD, lambda m: own.get(m[0], m[0]) if "-" in m[0] else m[0], t)

    def resolve(body, base, where, goal=None, root="c"):
        """The paths of a body whose argument c is at the place base."""
        alias = {root: base}

        def up(place, k):
            for _ in range(k):
                place = places[place][1] or place
            return place

        above, at = [], base
        while at:
            above.append(places[at][2])
            at = places[at][1]

        def step(place, name):
            if name in ("args", "requires", "ranges", "utf8", "type-inv", "type_inv", "lifetimes", "whole"):
                return "c." + under(name)
            old, new = places[place][2]
            name = under(name)
            if name.lower() in (under(old).lower(), under(new).lower()):
                return "c." + new
            # the older kit counted other steps before this one: by its name, where that is one
            for n in (name, re.sub(r"_lem$", "", name), re.sub(r"(?<=\D)(\d+)$", r"-\1", name), re.sub(r"(?<=\D)(\d+)$", r"_\1", name)):
                found = {new for old, new in above if under(old) == n}
                if len(found) == 1:
                    return "c." + found.pop()
            raise Cannot(f"at {place} ({old}) there is no {name}; above: {[o for o, _ in above]}")

        def path(m):
            root, befores, name = m[1], m[2], m[3]
            place = up(alias[root], befores.count(".before"))
            if name is None:
                if place == base:
                    return "c"
                if goal is None:
                    raise Cannot(f"bare {m[0]}")
                return f"(goal.at.{goal} c).{by_name[place]}"
            return step(place, name[1:])

        out = body
        # aliases in order
        while True:
            names = "|".join(map(re.escape, alias))
            m = re.search(r"\blet (%s) = (%s)((?:\.before)+) in[ \n]\s*" % (WORD, names), out)
            if not m:
                break
            alias[m[1]] = up(alias[m[2]], m[3].count(".before"))
            out = out[: m.start()] + out[m.end() :]
        names = "|".join(map(re.escape, sorted(alias, key=len, reverse=True)))
        out = re.sub(r"(?<![\w.'-])(%s)((?:\.before)*)(\.(?!before\b)%s)?(?![\w'-])" % (names, WORD), path, out)
        # an arm says which variant the value is
        arm = re.search(r"\b[Ii]n-([A-Z]\w*)(?!.*\b[Ii]n-[A-Z])", where)
        if arm:
            out = re.sub(r"c\.[\w-]+\.given\.1", f"c.in-{arm[1]}.is", out)
        out = re.sub(r"c\.\w+-in-([A-Z]\w*)-\d+\.given\.1", r"c.in-\1.is", out)
        # a test `!x` says now that x is false, and not that `not x` is true
        out = re.sub(r"not-(?:true|false) _ (c\.if-not-[\w-]+\.(?:true|false))", r"\1", out)
        out = re.sub(r"(?<!∙ )(c\.if-not-[\w-]+\.(?:true|false))", r"(ap not \1)", out)
        return own_words(out)

    inv, ans, used = [], [], set()
    for k, (loop, variables) in enumerate(loops):
        for j, word in ((0, "invariant"), (1, "decreases")):
            old = args[2 * k + j]
            if old not in defs:
                raise Cannot(f"the {word} {old} is not a definition")
            used.add(old)
            comment, body = defs[old]
            m = re.search(r"^%s ((?:%s )*)=\s*(.*)\Z" % (re.escape(old), WORD), body, re.S | re.M)
            if not m:
                raise Cannot(f"{word}: not read")
            params, rest = m[1].split(), m[2].rstrip()
            changed = made["changed"][k]
            wanted = []
            for v, c in zip(variables, changed):
                wanted += [f"l.initial.{v}", None] if False else ([f"l.initial.{v}"] if c else [f"l.{v}"])
            wanted += [f"l.{v}" for v, c in zip(variables, changed) if c]
            if len(wanted) != len(params):
                raise Cannot(f"{word}: {len(params)} parameters for {len(wanted)}")
            sub = dict(zip(params, wanted))
            rest = re.sub(r"(?<![\w.'₀-])(%s)(?![\w'₀-])" % "|".join(map(re.escape, sorted(sub, key=len, reverse=True))), lambda m: sub[m[1]], rest)
            inv += comment + [f"abbrev pub {word}-{loop[1]} : goal.{word}-{loop[1]}", f"{word}-{loop[1]} l = {own_words(rest)}", ""]
    helpers = []
    for i, (old, new) in enumerate(needs):
        arg = args[2 * len(loops) + i]
        if TRIVIAL.match(arg):
            continue
        base = made["asked_at"][i][0]
        if arg in defs:
            used.add(arg)
            comment, body = defs[arg]
            m = re.match(r"%s :[^\n]*\n((?:unfolding [^\n]*\n)?)%s ([^=]*)=(\s)(.*)\Z" % (re.escape(arg), re.escape(arg)), body, re.S)
            if not m:
                raise Cannot(f"{arg}: not read")
            unfolding, params, gap, rest = m[1], m[2].split(), m[3], m[4]
        else:
            m = re.match(r"^\(λ ([^.]*)\. (.*)\)$", arg)
            if not m:
                raise Cannot(f"{arg}: not read")
            comment, unfolding, params, gap, rest = [], opened, m[1].split(), " ", m[2]
        params = [p for p in params if p != "κs"]
        if not params or params[0] != "c":
            raise Cannot(f"{arg}: takes {params}")
        rest = resolve(rest, base, made["asked_at"][i][1], new).strip()
        if rest == "search rules":
            continue
        ans += comment + [f"pub {new} : goal.{new}"] + ([own_words(unfolding.rstrip())] if unfolding else []) + [f"{new} {' '.join(params)} = {rest}" if "\n" not in rest else f"{new} {' '.join(params)} =\n    {rest}", ""]
    left = [d for d in order if d not in used]
    helpers = []
    for d in left:
        comment, body = defs[d]
        if "tie." in body:
            m = re.match(r"%s : \((%s) : tie\.(%s)\) →(.*)\n((?:unfolding [^\n]*\n)?)%s (%s) =(\s)(.*)\Z" % (re.escape(d), WORD, WORD, re.escape(d), WORD), body, re.S)
            if not m or "tie." in m[3]:
                raise Cannot("helper " + d)
            found = [p for p in by_name if under(p).lower() == under(m[2]).lower()]
            if not found:
                raise Cannot(f"helper {d}: no place {m[2]} in {list(by_name)}")
            base = found[0]
            named_places.append(by_name[base])
            told = resolve(m[3], base, by_name[base], None, m[1])
            rest = resolve(m[7], base, by_name[base], None, m[5])
            body = f"{d} : (c : {by_name[base]}) →{told}\n{m[4]}{d} c ={m[6]}{'    ' if m[6] != ' ' else ''}{rest.strip()}"
            ans = [re.sub(r"(?<![\w-])%s \(goal\.at\.([\w-]+) c\)\.[\w-]+" % re.escape(d), lambda m: f"{d} (goal.at.{m[1]} c).{by_name[base]}", a) for a in ans]
        helpers += comment + [own_words(body), ""]
    return head, keep_uses, inv, helpers + ans, sorted(set(named_places))


def file_of(head, uses, goal, body):
    text = "\n".join(body)
    words = set(re.findall(WORD, text))
    out = []
    for u in uses:
        m = re.match(r"use ([\w.+]+)\.\{(.*)\}$", u)
        if not m:
            out.append(u)
            continue
        module, names = m[1], [n.strip() for n in m[2].split(",")]

        def cited(n):
            n = n.split(" as ")[-1]
            return n in words or n == "[]" and "[]" in text or "◌" in n and all(p in text for p in n.split("◌") if p)

        names = [n for n in names if cited(n)]
        if not module.startswith("Rattle."):
            common = [n for n in names if n in COMMONS]
            names = [n for n in names if n not in COMMONS]
            if common:
                out.append(f"use {COMMON}.{{{', '.join(common)}}}")
        if names:
            out.append(f"use {module}.{{{', '.join(names)}}}")
    merged = {}
    for u in out:
        m = re.match(r"use ([\w.+]+)\.\{(.*)\}$", u)
        if m:
            have = merged.setdefault(m[1], [])
            have += [n.strip() for n in m[2].split(",") if n.strip() not in have]
        else:
            merged[u] = None
    for n in ("ap", "not"):
        if re.search(r"\(ap not c\.", text) and not any(n in (v or []) for v in merged.values()):
            merged.setdefault(COMMON, []).append(n)
    lines = [u if v is None else f"use {u}.{{{', '.join(v)}}}" for u, v in merged.items()]
    return "\n".join(head + lines + [goal, ""] + body).rstrip() + "\n"


def main(argv):
    respelled, crate, only = argv[0], argv[1], set(argv[2:])
    folder = f"crates/{crate}"
    with open(respelled, encoding="utf-8") as f:
        own = dict(l.split() for l in f)
    room = tempfile.mkdtemp()
    subprocess.run(["rt", "check", "--generated", room, "--old-names"], cwd=folder, stdout=subprocess.PIPE, stderr=subprocess.STDOUT)
    made = json.load(open(f"{room}/names.json", encoding="utf-8"))
    for d, dirs, names in sorted(os.walk(f"{folder}/proofs")):
        path = f"{d}/Proof.antt"
        fn = os.path.relpath(d, f"{folder}/proofs")
        if "Proof.antt" not in names or only and fn not in only:
            continue
        key = f"Rattle-{crate}-proofs.{fn.replace('/', '.')}.Lts"
        try:
            if key not in made:
                raise Cannot("not in names.json")
            head, uses, inv, ans, named = turn(path, made[key], own)
        except Cannot as why:
            print(f"{crate}/{fn}: left: {why}")
            continue
        os.remove(path)
        if inv:
            with open(f"{d}/Invariants.antt", "w", encoding="utf-8") as f:
                f.write(file_of(head, uses, f"use Rattle.{crate}.proofs.{fn.replace('/', '.')}.Given as goal", inv))
        if ans:
            with open(f"{d}/Answers.antt", "w", encoding="utf-8") as f:
                goals = f"use Rattle.{crate}.proofs.{fn.replace('/', '.')}.Goals"
                f.write(file_of(head if not inv else [], uses, f"{goals} as goal" + (f"\n{goals}.{{{', '.join(named)}}}" if named else ""), ans))
        if not inv and not ans:
            os.rmdir(d)


if __name__ == "__main__":
    main(sys.argv[1:])
