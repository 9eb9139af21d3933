#!/usr/bin/env python3
"""Spells the repository's own definitions and lemmas as today's Rattle does: words in snake case.

usage: tools/respell.py [--list]     at the top of the repository, once, after the kit's port.py

A name of specs/ or proofs/ with a dash or a capital inside, as `rows-are` or `hashOf`, becomes `rows_are` or `hash_of`; types and
modules keep their capitals. Names of src/, of the library and those that the checker makes (goals, steps, NAME_spec) are left.
--list prints the names, old and new, and what would fall together, and writes nothing.
"""
import collections
import glob
import os
import re
import sys

WORD = re.compile(r"[^\s(){}\[\];,.«»\"]+")
SIGNED = re.compile(r"\s*((?:(?:abbrev|unfoldable|pub|data|record|ruleset)\s+)*)([^\s(){}\[\];,.«»:]+)((?:\s+[^\s(){}\[\];,.«»:|]+)*)\s+(?=[:({])")
BOUND = re.compile(r"[({]\s*([^\s(){}\[\];,.«»:]+(?:\s+[^\s(){}\[\];,.«»:]+)*)\s+:")
LAMBDA = re.compile(r"λ\s+([^.]*?)\.")
LET = re.compile(r"\blet\s+([^\s(){}\[\];,.«»:]+)")
CRATES = sorted(os.listdir("crates"))
# new names where the plain ones would fall together with another, or with the style of types
CHOSEN = {"inOrder": "is_in_order", "numbered": "IsNumbered"}
# a lemma whose plain name a definition takes; only in the file that is named
FIRST = {"crates/lotlog/specs/OneOutcome.antt": {"held_start": "held_start_lem"}}


def files(kind):
    return sorted(f for f in glob.glob("crates/*/" + kind, recursive=True) if "/out/" not in f)


def odd(name):
    if re.search(r"[\d']$", name) and re.fullmatch(r"[a-z]+-\d+", name):
        return False
    if name in CHOSEN:
        return True
    if name.startswith("After-"):
        return False
    if not re.fullmatch(r"[A-Za-z][\w'′₀-₉-]*", name):
        return False
    return "-" in name or "′" in name or bool(re.search(r"[a-z0-9][A-Z]", name) and name[0].islower())


def snake(name):
    if name in CHOSEN:
        return CHOSEN[name]
    name = name.replace("′", "'").replace("-", "_")
    name = re.sub(r"(?<=[a-z0-9])([A-Z])", r"_\1", name)
    return name.lower() if not name[0].isupper() else name


def proof_of_function(f):
    return os.path.basename(f) == "Proof.antt"


def declared(f, text):
    """The names that a file gives: at signatures, fields, constructors, binders."""
    made = set()
    for m in re.finditer(r"^ *(?:abbrev )?([^\s:]+) : (?:\{[^}]*\} → )*tie\.", text, re.M):
        made.add(m[1])
    out = set()
    for line in text.split("\n"):
        if line.lstrip().startswith(("--", "use ", "open ")):
            continue
        m = SIGNED.match(line)
        if m:
            for n in [m[2]] + m[3].split():
                out.add(n)
        for m in BOUND.finditer(line):
            out.update(m[1].split())
        for m in LAMBDA.finditer(line):
            out.update(WORD.findall(m[1]))
        for m in LET.finditer(line):
            out.add(m[1])
        m = re.match(r"\s*(?:unfolding\s)", line)
        m = re.match(r"(?:unfoldable\s+)?(?:abbrev\s+)?(?:pub\s+)?([^\s(){}\[\];,.«»:]+)\s.*=", line.strip())
        if m:
            out.update(w for w in WORD.findall(line.split("=")[0]))
    if proof_of_function(f):
        out = {n for n in out if n not in made and not n.endswith(("-spec", "_spec"))}
    return {n for n in out if odd(n)}


def imported(text):
    """Names that a file takes from the library, and the aliases of its modules."""
    names, aliases = set(), set()
    for m in re.finditer(r"^\s*(?:pub )?(?:ghost )?use ([^\s;{]+?)(?:\.\{([^}]*)\}| as (\S+?))?;?$", text, re.M):
        path = m[1].split(".")
        own = path[0] == "Rattle" and len(path) > 1 and path[1] in CRATES and "declared" not in path
        if own:
            continue
        if m[2]:
            for w in m[2].split(","):
                names.add(w.split(" as ")[0].strip())
        if m[3]:
            aliases.add(m[3])
    return names, aliases


def main():
    texts = {f: open(f, encoding="utf-8").read() for f in files("specs/**/*.antt") + files("proofs/**/*.antt") + files("src/**/*.rt")}
    own = collections.defaultdict(set)
    for f, t in texts.items():
        if f.endswith(".antt"):
            for n in declared(f, t):
                own[n].add(f)
    library = collections.Counter()
    for f, t in texts.items():
        for n in imported(t)[0]:
            library[n] += 1
    clash = sorted(n for n in own if n in library)
    new = {n: snake(n) for n in own if n not in library}
    taken = {k for n, k in new.items() if "-" not in n}
    # where a definition takes a lemma's plain name, the lemma gets _lem
    new = {n: (k + "_lem" if "-" in n and k in taken else k) for n, k in new.items()}
    for f, names in FIRST.items():
        texts[f] = turn(texts[f], names, set())
    if "--list" in sys.argv:
        for n in sorted(new):
            print(n, new[n])
        print("taken from the library too:", clash)
    back = collections.defaultdict(set)
    for n, k in new.items():
        back[k].add(n)
    for k, ns in sorted(back.items()):
        if len(ns) > 1:
            print("together:", k, sorted(ns), [sorted(own[n])[:2] for n in sorted(ns)])
    for f, t in texts.items():
        words = set(WORD.findall(t))
        for n in sorted(words & set(new)):
            if new[n] in words:
                print("there already:", f, n, new[n])
    if "--list" in sys.argv:
        return
    for f, t in texts.items():
        out = []
        _, aliases = imported(t)
        for line in t.split("\n"):
            if f.endswith(".rt"):
                code, mark, said = line.partition("//")
                out.append(turn(code, new, aliases) + mark + said)
            else:
                code, mark, said = line.partition("-- ")
                out.append(turn(code, new, aliases) + mark + turn_said(said, new))
        u = "\n".join(out)
        if u != open(f, encoding="utf-8").read():
            with open(f, "w", encoding="utf-8") as to:
                to.write(u)


def turn(line, new, aliases):
    def one(m):
        w = m[0]
        if w not in new:
            return w
        before = line[: m.start()]
        if before.endswith("."):
            owner = re.search(r"([^\s(){}\[\];,«»]+)\.$", before)
            if owner and (owner[1].split(".")[0] in aliases or owner[1].split(".")[0] == "tie"):
                return w
        return new[w]

    return WORD.sub(one, line)


def turn_said(said, new):
    return re.sub(r"`([^`\s]+)`", lambda m: "`" + new.get(m[1], m[1]) + "`", said)


if __name__ == "__main__":
    main()
