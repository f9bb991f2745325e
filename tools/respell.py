#!/usr/bin/env python3
"""Brings this repository's own antt names to one spelling: words in snake case, types in camel case.

usage: respell.py KIT [--dry]     at the top of the repository, after the kit's own script

A hump and a dash become an underscore. A dash stays where it joins two names, as in bits-take. A name that the kit's
libraries have too stays, and so do names of src/, strings and comments' words that are no names. Where two names of one file
would fall together, the one with a dash keeps it.
"""
import collections
import os
import re
import sys

# a word of antt: no space, bracket, comma, semicolon or dot
WORD = re.compile(r"[^\s(){}\[\]:;,.λ→×⊎¬←|\"`]+")
# where the rule gives a name that a file has already
SPECIAL = {
    "downTo": "path_to",
    "inUse": "is_in_use",
    "outAfter": "out_after_answer",
    "ruleStrip": "strip_of_rule",
    "treeStrip": "strip_of_tree",
    "sameBranch": "is_same_branch",
}
LOWER = re.compile(r"[a-z][\w'₀-₉-]*$")


def files(top, kinds):
    for folder, dirs, names in os.walk(top):
        dirs[:] = sorted(d for d in dirs if d not in ("out", ".git", "target"))
        for n in sorted(names):
            if n.endswith(kinds):
                yield os.path.join(folder, n)


def read(path):
    with open(path, encoding="utf-8", errors="replace") as f:
        return f.read()


def definitions(text):
    """The names that an antt file defines: a signature begins a line, perhaps indented."""
    found = set()
    for line in text.splitlines():
        head, colon, _ = line.strip().partition(" : ")
        if not colon:
            head, colon, _ = line.strip().partition(" :")
        if not colon or head.startswith(("--", "let ", "use ")):
            continue
        for n in head.split():
            if n[0] in "({":
                break
            if n not in ("pub", "abbrev", "unfoldable", "data", "record", "module", "_"):
                found.add(n)
    for m in re.finditer(r"(?m)^\s*(?:pub )?(?:data|record) (\S+)", text):
        found.add(m.group(1))
    return found


def snake(name):
    return re.sub(r"(?<=[a-z0-9])([A-Z])", lambda m: "_" + m.group(1).lower(), name)


def main():
    kit, dry = sys.argv[1], "--dry" in sys.argv
    theirs = set()
    for p in list(files(os.path.join(kit, "rattle", "logic"), (".antt",))) + list(files(os.path.join(kit, "rattle", "antt"), (".antt",))) + [
        p for lib in ("std", "core", "io", "std_alloc", "std_collections", "std_io", "std_heap") for p in files(os.path.join(kit, "rattle", lib), (".antt",))
    ]:
        theirs |= set(WORD.findall(re.sub(r"--.*", "", read(p))))
    own, words = set(), collections.defaultdict(set)
    walks = list(files("crates", ("Proof.antt",)))
    antt = [p for p in files("crates", (".antt",)) if p not in walks]
    for p in antt:
        t = read(p)
        own |= definitions(t)
        words[p] = set(WORD.findall(t))
    rust = list(files("crates", (".rt",)))
    every = "\n".join(read(p) for p in rust)
    functions = set(re.findall(r"\bfn (\w+)", every)) | set(re.findall(r"\bmod (\w+)", every)) | set(re.findall(r"(\w+)::", every))
    for p in rust:
        # a definition may have the name of a function, whose calls no clause can name
        t = read(p)
        values = set(re.findall(r"\b(\w+)\s*:(?!:)", t)) | set(re.findall(r"\blet (?:mut )?(\w+)", t))
        words[p] = {w for w in WORD.findall(t) if w not in functions or w in values}
    names = {snake(n) for n in own if LOWER.match(n) and "-" not in n} | {"bits", "length", "take", "drop", "append", "replicate", "set", "get_or", "digits", "map"}

    def joined(name):
        parts = [snake(x) for x in name.split("-")]
        groups, i = [], 0
        while i < len(parts):
            for j in range(len(parts), i, -1):
                if "_".join(parts[i:j]) in names:
                    groups.append(("_".join(parts[i:j]), True))
                    i = j
                    break
            else:
                if groups and not groups[-1][1]:
                    groups[-1] = (groups[-1][0] + "_" + parts[i], False)
                else:
                    groups.append((parts[i], False))
                i += 1
        out = groups[0][0]
        for (a, ka), (b, kb) in zip(groups, groups[1:]):
            out += ("-" if ka and kb and len(a) > 2 and len(b) > 2 else "_") + b
        return out

    turn = {}
    for n in sorted({w for p in antt for w in words[p]} | {w for p in rust for w in words[p]}):
        if not LOWER.match(n) or n in theirs:
            continue
        if "-" in n and n.replace("-", "_") in own | names:
            new = n.replace("-", "_")
            new = joined(n) if new in theirs else new
        elif "-" in n:
            new = joined(n)
        else:
            new = snake(n)
        new = SPECIAL.get(n, new)
        if new != n:
            turn[n] = new
    # what falls together in a file, or with a word that stays: the dash stays, or the hump
    def clashes():
        bad = set()
        for p, ws in words.items():
            seen = collections.defaultdict(set)
            for w in ws:
                seen[turn.get(w, w)].add(w)
            for new, olds in seen.items():
                if len(olds) > 1:
                    bad |= {o for o in olds if o in turn}
        return bad

    bad = clashes()
    for o in sorted(bad):
        if "-" in o:
            print("keeps its dash:", o, "(", turn[o], ")")
            del turn[o]
    for o in sorted(clashes()):
        raise SystemExit(f"falls together: {o} {turn[o]}: put it into SPECIAL")
    for new in turn.values():
        if new in ("in", "do", "use", "let", "elim", "data", "record", "open", "where", "search", "assumption", "ground", "result"):
            raise SystemExit(f"a reserved word: {new}")
    if dry:
        for o, n in sorted(turn.items()):
            print(o, n)
        return
    n = 0
    for p in antt + walks + rust:
        t = read(p)
        new = re.sub(WORD, lambda m: turn.get(m.group(0), m.group(0)), t)
        if new != t:
            n += 1
            with open(p, "w", encoding="utf-8") as f:
                f.write(new)
    print(n, "files,", len(turn), "names")


if __name__ == "__main__":
    main()
