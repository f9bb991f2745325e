#!/usr/bin/env python3
"""Writes rule strips as MONA text and compares MONA's verdicts with ours.

    mona.py RULE...            print the text for a strip in hex, or in a file;
                               nothing if any of them is refused
    mona.py --compare FILE...  run MONA on lines of vector files. Rules whose
                               answer is shown, larger or none: the first two must
                               be satisfiable, the last not, and MONA's machine, which
                               is minimal, must have the states told. Trees that are shown
                               or judged: the rule must be satisfiable with just
                               their sets if the answer is shown or yes, and not
                               if it is no. Rules that are asked which parts clash:
                               each trial that the list tells of, and the list; a
                               rule refused 29 must be satisfiable. Two rules that are
                               joined: no sets satisfy the result and not both, or
                               both and not it, and its n and m are right
    mona.py --time PROGRAM RULE...  the verdict program's time and MONA's on rule
                               files, each as a process of its own, the least of
                               nine runs. Rules that are not accepted are left out
    mona.py --texts COMMAND TEXT...  the command's verdict and time and MONA's on the
                               same text files, likewise. Verdicts that differ make
                               the status 1. Texts that are refused are only named;
                               without MONA its part is left out
"""

import argparse
import os
import re
import shutil
import subprocess
import sys
import tempfile
import time


def read_strip(strip):
    """The number of variables and the records of a rule strip of the right length."""
    bits = "".join(f"{byte:08b}" for byte in strip)
    cut = lambda at, length: int(bits[at:at + length], 2)
    starts = [16 + 18 * i for i in range(strip[1])]
    return strip[0] & 15, [(cut(at, 4), cut(at + 4, 7), cut(at + 11, 7)) for at in starts]


# What the two fields of each op are: a variable, a record, or unused.
FIELDS = ["vv", "v-", "vv", "vv", "v-", "r-", "rr", "rr", "vr"]


def record_refusal(n, number, op, *fields):
    """The refusal of a record, 0 if it is good."""
    if op >= len(FIELDS):
        return 7
    for use, limit, refusal in (("v", n, 8), ("r", number, 9), ("-", 1, 10)):
        if any(u == use and field >= limit for u, field in zip(FIELDS[op], fields)):
            return refusal
    return 0


def refusal_of(strip):
    """The refusal of a rule strip, 1 to 10; 0 if it is accepted."""
    if len(strip) < 2:
        return 1
    size = 16 + 18 * strip[1]
    for refused, number in ((strip[0] >> 4 != 1, 2), (not 1 <= strip[0] & 15 <= 8, 3),
                            (not 1 <= strip[1] <= 128, 4), (len(strip) != (size + 7) // 8, 5),
                            (int.from_bytes(strip, "big") % (1 << -size % 8) != 0, 6)):
        if refused:
            return number
    n, records = read_strip(strip)
    found = (record_refusal(n, number, *record) for number, record in enumerate(records))
    return next((number for number in found if number), 0)


def read_tree(strip):
    """The sets of an accepted tree strip, as MONA writes their members."""
    n = strip[0] & 15
    bits = iter("".join(f"{byte:08b}" for byte in strip[1:]))
    sets = [[] for _ in range(n)]
    waiting = ["root"]
    while waiting:
        place = waiting.pop()
        if next(bits) == "1":
            for members in sets:
                if next(bits) == "1":
                    members.append(place)
            waiting += [place + ".1", place + ".0"]
    return sets


def call_record(prefix, record, names, bound=None):
    """A record's predicate, handed these names, with B for one that is bound."""
    handed = ["B" if i == bound else name for i, name in enumerate(names)]
    return f"{prefix}{record}({', '.join(handed)})"


def predicates(strip, prefix):
    """The predicates of a rule's records, the names that they are handed, and the
    number of the last one."""
    n, records = read_strip(strip)
    names = [f"X{i}" for i in range(n)]

    def call(record, bound=None):
        return call_record(prefix, record, names, bound)

    def body(op, first, second):
        x, y = f"X{first}", f"X{second}"
        return {
            0: lambda: f"{x} sub {y}",
            1: lambda: f"ex1 s: {x} = {{s}}",
            2: lambda: f"ex1 s: {y} = {{s}} & {x} = {{s.0}}",
            3: lambda: f"ex1 s: {y} = {{s}} & {x} = {{s.1}}",
            4: lambda: f"{x} = {{root}}",
            5: lambda: f"~{call(first)}",
            6: lambda: f"{call(first)} | {call(second)}",
            7: lambda: f"{call(first)} & {call(second)}",
            8: lambda: f"ex2 B: {call(second, first)}",
        }[op]()

    head = ", ".join(f"var2 {name}" for name in names)
    return [f"pred {prefix}{i}({head}) = {body(*record)};" for i, record in enumerate(records)], names, len(records) - 1


def to_mona(strip, tree=None, parts=None):
    """MONA text that is satisfiable exactly if the rule is, with a tree's sets alone
    if there is one; or, if parts are given, if all these records are."""
    lines, names, last = predicates(strip, "r")
    asked = " & ".join(call_record("r", part, names) for part in ([last] if parts is None else parts))
    lines = ["ws2s;"] + lines + [f"var2 {', '.join(names)};", asked + ";"]
    for name, members in zip(names, read_tree(tree) if tree else []):
        lines.append(f"{name} = {{{', '.join(members)}}};" if members else f"empty({name});")
    return "\n".join(lines) + "\n"


def joined_apart(one, two, joined):
    """MONA text that is satisfiable exactly if a strip is not what two rules make
    together: it is none, has other numbers of variables and records, or some sets
    satisfy it and not both rules, each by its own variables, or these and not it."""
    if refusal_of(joined) or joined[0] & 15 != max(one[0] & 15, two[0] & 15) or joined[1] != one[1] + two[1] + 1:
        return "ws2s;\n# other numbers\ntrue;\n"
    lines, lasts = ["ws2s;"], []
    for strip, prefix in ((one, "a"), (two, "b"), (joined, "r")):
        added, names, last = predicates(strip, prefix)
        lines += added
        lasts.append(call_record(prefix, last, names))
    lines += [f"var2 {', '.join(names)};", f"~({lasts[2]} <=> ({lasts[0]} & {lasts[1]}));"]
    return "\n".join(lines) + "\n"


# How many states MONA's machine has, where it writes the whole; there are more, of its own, above the root.
STATES = re.compile(r"^State space 1 '<univ>' \(size (\d+)\):$", re.MULTILINE)


def run_mona(text, limit, whole=False):
    """Whether MONA finds the text satisfiable (None if it gives up), and its time; if
    it is to write the whole machine, also that machine's states."""
    with tempfile.NamedTemporaryFile("w", suffix=".mona", delete=False) as file:
        file.write(text)
    begin = time.monotonic()
    try:
        done = subprocess.run(["mona", "-q"] + ["-w"] * whole + [file.name], capture_output=True, text=True,
                              timeout=limit)
        said = done.stdout
        if done.returncode != 0:
            sys.exit(f"MONA failed on\n{text}{said}{done.stderr}")
    except subprocess.TimeoutExpired:
        said = ""
    finally:
        os.unlink(file.name)
    taken = time.monotonic() - begin
    found = False if "unsatisfiable" in said else True if "valid" in said or "satisfying example" in said else None
    return (found, taken, int(STATES.search(said)[1]) if found is not None else None) if whole else (found, taken)


def parts_of(records):
    """The parts of a rule, in their order: of each record, from the first on, the plain
    list without repeats."""
    parts = []
    for number, (op, first, second) in enumerate(records):
        parts.append(list(dict.fromkeys(parts[first] + parts[second])) if op == 7 else [number])
    return parts[-1]


def trials(rule, kept):
    """What the trials of a rule ask, if they keep these parts, and the list itself."""
    parts = parts_of(read_strip(rule)[1])
    for i, part in enumerate(parts):
        rest = [before for before in parts[:i] if before in kept] + parts[i + 1:]
        if rest:
            yield to_mona(rule, parts=rest), part in kept
    yield to_mona(rule, parts=kept), False


def questions(line):
    """What to ask MONA about a vector line: text, whether it is satisfiable, and the
    states of a machine for it where they are told."""
    request, _, answer = line.strip().partition(" = ")
    words, said = request.split(), answer.split()
    if words[0] in ("decide", "verdict") and said[0] in ("shown", "larger", "none"):
        rule = bytes.fromhex(words[1])
        yield to_mona(rule), said[0] != "none", int(said[2 if said[0] == "shown" else 1])
        if said[0] == "shown":
            yield to_mona(rule, bytes.fromhex(said[3])), True, None
    elif words[0] == "judge" and said[0] in ("yes", "no"):
        yield to_mona(bytes.fromhex(words[1]), bytes.fromhex(words[4])), said[0] == "yes", None
    elif words[0] == "clash" and said[0] == "kept":
        yield from ((*trial, None) for trial in trials(bytes.fromhex(words[1]), [int(part) for part in said[2:]]))
    elif words[0] == "clash" and said[:2] == ["refused", "29"]:
        yield to_mona(bytes.fromhex(words[1])), True, None
    elif words[0] == "join" and said[0] == "ok":
        yield joined_apart(*map(bytes.fromhex, (words[1], words[2], said[2]))), False, None


def compare(files, limit):
    asked = agreed = gave_up = counted = 0
    total = 0.0
    for name in files:
        for number, line in enumerate(open(name), 1):
            for text, expected, states in questions(line):
                asked += 1
                found, taken, *size = run_mona(text, limit, states is not None)
                total += taken
                agreed += found == expected and (states is None or size == [states])
                gave_up += found is None
                counted += states is not None
                if found is None:
                    print(f"{name}:{number}: no verdict from MONA in {limit:g} s")
                elif found != expected:
                    print(f"{name}:{number}: satisfiable: MONA {found}, here {expected}\n{text}")
                elif states is not None and size != [states]:
                    print(f"{name}:{number}: states: MONA {size[0]}, here {states}\n{text}")
    print(f"{asked} questions, {counted} of them with states, {agreed} agree, {gave_up} without verdict, {total:.1f} s in MONA")
    return agreed + gave_up == asked and agreed > 0


def run_program(program, rule):
    """The program's line for a rule, as words, and its time."""
    begin = time.monotonic()
    done = subprocess.run([program], input=rule, capture_output=True)
    return done.stdout.decode().split(), time.monotonic() - begin


def least_time(run):
    """What a run gave, and the least time of nine, in milliseconds."""
    runs = [run() for _ in range(9)]
    return runs[0][0], 1000 * min(taken for _, taken in runs)


def time_rules(program, rules, limit):
    print(f"{'':28} {'verdict ms':>12} {'MONA ms':>12}   verdict")
    for name in rules:
        rule = open(name, "rb").read()
        if refusal_of(rule):
            continue
        said, ours = least_time(lambda: run_program(program, rule))
        text = to_mona(rule)
        theirs = least_time(lambda: run_mona(text, limit))[1]
        print(f"{os.path.basename(name):28} {ours:12.2f} {theirs:12.2f}   {' '.join(said)}")
    idle = least_time(lambda: run_mona("ws2s;\ntrue;\n", limit))[1]
    print(f"{'(MONA on a formula that is true)':41} {idle:12.2f}")


# What the command's status says of a rule: whether it can be satisfied.
SATISFIABLE = {0: True, 1: False, 2: True}


def run_command(command, name):
    """The command's status and first line for a text file, and its time."""
    begin = time.monotonic()
    done = subprocess.run([command, "decide", name], capture_output=True, text=True)
    taken = time.monotonic() - begin
    return (done.returncode, (done.stdout or done.stderr).partition("\n")[0]), taken


def compare_texts(command, names, limit):
    """Whether MONA agrees on every text that is not refused; True without MONA."""
    installed = shutil.which("mona") is not None
    if not installed:
        print("MONA is not installed: the times are the command's alone")
    print(f"{'':28} {'command ms':>12} {'MONA ms':>12}   verdict")
    agreed, answered = 0, 0
    for name in names:
        (status, said), ours = least_time(lambda: run_command(command, name))
        if status not in SATISFIABLE:
            print(f"{os.path.basename(name):28} {'-':>12} {'-':>12}   {said}")
            continue
        answered += 1
        theirs = "-"
        if installed:
            with open(name) as file:
                text = file.read()
            found, taken = least_time(lambda: run_mona(text, limit))
            theirs = f"{taken:.2f}"
            agreed += found == SATISFIABLE[status]
            if found != SATISFIABLE[status]:
                said += f"   MONA: {'no verdict' if found is None else 'satisfiable' if found else 'unsatisfiable'}"
        print(f"{os.path.basename(name):28} {ours:12.2f} {theirs:>12}   {said}")
    if installed:
        print(f"{answered} texts, {agreed} verdicts agree")
    return answered > 0 and (not installed or agreed == answered)


def main():
    parser = argparse.ArgumentParser(description=__doc__,
                                     formatter_class=argparse.RawDescriptionHelpFormatter)
    parser.add_argument("--compare", action="store_true", help="compare vector files")
    parser.add_argument("--time", metavar="PROGRAM", help="take the times on rule files")
    parser.add_argument("--texts", metavar="COMMAND", help="compare the command with MONA on text files")
    parser.add_argument("--limit", type=float, default=60, help="seconds for one rule (60)")
    parser.add_argument("argument", nargs="+")
    options = parser.parse_args()
    if options.compare:
        sys.exit(0 if compare(options.argument, options.limit) else 1)
    if options.time:
        time_rules(options.time, options.argument, options.limit)
        return
    if options.texts:
        sys.exit(0 if compare_texts(options.texts, options.argument, options.limit) else 1)
    texts = []
    for rule in options.argument:
        try:
            strip = open(rule, "rb").read() if os.path.exists(rule) else bytes.fromhex(rule)
        except (OSError, ValueError) as error:
            sys.exit(f"mona.py: {rule}: {error}")
        if refusal_of(strip):
            sys.exit(f"mona.py: {rule}: refused {refusal_of(strip)}")
        texts.append(to_mona(strip))
    sys.stdout.write("".join(texts))


if __name__ == "__main__":
    main()
