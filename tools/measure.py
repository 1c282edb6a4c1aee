#!/usr/bin/env python3
"""Measures a run of the gate: the processor seconds of each crate, by proof, tests, edits and programs.

    tools/measure.py [-- rt ci [NAME..]]     runs the command (rt ci, if none is given) and prints a table in Markdown
    tools/measure.py --chain                 prints the crates of crates.txt by level, and the longest chain
    tools/measure.py --paths                 prints for how many paths below them, times imports in clauses, `rt ci` works before its first build

Call it in the repository. What the command says goes to stderr. Twice a second it is looked up in /proc which processes the
command has started, and what they and their own children have used; what a process used after it was last looked at is taken
from the time of ended children that the command is charged with. So the sum is that of the command, but for processes that
ended between two looks: these are in the row `not seen`.
"""
import glob
import os
import re
import subprocess
import sys
import threading
import time

TOP = os.path.dirname(os.path.dirname(os.path.realpath(__file__)))
KINDS = ("proof", "tests", "edits", "programs")
TICK = os.sysconf("SC_CLK_TCK")
EVERY = 0.5
OWN, UNSEEN = "rt itself", "not seen"


def crates():
    """Returns what each crate of crates.txt uses of the repository."""
    with open(f"{TOP}/crates.txt", encoding="utf-8") as it:
        rows = [line.partition("#")[0].partition(":") for line in it]
    uses = {name.split()[0]: below.split() for name, _, below in rows if name.strip()}
    return {name: [it for it in below if it in uses] for name, below in uses.items()}


def longest(uses, weight=lambda name: 1):
    """Returns the heaviest chain of crates, lowest first, and the level of each crate: 1, or one more than the highest that it uses."""
    chains, levels = {}, {}

    def visit(name):
        if name not in chains:
            below = [visit(it) for it in uses[name]]
            levels[name] = 1 + max((levels[it] for it in uses[name]), default=0)
            heaviest = max(below, key=lambda it: it[0], default=(0, []))
            chains[name] = heaviest[0] + weight(name), [*heaviest[1], name]
        return chains[name]

    return max((visit(it) for it in uses), key=lambda it: it[0], default=(0, [])), levels


def paths(uses):
    """Returns, for each crate, the paths of the graph that begin at it, and the names that the clauses of its files import."""
    found = {}

    def visit(name):
        if name not in found:
            found[name] = 1 + sum(visit(it) for it in uses[name])
        return found[name]

    def imports(name):
        files = glob.glob(f"{TOP}/crates/{name}/src/**/*.rt", recursive=True)
        rows = [it for file in files for it in re.findall(r"\bghost use [^;]*;", open(file, encoding="utf-8").read())]
        return sum(it.count(",") + 1 for it in rows)

    return {name: (visit(name), imports(name)) for name in uses}


def processes():
    """Returns, by process, its parent, and the seconds that it used itself and that its ended children used."""
    found = {}
    for pid in filter(str.isdigit, os.listdir("/proc")):
        try:
            with open(f"/proc/{pid}/stat", encoding="utf-8", errors="replace") as it:
                row = it.read().rpartition(")")[2].split()
        except OSError:
            continue
        times = [int(it) / TICK for it in row[11:15]]
        found[int(pid)] = int(row[1]), times[0] + times[1], times[2] + times[3]
    return found


def label(pid, names):
    """Returns the crate and the kind of what a process does, or None where that isn't known (yet)."""
    try:
        with open(f"/proc/{pid}/cmdline", encoding="utf-8", errors="replace") as it:
            words = it.read().split("\0")
        cwd = os.readlink(f"/proc/{pid}/cwd")
    except OSError:
        return None
    # a program or the tests, run on a copy
    text = " ".join(words)
    ran = re.search(r"/rt-run-[^/ ]*/bin/(\w+)", text)
    name = ran[1] if ran else words[words.index("--crate-name") + 1] if "--crate-name" in words[:-1] else None
    at = re.search(r"/crates/(\w+)$", cwd)
    name = name or (at and at[1])
    is_tests = "--test" in words or bool(re.search(r"\w_tests(\.o)?( |$)", text))
    if name and name not in names:
        name = name.removesuffix("_tests")
    if name not in names:
        return None
    if "/rt-edit" in cwd or "/rt-edit" in text:
        return name, "edits"
    if is_tests:
        return name, "tests"
    compiles = "--crate-checked" in words or "rattle-link" in text or "llvm-nm" in text
    return name, "programs" if ran or compiles else "proof"


class Measured:
    def __init__(self, root, names):
        self.root, self.names = root, names
        self.used = {}
        # of each process that the command started: what it does, and the seconds of it and of all below it
        self.seen = {}
        self.own = self.reaped = 0.0

    def add(self, what, seconds):
        self.used[what] = self.used.get(what, 0.0) + seconds

    def look(self):
        """Looks at the processes once; what ended since the last look is charged with what the command was charged with."""
        found = processes()
        if self.root not in found:
            return
        _, self.own, reaped = found[self.root]
        children = {}
        for pid, (parent, _, _) in found.items():
            children.setdefault(parent, []).append(pid)

        def whole(pid):
            return found[pid][1] + found[pid][2] + sum(whole(it) for it in children.get(pid, []))

        below = children.get(self.root, [])
        self.ended([it for it in self.seen if it not in below], reaped)
        for pid in below:
            what = label(pid, self.names) or self.seen.get(pid, (None,))[0]
            self.seen[pid] = what, whole(pid)

    def ended(self, pids, reaped):
        gone = [self.seen.pop(it) for it in pids]
        more = max(reaped - self.reaped, 0.0)
        self.reaped = reaped
        known = [it for it in gone if it[0]]
        for what, seconds in known:
            self.add(what, seconds)
        left = more - sum(seconds for _, seconds in known)
        for what, _ in known:
            self.add(what, left / len(known))
        if not known and left > 0:
            self.add((UNSEEN, "proof"), left)


def table(measured, uses, total, wall, kept, last):
    row = lambda name, kinds: f"| {name} | " + " | ".join(f"{it:.0f}" for it in [*kinds, sum(kinds)]) + " |"
    of = {}
    for (name, kind), seconds in measured.used.items():
        of.setdefault(name, dict.fromkeys(KINDS, 0.0))[kind] += seconds
    of.setdefault(UNSEEN, dict.fromkeys(KINDS, 0.0))
    unseen = sum(of.pop(UNSEEN).values())
    sums = [sum(it[kind] for it in of.values()) for kind in KINDS]
    yield "| crate | proof | tests | edits | programs | sum |"
    yield "|---|--:|--:|--:|--:|--:|"
    for name, kinds in sorted(of.items(), key=lambda it: -sum(it[1].values())):
        yield row(name + (" (kept)" if name in kept else ""), [max(kinds[it], 0.0) for it in KINDS])
    yield row("**all**", sums)
    yield ""
    yield "Processor seconds, all in all: " + f"{total:.0f}; of these {OWN} {measured.own:.0f}, and {UNSEEN} {unseen:.0f}. Wall time: {wall:.0f} s, on {os.cpu_count()} processors."
    (_, chain), _ = longest(uses)
    yield f"The longest chain has {len(chain)} crates: {' '.join(chain)}."
    (seconds, chain), _ = longest(uses, lambda it: of.get(it, {}).get("proof", 0.0))
    yield f"The chain whose proofs took longest, {seconds:.0f} processor seconds: {' '.join(chain)}."
    yield f"The run ended with: {last}"


def measure(words):
    uses, begun, before, kept, last = crates(), time.time(), os.times(), set(), [""]
    with subprocess.Popen(words, stdin=subprocess.DEVNULL, stdout=subprocess.PIPE, text=True, errors="replace") as ran:

        def read():
            for line in ran.stdout:
                print(line, end="", file=sys.stderr, flush=True)
                last[0] = line.strip() or last[0]
                kept.update(re.findall(r"^rt: (\w+) is kept", line))

        reader, measured = threading.Thread(target=read), Measured(ran.pid, uses)
        reader.start()
        # (not reaped before it was looked at once more: its own times end with it)
        while not os.waitid(os.P_PID, ran.pid, os.WEXITED | os.WNOHANG | os.WNOWAIT):
            measured.look()
            time.sleep(EVERY)
        measured.look()
        reader.join()
    after = os.times()
    total = after.children_user + after.children_system - before.children_user - before.children_system
    print(*table(measured, uses, total, time.time() - begun, kept, last[0]), sep="\n")
    return ran.returncode


def main(words):
    if words == ["--chain"]:
        (_, chain), levels = longest(crates())
        for level in range(1, max(levels.values(), default=0) + 1):
            print(f"{level}: {' '.join(sorted(it for it in levels if levels[it] == level))}")
        print(f"The longest chain has {len(chain)} crates: {' '.join(chain)}")
        return 0
    if words == ["--paths"]:
        rows = sorted(paths(crates()).items(), key=lambda it: -it[1][0] * it[1][1])
        for name, (ways, imported) in rows[:12]:
            print(f"{name}: {ways} paths, {imported} imports")
        print(f"The sum of the products is {sum(ways * imported for _, (ways, imported) in rows)}.")
        return 0
    if words[:1] == ["--"]:
        words = words[1:] or ["rt", "ci"]
    elif words:
        print("usage: tools/measure.py [-- COMMAND ..] | --chain | --paths", file=sys.stderr)
        return 2
    return measure(words or ["rt", "ci"])


sys.exit(main(sys.argv[1:]))
