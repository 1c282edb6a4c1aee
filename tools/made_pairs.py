#!/usr/bin/env python3
"""Programs made at random, in which every pair that a run makes must be listed, and no other c-use be covered.

    tools/made_pairs.py ATAC             a hundred programs
    tools/made_pairs.py ATAC FIRST LAST  those of these numbers

The programs have local variables and parameters alone: integers, arrays, structures in structures and in arrays, copies of these,
loops, `switch`, blocks with declarations, calls and recursion; no pointer and no variable of file scope. So a pair of a definition
and a use of one cell, by the events that `watch` tells, is one that `list` must have, and `cover` must show it covered.
Ends with 1 where one is missing.
"""
import random
import re
import subprocess
import sys
import tempfile
from pathlib import Path

STRUCTURES = "struct p{int x;int y;};struct q{int h;struct p in;int a[2];};struct r{struct q m;struct p v[2];};"
DECLARED = {
    "int": "int {}={n};",
    "ints": "int {}[3]={{4,5,{n}}};",
    "p": "struct p {}={{1,{n}}};",
    "ps": "struct p {}[2]={{{{1,2}},{{3,{n}}}}};",
    "q": "struct q {}={{1,{{2,3}},{{4,{n}}}}};",
    "r": "struct r {}={{{{1,{{2,3}},{{4,5}}}},{{{{1,2}},{{3,{n}}}}}}};",
}
# integers in a variable, and structures of each kind in it
INTEGERS = {
    "int": ["{}"], "ints": ["{}[{3}]"], "p": ["{}.x", "{}.y"], "ps": ["{}[{2}].x", "{}[{2}].y"],
    "q": ["{}.h", "{}.in.x", "{}.a[{2}]"], "r": ["{}.m.h", "{}.m.in.y", "{}.m.a[{2}]", "{}.v[{2}].x"],
}
HELD = {
    "p": {"p": ["{}"], "ps": ["{}[{2}]"], "q": ["{}.in"], "r": ["{}.m.in", "{}.v[{2}]"]},
    "q": {"q": ["{}"], "r": ["{}.m"]},
    "r": {"r": ["{}"]},
}


class Maker:
    """A program of one number."""

    def __init__(self, number):
        self.any, self.functions, self.variables = random.Random(number), [], {}

    def place(self, pattern, name):
        """The pattern with the name in place of {}, and an index below N in place of each {N}."""
        text = pattern.replace("{}", name)
        return re.sub(r"\{(\d)\}", lambda m: self.any.choice([str(self.any.randrange(int(m[1]))), f"n%{m[1]}", f"i%{m[1]}"]), text)

    def places(self, patterns):
        return [self.place(pattern, name) for name, kind in self.variables.items() for pattern in patterns.get(kind, [])]

    def value(self, depth=0):
        way = self.any.random()
        if depth > 2 or way < 0.4:
            return self.any.choice([*self.places(INTEGERS), "n", "i", str(self.any.randrange(5))])
        deeper = [self.value(depth + 1) for _ in range(3)]
        if way < 0.7:
            return f"({deeper[0]}{self.any.choice(['+', '-', '*', '<', '=='])}{deeper[1]})"
        if way < 0.8:
            return f"({deeper[0]}{self.any.choice(['&&', '||'])}{deeper[1]})"
        if way < 0.87:
            return f"({deeper[0]}?{deeper[1]}:{deeper[2]})"
        return f"{self.any.choice(self.functions)}(n-1)" if way < 0.93 else "(c=getchar())"

    def copy(self):
        """An assignment of one structure to another of its kind, where there are two."""
        places = [self.places(patterns) for patterns in HELD.values()]
        places = [some for some in places if len(some) > 1]
        return "{}={};".format(*self.any.sample(self.any.choice(places), 2)) if places else ";"

    def statement(self, depth=0):
        way = self.any.random()
        target = self.any.choice([*self.places(INTEGERS), "c"])
        if way < 0.4 or depth > 3:
            return self.any.choice([f"{target}={self.value()};", f"{target}{self.any.choice(['+=', '-='])}{self.value()};", f"{target}++;"])
        if way < 0.65:
            return self.copy()
        inner = [self.block(depth + 1) for _ in range(2)]
        return self.any.choice([
            f"if({self.value()}){inner[0]}",
            f"if({self.value()}){inner[0]}else{inner[1]}",
            f"for(i=0;i<{self.any.randint(1, 4)};i++){inner[0]}",
            f"{{struct p z={{3,4}};int w={self.any.randrange(3)};z.x=w;w=z.y;z.y=w;{inner[0]}}}",
            f"switch({self.value()}){{case 0:{inner[0]}case 1:{inner[1]}break;default:c=n;}}",
            f"if({self.value()})return {self.value()};",
        ])

    def block(self, depth):
        return "{" + "".join(self.statement(depth) for _ in range(self.any.randint(1, 3))) + "}"

    def function(self, name):
        self.functions.append(name)
        kinds = self.any.choices(list(DECLARED), k=self.any.randint(4, 8))
        self.variables = dict(zip("abdefghj", kinds))
        declared = "".join(DECLARED[kind].format(variable, n=self.any.randrange(4)) for variable, kind in self.variables.items())
        body = "".join(self.statement() for _ in range(self.any.randint(4, 10)))
        return f"int {name}(int n){{int i=0;int c=0;{declared}if(n<0||n>3)return 0;{body}return {self.value()};}}"

    def program(self):
        functions = "".join(self.function(f"f{k}") for k in range(self.any.randint(1, 3)))
        return f"{STRUCTURES}{functions}int main(void){{int k=0;while(k<3){{{self.functions[-1]}(k);k=k+1;}}return 0;}}"


def pairs_made(events):
    """The pairs of a definition of a cell and a use of it with no other definition between, by the lines of a watcher."""
    last, made = {}, set()
    for line in events:
        words = line.split()
        if words[:1] == ["def"]:
            last[words[2]] = int(words[1])
        elif words[:1] == ["use"] and words[2] in last:
            made.add((last[words[2]], int(words[1])))
    return made


def pairs_said(lines):
    """Each pair of these lines of items, with whether it is a c-use that is covered, a c-use that isn't, or a p-use."""
    found = re.findall(r"^(c|p)-use \S+ d(\d+) \S+ u(\d+) \S+(.*)$", "\n".join(lines), re.M)
    return {(int(d), int(u)): rest.strip() if kind == "c" else "p-use" for kind, d, u, rest in found}


def tried(atac, number, folder):
    """How many pairs the run of the program of that number makes, and what is wrong with what is said of them."""
    (folder / "p.c").write_text(Maker(number).program())
    (folder / "in").write_bytes(bytes(random.Random(number).choices(range(256), k=8)))

    wrong = []

    def lines(*words):
        ran = subprocess.run([atac, *words], cwd=folder, capture_output=True, text=True)
        wrong.extend([f"{words[0]} ends with {ran.returncode}"] * (ran.returncode != 0))
        return ran.stdout.split("\n")

    made = pairs_made(lines("watch", "-t", "20000", "p.c", "in", "events"))
    listed, covered = pairs_said(lines("list", "p.c")), pairs_said(lines("cover", "-t", "20000", "p.c", "in"))
    wrong += [f"{pair} isn't listed" for pair in sorted(made - set(listed))]
    wrong += [f"{pair} is {said}" for pair, said in sorted(covered.items()) if said != "p-use" and (said == "covered") != (pair in made)]
    return len(made), wrong


def main(atac, first=0, last=100):
    total, failed = 0, 0
    with tempfile.TemporaryDirectory() as folder:
        for number in range(int(first), int(last)):
            count, wrong = tried(Path(atac).resolve(), number, Path(folder))
            total, failed = total + count, failed + bool(wrong)
            for line in wrong[:5]:
                print(f"program {number}: {line}")
    print(f"{total} pairs made by {int(last) - int(first)} programs, {failed} of which fail")
    return 1 if failed or not total else 0


if __name__ == "__main__":
    if len(sys.argv) not in (2, 4):
        sys.exit(__doc__)
    sys.exit(main(*sys.argv[1:]))
