"""Texts through the program of crates/rows_commands, many in one process: the same top call, over a shelf and sinks in memory."""
import collections
import random
import re
import resource
import subprocess
import time

import answers
import play
import texts
from answers import hold

BATCH = 200
SECONDS = 300
COMMANDS = ("check p", "list p", "cover -t {} p e", "cover -t {} p e e", "run -t {} p e", "watch -t {} p e events", "watch -t {} p e blocks",
            "pick -t {} p e e", "instrument p q")


class Row:
    """A call and what it puts, in the form that the judges of answers take."""

    def __init__(self, given, text, entered):
        self.words, self.text, self.entered = given.split(" "), text, entered
        self.given, self.status, self.out, self.err, self.memory = given, None, b"", b"", 0

    def line(self):
        return self.given.encode() + b"\t" + self.entered.replace(b"\n", b"`") + b"\t" + self.text.replace(b"\n", b"`") + b"\n"


def fit(bytes_of):
    """The bytes as a field can hold them: as UTF-8, without what parts fields."""
    return bytes_of.decode("latin-1").translate({9: 32, 13: 32, 96: 64}).encode()


def made(seed, number, shared):
    draw = random.Random(f"{seed}/rows/{number}")
    text = fit(texts.mutated(draw, shared["sources"] if draw.random() < 0.9 else shared["probed"]))
    return Row(draw.choice(COMMANDS).format(draw.choice((1, 7, 40, 300, 2000))), text, fit(draw.choice(shared["inputs"][:-1])[:40]))


def bytes_shown(field):
    """The bytes of a field; a number behind a backslash is a byte where it has no sign of its own."""
    def byte(found):
        value = int(found[1])
        return bytes([value]) if value < 256 and not 32 <= value < 127 else found[0]
    return re.sub(rb"\\(\d{1,3})", byte, field.replace(b"`", b"\n"))


def judge(row):
    number = answers.common(row, {"p": row.text})
    hold(row.status in (0, 3), f"status {row.status} of a text")
    command = row.words[0]
    if row.status:
        return number
    if command == "check":
        hold(answers.COUNTS.fullmatch(row.out), "no line of counts")
    elif command == "list":
        answers.listed(row.out)
    elif command == "instrument":
        hold(row.out == b"", "instrument puts something")
    else:
        hold(row.out.startswith(b"== e\n") or command == "pick", "no section")
    if command in ("cover", "pick"):
        last = row.out.split(b"\n")[-6:-1]
        hold([it.split()[0].decode() for it in last] == list(answers.TOTALS), "no totals")
    return number


def play_rows(program, rows):
    """The answers of a batch. A process that dies leaves the rest of them without a status."""
    def limit():
        resource.setrlimit(resource.RLIMIT_CPU, (SECONDS, SECONDS))
        resource.setrlimit(resource.RLIMIT_AS, (play.MEMORY, play.MEMORY))

    ran = subprocess.run([program], input=b"".join(row.line() for row in rows), stdout=subprocess.PIPE, stderr=subprocess.PIPE, preexec_fn=limit)
    for row, line in zip(rows, ran.stdout.split(b"\n")):
        fields = line.split(b"\t")
        if len(fields) == 3:
            row.status, row.out, row.err = int(fields[0]), bytes_shown(fields[1]), bytes_shown(fields[2])
    return ran.returncode


def work(program, seed, numbers, shared, tell, until):
    """Plays these numbers in batches, until that time. Calls `tell` with each number, its row and what is wrong."""
    seen = collections.Counter()
    for at in range(0, len(numbers), BATCH):
        if time.monotonic() > until:
            break
        some = numbers[at:at + BATCH]
        rows = [made(seed, number, shared) for number in some]
        status = play_rows(program, rows)
        for number, row in zip(some, rows):
            if row.status is None:
                tell(number, row, f"the process ended with {status}")
                break
            try:
                refusal = judge(row)
            except answers.Wrong as wrong:
                refusal = 0
                tell(number, row, str(wrong))
            seen["call", row.words[0], row.status, refusal or 0] += 1
    return seen
