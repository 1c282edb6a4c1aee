"""What atac-html, atac-lcov and atac-gate share: a program's items as `atac json` writes them, totals, and one line for bad input.

A tool that is given bad input says so in one line on standard error and ends with status 2.
"""
import argparse
import json
import sys
from dataclasses import dataclass
from pathlib import Path

KINDS = ("blocks", "decisions", "c-uses", "p-uses")
SOURCE_AND_JSON = {"SOURCE": "the C program", "JSON": "what atac json writes of it, or - for standard input"}


class Refused(Exception):
    """Bad input, with the line that says so."""


class Parser(argparse.ArgumentParser):
    """Words that aren't understood are refused in one line too."""

    def __init__(self, name, text, operands):
        about, more = text.strip().split("\n\n", 1)
        super().__init__(prog=name, description=about, epilog=more, allow_abbrev=False)
        for operand, words in operands.items():
            self.add_argument(operand.lower(), metavar=operand, help=words)

    def error(self, message):
        raise Refused(message.replace("\n", " "))


def run(main):
    """Ends the process with the status of `main`, or with 2 and one line where it refuses its input."""
    name = Path(sys.argv[0]).name
    try:
        status = main(name)
        sys.stdout.flush()
    except Refused as refused:
        print(f"{name}: {refused}", file=sys.stderr)
        status = 2
    except BrokenPipeError:
        sys.stderr.close()
        status = 2
    sys.exit(status)


def read_bytes(name):
    """The bytes of a file, or of standard input where the name is -."""
    try:
        return sys.stdin.buffer.read() if name == "-" else Path(name).read_bytes()
    except OSError as error:
        raise Refused(f"{name}: {error.strerror}") from None


@dataclass(frozen=True)
class Place:
    """A definition, a use, a block or a decision: where it stands, counted from 1, and its number."""
    line: int
    col: int
    number: int


@dataclass(frozen=True)
class Item:
    """An item of one of the four kinds. A pair has a definition, and it stands at its use."""
    kind: str
    covered: bool
    at: Place
    definition: Place = None
    name: str = None
    outcome: str = None

    def text(self):
        """The item as atac prints it."""
        outcome = f" {self.outcome}" if self.outcome is not None else ""
        here = f"{self.at.line}:{self.at.col}"
        if self.definition is None:
            return f"{self.kind[:-1]} {self.at.number} {here}{outcome}"
        there = f"d{self.definition.number} {self.definition.line}:{self.definition.col}"
        return f"{self.kind[:-1]} {self.name} {there} u{self.at.number} {here}{outcome}"


@dataclass(frozen=True)
class Total:
    """So many items are covered, of so many."""
    covered: int
    all: int

    def percent(self, digits):
        """The covered ones in percent, cut to so many digits, so that 100 are all; none of none are all too."""
        return 100 * 10 ** digits * self.covered // self.all / 10 ** digits if self.all else 100.0


def read_source(name):
    """A source's lines, each as bytes. An empty rest behind the last newline is no line."""
    lines = read_bytes(name).split(b"\n")
    return lines[:-1] if not lines[-1] else lines


def read_items(name, lines):
    """The items that a file of JSON has, whose places must stand in these lines."""
    try:
        value = json.loads(read_bytes(name).decode("utf-8"))
    except ValueError as error:
        raise Refused(f"{name}: not JSON: {error}") from None
    try:
        return [read_item(kind, row, lines) for kind in KINDS for row in members(value, KINDS, list)[kind]]
    except Refused as refused:
        raise Refused(f"{name}: {refused}") from None


def members(value, keys, of_type=None):
    """The members of an object that has exactly these keys."""
    if not isinstance(value, dict) or set(value) != set(keys):
        raise Refused("not what atac json writes: no object with " + ", ".join(keys))
    if of_type and not all(isinstance(value[key], of_type) for key in keys):
        raise Refused("not what atac json writes: no lists")
    return value


def read_item(kind, row, lines):
    outcome = ("outcome",) if kind in ("decisions", "p-uses") else ()
    is_pair = kind in ("c-uses", "p-uses")
    members(row, ("covered",) + outcome + (("def", "name", "use") if is_pair else ("col", "line", "number")))
    if not isinstance(row["covered"], bool) or not all(isinstance(row[key], str) for key in outcome + (("name",) if is_pair else ())):
        raise Refused("not what atac json writes: a member of another type")
    at = read_place(row["use"] if is_pair else {key: row[key] for key in ("col", "line", "number")}, lines)
    definition = read_place(row["def"], lines) if is_pair else None
    return Item(kind, row["covered"], at, definition, row.get("name"), row.get("outcome"))


def read_place(row, lines):
    members(row, ("col", "line", "number"))
    line, col, number = row["line"], row["col"], row["number"]
    if not all(type(n) is int and n >= 1 for n in (line, col, number)):
        raise Refused("not what atac json writes: a number that isn't one")
    if line > len(lines) or col > len(lines[line - 1]):
        raise Refused(f"{line}:{col} isn't in the source: is it another one's?")
    return Place(line, col, number)


def totals(items):
    """The totals of each kind and of all uses, in atac's order."""
    found = {kind: total_of([item for item in items if item.kind == kind]) for kind in KINDS}
    found["all-uses"] = total_of([item for item in items if item.definition])
    return found


def total_of(items):
    return Total(sum(item.covered for item in items), len(items))
