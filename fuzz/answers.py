"""What an answer must be by docs/FORMATS.md: its status, its line on standard error, and the form of what it put."""
import json
import re

STATUSES = {0: "Done", 2: "Usage", 3: "Refused", 4: "Absent", 5: "Long", 6: "BadTrace", 7: "ReadFault", 8: "WriteFault", 9: "KeepFault",
            10: "NoMemory", 11: "NoWatcher"}
LEXED = {1: "BadByte", 2: "OpenComment", 3: "OpenQuote", 4: "BadEscape", 5: "BadNumber", 6: "BadDirective", 7: "MacroTwice",
         8: "TooManyTokens", 9: "LeftOutWord"}
TYPED = {30: "UnknownName", 31: "DeclaredTwice", 32: "NotALeftSide", 33: "WrongType", 34: "WrongArgCount", 35: "NotConstant", 36: "CaseTwice",
         37: "Stray", 38: "NoMain", 39: "IncompleteType", 40: "Undefined", 41: "UnknownField", 42: "TooLarge"}
REFUSALS = {**LEXED, 20: "Syntax", **TYPED, 50: "TooManySites", 51: "TooManyPairs", 52: "ProbeInSource", 53: "NotProbed", 54: "ProbedTooLarge"}
TRACES = {60: "NotATrace", 61: "Version", 62: "Length", 63: "Order", 64: "Damaged", 65: "OtherProgram", 66: "TooMuch"}
OTHERS = {4: "absent", 5: "too long", 7: "read fault", 9: "keep fault", 11: "no watcher"}
FAULTS = "DivideByZero Overflow ShiftCount Null Dangling OutOfBounds Uninitialised OtherArray WriteLiteral NoResult".split()
TOTALS = ("blocks", "decisions", "c-uses", "p-uses", "all-uses")
# the numbers of steps that only some commands have
ONLY = {50: "check list instrument cover report show hits json pick watch self".split(), 54: ["instrument"], 53: ["run"],
        51: "list cover report show hits json pick self".split()}
ONLY[52] = ONLY[50]

PLACE = rb"[1-9]\d*:[1-9]\d*"
NAME = rb"[A-Za-z_][\w.\[\]]*"
OUTCOME = rb"(?:true|false|rest|case -?\d+)"
ITEM = (rb"block [1-9]\d* %(P)s|decision [1-9]\d* %(P)s %(O)s|c-use %(N)s d[1-9]\d* %(P)s u[1-9]\d* %(P)s"
        rb"|p-use %(N)s d[1-9]\d* %(P)s u[1-9]\d* %(P)s %(O)s") % {b"P": PLACE, b"O": OUTCOME, b"N": NAME}
END = re.compile(rb"\n== (?:(?:returned|exited) (-?\d+)|fault (\d+) (\w+) in (\w+)|turn limit|depth limit|room limit) turns (\d+) bytes (\d+)\n\Z")
COUNTS = re.compile(rb"accepted: \d+ blocks, \d+ decisions, \d+ definitions, \d+ uses\n")


class Wrong(Exception):
    """An answer that none of the documents allows."""


def hold(is_so, what):
    if not is_so:
        raise Wrong(what)


def line_of(status, file=b"", rest=b""):
    return b"atac: " + file + b": " + rest + b"\n"


def refusal(err, name, text):
    """The number of a refusal, whose place must lie in the text."""
    found = re.fullmatch(rb"atac: " + re.escape(name) + rb":(\d+):(\d+): (\d+) (\w+)\n", err, re.S)
    hold(found, "no line of a refusal")
    line, col, number = (int(found[k]) for k in (1, 2, 3))
    hold(REFUSALS.get(number) == found[4].decode(), "no number and name of a refusal")
    if number in (51, 53, 54):
        hold((line, col) == (1, 1), "51, 53 and 54 have the place 1:1")
    lines = text.split(b"\n")
    hold(1 <= line <= len(lines) and 1 <= col <= len(lines[line - 1]) + 1, "a place outside of the text")
    return number


def may_fail(ran):
    """Whether some word is a name that no file can have, or that none can be made under."""
    too_long = any(len(word.encode()) > 255 for word in ran.words)
    return too_long if ran.status == 7 else ran.status == 9 and (too_long or "no/such/p" in ran.words or "" in ran.words)


def common(ran, files):
    """The status, and the line that belongs to it. Returns the number of a refusal."""
    hold(ran.status in STATUSES, f"status {ran.status}")
    hold(ran.memory <= 1 << 20, "more than 1 GiB of memory")
    hold(ran.status != 10, "memory was wanted")
    hold(ran.status not in (7, 8, 9) or may_fail(ran), "a fault where files and streams are right")
    command = ran.words[0] if ran.words else ""
    if ran.status == 0:
        hold(ran.err == b"", "a line where the call is done")
    elif ran.status == 2:
        hold(ran.err == b"atac: bad usage\n", "no line of bad usage")
    elif ran.status == 3:
        words = ran.words[3:] if ran.words[1] == "-t" else ran.words[1:]
        number = refusal(ran.err, words[0].encode(), files.get(words[0], b""))
        hold(command in ONLY.get(number, [command]), f"{command} refuses with {number}")
        hold(command != "merge" and command != "self", f"{command} refuses a program")
        return number
    elif ran.status == 6:
        found = re.fullmatch(rb"atac: (.*): (\d+) (\w+)\n", ran.err, re.S)
        hold(found and TRACES.get(int(found[2])) == found[3].decode(), "no line of a bad trace")
        return int(found[2])
    else:
        hold(any(ran.err == line_of(ran.status, word.encode(), OTHERS[ran.status].encode()) for word in ran.words[1:]), "no line of this status")
    if ran.status and command != "cover" and ran.status != 9:
        hold(ran.out == b"", "something was put, and the call isn't done")
    return None


def section(out, name, limit):
    """A run's section: its end line is right. Returns whether the run ended by itself."""
    head = b"== " + name + b"\n"
    found = END.search(out, len(head) - 1)
    hold(out.startswith(head) and found, "no section")
    turns, put = int(found[5]), int(found[6])
    hold(found.start() - len(head) == put, "another number of bytes than were put")
    hold(turns <= limit, "more turns than allowed")
    hold(b"== turn limit" not in found[0] or turns == limit, "a turn limit before its turn")
    if found[2]:
        hold(1 <= int(found[2]) <= 10 and FAULTS[int(found[2]) - 1] == found[3].decode(), "no fault")
    if found[1]:
        hold(-1 << 31 <= int(found[1]) < 1 << 31, "a status that is no int")
    return found[0]


def items_of(text, mark):
    """The item lines in front of the five totals, and the totals."""
    lines = text.split(b"\n")
    hold(lines.pop() == b"", "no newline at the end")
    rows, totals = lines[:-5], lines[-5:]
    form = re.compile(b"(" + ITEM + b")" + mark)
    found = [form.fullmatch(row) for row in rows]
    hold(all(found), "no item line")
    return found, totals


def listed(text):
    """The item lines of a list, whose counts must be those of its lines."""
    found, totals = items_of(text, b"")
    rows = [it[1] for it in found]
    hold(totals == [b"%s %d" % (name.encode(), count) for name, count in zip(TOTALS, counts(rows))], "other counts than lines")
    hold(len(set(rows)) == len(rows), "an item twice")
    return rows


def counts(rows):
    of = [sum(row.startswith(kind) for row in rows) for kind in (b"block ", b"decision ", b"c-use ", b"p-use ")]
    return of + [of[2] + of[3]]


def reported(text, rows):
    """Which of the listed items a report marks as covered; its totals must be those of its lines."""
    found, totals = items_of(text, b" (un)?covered")
    hold([it[1] for it in found] == rows, "other items than listed")
    covered = [it[1] for it in found if not it[2]]
    both = zip(TOTALS, counts(covered), counts(rows))
    hold(totals == [b"%s %d of %d" % (name.encode(), some, all_of) for name, some, all_of in both], "other totals than lines")
    return covered


def hit(text, rows):
    """The number of runs of each item."""
    found, totals = items_of(text, rb" in (\d+) runs( or more)?")
    hold([it[1] for it in found] == rows, "other items than listed")
    return {it[1]: int(it[2]) for it in found}, totals


def shown(text, source, rows, covered):
    """A source with its uncovered items: its lines and the lines of the items, written anew."""
    lines = source.split(b"\n")
    if lines[-1] == b"":
        lines.pop()
    below = {}
    for row in rows:
        if row not in covered:
            places = re.findall(rb" ([1-9]\d*):[1-9]\d*", row)
            below.setdefault(int(places[-1]), []).append(row)
    wanted = b""
    for number, line in enumerate(lines, 1):
        wanted += b"%6d%s%s\n" % (number, b" ! " if number in below else b"   ", line)
        wanted += b"".join(b"         %s\n" % row for row in below.get(number, []))
    both = zip(TOTALS, counts(covered), counts(rows))
    wanted += b"".join(b"%s %d of %d\n" % (name.encode(), some, all_of) for name, some, all_of in both)
    hold(text == wanted, "another show than of these items")


def spelled(text):
    """The item lines with their marks, made of the JSON alone."""
    value = json.loads(text)
    hold(list(value) == ["blocks", "c-uses", "decisions", "p-uses"], "no keys of the JSON")
    hold(json.dumps(value, separators=(",", ":")).encode() + b"\n" == text, "JSON in another form")

    def place(it):
        return f"{it['line']}:{it['col']}"

    def pair(it):
        return f"{it['name']} d{it['def']['number']} {place(it['def'])} u{it['use']['number']} {place(it['use'])}"

    lines = [(f"block {it['number']} {place(it)}", it) for it in value["blocks"]]
    lines += [(f"decision {it['number']} {place(it)} {it['outcome']}", it) for it in value["decisions"]]
    lines += [(f"c-use {pair(it)}", it) for it in value["c-uses"]] + [(f"p-use {pair(it)} {it['outcome']}", it) for it in value["p-uses"]]
    return [line.encode() + (b" covered" if it["covered"] else b" uncovered") for line, it in lines]
