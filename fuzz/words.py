"""Words of a call: how they are read by docs/FORMATS.md, and words at random."""
import re

COMMANDS = "check list instrument run cover merge report show hits json pick watch self".split()
TOLD = ("report", "show", "hits", "json")


def is_number(word, most):
    return re.fullmatch(r"[1-9][0-9]*", word) is not None and int(word) <= most


def is_seed(word):
    return re.fullmatch(r"0|[1-9][0-9]*", word) is not None and int(word) < 1 << 64


def are_operands(words, least, most):
    return least <= len(words) <= most and not any(word.startswith("-") for word in words)


def is_read(words):
    """Whether the words are a command."""
    if not words:
        return False
    command, *rest = words
    if command in ("run", "cover", "pick", "watch", "self") and len(rest) >= 2 and rest[0] == "-t":
        if not is_number(rest[1], 2_000_000 if command == "watch" else 100_000_000):
            return False
        rest = rest[2:]
    if command == "self":
        return len(rest) == 1 and is_seed(rest[0])
    counts = {"check": (1, 1), "list": (1, 1), "instrument": (2, 2), "run": (2, 3), "watch": (3, 3)}
    for word in ("cover", "merge", "pick", *TOLD):
        counts[word] = (2, 1001)
    return command in counts and are_operands(rest, *counts[command])


POOL = ["p", "q", "e", "t", "", "-", "-t", "--", "-t5", "--help", "0", "1", "01", "+1", "-1", "1 ", " 1", "1e3", "0x10", "27", "100000000",
        "100000001", "2000000", "2000001", "4294967296", "18446744073709551615", "18446744073709551616", "9" * 30, "check ", "Check",
        "blocks", "events", "ä", "\u2212" + "1", "١", "p\n", "/dev/null", "no/such/p", "./p", "*", "p" * 300, "\x01", "\t"]


def made(draw):
    """Words that are a command about half of the time."""
    words = [draw.choice(COMMANDS)] if draw.random() < 0.9 else []
    if draw.random() < 0.3:
        words += ["-t", draw.choice(POOL)]
    for _ in range(draw.choice((0, 1, 1, 2, 2, 2, 3, 3, 4, 7))):
        words.append(draw.choice(POOL[:4]) if draw.random() < 0.6 else draw.choice(POOL))
    if draw.random() < 0.01:
        words += ["e"] * draw.choice((990, 998, 999, 1000))
    return words
