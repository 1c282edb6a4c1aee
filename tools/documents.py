#!/usr/bin/env python3
"""Tries the commands that the documents show, with what they say that these print.

    tools/documents.py ATAC        by the program ATAC, in a copy of examples/ of its own

A command is a line `    $ COMMAND` of README.md or docs/*.md, and the indented lines below it are what it prints, of both
streams; a line `...` stands for any lines. Ends with 1 where one prints something else.
"""
import os
import re
import shutil
import subprocess
import sys
import tempfile
from pathlib import Path

TOP = Path(__file__).resolve().parent.parent
INDENT = "    "


def commands(text):
    """Returns the commands of a document, each with its line's number and the lines that it prints."""
    found, printed = [], None
    for number, line in enumerate(text.splitlines(), 1):
        if line.startswith(INDENT + "$ "):
            printed = []
            found.append((number, line[len(INDENT) + 2:], printed))
        elif printed is not None and line.startswith(INDENT):
            printed.append(line[len(INDENT):])
        elif printed is not None and not line and printed:
            # (an empty line ends what is printed, unless more of it follows)
            printed.append(line)
        elif line:
            printed = None
    return [(number, command, strip(printed)) for number, command, printed in found]


def strip(lines):
    """Returns the lines without the empty ones at their end."""
    while lines and not lines[-1]:
        lines = lines[:-1]
    return lines


def fits(wanted, printed):
    """Returns whether these lines were printed, where `...` stands for any lines."""
    parts = [".*" if line == "..." else re.escape(line) + "\n" for line in wanted]
    return re.fullmatch("".join(parts), printed, re.DOTALL) is not None


def tried(room, document, number, command, wanted):
    """Runs a command; says what differs, if anything, and returns whether nothing does."""
    ran = subprocess.run(["bash", "-c", command], cwd=room, stdin=subprocess.DEVNULL, stdout=subprocess.PIPE, stderr=subprocess.STDOUT, text=True)
    if fits(wanted, ran.stdout) or not wanted and not ran.stdout:
        return True
    print(f"{document}:{number}: {command}\nsays:\n{chr(10).join(wanted)}\nprints:\n{ran.stdout}", file=sys.stderr)
    return False


def main(words):
    if len(words) != 1 or words[0].startswith("-"):
        print(__doc__, file=sys.stderr)
        return 2
    failed = passed = 0
    for document in [TOP / "README.md", *sorted((TOP / "docs").glob("*.md"))]:
        with tempfile.TemporaryDirectory() as room:
            shutil.copytree(TOP / "examples", f"{room}/examples")
            os.symlink(os.path.realpath(words[0]), f"{room}/atac")
            for number, command, wanted in commands(document.read_text(encoding="utf-8")):
                is_right = tried(room, document.relative_to(TOP), number, command, wanted)
                passed, failed = passed + is_right, failed + (not is_right)
    print(f"{passed} commands of the documents passed, {failed} failed")
    return 1 if failed or not passed else 0


sys.exit(main(sys.argv[1:]))
