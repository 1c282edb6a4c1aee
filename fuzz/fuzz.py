#!/usr/bin/env python3
"""Plays random texts, texts with probes, traces and words through the built program, and looks for answers that no document allows.

    fuzz/fuzz.py ATAC [--seed N] [--cases N] [--first N] [--workers N] [--seconds N] [--found FOLDER]
    fuzz/fuzz.py ATAC --seed N --again CASE      plays one case again and prints its calls
    fuzz/fuzz.py ATAC --kind KIND ..             cases of one kind alone: text, probed, trace or words
    fuzz/fuzz.py ATAC --rows ROWS ..             texts alone, one call each, many in one process: ROWS is the program of rows_commands

A case depends on the seed and its number alone. Each has 20 processor seconds and 1 GiB a call. What is wrong is kept under FOLDER
(default: fuzz-found) as a folder with the case's files and its words. Prints what was played by command, status and number. No case is
begun after --seconds. Ends with 1 where something was found. tools/quick_build.py builds both programs.
"""
import argparse
import collections
import os
import random
import shutil
import sys
import tempfile
import time

sys.dont_write_bytecode = True

import cases
import play
import rows


def keep_found(folder, seed, number, case, what):
    """Keeps the files and words of a case in which something is wrong."""
    room = os.path.join(folder, f"{seed}-{number}")
    shutil.rmtree(room, ignore_errors=True)
    shutil.copytree(".", room)
    for name, bytes_of in case.files.items():
        with open(os.path.join(room, name), "wb") as file:
            file.write(bytes_of)
    with open(os.path.join(room, "words.txt"), "w", encoding="utf-8") as file:
        file.write(f"{case.kind}: {what}\n" + "".join(f"{list(given)}\n" for given in case.calls))


def play_cases(given, player, shared, numbers, until):
    """Plays the cases of these numbers. Returns what was seen, the greatest memory by command, and how many are wrong."""
    seen, most, found = collections.Counter(), collections.Counter(), 0
    for number in numbers:
        if time.monotonic() > until:
            break
        case, what = cases.play(player, shared, given.seed, number, given.kind)
        seen["kind", case.kind] += 1
        for command, status, refusal, memory in case.seen:
            seen["call", command, status, refusal] += 1
            most[command] = max(most[command], memory)
        if what:
            found += 1
            keep_found(given.found, given.seed, number, case, what)
            print(f"case {number}, {case.kind}: {what}: {list(case.calls[-1])}", flush=True)
    return seen, most, found


def play_texts(given, shared, numbers, until):
    """The same of texts alone, in batches."""
    wrong = []

    def tell(number, row, what):
        wrong.append(number)
        with open(os.path.join(given.found, f"{given.seed}-row-{number}"), "wb") as file:
            file.write(row.line())
        print(f"row {number}: {what}: {row.given}", flush=True)

    seen = rows.work(given.rows, given.seed, numbers, shared, tell, until)
    seen["kind", "text"] = sum(seen.values())
    return seen, {}, len(wrong)


def work(given, first, step, report):
    """Plays every `step`th case, and writes what was seen of them."""
    until = time.monotonic() + given.seconds
    play.limit_self()
    room = tempfile.mkdtemp(dir="/dev/shm" if os.path.isdir("/dev/shm") else None)
    try:
        player = play.Player(given.atac, room)
        shared = cases.gathered(player)
        numbers = range(first, given.first + given.cases, step)
        seen, most, found = play_texts(given, shared, numbers, until) if given.rows else play_cases(given, player, shared, numbers, until)
    finally:
        os.chdir("/")
        shutil.rmtree(room)
    with open(report, "w", encoding="utf-8") as file:
        file.write(repr((dict(seen), dict(most), found)))


def summary(reports, given, seconds):
    seen, most, found = collections.Counter(), collections.Counter(), 0
    for report in reports:
        with open(report, encoding="utf-8") as file:
            of, memory, some = eval(file.read())
        seen.update(of)
        found += some
        for command, kilobytes in memory.items():
            most[command] = max(most[command], kilobytes)
    kinds = ", ".join(f"{count} {key[1]}" for key, count in sorted(seen.items(), key=str) if key[0] == "kind")
    calls = {key[1:]: count for key, count in seen.items() if key[0] == "call"}
    print(f"seed {given.seed}, cases {given.first} to {given.first + given.cases - 1}: {kinds}; {sum(calls.values())} calls in {seconds:.0f} s")
    for command in sorted({key[0] for key in calls}):
        rows = sorted((key[1:], count) for key, count in calls.items() if key[0] == command)
        text = ", ".join(f"{status}{f'/{refusal}' if refusal else ''}: {count}" for (status, refusal), count in rows)
        print(f"  {command or 'no command'} (at most {most[command] // 1024} MB): {text}")
    print(f"{found} found")
    return found


def play_all(given):
    reports = [os.path.join(given.found, f"worker-{k}") for k in range(given.workers)]
    start = time.monotonic()
    started = []
    for k, report in enumerate(reports):
        pid = os.fork()
        if pid == 0:
            status = 1
            try:
                work(given, given.first + k, given.workers, report)
                status = 0
            finally:
                os._exit(status)
        started.append(pid)
    if any([os.waitpid(pid, 0)[1] for pid in started]):
        sys.exit("fuzz: a worker ended early")
    found = summary(reports, given, time.monotonic() - start)
    for report in reports:
        os.unlink(report)
    return found


def play_again(given):
    play.limit_self()
    with tempfile.TemporaryDirectory() as room:
        player = play.Player(given.atac, room)
        case, what = cases.play(player, cases.gathered(player), given.seed, given.again, given.kind)
        for words in case.calls:
            print(list(words))
        print(what or "nothing found")
        if what:
            keep_found(given.found, given.seed, given.again, case, what)
        os.chdir("/")
    return bool(what)


def main():
    words = argparse.ArgumentParser(description=__doc__, formatter_class=argparse.RawDescriptionHelpFormatter)
    words.add_argument("atac")
    words.add_argument("--seed", type=int, default=random.SystemRandom().randrange(1 << 32))
    words.add_argument("--cases", type=int, default=20000)
    words.add_argument("--first", type=int, default=0)
    words.add_argument("--workers", type=int, default=os.cpu_count())
    words.add_argument("--seconds", type=float, default=1e9)
    words.add_argument("--rows")
    words.add_argument("--kind", choices=[it.__name__[5:] for it, _ in cases.KINDS])
    words.add_argument("--found", default="fuzz-found")
    words.add_argument("--again", type=int)
    given = words.parse_args()
    given.atac, given.found = os.path.abspath(given.atac), os.path.abspath(given.found)
    given.rows = given.rows and os.path.abspath(given.rows)
    os.makedirs(given.found, exist_ok=True)
    print(f"seed {given.seed}", flush=True)
    sys.exit(1 if (play_all(given) if given.again is None else play_again(given)) else 0)


if __name__ == "__main__":
    main()
