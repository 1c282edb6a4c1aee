#!/usr/bin/env python3
"""Tests of the program ATAC among hostile files, streams and names: each status, line and file is that of docs/FORMATS.md.

    tools/hostile.py ATAC             real files and streams, in a minute
    tools/hostile.py ATAC --long      programs, traces, inputs and runs at their limits and one past them, in some minutes
    tools/hostile.py ATAC --memory    each growth of memory refused in turn, in some minutes
    tools/hostile.py ATAC [--long | --memory] NAME ..      these tests alone

What needs another user, a mount or strace is skipped, and said to be, where it can't be had. Ends with 1 where one fails.
"""
import hashlib
import importlib
import os
import shutil
import socket
import subprocess
import sys
import tempfile
import threading
import unittest
from pathlib import Path

sys.dont_write_bytecode = True

ATAC = None
NOBODY = 65534

RETURN = b"int main(void){return 0;}"
# by hand: three turns, for the body, the return and the 0; one block
SECTION = b"== %s\n\n== returned 0 turns 3 bytes 0\n"
REPORT = b"block 1 1:15 covered\nblocks 1 of 1\ndecisions 0 of 0\nc-uses 0 of 0\np-uses 0 of 0\nall-uses 0 of 0\n"
CHECKED = b"accepted: 1 blocks, 0 decisions, 0 definitions, 0 uses\n"


def probed():
    """The text of RETURN with its probes, by hand."""
    return b'__atac_program ( "%s" ) ;\nint main ( void ) __atac_block ( 1 ) : {\nreturn 0 ;\n}\n' % hashlib.sha256(RETURN).hexdigest().encode()


def trace(runs, program=RETURN):
    """A trace of RETURN: so many runs, each of which met block 1."""
    body = b"ATAC\0\2" + hashlib.sha256(program).digest() + runs.to_bytes(4, "big") + bytes(4)
    body += b"\0\0\0\1\0\1" + runs.to_bytes(4, "big") + bytes(12)
    return body + hashlib.sha256(body).digest()


class Room(unittest.TestCase):
    """A folder of its own with the program RETURN, its text with probes, an empty input and a trace of one run."""

    def setUp(self):
        self.room = Path(tempfile.mkdtemp(prefix="hostile "))
        self.addCleanup(shutil.rmtree, self.room, ignore_errors=True)
        self.put({"p": RETURN, "q": probed(), "e": b"", "t": trace(1)})

    def put(self, files):
        for name, bytes_of in files.items():
            (self.room / name).write_bytes(bytes_of)

    def call(self, *words, **how):
        how = {"stdout": subprocess.PIPE, "stderr": subprocess.PIPE, "stdin": subprocess.DEVNULL, "timeout": 600, **how}
        ran = subprocess.run([ATAC, *words], cwd=self.room, **how)
        return ran.returncode, ran.stdout, ran.stderr

    def answers(self, words, status, out=b"", err=b"", **how):
        with self.subTest(words=words):
            self.assertEqual(self.call(*words, **how), (status, out, err))

    def stands(self, files):
        """These files and no other stand in the room, with these bytes where they are given."""
        self.assertEqual(sorted(os.listdir(os.fsencode(self.room))), sorted(map(os.fsencode, files)))
        for name, bytes_of in files.items():
            if bytes_of is not None:
                self.assertEqual((self.room / os.fsdecode(name)).read_bytes(), bytes_of)


def line(text, file=None):
    return b"atac: " + (os.fsencode(file) + b": " if file is not None else b"") + text + b"\n"


class Names(Room):
    def test_odd_names(self):
        for name in ("a\nb", "a b", "a:b", "*", "\x01\x1b[2J", "ä", "p" * 255, "-", "-p"):
            self.put({name: RETURN})
            given = "./" + name if name.startswith("-") else name
            self.answers(["check", given], 0, CHECKED)
            self.answers(["cover", "p", given], 0, SECTION % given.encode() + REPORT)
            self.put({name: b"int main(void){return x;}"})
            self.answers(["check", given], 3, err=line(b"1:23: 30 UnknownName", given).replace(b": 1:23", b":1:23"))
            os.unlink(self.room / name)
            self.answers(["check", given], 4, err=line(b"absent", given))

    def test_kept_under_odd_names(self):
        for name in ("a\nb", "ä b", "./-q", "p" * 255, "p" * 250):
            with self.subTest(name=name):
                self.answers(["instrument", "p", name], 0)
                self.answers(["instrument", "p", name], 0)
                self.stands({"p": RETURN, "q": probed(), "e": b"", "t": trace(1), os.path.basename(name): probed()})
                os.unlink(self.room / name)

    def test_names_that_no_file_has(self):
        long = "p" * 256
        for name, status, what in (("", 4, b"absent"), (long, 7, b"read fault"), ("x/" * 3000, 7, b"read fault")):
            self.answers(["check", name], status, err=line(what, name))
            self.answers(["cover", "p", "e", name], status, SECTION % b"e", line(what, name))
            self.answers(["report", "p", name], status, err=line(what, name))
            self.answers(["instrument", "p", name], 9, err=line(b"keep fault", name))
        self.answers(["run", "q", "e", ""], 9, SECTION % b"e", line(b"keep fault", ""))
        self.stands({"p": RETURN, "q": probed(), "e": b"", "t": trace(1)})

    def test_dashes(self):
        self.put({"-": RETURN, "-p": RETURN, "-t": b""})
        for words in (["check", "-"], ["check", "-p"], ["cover", "p", "-t"], ["cover", "-t", "p", "e"], ["run", "p", "e", "-t", "5"],
                      ["instrument", "p", "--"], ["merge", "-", "t"], ["check", "--", "p"], ["check", "--help"]):
            self.answers(words, 2, err=line(b"bad usage"))
        self.stands({"-": None, "-p": None, "-t": None, "p": None, "q": None, "e": None, "t": None})

    def test_words_that_are_no_text(self):
        for words in ([b"check", b"\xff"], [b"\xff"], [b"run", b"p", b"e", b"t\xc3"], [b"check", b"p", b"\xed\xa0\x80"]):
            self.answers(words, 12)
        self.stands({"p": RETURN, "q": probed(), "e": b"", "t": trace(1)})

    def test_many_words(self):
        self.answers(["check"] + ["p"] * 100000, 2, err=line(b"bad usage"))
        self.answers(["cover", "p"] + ["e"] * 1000, 0, SECTION % b"e" * 1000 + REPORT)
        self.answers(["cover", "p"] + ["e"] * 1001, 2, err=line(b"bad usage"))
        self.answers(["merge", "m"] + ["t"] * 1000, 0, b"runs 1000\n")
        self.answers(["merge", "m"] + ["t"] * 1001, 2, err=line(b"bad usage"))
        self.stands({"p": None, "q": None, "e": None, "t": None, "m": trace(1000)})


class Links(Room):
    def test_links_to_read(self):
        os.symlink("p", self.room / "link")
        os.symlink("link", self.room / "again")
        os.symlink("nothing", self.room / "dangling")
        os.symlink("loop", self.room / "loop")
        self.answers(["check", "again"], 0, CHECKED)
        self.answers(["check", "dangling"], 4, err=line(b"absent", "dangling"))
        self.answers(["cover", "p", "e", "dangling"], 4, SECTION % b"e", line(b"absent", "dangling"))
        self.answers(["check", "loop"], 7, err=line(b"read fault", "loop"))

    def test_links_to_keep(self):
        """A file is replaced where a link leads, and a link to nothing is replaced itself; the old file's further names aren't kept."""
        os.mkdir(self.room / "far")
        self.put({"far/old": b"old"})
        os.symlink("far/old", self.room / "link")
        os.symlink("nothing", self.room / "dangling")
        os.symlink("loop", self.room / "loop")
        os.link(self.room / "far/old", self.room / "second")
        self.answers(["instrument", "p", "link"], 0)
        self.assertTrue((self.room / "link").is_symlink())
        self.assertEqual((self.room / "far/old").read_bytes(), probed())
        self.assertEqual((self.room / "second").read_bytes(), b"old")
        self.answers(["instrument", "p", "dangling"], 0)
        self.assertFalse((self.room / "dangling").is_symlink())
        self.assertEqual((self.room / "dangling").read_bytes(), probed())
        self.answers(["instrument", "p", "loop"], 9, err=line(b"keep fault", "loop"))
        self.assertEqual(os.listdir(self.room / "far"), ["old"])

    def test_permissions_are_kept(self):
        for mode in (0o600, 0o755, 0o666):
            os.chmod(self.room / "t", mode)
            self.answers(["run", "q", "e", "t"], 0, SECTION % b"e")
            self.assertEqual(os.stat(self.room / "t").st_mode & 0o777, mode)

    def test_at_once(self):
        """Of calls that add to one trace at one time some may be lost: each is done, and what stands is whole."""
        for _ in range(3):
            self.put({"t": trace(1)})
            all_of = [subprocess.Popen([ATAC, "run", "q", "e", "t"], cwd=self.room, stdout=subprocess.DEVNULL) for _ in range(8)]
            self.assertEqual([ran.wait() for ran in all_of], [0] * 8)
            self.assertIn((self.room / "t").read_bytes(), [trace(runs) for runs in range(2, 10)])
            self.stands({"p": RETURN, "q": probed(), "e": b"", "t": None})

    def test_own_files(self):
        """What is kept may take the place of what was read."""
        self.answers(["merge", "t", "t", "t"], 0, b"runs 2\n")
        self.stands({"p": RETURN, "q": probed(), "e": b"", "t": trace(2)})
        self.answers(["instrument", "p", "p"], 0)
        self.stands({"p": probed(), "q": probed(), "e": b"", "t": trace(2)})


class Folders(Room):
    def test_folders(self):
        os.mkdir(self.room / "d")
        for name, status, what in (("d", 7, b"read fault"), (".", 7, b"read fault"), ("/", 7, b"read fault"), ("no/p", 4, b"absent"),
                                   ("p/x", 4, b"absent"), ("d/../p/.", 4, b"absent"), ("p/", 4, b"absent"), ("d/", 7, b"read fault"),
                                   ("new/", 4, b"absent")):
            self.answers(["check", name], status, err=line(what, name))
            self.answers(["cover", "p", "e", name], status, SECTION % b"e", line(what, name))
            self.answers(["merge", "m", name], status, err=line(what, name))
            self.answers(["instrument", "p", name], 9, err=line(b"keep fault", name))
            self.answers(["merge", name, "t"], 9, b"runs 1\n", line(b"keep fault", name))
        self.assertEqual(os.listdir(self.room / "d"), [])
        self.assertEqual(sorted(os.listdir(self.room)), ["d", "e", "p", "q", "t"])

    def test_absent_trace(self):
        """An absent TRACE of `run` begins one, and its keep fails where no file can be made."""
        self.answers(["run", "q", "e", "new"], 0, SECTION % b"e")
        self.assertEqual((self.room / "new").read_bytes(), trace(1))
        for name in ("no/t", "p/t"):
            self.answers(["run", "q", "e", name], 9, SECTION % b"e", line(b"keep fault", name))
        self.answers(["run", "q", "e", "."], 7, err=line(b"read fault", "."))

    def test_names_beside_are_taken(self):
        """The new file takes a name beside the old one's that nothing has."""
        self.put({"q.atac-0": b"mine", "q.atac-1": b"mine too"})
        self.answers(["instrument", "p", "q"], 0)
        self.stands({"p": None, "q": probed(), "e": None, "t": None, "q.atac-0": b"mine", "q.atac-1": b"mine too"})

    def test_socket(self):
        with socket.socket(socket.AF_UNIX) as listener:
            here = os.getcwd()
            os.chdir(self.room)
            listener.bind("s")
            os.chdir(here)
            self.answers(["check", "s"], 7, err=line(b"read fault", "s"))
            self.answers(["instrument", "p", "s"], 9, err=line(b"keep fault", "s"))

    def test_running_program(self):
        shutil.copy(shutil.which("sleep"), self.room / "busy")
        busy = subprocess.Popen([self.room / "busy", "60"])
        self.addCleanup(busy.wait)
        self.addCleanup(busy.kill)
        before = (self.room / "busy").read_bytes()
        self.answers(["instrument", "p", "busy"], 9, err=line(b"keep fault", "busy"))
        self.assertEqual((self.room / "busy").read_bytes(), before)


@unittest.skipUnless(os.geteuid() == 0, "needs the user root, to call as another one")
class Rights(Room):
    """Calls as a user who has no rights."""

    def setUp(self):
        super().setUp()
        shutil.copy(ATAC, self.room / "atac")
        os.chmod(self.room, 0o755)
        for name in ("p", "q", "e", "t"):
            os.chmod(self.room / name, 0o644)

    def as_nobody(self, words, status, out=b"", err=b""):
        before = (self.room / "t").read_bytes()
        ran = subprocess.run(["./atac", *words], cwd=self.room, capture_output=True, user=NOBODY, group=NOBODY, extra_groups=[])
        with self.subTest(words=words):
            self.assertEqual((ran.returncode, ran.stdout, ran.stderr), (status, out, err))
            self.assertEqual((self.room / "t").read_bytes(), before)

    def test_read(self):
        self.as_nobody(["check", "p"], 0, CHECKED)
        for name in ("p", "e", "t"):
            os.chmod(self.room / name, 0)
        self.as_nobody(["check", "p"], 7, err=line(b"read fault", "p"))
        self.as_nobody(["run", "q", "e"], 7, err=line(b"read fault", "e"))
        os.chmod(self.room / "e", 0o444)
        self.as_nobody(["run", "q", "e", "t"], 7, err=line(b"read fault", "t"))
        os.mkdir(self.room / "shut", 0)
        self.as_nobody(["check", "shut/p"], 7, err=line(b"read fault", "shut/p"))

    def test_keep(self):
        """A file that can't be written, a folder that can't, and both: the old file stands."""
        self.as_nobody(["run", "q", "e", "t"], 9, SECTION % b"e", line(b"keep fault", "t"))
        self.as_nobody(["instrument", "p", "new"], 9, err=line(b"keep fault", "new"))
        os.chmod(self.room / "t", 0o666)
        self.as_nobody(["run", "q", "e", "t"], 9, SECTION % b"e", line(b"keep fault", "t"))
        os.chmod(self.room, 0o777)
        os.chmod(self.room / "t", 0o444)
        self.as_nobody(["run", "q", "e", "t"], 9, SECTION % b"e", line(b"keep fault", "t"))
        self.as_nobody(["merge", "t", "t"], 9, b"runs 1\n", line(b"keep fault", "t"))
        self.assertEqual(sorted(os.listdir(self.room)), ["atac", "e", "p", "q", "t"])


class Streams(Room):
    # the commands that put something, and what they put
    PUTS = [(["check", "p"], CHECKED), (["list", "p"], None), (["run", "p", "e"], SECTION % b"e"), (["cover", "p", "e", "e"], None),
            (["merge", "m", "t"], b"runs 1\n"), (["run", "q", "e", "t"], SECTION % b"e"), (["report", "p", "t"], REPORT),
            (["show", "p", "t"], None), (["hits", "p", "t"], None), (["json", "p", "t"], None), (["pick", "p", "e"], None),
            (["watch", "p", "e", "events"], None), (["self", "1"], None)]
    # calls that end with a line, and their status
    LINES = [([], 2), (["check", "no"], 4), (["check", "e"], 3), (["report", "p", "e"], 6), (["check", "."], 7), (["instrument", "p", "no/q"], 9),
             (["watch", "p", "e", "x"], 11)]

    def test_out_fails(self):
        """On a full device, on a closed stream and on a pipe that nobody reads: 8, and nothing is kept."""
        for words, _ in self.PUTS:
            with open("/dev/full", "wb") as full:
                self.answers(words, 8, None, line(b"write fault"), stdout=full)
            self.answers(words, 8, b"", line(b"write fault"), preexec_fn=lambda: os.close(1))
            reads, writes = os.pipe()
            os.close(reads)
            self.answers(words, 8, None, line(b"write fault"), stdout=writes)
            os.close(writes)
        self.stands({"p": RETURN, "q": probed(), "e": b"", "t": trace(1)})

    def test_out_is_not_for_writing(self):
        with open(self.room / "e", "rb") as only_read:
            self.answers(["check", "p"], 8, None, line(b"write fault"), stdout=only_read)

    def test_instrument_puts_nothing(self):
        """It has nothing to put, so a full or closed stream doesn't stop it."""
        with open("/dev/full", "wb") as full:
            self.answers(["instrument", "p", "new"], 0, None, stdout=full)
        self.answers(["instrument", "p", "new"], 0, preexec_fn=lambda: os.close(1))
        self.stands({"p": RETURN, "q": probed(), "e": b"", "t": trace(1), "new": probed()})

    def test_err_fails(self):
        for words, status in self.LINES:
            with open("/dev/full", "wb") as full:
                self.answers(words, status, b"", None, stderr=full)
            self.answers(words, status, preexec_fn=lambda: os.close(2))
            self.answers(words, status, preexec_fn=lambda: (os.close(0), os.close(1), os.close(2)))

    def test_both_fail(self):
        self.answers(["check", "p"], 8, preexec_fn=lambda: (os.close(1), os.close(2)))
        with open("/dev/full", "wb") as full:
            self.answers(["cover", "p", "e"], 8, None, None, stdout=full, stderr=full)

    def test_closed_streams_and_keeps(self):
        """With all three streams closed a kept file may get the number of a stream: nothing but its bytes gets there."""
        closed = lambda: (os.close(0), os.close(1), os.close(2))
        self.answers(["instrument", "p", "new"], 0, preexec_fn=closed)
        self.answers(["run", "q", "e", "t"], 8, preexec_fn=closed)
        self.answers(["instrument", "p", "no/new"], 9, preexec_fn=closed)
        self.stands({"p": RETURN, "q": probed(), "e": b"", "t": trace(1), "new": probed()})

    def test_reader_goes_away(self):
        self.put({"p": b"int main(void){for(;;)putchar(97);}"})
        ran = subprocess.Popen([ATAC, "run", "-t", "3000000", "p", "e"], cwd=self.room, stdout=subprocess.PIPE, stderr=subprocess.PIPE)
        self.assertEqual(ran.stdout.read(5), b"== e\n")
        ran.stdout.close()
        self.assertEqual(ran.stderr.read(), line(b"write fault"))
        ran.stderr.close()
        self.assertEqual(ran.wait(), 8)

    def test_pipes(self):
        count = b"int main(void){int n=0;while(~getchar())n++;return n;}"
        self.put({"count": count})
        # by hand: the body 1, n 2, while 1, each byte 2 + 1 + 2, the end's test 2, return and n 2
        turns = lambda n: 8 + 5 * n
        said = lambda n: b"== /dev/stdin\n\n== returned %d turns %d bytes 0\n" % (n, turns(n))
        self.answers(["run", "count", "/dev/stdin"], 0, said(70000), stdin=None, input=b"x" * 70000)
        self.answers(["check", "/dev/stdin"], 0, CHECKED, stdin=None, input=RETURN)
        self.answers(["check", "/dev/stdin"], 5, err=line(b"too long", "/dev/stdin"), stdin=None, input=b" " * 1048577)
        self.answers(["run", "/dev/stdin", "/dev/stdin"], 0, said(0), stdin=None, input=count)
        self.answers(["run", "/dev/stdin", "e"], 0, SECTION % b"e", stdin=None, input=probed())
        self.answers(["report", "p", "/dev/stdin"], 0, REPORT, stdin=None, input=trace(1))
        self.answers(["check", "/dev/stdin"], 3, err=b"atac: /dev/stdin:1:1: 20 Syntax\n")
        self.answers(["check", "/dev/stdin"], 4, err=line(b"absent", "/dev/stdin"), preexec_fn=lambda: os.close(0))

    def test_pipe_that_takes_no_more(self):
        """A pipe that doesn't wait, and is full: the put fails, and a front of the text stands in it."""
        self.put({"p": b"int main(void){for(;;)putchar(97);}"})
        reads, writes = os.pipe()
        os.set_blocking(writes, False)
        self.answers(["run", "-t", "900002", "p", "e"], 8, None, line(b"write fault"), stdout=writes)
        os.close(writes)
        with open(reads, "rb") as held:
            front = held.read()
        whole = b"== e\n" + b"a" * 300000 + b"\n== turn limit turns 900002 bytes 300000\n"
        self.assertTrue(0 < len(front) < len(whole) and whole.startswith(front))

    def test_slow_pipe(self):
        """A pipe whose bytes come one by one."""
        reads, writes = os.pipe()

        def feed():
            for k in range(len(RETURN)):
                os.write(writes, RETURN[k:k + 1])
            os.close(writes)

        feeder = threading.Thread(target=feed)
        feeder.start()
        self.answers(["check", "/dev/stdin"], 0, CHECKED, stdin=reads)
        feeder.join()
        os.close(reads)

    def test_named_pipe(self):
        """One that is read takes what is written; as OUT it takes the bytes itself, and stays a pipe."""
        os.mkfifo(self.room / "fifo")
        feeder = threading.Thread(target=lambda: (self.room / "fifo").write_bytes(b"abc"))
        feeder.start()
        self.answers(["cover", "p", "fifo"], 0, SECTION % b"fifo" + REPORT)
        feeder.join()
        taken = []
        taker = threading.Thread(target=lambda: taken.append((self.room / "fifo").read_bytes()))
        taker.start()
        self.answers(["instrument", "p", "fifo"], 0)
        taker.join()
        self.assertEqual(taken, [probed()])
        self.assertTrue((self.room / "fifo").is_fifo())

    def test_devices(self):
        for name in ("/dev/zero", "/dev/urandom"):
            self.answers(["check", name], 5, err=line(b"too long", name))
            self.answers(["run", "p", name], 5, err=line(b"too long", name))
        self.answers(["report", "p", "/dev/zero"], 5, err=line(b"too long", "/dev/zero"))
        self.answers(["check", "/dev/null"], 3, err=b"atac: /dev/null:1:1: 20 Syntax\n")
        self.answers(["instrument", "p", "/dev/null"], 0)
        self.answers(["instrument", "p", "/dev/full"], 9, err=line(b"keep fault", "/dev/full"))
        self.answers(["merge", "/dev/full", "t"], 9, b"runs 1\n", line(b"keep fault", "/dev/full"))


MODES = {"": "hostile_calls", "--long": "hostile_long", "--memory": "hostile_memory"}


def main():
    global ATAC
    modes = [word for word in sys.argv[1:] if word in MODES] or [""]
    names = [word for word in sys.argv[1:] if word not in MODES]
    if not names or names[0].startswith("-"):
        sys.exit(__doc__)
    ATAC = os.path.abspath(names.pop(0))
    sys.modules["hostile"] = sys.modules["__main__"]
    tests = importlib.import_module(MODES[modes[0]])
    for name in ("Names", "Links", "Folders", "Rights", "Streams") if modes[0] == "" else ():
        setattr(tests, name, globals()[name])
    unittest.main(module=tests, argv=sys.argv[:1] + names)


if __name__ == "__main__":
    main()
