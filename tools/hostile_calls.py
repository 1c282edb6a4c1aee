"""The rest of tools/hostile.py's tests: calls of the machine that fail, disks that are full, and keeps that are broken off."""
import os
import resource
import shutil
import signal
import subprocess
import tempfile
import unittest

import hostile
from hostile import REPORT, RETURN, SECTION, Room, line, probed, trace

TRACED = shutil.which("strace") and subprocess.run(
    ["strace", "-o", "/dev/null", "-e", "inject=getpid:retval=1", "true"], capture_output=True).returncode == 0


def may_mount():
    room = tempfile.mkdtemp()
    made = subprocess.run(["mount", "-t", "tmpfs", "-o", "size=16k", "none", room], capture_output=True).returncode == 0
    if made:
        subprocess.run(["umount", room], check=True)
    os.rmdir(room)
    return made


@unittest.skipUnless(shutil.which("mount") and may_mount(), "needs the right to mount")
class Disks(Room):
    def setUp(self):
        super().setUp()
        os.mkdir(self.room / "disk")
        self.mount("size=16k")

    def mount(self, how):
        subprocess.run(["mount", "-t", "tmpfs", "-o", how, "none", self.room / "disk"], check=True)
        self.addCleanup(subprocess.run, ["umount", self.room / "disk"], check=True)

    def test_full(self):
        """Nothing more can be written: the old file stands, and the new one is gone again."""
        self.put({"disk/t": trace(1)})
        with open(self.room / "disk/fill", "wb", 0) as fill:
            try:
                while True:
                    fill.write(bytes(4096))
            except OSError:
                pass
        self.answers(["run", "q", "e", "disk/t"], 9, SECTION % b"e", line(b"keep fault", "disk/t"))
        self.answers(["merge", "disk/t", "t", "t"], 9, b"runs 2\n", line(b"keep fault", "disk/t"))
        self.answers(["instrument", "p", "disk/q"], 9, err=line(b"keep fault", "disk/q"))
        self.assertEqual(sorted(os.listdir(self.room / "disk")), ["fill", "t"])
        self.assertEqual((self.room / "disk/t").read_bytes(), trace(1))
        os.unlink(self.room / "disk/fill")
        self.answers(["run", "q", "e", "disk/t"], 0, SECTION % b"e")
        self.assertEqual((self.room / "disk/t").read_bytes(), trace(2))

    def test_too_small(self):
        """A text that doesn't fit: a front of it could be written, and none of it stands."""
        self.put({"p": b"int main(void){" + b"0;" * 5000 + b"return 0;}"})
        self.answers(["instrument", "p", "disk/q"], 9, err=line(b"keep fault", "disk/q"))
        self.assertEqual(os.listdir(self.room / "disk"), [])

    def test_read_only(self):
        self.put({"disk/t": trace(1)})
        subprocess.run(["mount", "-o", "remount,ro", self.room / "disk"], check=True)
        self.answers(["check", "disk/t"], 3, err=b"atac: disk/t:1:5: 1 BadByte\n")
        self.answers(["run", "q", "e", "disk/t"], 9, SECTION % b"e", line(b"keep fault", "disk/t"))
        self.answers(["instrument", "p", "disk/new"], 9, err=line(b"keep fault", "disk/new"))
        self.assertEqual((self.room / "disk/t").read_bytes(), trace(1))
        self.assertEqual(os.listdir(self.room / "disk"), ["t"])


class Limits(Room):
    def test_file_size(self):
        """A file may not grow: the signal is ignored, so that the write fails; else the signal ends the program, and the old file stands."""
        for way, status, out, err in ((signal.SIG_IGN, 9, SECTION % b"e", line(b"keep fault", "t")), (signal.SIG_DFL, -signal.SIGXFSZ, SECTION % b"e", b"")):

            def limit():
                signal.signal(signal.SIGXFSZ, way)
                resource.setrlimit(resource.RLIMIT_FSIZE, (50, 50))

            ran = subprocess.run([hostile.ATAC, "run", "q", "e", "t"], cwd=self.room, stdout=subprocess.PIPE, stderr=subprocess.PIPE,
                                 preexec_fn=limit, restore_signals=False)
            self.assertEqual((ran.returncode, ran.stdout, ran.stderr), (status, out, err))
            self.assertEqual((self.room / "t").read_bytes(), trace(1))

    def test_memory(self):
        """Within so much memory a call is done, or it is 10 with whole sections and the old trace, or the program isn't started."""
        self.put({"p": b"int a[60000];int main(void){" + b"a[0]=a[1];" * 300 + b"return 0;}"})
        whole = self.call("cover", "p", "e")[1]
        at = whole.index(b"block 1 ")
        seen = set()
        for kilobytes in range(2000, 120000, 500):
            limit = lambda: resource.setrlimit(resource.RLIMIT_AS, (kilobytes << 10, kilobytes << 10))
            status, out, err = self.call("cover", "p", "e", preexec_fn=limit)
            if status in (127, -signal.SIGSEGV, -signal.SIGKILL) and not seen:
                continue
            self.assertIn((status, err), ((0, b""), (10, line(b"no memory"))), kilobytes)
            self.assertIn(out, (whole,) if status == 0 else (b"", whole[:at]), kilobytes)
            seen.add((status, len(out)))
            if status == 0:
                break
        self.assertIn((0, len(whole)), seen)
        self.assertIn((10, 0), seen)


@unittest.skipUnless(TRACED, "needs strace, with the right to trace")
class Calls(Room):
    """Calls of the machine that fail at a number, or before which the program is killed."""

    def traced(self, words, *how):
        ran = subprocess.run(["strace", "--quiet=all", "-o", "/dev/null", *how, hostile.ATAC, *words], cwd=self.room, capture_output=True)
        return ran.returncode, ran.stdout, ran.stderr

    def at(self, path, call, error):
        return ["-P", path, "-P", str(self.room / path), "-e", f"trace={call}", "-e", f"inject={call}:{error}"]

    def test_reads_fail(self):
        rows = [("p", ["run", "p", "e"], b""), ("e", ["run", "p", "e"], b""), ("t", ["run", "q", "e", "t"], b""), ("e", ["cover", "p", "e"], b""),
                ("x", ["cover", "p", "e", "x", "e"], SECTION % b"e"), ("t", ["report", "p", "t"], b""), ("x", ["merge", "m", "t", "x"], b""),
                ("x", ["pick", "p", "e", "x"], b""), ("e", ["watch", "p", "e", "blocks"], b"")]
        self.put({"x": trace(1)})
        for name, words, out in rows:
            for call, error in (("openat", "EACCES"), ("openat", "EMFILE"), ("openat", "EIO"), ("read", "EIO"), ("read", "EISDIR")):
                with self.subTest(words=words, call=call, error=error):
                    self.assertEqual(self.traced(words, *self.at(name, call, f"error={error}:when=1")), (7, out, line(b"read fault", name)))
            with self.subTest(words=words):
                self.assertEqual(self.traced(words, *self.at(name, "openat", "error=ENOMEM:when=1")), (10, out, line(b"no memory")))
        self.stands({"p": RETURN, "q": probed(), "e": b"", "t": trace(1), "x": trace(1)})

    def test_interrupted_calls(self):
        """A read or write that is interrupted is made again."""
        for call in ("read", "write"):
            ran = self.traced(["cover", "p", "e"], "-e", f"trace={call}", "-P", "p", "-P", "e", "-P", "/dev/null", "-e", f"inject={call}:error=EINTR:when=1+2")
            self.assertEqual(ran, (0, SECTION % b"e" + REPORT, b""))
        ran = self.traced(["run", "q", "e", "t"], *self.at("t.atac-0", "write", "error=EINTR:when=1"))
        self.assertEqual(ran, (0, SECTION % b"e", b""))
        self.assertEqual((self.room / "t").read_bytes(), trace(2))

    def test_keeps_fail(self):
        """Each call of a keep fails: 9, the old file stands, and the new one is gone again."""
        rows = [("t", "openat", "error=EACCES:when=2"), ("t", "openat", "error=EIO:when=2"), ("t.atac-0", "openat", "error=ENOSPC"),
                ("t.atac-0", "openat", "error=EROFS"), ("t.atac-0", "write", "error=ENOSPC"), ("t.atac-0", "write", "error=EIO"),
                ("t.atac-0", "fsync", "error=EIO"), ("t.atac-0", "rename", "error=EIO"), ("t.atac-0", "rename", "error=EPERM"),
                ("t.atac-0", "fchmod", "error=EPERM")]
        for path, call, error in rows:
            with self.subTest(path=path, call=call, error=error):
                self.put({"t": trace(1)})
                ran = self.traced(["run", "q", "e", "t"], *self.at(path, call, error))
                self.assertEqual(ran, (9, SECTION % b"e", line(b"keep fault", "t")))
                self.stands({"p": RETURN, "q": probed(), "e": b"", "t": trace(1)})

    def test_folder_is_not_synced(self):
        """Where the folder can't be opened or synced the file is kept all the same."""
        for call in ("openat", "fsync"):
            self.put({"t": trace(1)})
            self.assertEqual(self.traced(["run", "q", "e", "t"], *self.at(".", call, "error=EIO")), (0, SECTION % b"e", b""))
            self.assertEqual((self.room / "t").read_bytes(), trace(2))

    def test_killed(self):
        """Killed before any call of the machine: the old trace or the new one stands whole, and at most one file beside it."""
        seen = set()
        for call in ("openat", "read", "write", "newfstatat", "fstat", "statx", "fchmod", "fsync", "rename", "close", "exit_group"):
            for number in range(1, 30):
                self.put({"t": trace(1)})
                status = self.traced(["run", "q", "e", "t"], "-e", f"trace={call}", "-e", f"inject={call}:signal=KILL:when={number}")[0]
                now = (self.room / "t").read_bytes()
                with self.subTest(call=call, number=number):
                    self.assertIn(now, (trace(1), trace(2)))
                    left = set(os.listdir(self.room)) - {"p", "q", "e", "t"}
                    self.assertLessEqual(left, {"t.atac-0"})
                for name in left:
                    os.unlink(self.room / name)
                seen.add((status, now == trace(2)))
                if status == 0:
                    break
        self.assertEqual(seen, {(-signal.SIGKILL, False), (-signal.SIGKILL, True), (0, True)})

    def test_killed_before_the_file_is_there(self):
        for call in ("openat", "write", "fsync", "rename", "close"):
            for number in range(1, 30):
                status = self.traced(["instrument", "p", "new"], "-e", f"trace={call}", "-e", f"inject={call}:signal=KILL:when={number}")[0]
                for name in ("new", "new.atac-0"):
                    if (self.room / name).exists():
                        if name == "new":
                            self.assertEqual((self.room / name).read_bytes(), probed())
                        os.unlink(self.room / name)
                if status == 0:
                    break

    def test_shrinking(self):
        """A file that is cut while it is read: what was read by then is the input."""
        self.put({"count": b"int main(void){int n=0;while(~getchar())n++;return n;}", "big": b"x" * 200000})
        words = ["strace", "--quiet=all", "-o", "/dev/null", *self.at("big", "read", "delay_exit=1000000:when=3"), hostile.ATAC, "run", "count", "big"]
        ran = subprocess.Popen(words, cwd=self.room, stdout=subprocess.PIPE, stderr=subprocess.PIPE)
        try:
            ran.wait(0.5)
        except subprocess.TimeoutExpired:
            os.truncate(self.room / "big", 10)
        out, err = ran.communicate()
        read = 3 * 4096
        self.assertEqual((ran.returncode, out, err), (0, b"== big\n\n== returned %d turns %d bytes 0\n" % (read, 8 + 5 * read), b""))
