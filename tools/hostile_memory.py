"""The part of tools/hostile.py in which memory is refused: each growth of each command in turn, alone and with all behind it.

A library in front of the C library refuses the growth of a number. It is made with the C compiler, where there is one.
"""
import os
import shutil
import subprocess
import tempfile
import unittest
from pathlib import Path

from hostile import Room, line, trace

SOURCE = r"""
#include <stdlib.h>
#include <unistd.h>
extern void *__libc_malloc(size_t);
extern void *__libc_realloc(void *, size_t);
static long number, from;
static int begun;
static int refused(void)
{
    if (!begun) {
        begun = 1;
        number = getenv("REFUSE") ? atol(getenv("REFUSE")) : 0;
        from = getenv("BEHIND") != 0;
    }
    if (number > 1)
        number--;
    else if (number == 1) {
        if (!from)
            number = 0;
        return write(100, "x", 1) == 1;
    }
    return 0;
}
void *malloc(size_t size) { return refused() ? 0 : __libc_malloc(size); }
void *realloc(void *old, size_t size) { return refused() ? 0 : __libc_realloc(old, size); }
"""

LOOP = b"int g[2];int f(int n){g[n&1]=n;return n;}int main(void){int x=0,c;while(x<2)x=f(x)+1;switch(c=getchar()){case 97:x=c;}return x;}"


@unittest.skipUnless(shutil.which("cc"), "needs a C compiler")
class Growth(Room):
    def setUp(self):
        super().setUp()
        self.tools = Path(tempfile.mkdtemp())
        self.addCleanup(shutil.rmtree, self.tools)
        (self.tools / "refuse.c").write_text(SOURCE)
        subprocess.run(["cc", "-shared", "-fPIC", "-O1", "-o", self.tools / "refuse.so", self.tools / "refuse.c"], check=True)
        self.mark = os.memfd_create("mark")
        os.dup2(self.mark, 100)
        self.addCleanup(os.close, self.mark)
        self.addCleanup(os.close, 100)
        self.put({"l": LOOP, "i": b"a", "bad": b"int main(void){return y;}", "t": trace(1)})
        self.assertEqual(self.call("instrument", "l", "lq")[0], 0)
        self.assertEqual(self.call("run", "lq", "i", "lt")[0], 0)
        self.files = {name: (self.room / name).read_bytes() for name in os.listdir(self.room)}

    def refusing(self, words, number, behind):
        """Calls with the growth of this number refused. Returns the answer, and whether it was met."""
        os.ftruncate(self.mark, 0)
        env = {"LD_PRELOAD": str(self.tools / "refuse.so"), "REFUSE": str(number), **({"BEHIND": "1"} if behind else {})}
        answer = self.call(*words, env=env, pass_fds=(100,))
        return answer, os.fstat(self.mark).st_size > 0

    def judged(self, words, wanted, answer, fronts, kept, behind):
        """The answer is the wanted one, or 10 with its line (none, where the words were wanted) and what may stand in front."""
        if answer != wanted:
            status, out, err = answer
            self.assertEqual(status, 10)
            self.assertIn(err, (line(b"no memory"), b""))
            self.assertIn(out, fronts if err else (b"",))
        now = {name: (self.room / name).read_bytes() for name in os.listdir(self.room)}
        name, new = kept or (None, None)
        if answer == wanted and kept:
            self.assertEqual(now.pop(name), new)
        elif kept:
            self.assertIn(now.pop(name, None), (self.files.get(name), new) if answer[1] or not wanted[1] else (self.files.get(name),))
            if behind:
                now.pop(name + ".atac-0", None)
        self.assertEqual(now, {it: self.files[it] for it in self.files if it != name})
        for name in set(os.listdir(self.room)) - set(self.files):
            os.unlink(self.room / name)
        self.put(self.files)

    def every(self, words, kept=None, fronts=None):
        """Refuses each growth of the call in turn."""
        wanted = self.call(*words)
        if kept:
            kept = (kept, (self.room / kept).read_bytes())
        for name in set(os.listdir(self.room)) - set(self.files):
            os.unlink(self.room / name)
        self.put(self.files)
        fronts = (b"",) + (fronts or ((wanted[1],) if kept else ()))
        for behind in (False, True):
            tens = 0
            for number in range(1, 100000):
                answer, met = self.refusing(words, number, behind)
                with self.subTest(words=words, number=number, behind=behind):
                    self.judged(words, wanted, answer, fronts, kept, behind)
                tens += answer[0] == 10
                if not met:
                    self.assertEqual(answer, wanted)
                    break
            print(f"{' '.join(words)}: {number - 1} growths, {tens} answers of no memory", flush=True)
            self.assertGreater(tens, 0)

    def test_told(self):
        for words in (["check", "l"], ["list", "l"], ["run", "l", "i"], ["report", "l", "lt", "lt"], ["show", "l", "lt"], ["hits", "l", "lt"],
                      ["json", "l", "lt"], ["pick", "l", "i", "e"], ["watch", "l", "i", "events"], ["watch", "l", "i", "blocks"]):
            self.every(words)

    def test_cover(self):
        sections = [self.call("run", "l", name)[1] for name in ("i", "e")]
        self.every(["cover", "l", "i", "e"], fronts=(sections[0], sections[0] + sections[1]))

    def test_kept(self):
        self.every(["instrument", "l", "new"], "new")
        self.every(["run", "lq", "i", "lt"], "lt")
        self.every(["run", "lq", "e", "new"], "new")
        self.every(["merge", "new", "lt", "lt"], "new")
        self.every(["merge", "lt", "lt"], "lt")

    def test_refused(self):
        """A refusal, or no memory in its place."""
        for words, status in ((["check", "bad"], 3), (["check", "no"], 4), (["report", "p", "bad"], 6), (["report", "p", "lt"], 6),
                              (["run", "p", "e", "t"], 3), (["watch", "p", "e", "x"], 11), (["check", "."], 7)):
            self.assertEqual(self.call(*words)[0], status)
            self.every(words)
