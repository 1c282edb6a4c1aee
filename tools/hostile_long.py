"""The long part of tools/hostile.py: what is nested 400 levels deep, what is as large as the limits allow, and one more of each.

Each call has a stack of 8 MiB, and must stay below 1 GiB of memory. What is expected is counted by the rules of docs/LANGUAGE.md.
"""
import hashlib
import os
import resource
import struct
import subprocess
import time

import hostile
from hostile import RETURN, Room

STACK = 8 << 20
MEMORY_KB = 1 << 20
PLAIN = 1048576
PROBED = TRACE = 67108864
INPUT = 16777216


def nested(head, opening, middle, closing, tail):
    """A text by its number of levels of one sort."""
    return lambda n: (head + opening * n + middle + closing * n + tail).encode()


def returned(expression, head=""):
    opening, middle, closing = expression
    return nested(head + "int main(void){return ", opening, middle, closing, ";}")


def within(statement, head=""):
    opening, middle, closing = statement
    return nested(head + "int main(void){", opening, middle, closing, "}")


def beside(head, tail=";int main(void){return 0;}"):
    """A declaration in front of a main that returns 0."""
    opening, middle, closing = head[1:]
    return nested(head[0], opening, middle, closing, tail)


# sort, text, the most levels of it, the end of its run, its turns, and the bytes in front of the declaration that is refused with one more
DEEP = [
    ("parentheses", returned(("(", "0", ")")), 396, "returned 0", 3, 0),
    ("complements", returned(("~", "0", "")), 396, "returned 0", 399, 0),
    ("negations", returned(("!", "0", "")), 396, "returned 0", 399, 0),
    ("sums", returned(("1+", "1", "")), 396, "returned 397", 795, 0),
    ("commas", returned(("0,", "0", "")), 396, "returned 0", 795, 0),
    ("conditions", returned(("0?0:", "0", "")), 396, "returned 0", 795, 0),
    ("conditions in the middle", returned(("1?", "7", ":0")), 396, "returned 7", 795, 0),
    ("conjunctions", returned(("1&&", "1", "")), 396, "returned 1", 795, 0),
    ("assignments", nested("int x;int main(void){", "x=", "0", "", ";return 0;}"), 396, "returned 0", 797, 6),
    ("elements", returned(("a[", "0", "]"), "int a[1];"), 396, "returned 0", 795, 9),
    ("calls", returned(("f(", "0", ")"), "int f(int n){return n;}"), 396, "returned 0", 1587, 23),
    ("casts", returned(("(int)", "0", "")), 396, "returned 0", 399, 0),
    ("sizes", returned(("sizeof ", "0", "")), 396, "returned 8", 3, 0),
    ("sizes of arrays", returned(("sizeof(char[", "1", "])")), 198, "returned 1", 3, 0),
    ("places and addresses", lambda n: ("int x;int main(void){return " + "*&" * (n // 2) + ("+" if n % 2 else "") + "x;}").encode(),
     396, "returned 0", 399, 6),
    ("fields", nested("struct s{struct s*n;int v;};struct s s={&s,7},*p=&s;int main(void){return p->", "n->", "v", "", ";}"), 395, "returned 7", 399, 52),
    ("blocks", within(("{", "", "}")), 199, "returned 0", 200, 0),
    ("ifs", within(("if(1)", ";", "")), 397, "returned 0", 796, 0),
    ("elses", within(("if(0);else ", ";", "")), 397, "returned 0", 796, 0),
    ("whiles", within(("while(0)", ";", "")), 397, "returned 0", 3, 0),
    ("dos", within(("do ", ";", "while(0);")), 397, "returned 0", 796, 0),
    ("fors", within(("for(;0;)", ";", "")), 397, "returned 0", 3, 0),
    ("switches", within(("switch(0){case 0:", ";", "}")), 198, "returned 0", 398, 0),
    ("case constants", nested("int main(void){switch(0){case ", "(", "0", ")", ":;}}"), 395, "returned 0", 4, 0),
    ("arrays", beside(("int a", "[1]", "", "")), 397, "returned 0", 3, 0),
    ("pointers", beside(("int ", "*", "a", "")), 398, "returned 0", 3, 0),
    ("initialisers", lambda n: ("int a" + "[1]" * min(n, 396) + "=" + "{" * n + "0" + "}" * n + ";int main(void){return 0;}").encode(), 396, "returned 0", 3, 0),
    ("parentheses in an initialiser", beside(("int a=", "(", "0", ")")), 396, "returned 0", 3, 0),
    ("structures", beside(("", "struct{", "int f;", "}f;"), "int main(void){return 0;}"), 398, "returned 0", 3, 0),
    ("enumerators", beside(("enum{A=", "(", "0", ")"), "};int main(void){return 0;}"), 398, "returned 0", 3, 0),
]
SEEN = []


class Long(Room):
    """Calls whose memory is measured."""

    def measured(self, words, status, out=None, err=b""):
        """The call ends so, on a stack of 8 MiB and below 1 GiB. Returns what it put."""
        def limit():
            resource.setrlimit(resource.RLIMIT_STACK, (STACK, STACK))

        with open(self.room / "out", "wb+") as put, open(self.room / "err", "wb+") as said:
            start = time.monotonic()
            ran = subprocess.Popen([hostile.ATAC, *words], cwd=self.room, stdout=put, stderr=said, stdin=subprocess.DEVNULL, preexec_fn=limit)
            _, state, used = os.wait4(ran.pid, 0)
            ran.returncode = os.waitstatus_to_exitcode(state)
        SEEN.append((used.ru_maxrss, time.monotonic() - start, " ".join(words)[:40], self.id().split(".")[-1]))
        was = (self.room / "out").read_bytes()
        with self.subTest(words=words[:6]):
            self.assertEqual((ran.returncode, (self.room / "err").read_bytes()[:300]), (status, err))
            self.assertLess(used.ru_maxrss, MEMORY_KB)
            if out is not None:
                self.assertTrue(was == out, (was[:200], out[:200]))
        return was

    def refused(self, commands, err):
        for words in commands:
            self.measured(words, 3, b"", err)

    def whole_way(self, text, section, limit="1000000"):
        """Every command takes the text, and its run puts this section."""
        self.put({"p": text})
        for name in ("q", "t", "m"):
            if (self.room / name).exists():
                os.unlink(self.room / name)
        self.measured(["check", "p"], 0)
        rows = self.measured(["list", "p"], 0).split(b"\n")[:-6]
        self.measured(["run", "-t", limit, "p", "e"], 0, section)
        covered = self.measured(["cover", "-t", limit, "p", "e"], 0)
        self.assertTrue(covered.startswith(section))
        self.measured(["instrument", "p", "q"], 0, b"")
        self.measured(["run", "-t", limit, "q", "e"], 0, section)
        self.measured(["run", "-t", limit, "q", "e", "t"], 0, section)
        self.measured(["report", "p", "t"], 0, covered[len(section):])
        self.measured(["merge", "m", "t", "t"], 0, b"runs 2\n")
        for name in ("show", "hits", "json"):
            self.measured([name, "p", "m"], 0)
        picked = self.measured(["pick", "-t", limit, "p", "e", "e"], 0)
        self.assertTrue(picked.startswith(b"keep e\ndrop e\nkept 1 of 2\n"))
        self.assertTrue(self.measured(["watch", "-t", min(limit, "1000000"), "p", "e", "blocks"], 0).startswith(section[:6]))
        self.assertEqual(len(rows), covered[len(section):].count(b"\n") - 5)

    def commands(self):
        """A call of each command that reads P."""
        return [["check", "p"], ["list", "p"], ["instrument", "p", "new"], ["run", "p", "e"], ["cover", "p", "e"], ["report", "p", "t"],
                ["show", "p", "t"], ["hits", "p", "t"], ["json", "p", "t"], ["pick", "p", "e"], ["watch", "p", "e", "events"]]


class Deep(Long):
    def test_levels(self):
        """400 levels of each sort go the whole way; one more is refused."""
        for sort, text, most, end, turns, front in DEEP:
            with self.subTest(sort=sort):
                self.whole_way(text(most), b"== e\n\n== %s turns %d bytes 0\n" % (end.encode(), turns))
                self.put({"p": text(most + 1)})
                self.refused(self.commands(), b"atac: p:1:%d: 20 Syntax\n" % (front + 1))

    def test_probes(self):
        """Four probes stand directly one inside another, and no fifth."""
        opening = [b"__atac_block(%d," % k for k in (1, 2, 3, 4, 5)]
        for count, status, out, err in ((4, 0, b"== e\n\n== returned 0 turns 3 bytes 0\n", b""), (5, 3, b"", b"atac: p:1:1: 20 Syntax\n")):
            self.put({"p": b"int main(void){return " + b"".join(opening[:count]) + b"0" + b")" * count + b";}"})
            self.measured(["run", "p", "e"], status, out, err)

    def test_calls(self):
        """4,000 calls are active at once, and no more."""
        text = b"int f(int n){return n?f(n-1):0;}int main(void){return f(%d);}"
        self.whole_way(text % 3998, b"== e\n\n== returned 0 turns %d bytes 0\n" % (8 * 3998 + 9))
        self.whole_way(text % 3999, b"== e\n\n== depth limit turns %d bytes 0\n" % (8 * 3999 + 4))

    def test_cells(self):
        self.whole_way(b"int a[1048576];int main(void){return 0;}", b"== e\n\n== returned 0 turns 3 bytes 0\n")
        self.put({"p": b"int a[1048576];int b;int main(void){return 0;}"})
        self.measured(["run", "p", "e"], 0, b"== e\n\n== room limit turns 0 bytes 0\n")
        self.put({"p": b"char a[1048577];int main(void){return 0;}"})
        self.refused(self.commands(), b"atac: p:1:6: 42 TooLarge\n")

    def test_open_parentheses(self):
        self.put({"p": b"int a;int main(void){return " + b"(" * 99990})
        self.refused(self.commands(), b"atac: p:1:7: 20 Syntax\n")
        for opening in (b"(", b"{", b"[", b"*", b"-", b"!", b"int ", b"if(", b"struct{", b"x=", b"sizeof ", b"do ", b"for(", b"switch(", b"case ", b"=", b"?", b"~("):
            self.put({"p": b"int main(void){" + opening * 33000})
            self.refused([["check", "p"]], b"atac: p:1:1: 20 Syntax\n")


class Many(Long):
    def test_tokens(self):
        section = b"== e\n\n== returned 0 turns 99994 bytes 0\n"
        self.whole_way(b"int main(void){" + b";" * 99993 + b"}", section)
        self.put({"p": b"int main(void){" + b";" * 99994 + b"}"})
        commands = [words for words in self.commands() if words[0] != "run"]
        self.refused(commands, b"atac: p:1:100010: 8 TooManyTokens\n")
        self.measured(["run", "p", "e"], 0, b"== e\n\n== returned 0 turns 99995 bytes 0\n")

    def test_probed_tokens(self):
        self.put({"p": b"int main(void){" + b";" * 349993 + b"}"})
        self.measured(["run", "p", "e"], 0, b"== e\n\n== returned 0 turns 349994 bytes 0\n")
        self.put({"p": b"int main(void){" + b";" * 349994 + b"}"})
        self.measured(["run", "p", "e"], 3, b"", b"atac: p:1:350010: 8 TooManyTokens\n")

    def test_program_bytes(self):
        section = b"== e\n\n== returned 0 turns 3 bytes 0\n"
        for filling in (b" ", b"\n"):
            self.whole_way(RETURN.ljust(PLAIN, filling), section)
        self.whole_way(b"/*" + b"x" * (PLAIN - len(RETURN) - 4) + b"*/" + RETURN, section)
        self.put({"p": RETURN.ljust(PLAIN + 1)})
        for words in self.commands():
            if words[0] != "run":
                self.measured(words, 5, b"", b"atac: p: too long\n")
        self.measured(["run", "p", "e"], 0, section)

    def test_probed_bytes(self):
        self.put({"p": RETURN.ljust(PROBED)})
        self.measured(["run", "p", "e"], 0, b"== e\n\n== returned 0 turns 3 bytes 0\n")
        self.put({"p": RETURN.ljust(PROBED + 1)})
        self.measured(["run", "p", "e"], 5, b"", b"atac: p: too long\n")

    def test_token_bytes(self):
        """All tokens together have 4,194,304 bytes: a macro brings a long name again and again."""
        name = b"x" * 1000
        front = b"#define X " + name + b"\nint X;int main(void){"
        # int 3, name 1000, ; 1, int 3, main 4, ( 1, void 4, ) 1, { 1, and } 1 behind; a statement 1001
        fixed = 3 + 1000 + 1 + 3 + 4 + 1 + 4 + 1 + 1 + 1
        count, rest = divmod(4194304 - fixed, 1001)
        self.put({"p": front + b"X;" * count + b";" * rest + b"}"})
        self.measured(["check", "p"], 0, b"accepted: 1 blocks, 0 decisions, 1 definitions, %d uses\n" % count)
        self.put({"p": front + b"X;" * count + b";" * rest + b";}"})
        column = len(b"int X;int main(void){") + 2 * count + rest + 2
        self.refused([["check", "p"], ["cover", "p", "e"]], b"atac: p:2:%d: 8 TooManyTokens\n" % column)

    def test_inputs(self):
        """16,777,216 bytes are read, one by one."""
        text = b"int main(void){while(~getchar());return 0;}"
        self.put({"p": text, "i": b"\xff\0\n\x1a" * (INPUT // 4)})
        section = b"== i\n\n== returned 0 turns %d bytes 0\n" % (3 * INPUT + 6)
        self.measured(["run", "-t", "100000000", "p", "i"], 0, section)
        self.assertTrue(self.measured(["cover", "-t", "100000000", "p", "i"], 0).startswith(section))
        self.put({"i": b"x" * (INPUT + 1)})
        few = b"== e\n\n== returned 0 turns 6 bytes 0\n"
        for words, out in ((["run", "p", "i"], b""), (["cover", "p", "e", "i"], few), (["pick", "p", "e", "i"], b""), (["watch", "p", "i", "blocks"], b"")):
            self.measured(words, 5, out, b"atac: i: too long\n")

    def test_outputs(self):
        """16,777,216 bytes are put, and one more: each takes three turns, behind two for the body and the loop."""
        self.put({"p": b"int main(void){for(;;)putchar(97);}"})
        for count in (INPUT, INPUT + 1):
            turns = 2 + 3 * count
            section = b"== e\n" + b"a" * count + b"\n== turn limit turns %d bytes %d\n" % (turns, count)
            self.measured(["run", "-t", str(turns), "p", "e"], 0, section)
            self.assertTrue(self.measured(["cover", "-t", str(turns), "p", "e"], 0).startswith(section))

    def test_turns(self):
        self.put({"p": b"int main(void){while(1);}"})
        for command in ("run", "cover"):
            section = b"== e\n\n== turn limit turns 100000000 bytes 0\n"
            self.assertTrue(self.measured([command, "-t", "100000000", "p", "e"], 0).startswith(section))
        events = self.measured(["watch", "-t", "2000000", "p", "e", "events"], 0)
        self.assertTrue(events.startswith(b"== e\n\n== turn limit turns 2000000 bytes 0\nblock 1\nblock 2\ntest 1 1 1\nblock 3\n"))

    def test_sites(self):
        self.put({"p": b"int x;int main(void){" + b"x;" * 16383 + b"}"})
        self.measured(["check", "p"], 0, b"accepted: 1 blocks, 0 decisions, 1 definitions, 16383 uses\n")
        self.put({"p": b"int x;int main(void){" + b"x;" * 16384 + b"}"})
        self.refused([words for words in self.commands() if words[0] != "run"], b"atac: p:1:32788: 50 TooManySites\n")

    def test_pairs(self):
        text = lambda m: b"int a[1];int main(void){" + b"a[0]=0;" * m + b"a[0];" * 1000 + b"}"
        self.put({"p": text(1000)})
        self.assertTrue(self.measured(["list", "p"], 0).endswith(b"\nc-uses 1000000\np-uses 0\nall-uses 1000000\n"))
        self.measured(["cover", "p", "e"], 0)
        self.put({"p": text(1001)})
        told = ("list", "cover", "report", "show", "hits", "json", "pick")
        self.refused([words for words in self.commands() if words[0] in told], b"atac: p:1:1: 51 TooManyPairs\n")
        self.measured(["check", "p"], 0)

    def test_probed_too_large(self):
        self.put({"p": b"int x;int main(void){" + b"x||x;" * 8191 + b"x=0;" * 16382 + b"}"})
        self.measured(["check", "p"], 0, b"accepted: 8192 blocks, 16382 decisions, 16383 definitions, 16382 uses\n")
        self.measured(["instrument", "p", "new"], 3, b"", b"atac: p:1:1: 54 ProbedTooLarge\n")
        self.assertFalse((self.room / "new").exists())


class Bombs(Long):
    def test_doubling(self):
        lines = b"#define A0 0 0\n" + b"".join(b"#define A%d A%d A%d\n" % (k, k - 1, k - 1) for k in range(1, 20))
        self.put({"p": lines + b"A19"})
        self.refused([words for words in self.commands() if words[0] != "run"], b"atac: p:21:1: 8 TooManyTokens\n")
        self.refused([["run", "p", "e"]], b"atac: p:21:1: 8 TooManyTokens\n")

    def test_empty_doubling(self):
        """Macros that bring no token are counted by their replacements: 1,000,000 of them."""
        lines = b"#define A0\n" + b"".join(b"#define A%d A%d A%d\n" % (k, k - 1, k - 1) for k in range(1, 64))
        self.put({"p": lines + b"A63 int main(void){return 0;}"})
        self.refused([["check", "p"], ["run", "p", "e"], ["cover", "p", "e"]], b"atac: p:65:1: 8 TooManyTokens\n")

    def test_replacements(self):
        """A macro of nothing, 1,000,000 times and once more, in a text for `run`."""
        for count, status, out, err in ((1000000, 0, b"== e\n\n== returned 0 turns 3 bytes 0\n", b""),
                                        (1000001, 3, b"", b"atac: p:2:2000001: 8 TooManyTokens\n")):
            self.put({"p": b"#define A\n" + b"A " * count + RETURN})
            self.measured(["run", "p", "e"], status, out, err)

    def test_chain(self):
        """Each macro stands for the next one: all are open at once."""
        count = 40000
        lines = b"".join(b"#define A%d A%d\n" % (k, k + 1) for k in range(count)) + b"#define A%d 0\n" % count
        text = lines + b"int main(void){return A0;}"
        self.assertLessEqual(len(text), PLAIN)
        self.whole_way(text, b"== e\n\n== returned 0 turns 3 bytes 0\n")

    def test_circles(self):
        """Macros that stand for one another give a name at last."""
        count = 2000
        lines = b"".join(b"#define A%d A%d\n" % (k, (k + 1) % count) for k in range(count))
        self.whole_way(lines + b"int main(void){int A0=5;return A0;}", b"== e\n\n== returned 5 turns 5 bytes 0\n")

    def test_long_words(self):
        """A name, a number, a string and a comment as long as a text can be."""
        size = PLAIN - 60
        for text, col, what in ((b"int main(void){return %s;}" % (b"x" * size), 23, b"30 UnknownName"),
                                (b"int main(void){return %s;}" % (b"9" * size), 23, b"5 BadNumber"),
                                (b"int main(void){return \"%s\";}" % (b"s" * (size - 2)), 16, b"33 WrongType"),
                                (b"int main(void){/*%s" % (b"*" * size), 16, b"2 OpenComment"),
                                (b"int main(void){return '%s';}" % (b"'" * size), 23, b"3 OpenQuote")):
            self.put({"p": text})
            self.refused([["check", "p"], ["cover", "p", "e"]], b"atac: p:1:%d: %s\n" % (col, what))


class Traces(Long):
    """Traces of 64 MiB: 6,710,877 outcomes in version 2; 11,184,795 outcomes and a pair in version 1."""

    def sealed(self, body):
        return body + hashlib.sha256(body).digest()

    def large(self, version, decision=1):
        count = 6710877 if version == 2 else 11184795
        tail, pairs = (struct.pack(">I", 1), 0) if version == 2 else (b"", 1)
        rows = b"".join(struct.pack(">HI", decision, o) + tail for o in range(1, count + 1))
        body = b"ATAC" + struct.pack(">H", version) + hashlib.sha256(RETURN).digest() + struct.pack(">I", 3)
        body += struct.pack(">I", 0) if version == 2 else b""
        body += struct.pack(">II", 0, count) + rows + struct.pack(">I", pairs) + b"\0\1\0\1" * pairs + bytes(4)
        found = self.sealed(body)
        self.assertEqual(len(found), TRACE)
        return found

    REPORT = b"block 1 1:15 uncovered\nblocks 0 of 1\ndecisions 0 of 0\nc-uses 0 of 0\np-uses 0 of 0\nall-uses 0 of 0\n"

    def test_version_2(self):
        bytes_of = self.large(2)
        self.put({"l": bytes_of})
        self.measured(["report", "p", "l"], 0, self.REPORT)
        self.measured(["merge", "m", "l"], 0, b"runs 3\n")
        self.assertTrue((self.room / "m").read_bytes() == bytes_of)
        self.put({"other": self.large(2, 2)})
        self.measured(["report", "p", "l", "other"], 0, self.REPORT)
        self.measured(["merge", "new", "l", "other"], 6, b"", b"atac: new: 66 TooMuch\n")
        self.measured(["run", "q", "e", "l"], 6, b"", b"atac: l: 66 TooMuch\n")
        self.assertTrue((self.room / "l").read_bytes() == bytes_of)
        self.assertFalse((self.room / "new").exists())

    def test_version_1(self):
        self.put({"l": self.large(1)})
        self.measured(["report", "p", "l"], 0, self.REPORT)
        self.measured(["merge", "new", "l"], 6, b"", b"atac: new: 66 TooMuch\n")
        self.assertFalse((self.room / "new").exists())

    def test_damaged(self):
        """What is wrong stands at the end of 64 MiB."""
        bytes_of = bytearray(self.large(2))
        bytes_of[-1] ^= 1
        self.put({"l": bytes_of})
        self.measured(["report", "p", "l"], 6, b"", b"atac: l: 64 Damaged\n")
        # in front of the last 32 bytes stand two numbers of records, of 4 bytes each, and the count of the last outcome
        for at, what in ((-41, b"63 Order"), (-37, b"62 Length")):
            bytes_of[at] ^= 1
            self.put({"l": self.sealed(bytes(bytes_of[:-32]))})
            self.measured(["report", "p", "l"], 6, b"", b"atac: l: %s\n" % what)
        self.put({"l": bytes_of + b"x"})
        for words in (["report", "p", "l"], ["merge", "new", "l"], ["run", "q", "e", "l"]):
            self.measured(words, 5, b"", b"atac: l: too long\n")

    def test_thousand(self):
        self.measured(["merge", "m"] + ["t"] * 1000, 0, b"runs 1000\n")
        self.put({"l": self.large(2)})
        self.measured(["report", "p"] + ["t"] * 9 + ["l"], 0)


def tearDownModule():
    for most, seconds, words, name in sorted(SEEN, reverse=True)[:8]:
        print(f"{most // 1024} MB, {seconds:.1f} s: {name}: {words}")
    print(f"{len(SEEN)} calls, the longest took {max(seconds for _, seconds, _, _ in SEEN):.1f} s")
