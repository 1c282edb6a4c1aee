#!/usr/bin/env python3
"""Tests of atac-html, atac-lcov and atac-gate, on real files in a folder of their own.

    tools/tests.py            by fixtures
    tools/tests.py ATAC       also on what the program ATAC says of each of examples/*.c

Ends with 1 where one fails.
"""
import html.parser
import json
import os
import re
import shutil
import subprocess
import sys
import tempfile
import unittest
from pathlib import Path

TOOLS = Path(__file__).resolve().parent
EXAMPLES = TOOLS.parent / "examples"
ATAC = None

LOOP = "int main(void){int x=0;while(x<2)x=x+1;return x;}"
LOOP_JSON = {
    "blocks": [{"col": 15, "covered": True, "line": 1, "number": 1}, {"col": 30, "covered": True, "line": 1, "number": 2},
               {"col": 34, "covered": True, "line": 1, "number": 3}, {"col": 40, "covered": False, "line": 1, "number": 4}],
    "c-uses": [{"covered": True, "def": {"col": 20, "line": 1, "number": 1}, "name": "x", "use": {"col": 36, "line": 1, "number": 2}},
               {"covered": False, "def": {"col": 20, "line": 1, "number": 1}, "name": "x", "use": {"col": 47, "line": 1, "number": 3}}],
    "decisions": [{"col": 30, "covered": True, "line": 1, "number": 1, "outcome": "true"},
                  {"col": 30, "covered": False, "line": 1, "number": 1, "outcome": "false"}],
    "p-uses": [{"covered": True, "def": {"col": 20, "line": 1, "number": 1}, "name": "x", "outcome": "true", "use": {"col": 30, "line": 1, "number": 1}}],
}
LOOP_INFO = """# c-use x d1 1:20 u2 1:36 covered
# c-use x d1 1:20 u3 1:47 uncovered
# p-use x d1 1:20 u1 1:30 true covered
BRDA:1,1,0,1
BRDA:1,1,1,0
BRF:2
BRH:1
DA:1,1
LF:1
LH:1
end_of_record
"""
TOTALS = "blocks 2 of 3\ndecisions 0 of 0\nc-uses 1 of 4\np-uses 0 of 2\nall-uses 1 of 6\n"


class Shown(html.parser.HTMLParser):
    """A page as a browser reads it: the lines of code without their tags, the tags, and what each spot tells."""

    def __init__(self, text):
        super().__init__()
        self.lines, self.chips, self.classes, self.open, self.told, self.links = [], [], [], [], "", []
        self.feed(text)
        self.close()

    def handle_starttag(self, tag, attributes):
        given = dict(attributes)
        self.links += [given[key] for key in ("href", "src") if key in given]
        if tag not in ("meta", "input"):
            self.open.append((tag, given.get("class", ""), given.get("id")))
        if tag == "code":
            self.lines.append("")
        self.classes += given.get("class", "").split() if "at" in given.get("class", "").split() else []

    def handle_endtag(self, tag):
        if self.open[-1][0] != tag:
            raise AssertionError(f"</{tag}> closes <{self.open[-1][0]}>")
        self.open.pop()

    def handle_data(self, text):
        if self.open and self.open[-1][2] == "told":
            self.told += text
        elif any(kind == "chip" for _, kind, _ in self.open):
            self.chips.append(text)
        elif any(tag == "code" for tag, _, _ in self.open):
            self.lines[-1] += text


class Tools(unittest.TestCase):
    def setUp(self):
        self.room = Path(tempfile.mkdtemp())
        self.addCleanup(shutil.rmtree, self.room)

    def file(self, name, text):
        path = self.room / name
        path.write_bytes(text if isinstance(text, bytes) else text.encode())
        return path

    def call(self, tool, *words, text=b""):
        return subprocess.run([tool if "/" in str(tool) else TOOLS / tool, *map(str, words)], input=text, capture_output=True, cwd=self.room)

    def done(self, tool, *words, text=b""):
        ran = self.call(tool, *words, text=text)
        self.assertEqual((ran.returncode, ran.stderr), (0, b""), ran)
        return ran.stdout.decode()

    def refused(self, tool, *words, text=b""):
        ran = self.call(tool, *words, text=text)
        self.assertEqual((ran.returncode, ran.stdout), (2, b""), ran)
        self.assertRegex(ran.stderr.decode(), rf"\A{tool}: [^\n]+\n\Z")

    def loop(self):
        return self.file("loop.c", LOOP + "\n"), self.file("loop.json", json.dumps(LOOP_JSON))

    def test_help(self):
        for tool in ("atac-html", "atac-lcov", "atac-gate"):
            self.assertIn("usage: " + tool, self.done(tool, "--help"))

    def test_from_any_folder(self):
        source, items = self.loop()
        (self.room / "link").symlink_to(TOOLS / "atac-lcov")
        self.assertEqual(self.done(self.room / "link", source, items), self.done("atac-lcov", "loop.c", "loop.json"))

    def test_bad_items(self):
        source, items = self.loop()
        for tool in ("atac-html", "atac-lcov"):
            self.refused(tool)
            self.refused(tool, source)
            self.refused(tool, source, items, "more")
            self.refused(tool, "absent.c", items)
            self.refused(tool, source, "absent.json")
            self.refused(tool, source, self.room)
            for bad in (b"", b"\xff", b"{}", b"[]", b"{\"blocks\":1,\"c-uses\":[],\"decisions\":[],\"p-uses\":[]}"):
                self.refused(tool, source, "-", text=bad)
            for kind, key, value in (("blocks", "col", 51), ("blocks", "line", 2), ("blocks", "number", 0), ("blocks", "number", True), ("blocks", "covered", 1),
                                     ("decisions", "outcome", None), ("c-uses", "name", 3), ("p-uses", "def", {}), ("p-uses", "more", 1)):
                changed = json.loads(json.dumps(LOOP_JSON))
                changed[kind][0][key] = value
                self.refused(tool, source, "-", text=json.dumps(changed).encode())

    def test_tracefile(self):
        source, items = self.loop()
        self.assertEqual(self.done("atac-lcov", source, items), f"TN:\nSF:{source.resolve()}\n" + LOOP_INFO)

    def test_tracefile_of_a_decision_that_was_not_come_to(self):
        never = json.loads(json.dumps(LOOP_JSON))
        for row in never["decisions"] + never["blocks"]:
            row["covered"] = False
        source, _ = self.loop()
        info = self.done("atac-lcov", source, "-", text=json.dumps(never).encode())
        for line in ("BRDA:1,1,0,-", "BRDA:1,1,1,-", "BRH:0", "DA:1,0", "LH:0"):
            self.assertIn(line + "\n", info)

    @unittest.skipUnless(shutil.which("genhtml"), "genhtml isn't there")
    def test_genhtml_takes_it(self):
        info = self.file("marks.info", self.done("atac-lcov", EXAMPLES / "marks.c", TOOLS / "fixtures" / "marks.json"))
        out = self.done(shutil.which("genhtml"), "--branch-coverage", "-o", self.room / "out", info)
        self.assertRegex(out, r"lines\.+: 84\.6%")

    def check_page(self, source, items):
        page = self.done("atac-html", source, items)
        shown = Shown(page)
        lines = source.read_text().split("\n")
        self.assertEqual(shown.lines, lines[:-1] if not lines[-1] else lines)
        self.assertEqual([], [link for link in shown.links if not link.startswith("#L")])
        self.assertNotRegex(page, r"https?:|url\(|@import")
        value = json.loads(items.read_text())
        self.assertEqual(sorted(shown.chips), sorted(row["outcome"] for row in value["decisions"] if not row["covered"]))
        ends = {(row[key]["line"], row[key]["col"]) for kind in ("c-uses", "p-uses") for row in value[kind] for key in ("def", "use")}
        starts = {(row["line"], row["col"]) for kind in ("blocks", "decisions") for row in value[kind]}
        told = json.loads(shown.told)
        self.assertEqual((shown.classes.count("at"), len(told)), (len(ends | starts),) * 2)
        rows = [row for spot in told for _, rows in spot for row in rows]
        pairs = len(value["c-uses"]) + len(value["p-uses"])
        self.assertEqual(len(rows), len(value["blocks"]) + len(value["decisions"]) + 2 * pairs)
        for kind, found in list(value.items()) + [("all-uses", value["c-uses"] + value["p-uses"])]:
            self.assertRegex(page, rf">{kind}</span></span><span class=\"of\">{sum(row['covered'] for row in found)} of {len(found)}</span>")
        return shown

    def test_page(self):
        source, items = self.loop()
        shown = self.check_page(source, items)
        self.assertEqual(shown.chips, ["false"])
        self.assertEqual([kind for kind in shown.classes if kind.endswith("0")], ["b0", "c0"])
        use = json.loads(shown.told)[-1]
        self.assertEqual(use, [["c-use 3 of x: its definitions", [[0, "x d1 1:20", 1]]]])

    def test_page_of_an_example(self):
        self.check_page(EXAMPLES / "marks.c", TOOLS / "fixtures" / "marks.json")

    def test_page_escapes(self):
        source = self.file("<&>.c", "/* </script> & */ int main(void){return 0;}")
        items = self.file("i", json.dumps({"blocks": [{"col": 34, "covered": False, "line": 1, "number": 1}], "c-uses": [], "decisions": [], "p-uses": []}))
        self.check_page(source, items)

    def test_gate(self):
        report = self.file("report", "== e\nall-uses 9 of 9\n\n" + TOTALS)
        self.assertEqual(self.done("atac-gate", "--blocks", "66.66", "--decisions", "100", "--all-uses", "16.6666", report), "")
        self.assertEqual(self.done("atac-gate", "--p-uses", "0", "-", text=TOTALS.encode()), "")
        ran = self.call("atac-gate", "--blocks", "66.67", "--all-uses", "17", "--c-uses", "25", report)
        self.assertEqual((ran.returncode, ran.stdout, ran.stderr), (1, b"blocks 2 of 3: 66.66 % of 66.67 %\nall-uses 1 of 6: 16.66 % of 17 %\n", b""))

    def test_bad_reports(self):
        report = self.file("report", TOTALS)
        for words in ((), (report,), ("--blocks", "50"), ("--blocks", "101", report), ("--blocks", "-1", report), ("--blocks", "x", report),
                      ("--block", "50", report), ("--blocks", "50", "absent"), ("--blocks", "50", report, report)):
            self.refused("atac-gate", *words)
        for bad in ("", "x", TOTALS[:-1], TOTALS + "\n", TOTALS.replace("p-uses 0 of 2\n", ""), TOTALS.replace("2 of 3", "4 of 3")):
            self.refused("atac-gate", "--blocks", "0", "-", text=bad.encode())

    def test_what_the_program_says(self):
        if not ATAC:
            self.skipTest("no program is given")
        empty = self.file("empty", "")
        for source in sorted(EXAMPLES.glob("*.c")):
            with self.subTest(source=source.name):
                self.done(ATAC, "instrument", source, self.room / "q")
                self.done(ATAC, "run", self.room / "q", empty, self.room / "t")
                items = self.file("items", self.done(ATAC, "json", source, self.room / "t"))
                report = self.done(ATAC, "report", source, self.room / "t")
                (self.room / "t").unlink()
                self.check_page(source, items)
                for kind, covered, of in re.findall(r"^([a-z-]+) (\d+) of (\d+)$", report, re.M):
                    wanted = str(100 * int(covered) // int(of)) if int(of) else "100"
                    self.done("atac-gate", f"--{kind}", wanted, "-", text=report.encode())
                info = self.done("atac-lcov", source, items)
                self.assertEqual(re.findall(r"^# (.*)$", info, re.M), re.findall(r"^[cp]-use .*$", report, re.M))


if __name__ == "__main__":
    if len(sys.argv) > 1:
        ATAC = os.path.abspath(sys.argv.pop(1))
    unittest.main()
