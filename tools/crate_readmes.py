#!/usr/bin/env python3
"""Makes crates/NAME/README.md from the first comment of each of the crate's files.

    tools/crate_readmes.py            writes the pages that are stale
    tools/crate_readmes.py --check    writes nothing; names the stale pages, and ends with 1 where there is one
"""
import re
import sys
from pathlib import Path

TOP = Path(__file__).resolve().parent.parent
CRATES = TOP / "crates"


def comment(path, marks):
    """The comment that a file begins with, as one line."""
    words = []
    for line in path.read_text(encoding="utf-8").splitlines():
        mark = next((m for m in marks if line.startswith(m)), None)
        if mark is None:
            break
        words.append(line[len(mark):].strip())
        if not words[-1]:
            break
    return " ".join(w for w in words if w)


def first_sentence(text):
    """The text up to the first full stop with a new sentence behind it."""
    return re.split(r"(?<=\.) (?=[A-Z`])", text, maxsplit=1)[0]


def source_line(path):
    return first_sentence(comment(path, ("//!", "///", "//")))


def antt_line(path):
    return first_sentence(comment(path, ("--",)))


def modules(path):
    """The modules that a source file declares, in their order, and whether each is public."""
    found = re.findall(r"^(pub )?mod (\w+);", path.read_text(encoding="utf-8"), re.M)
    return [(name, bool(public)) for public, name in found]


def sources(root):
    """The source files behind a root file, each module before the modules in it."""
    out = []

    def walk(path, folder):
        for name, _ in modules(path):
            file = folder / (name + ".rt")
            if file.is_file():
                out.append(file)
                walk(file, folder / name)

    walk(root, root.parent)
    return out


def reading_order(folder, name):
    """The antt files of a folder: in the order of Lib.antt, but each behind those of the folder that it uses."""
    lib = folder / "Lib.antt"
    if not lib.is_file():
        return []
    listed = re.findall(r"^(?:pub )?mod (\S+)", lib.read_text(encoding="utf-8"), re.M)
    files = {n: folder / (n + ".antt") for n in listed if (folder / (n + ".antt")).is_file()}
    uses = {}
    for n, file in files.items():
        text = file.read_text(encoding="utf-8")
        found = re.findall(r"^(?:pub )?use Rattle\.%s\.%s\.(\w+)" % (name, folder.name), text, re.M)
        uses[n] = {u for u in found if u in files and u != n}
    out = []
    while len(out) < len(files):
        left = [n for n in files if n not in out]
        out.append(next((n for n in left if uses[n] <= set(out)), left[0]))
    return [files[n] for n in out]


def surface(root):
    """What the crate shows: its public modules, what it passes on, and what stands in the root file itself."""
    text = root.read_text(encoding="utf-8")
    public = [name for name, is_public in modules(root) if is_public]
    passed = [" ".join(u.split()) for u in re.findall(r"^pub use ([^;]+);", text, re.M)]
    own = re.findall(r"^pub (?:const )?(?:fn|struct|enum|trait|type|const) (\w+)", text, re.M)
    parts = []
    if own:
        parts.append(", ".join("`%s`" % n for n in own))
    if passed:
        parts.append(", ".join("`%s`" % u for u in passed))
    if public:
        parts.append("the modules " + ", ".join("`%s`" % n for n in public))
    return "; ".join(parts)


def listed(title, files, top, line):
    if not files:
        return []
    return ["", "## " + title, ""] + ["- `%s`: %s" % (f.relative_to(top).as_posix(), line(f)) for f in files]


def page(crate, libraries):
    name = crate.name
    root = crate / "src" / "lib.rt"
    if not root.is_file():
        root = crate / "src" / "main.rt"
    lines = ["# " + name, "", comment(root, ("//!",)), ""]
    shown = surface(root)
    if root.name == "main.rt":
        given = [f for f in ("args", "stdin", "data") if (crate / f).exists()]
        lines.append("A program." if not (crate / "stdout").is_file() else "A program; the gate runs it%s, and it must print the file `stdout`." % (
            " with " + " and ".join("`%s`" % f for f in given) if given else ""))
    elif shown:
        lines.append("Public: %s." % shown)
    else:
        lines.append("It holds no public code.")
    lines.append("")
    names = libraries.get(name, [])
    lines.append("Stands on: %s." % (", ".join("`%s`" % n for n in names) if names else "no other crate"))
    lines += listed("Sources", sources(root), crate / "src", source_line)
    lines += listed("Definitions, in reading order", reading_order(crate / "specs", name), crate / "specs", antt_line)
    lines += listed("Lemmas, in reading order", reading_order(crate / "proofs", name), crate / "proofs", antt_line)
    lines += ["", "Made by tools/crate_readmes.py of the first comment of each file."]
    return "\n".join(lines) + "\n"


def main():
    check = sys.argv[1:] == ["--check"]
    if sys.argv[1:] and not check:
        print(__doc__.strip(), file=sys.stderr)
        return 2
    libraries = {}
    for line in (TOP / "crates.txt").read_text(encoding="utf-8").splitlines():
        if line and not line.startswith("#"):
            name, _, rest = line.partition(":")
            libraries[name.strip()] = rest.split()
    stale = []
    for crate in sorted(p for p in CRATES.iterdir() if (p / "src").is_dir()):
        path = crate / "README.md"
        text = page(crate, libraries)
        if not path.is_file() or path.read_text(encoding="utf-8") != text:
            stale.append(path.relative_to(TOP).as_posix())
            if not check:
                path.write_text(text, encoding="utf-8")
    for name in stale:
        print(("stale: " if check else "written: ") + name)
    if check and stale:
        print("tools/crate_readmes.py writes them anew")
        return 1
    return 0


if __name__ == "__main__":
    sys.exit(main())
