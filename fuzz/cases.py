"""The cases: each is made of a seed and a number alone, played through the program, and judged."""
import hashlib
import random

import answers
import texts
import traces
import words
from answers import hold

LIMITS = (1, 2, 3, 5, 9, 17, 40, 100, 300, 1000, 3000, 3000, 20000)


class Case:
    """A case that is being played: its files, its calls, and what came of them."""

    def __init__(self, player, draw):
        self.player, self.draw, self.files, self.calls, self.seen = player, draw, {}, [], []
        self.kept = {}

    def put(self, name, bytes_of):
        self.files[name] = bytes_of
        self.kept[name] = bytes_of
        self.player.put(name, bytes_of)

    def call(self, *given):
        """Calls the program, and holds what every answer must be. Returns the answer and a refusal's number."""
        self.calls.append(given)
        ran = self.player.call(*given)
        number = answers.common(ran, self.kept)
        self.seen.append((given[0] if given and given[0] in words.COMMANDS else "", ran.status, number or 0, ran.memory))
        return ran, number

    def keeps(self, ran, name):
        """What a call that is done has kept; any other may not have made or changed the file."""
        try:
            now = self.player.get(name)
        except FileNotFoundError:
            now = None
        if ran.status:
            hold(now == self.kept.get(name), f"{name} was changed, and the call isn't done")
        else:
            hold(now is not None, f"{name} wasn't kept")
            self.kept[name] = now
        return now


def ending(draw):
    return draw.choice(LIMITS)


def play_text(case, shared):
    """A text: one command, or where it is accepted the whole way, whose answers must agree."""
    draw = case.draw
    case.put("p", texts.mutated(draw, shared["sources"]))
    ran, number = case.call(*draw.choice((("check", "p"), ("check", "p"), ("list", "p"), ("cover", "p", "e"), ("instrument", "p", "q"))))
    if number or ran.status:
        if ran.words[0] == "instrument":
            case.keeps(ran, "q")
        if ran.status == 4 and ran.words[0] == "cover":
            hold(ran.err == b"atac: e: absent\n" and ran.out == b"", "no absent input")
    if draw.random() < (0.95 if ran.status else 0.7):
        return
    case.put("e", draw.choice(shared["inputs"]))
    if draw.random() < 0.1:
        case.put("e", texts.damage_bytes(draw, case.files["e"]))
    agree(case, str(ending(draw)))


def agree(case, limit):
    """Each command on one text: `check` decides what the others may say."""
    checked, number = case.call("check", "p")
    ran, _ = case.call("run", "-t", limit, "p", "e")
    if checked.status:
        hold(checked.status == 3 and (ran.status == 3 and ran.err == checked.err or number in (50, 52)), "check and run disagree")
        for given in (("list", "p"), ("cover", "p", "e"), ("watch", "p", "e", "blocks")):
            hold(case.call(*given)[0].err == checked.err, f"check and {given[0]} refuse unlike")
        return
    hold(answers.COUNTS.fullmatch(checked.out), "no line of counts")
    hold(ran.status == 0, "an accepted program isn't run")
    answers.section(ran.out, b"e", int(limit))
    listed, number = case.call("list", "p")
    rows = answers.listed(listed.out) if not number else []
    covered = cover(case, limit, ran.out, rows) if not number else []
    probed(case, limit, ran.out, rows, covered, number)
    watch(case, limit, ran.out, rows, covered, number)


def cover(case, limit, one, rows):
    """What `cover` says of one input, and of more with one that is absent."""
    ran, _ = case.call("cover", "-t", limit, "p", "e")
    hold(ran.status == 0 and ran.out.startswith(one), "cover puts another section than run")
    covered = answers.reported(ran.out[len(one):], rows)
    if case.draw.random() < 0.3:
        again, _ = case.call("cover", "-t", limit, "p", "e", "e", "no", "e")
        hold(again.status == 4 and again.err == b"atac: no: absent\n" and again.out == one + one, "no whole sections in front of an absent input")
        picked, _ = case.call("pick", "-t", limit, "p", "e", "e")
        hold(picked.status == 0 and picked.out.startswith(b"keep e\ndrop e\nkept 1 of 2\n" if covered else b"drop e"), "no pick of two like runs")
        hold(picked.out.endswith(ran.out[-60:]), "pick and cover have other totals")
    return covered


def probed(case, limit, one, rows, covered, too_many):
    """The text with probes does what the program does, and its trace is reported as `cover` reports."""
    kept, number = case.call("instrument", "p", "q")
    case.keeps(kept, "q")
    if number:
        hold(number == 54, "an accepted program isn't instrumented")
        return
    ran, _ = case.call("run", "-t", limit, "q", "e")
    hold(ran.status == 0 and ran.out == one, "the text with probes does something else")
    again, _ = case.call("run", "-t", limit, "q", "e", "t")
    hold(again.status == 0 and again.out == one, "a run into a trace does something else")
    trace = traces.read(case.keeps(again, "t"))
    hold(isinstance(trace, dict), f"the trace that was kept is refused: {trace}")
    hold((trace["runs"], trace["old"], trace["digest"]) == (1, 0, hashlib.sha256(case.files["p"]).digest()), "no trace of one run")
    hold(all(count == 1 for of in trace["lists"] for count in of.values()), "another count than of one run")
    if not too_many:
        told(case, rows, covered)


def told(case, rows, covered):
    """What is told of the trace of one run."""
    report, _ = case.call("report", "p", "t")
    hold(report.status == 0 and answers.reported(report.out, rows) == covered, "report and cover disagree")
    way = case.draw.randrange(3)
    if way == 0:
        hits, _ = case.call("hits", "p", "t", "t")
        numbers, totals = answers.hit(hits.out, rows)
        hold([row for row in rows if numbers[row] == 2] == covered, "hits and cover disagree")
        hold(all(number in (0, 2) for number in numbers.values()) and totals == report.out.split(b"\n")[-6:-1], "other numbers of runs than two")
    elif way == 1:
        shown, _ = case.call("show", "p", "t")
        answers.shown(shown.out, case.files["p"], rows, set(covered))
    else:
        spelled, _ = case.call("json", "p", "t")
        hold(answers.spelled(spelled.out) == report.out.split(b"\n")[:-6], "json and report disagree")


def watch(case, limit, one, rows, covered, too_many):
    """The counter of blocks names the blocks that are covered; the lister's lines have their form."""
    ran, _ = case.call("watch", "-t", limit, "p", "e", "blocks")
    hold(ran.status == 0 and ran.out.startswith(one), "watch puts another section than run")
    entered = [line.split()[1] for line in ran.out[len(one):].splitlines()]
    if not too_many:
        hold(entered == [row.split()[1] for row in covered if row.startswith(b"block ")], "watch and cover disagree")


def play_probed(case, shared):
    """A text that `instrument` kept, changed: it runs or is refused, and the trace that it keeps is one."""
    draw = case.draw
    case.put("q", texts.mutated(draw, shared["probed"]))
    case.put("e", draw.choice(shared["inputs"]))
    limit = str(ending(draw))
    plain, number = case.call("run", "-t", limit, "q", "e")
    into, other = case.call("run", "-t", limit, "q", "e", "t")
    now = case.keeps(into, "t")
    if plain.status:
        hold(into.err == plain.err and number not in (50, 51, 52, 53, 54), "run refuses unlike with a trace")
        return
    answers.section(plain.out, b"e", int(limit))
    if into.status:
        hold(other == 53, "a program that runs isn't run into a trace")
        return
    hold(into.out == plain.out, "a run into a trace does something else")
    hold(isinstance(traces.read(now), dict), f"the trace that was kept is refused: {traces.read(now)}")
    checked, number = case.call("check", "q")
    hold(checked.status == 3, "a text with a program line is accepted by check")


def play_trace(case, shared):
    """Traces, sound and damaged: what is said of each is known by the definition."""
    draw = case.draw
    source, digest = draw.choice(shared["digests"])
    case.put("p", source)
    wanted = []
    for k in range(draw.choice((1, 1, 1, 2, 3))):
        bytes_of = trace_bytes(draw, digest)
        case.put(f"t{k}", bytes_of)
        wanted.append(traces.read(bytes_of))
    names = list(case.files)[1:]
    way = draw.choice(("merge", "merge", "into", *words.TOLD))
    if way == "merge":
        return play_merge(case, names, wanted)
    if way == "into":
        return play_into(case, shared, names[0], wanted[0])
    ran, number = case.call(way, "p", *names)
    name, refused = first_refused(names, wanted, digest)
    hold(number == refused, f"{way} says {number or 'nothing'}, and the traces are {refused or 'right'}")
    if refused:
        hold(ran.err == b"atac: %s: %d %s\n" % (name.encode(), refused, answers.TRACES[refused].encode()), "another trace is named")
    else:
        told_rightly(case, way, ran.out, traces.summed(wanted))


def counted(row, total, of_decision):
    """In how many runs of the summed traces an item was met, or None where its line alone doesn't tell its numbers."""
    fields = row.decode().split()
    numbers = [int(it[1:]) for it in fields if it[0] in "du" and it[1:].isdigit()]
    if fields[0] == "block":
        return total["lists"][0].get((int(fields[1]),), 0)
    if fields[0] == "decision":
        of_decision[fields[1]] = of_decision.get(fields[1], 0) + 1
        outcome = {"true": 1, "false": 2}.get(fields[3], of_decision[fields[1]])
        return total["lists"][1].get((int(fields[1]), outcome), 0)
    if fields[0] == "c-use":
        return total["lists"][2].get(tuple(numbers[-2:]), 0)
    if fields[-1] in ("true", "false"):
        return total["lists"][3].get((*numbers[-2:], 1 if fields[-1] == "true" else 2), 0)
    return None


def told_rightly(case, way, out, total):
    """What is told of traces is what their sum says of the listed items."""
    rows = answers.listed(case.call("list", "p")[0].out)
    of_decision = {}
    wanted = [(row, counted(row, total, of_decision)) for row in rows]
    if way == "hits":
        more = b" or more" if total["old"] else b""
        lines = set(out.split(b"\n"))
        for row, runs in wanted:
            hold(runs is None or row + b" in %d runs%s" % (runs, more if runs else b"") in lines, "hits tells another number")
    elif way in ("report", "json"):
        lines = set(out.split(b"\n") if way == "report" else answers.spelled(out))
        for row, runs in wanted:
            hold(runs is None or row + (b" covered" if runs else b" uncovered") in lines, f"{way} marks an item wrongly")
    elif None not in dict(wanted).values():
        answers.shown(out, case.files["p"], rows, {row for row, runs in wanted if runs})


def trace_bytes(draw, digest):
    trace = traces.made(draw, digest if draw.random() < 0.95 else bytes(32))
    if draw.random() < 0.3:
        trace["lists"] = [dict.fromkeys(rows, 1) for rows in trace["lists"]]
    bytes_of = traces.written(trace, draw.choice((1, 2)))
    return traces.damaged(draw, bytes_of) if draw.random() < 0.7 else bytes_of


def first_refused(names, wanted, digest):
    for name, trace in zip(names, wanted):
        if not isinstance(trace, dict):
            return name, trace
        if trace["digest"] != digest:
            return name, 65
    return None, None


def play_merge(case, names, wanted):
    digest = wanted[0]["digest"] if isinstance(wanted[0], dict) else b""
    name, refused = first_refused(names, wanted, digest)
    ran, number = case.call("merge", "m", *names)
    kept = case.keeps(ran, "m")
    hold(number == refused, f"merge says {number or 'nothing'}, and the traces are {refused or 'right'}")
    if not refused:
        total = traces.summed(wanted)
        hold(ran.out == b"runs %d\n" % total["runs"] and kept == traces.written(total), "another sum")


def play_into(case, shared, name, trace):
    """A run into a trace that stands: its numbers grow by those of the run."""
    case.put("q", shared["loop"])
    case.put("e", b"")
    _, refused = first_refused([name], [trace], shared["loop_trace"]["digest"])
    ran, number = case.call("run", "q", "e", name)
    kept = case.keeps(ran, name)
    hold(number == refused, f"run says {number or 'nothing'}, and the trace is {refused or 'right'}")
    if not refused:
        hold(kept == traces.written(traces.summed([trace, shared["loop_trace"]])), "another sum")


def play_words(case, shared):
    """Words: exactly those that are no command are bad usage."""
    case.put("p", shared["sources"][0])
    case.put("q", shared["loop"])
    case.put("e", b"")
    case.put("t", traces.written(shared["loop_trace"]))
    given = words.made(case.draw)
    ran, _ = case.call(*given)
    hold((ran.status == 2) != words.is_read(given), "words are read in another way")


KINDS = [(play_text, 78), (play_probed, 8), (play_trace, 10), (play_words, 4)]


def play(player, shared, seed, number, only=None):
    """Makes and plays the case of this number, of one kind where it is given."""
    draw = random.Random(f"{seed}/{number}")
    kinds = [(it, weight) for it, weight in KINDS if only in (None, it.__name__[5:])]
    kind = draw.choices([it for it, _ in kinds], [weight for _, weight in kinds])[0]
    player.clear()
    case = Case(player, draw)
    case.kind = kind.__name__[5:]
    what = None
    try:
        kind(case, shared)
    except answers.Wrong as wrong:
        what = str(wrong)
    return case, what


def gathered(player):
    """What all cases share: the texts, the inputs, and what the program makes of the texts."""
    shared = {"sources": texts.sources(), "inputs": texts.inputs(), "probed": [], "digests": []}
    for text in shared["sources"]:
        player.clear()
        player.put("p", text)
        if player.call("instrument", "p", "q").status == 0:
            shared["probed"].append(player.get("q"))
            if len(text) < 2000:
                shared["digests"].append((text, hashlib.sha256(text).digest()))
    loop = texts.SMALL[1]
    player.put("p", loop)
    player.call("instrument", "p", "q")
    shared["loop"] = player.get("q")
    # by hand: the blocks, outcomes, pairs and p-uses that the loop shows
    lists = [{(k,): 1 for k in (1, 2, 3, 4)}, {(1, 1): 1, (1, 2): 1}, dict.fromkeys([(1, 1), (1, 2), (2, 1), (2, 2), (2, 3)], 1),
             dict.fromkeys([(1, 1, 1), (2, 1, 1), (2, 1, 2)], 1)]
    shared["loop_trace"] = {"digest": hashlib.sha256(loop).digest(), "runs": 1, "old": 0, "lists": lists}
    shared["digests"] += [(loop, shared["loop_trace"]["digest"])] * len(shared["digests"])
    return shared
