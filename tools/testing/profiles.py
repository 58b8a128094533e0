"""Profiles of runs: what `rinddecade profile` counts of examples and kernels is what tools/meaning works out, at 4, 8 and 16 lanes.

The counts are those of JSON, read by Python; the tables and the annotated source are made here anew from the counts of tools/meaning, so each
byte of them is judged. A step is counted before it is done, where it stands; lanes part at it where some of them do the next step of its
frame, and others do not. What a function takes with what it calls are the steps at which a frame of it stands, once or several times. A round
of a foreach form is the step that begins it, and it is full where all lanes do. The commands of docs/PROFILE.md give what stands below them,
and the programs that it makes of kernels give these kernels' results.
"""

import functools
import json
import random
import re

from meaning.debugging import Debugger
from meaning.printed import array_text
from meaning.source import Node
from meaning.values import Fault

from . import examples, meant, partings, touches
from .profile_sources import CALLED, DEEP, EMPTY, ENDLESS, FORMED, HOSTILE, MIXED
from .program import begins_with, has_words
from .random_programs import Written
from .tried import Run

WIDTHS = (4, 8, 16)
NAMED = ("divide", "recursion", "lanes", "reduce", "histogram", "state_machine")
KERNELS = ("mandelbrot", "quicksort", "queens")

# How many steps of a kernel are counted.
MOST_OF_KERNEL = 1500

# How many random programs are profiled, and how many steps of each.
RANDOM, MOST_OF_RANDOM = 60, 300

KEYS = ("steps", "lane_steps", "short_steps", "partings")
LINES = b" line     steps lane-steps  share      short  parted       lost  source\n"
FUNCTIONS = b"function             steps lane-steps  share      short  parted       lost   in all  share     calls      lanes\n"
FORM_HEAD = b" line form              rounds       full   full     steps lane-steps  share      short       lost\n"
FORMS = {"domain": "foreach", "each lane": "foreach_active", "each value": "foreach_unique"}
FILES = {"mixed.ispc": MIXED.encode(), "held.txt": b"something\n"}


# ---- what is wanted

def share_of(part, whole):
    return (1000 * part // whole if whole else 1000) / 10


def nodes_in(it):
    """The nodes of a part of a tree."""
    if isinstance(it, Node):
        yield it
        yield from nodes_in([*vars(it).values()])
    elif isinstance(it, (list, tuple)):
        for part in it:
            yield from nodes_in(part)


def forms_in(it):
    """The foreach forms of a part of a tree, those in another one's body before it."""
    if isinstance(it, Node):
        return forms_in([*vars(it).values()]) + ([it] if it.kind in FORMS else [])
    return [form for part in it for form in forms_in(part)] if isinstance(it, (list, tuple)) else []


def word_of(form):
    return "foreach_tiled" if form.kind == "domain" and form.is_tiled else FORMS[form.kind]


class Counted:
    """The steps of a run from one on: the line, the functions of the frames, the lanes and the task of each; and how it ends."""

    def __init__(self, source, options, most, first=1):
        debugger = Debugger(source, **options)
        self.source, self.width, self.steps, self.end = source, debugger.state.width, [], ["limit"]
        self.before, self.forms = first - 1, [it for function in debugger.program.functions for it in forms_in(function.body)]
        self.accesses = touches.accesses_of(debugger.program)
        for _ in range(self.before):
            debugger.forward()
        while len(self.steps) < most:
            if not debugger.state.frames:
                break
            _, place, *_, lanes = debugger.place_text().split()
            names = tuple(it.function.name for it in debugger.state.frames)
            task = debugger.state.top.tasks[0] if debugger.state.top.tasks else None
            self.steps.append((int(place.split(":")[0]), names, frozenset(at for at, bit in enumerate(lanes) if bit == "1"), task))
            touched = touches.touched_now(self.accesses, debugger.state)
            try:
                debugger.forward()
            except Fault as fault:
                self.end = ["fault", " ".join(fault.name.split()), fault.lane]
                break
            for access, elements in touched:
                access.touched.append(elements)
        if not debugger.state.frames:
            self.end = ["ended"]
        self.parted = [self.is_parting(at) for at in range(len(self.steps))]
        self.partings = partings.rows_of(self.steps, self.parted)

    def is_parting(self, at):
        _, names, lanes, _ = self.steps[at]
        for _, others, next_lanes, _ in self.steps[at + 1 :]:
            if len(others) <= len(names):
                return len(others) == len(names) and bool(lanes & next_lanes) and not lanes <= next_lanes
        return False

    def counts(self, chosen):
        rows = [(lanes, parted) for step, parted in zip(self.steps, self.parted) for lanes in (step[2],) if chosen(step)]
        steps, lane_steps = len(rows), sum(len(lanes) for lanes, _ in rows)
        found = dict(zip(KEYS, (steps, lane_steps, sum(len(lanes) < self.width for lanes, _ in rows), sum(parted for _, parted in rows))))
        found["lost"] = steps * self.width - lane_steps
        found["share"] = share_of(lane_steps, steps * self.width)
        return found

    def lines(self):
        return {number: self.counts(lambda step: step[0] == number) for number in sorted({it[0] for it in self.steps})}

    def functions(self):
        found = {}
        standing = self.steps[0][1] if self.steps else ()
        for name in dict.fromkeys([*standing, *(it[1][-1] for it in self.steps)]):
            own, whole = self.counts(lambda step: step[1][-1] == name), self.counts(lambda step: name in step[1])
            found[name] = own | {f"{key}_with_calls": whole[key] for key in ("steps", "lane_steps", "share")}
            calls = [step[2] for before, step in zip(self.steps, self.steps[1:]) if len(before[1]) < len(step[1]) and step[1][-1] == name]
            found[name] |= {"calls": len(calls), "call_lanes": sum(map(len, calls))}
        return found

    def by_form(self):
        """A row for each form that was come to: its line and word, its rounds, and the counts of the steps inside it."""
        found = {}
        for form in self.forms:
            within = {id(it) for it in nodes_in(form.body)}
            rounds = [step[2] for step in self.steps if step[3] and step[3].kind == "round" and step[3].statement is form]
            row = self.counts(lambda step: step[3] and (step[3].kind == "round" and step[3].statement is form or id(step[3].statement) in within))
            if row["steps"]:
                found[form.place[0], word_of(form), id(form)] = row | {"rounds": len(rounds), "full": sum(len(it) == self.width for it in rounds)}
        return found

    def all(self):
        return self.counts(lambda step: True)

    def told_end(self):
        steps = self.before + len(self.steps)
        if self.end[0] == "fault":
            return f"step {steps} faults: {self.end[1]} in lane {self.end[2]}\n"
        return f"the program ended after {steps} steps\n" if self.end[0] == "ended" else f"the run was left after {steps} steps\n"


def wanted_json(counted, name):
    end = {"end": counted.end[0]} | (dict(zip(("fault", "lane"), counted.end[1:])) if counted.end[1:] else {})
    lines = [{"line": number} | row for number, row in counted.lines().items()]
    functions = [{"name": it} | row for it, row in counted.functions().items()]
    forms = []
    for (line, word, _), row in counted.by_form().items():
        own = {key: value for key, value in row.items() if key != "partings"}
        forms.append({"line": line, "form": word, "full_share": share_of(row["full"], row["rounds"])} | own)
    found = {"source": name, "width": counted.width} | end | {"all": counted.all(), "lines": lines, "functions": functions, "forms": forms}
    return found | {"accesses": touches.wanted_members(counted.accesses), "partings": partings.wanted_members(counted.partings)}


def columns(row):
    return f"{row['steps']:10}{row['lane_steps']:11}{row['share']:6.1f}%{row['short_steps']:11}{row['partings']:8}{row['lost']:11}"


def dearest(rows, top):
    return sorted((it for it in rows.items() if it[1]["steps"]), key=lambda it: -it[1]["lost"])[:top]


def wanted_lines(counted, top):
    source = counted.source.split("\n")
    rows = [f"{number:5}{columns(row)}  {source[number - 1].lstrip()[:48]}\n" for number, row in dearest(counted.lines(), top)]
    return LINES + ("".join(rows) + f"  all{columns(counted.all())}\n" + counted.told_end()).encode()


def wanted_functions(counted, top):
    whole = lambda row, key="": f"{row['steps' + key]:9}{row['share' + key]:6.1f}%"
    rows = [f"{name:16}{columns(row)}{whole(row, '_with_calls')}{row['calls']:10}{row['call_lanes']:11}\n" for name, row in dearest(counted.functions(), top)]
    return FUNCTIONS + ("".join(rows) + f"{'all':16}{columns(counted.all())}{whole(counted.all())}\n" + counted.told_end()).encode()


def wanted_forms(counted, top):
    """The table of forms: how many rounds all lanes begin, and the share of these."""
    text = "".join(
        f"{line:5} {word:14}{row['rounds']:10}{row['full']:11}{share_of(row['full'], row['rounds']):6.1f}%"
        f"{row['steps']:10}{row['lane_steps']:11}{row['share']:6.1f}%{row['short_steps']:11}{row['lost']:11}\n"
        for (line, word, _), row in dearest(counted.by_form(), top)
    )
    return FORM_HEAD + (text + counted.told_end()).encode()


def wanted_accesses(counted, top):
    return touches.wanted_table(counted.accesses, counted.source, top, counted.told_end())


def wanted_partings(counted, top):
    return partings.wanted_table(counted.partings, counted.source, top, counted.told_end())


def wanted_annotated(counted):
    rows, text = counted.lines(), ""
    for number, line in enumerate(counted.source.splitlines(), 1):
        front = " " * 29
        if number in rows:
            row = rows[number]
            filled = int(row["share"] * 8 // 100)
            front = f"{row['steps']:10}{row['share']:6.1f}%  {'#' * filled}{'.' * (8 - filled)}{partings.marks(counted.partings, number, row['partings'])}"
        text += f"{front}{number:6}  {line}\n"
    return (text + counted.told_end()).encode()


def wanted_comparison(runs):
    text = "          4 lanes           8 lanes          16 lanes\n line     steps  share     steps  share     steps  share  source\n"
    source = runs[0].source.split("\n")
    column = lambda row: f"{row['steps']:10}{row['share']:6.1f}%" if row["steps"] else "         -      -"
    for number in sorted(set().union(*(it.lines() for it in runs))):
        text += f"{number:5}" + "".join(column(it.counts(lambda step: step[0] == number)) for it in runs) + f"  {source[number - 1].lstrip()[:40]}\n"
    ends = "".join(f"{width:2} lanes: {it.told_end()}" for width, it in zip(WIDTHS, runs))
    return (text + "  all" + "".join(column(it.all()) for it in runs) + "\n" + ends).encode()


# ---- runs

def is_json(wanted, is_all=True):
    def judged(text):
        if not text:
            return ["nothing is written"]
        came = json.loads(text)
        return [f"{key}: {came.get(key)}, and {value} is wanted" for key, value in wanted.items() if came.get(key) != value] + (
            [] if not is_all or list(came) == list(wanted) else [f"members {list(came)}"]
        )

    return judged


def runs_of(name, source, words=(), options=None, data=None, most=10_000_000, widths=WIDTHS, first=1):
    """Each form of a profile of a source, at each width, and the comparison of all."""
    found, counts = [], []
    words = [f"{name}.ispc", *words] + (["--most", str(most)] if most < 10_000_000 else []) + (["--from", str(first)] if first > 1 else [])
    data = {f"{name}.ispc": source.encode()} | (data or {})
    for width in widths:
        counted = Counted(source, (options or {}) | {"width": width}, most, first)
        counts.append(counted)
        forms = {
            ("--json",): is_json(wanted_json(counted, f"{name}.ispc")),
            (): wanted_lines(counted, 20),
            ("--by", "line", "--top", "3"): wanted_lines(counted, 3),
            ("--by", "function"): wanted_functions(counted, 20),
            ("--by=function", "--top=1"): wanted_functions(counted, 1),
            ("--by", "form"): wanted_forms(counted, 20),
            ("--by", "access"): wanted_accesses(counted, 20),
            ("--by", "access", "--top", "2"): wanted_accesses(counted, 2),
            ("--by", "parting"): wanted_partings(counted, 20),
            ("--by=parting", "--top", "2"): wanted_partings(counted, 2),
            ("--annotate",): wanted_annotated(counted),
        }
        for form, wanted in forms.items():
            found.append(Run(f"profile of {name}, {width} lanes {' '.join([*form, *words[1:]])}".rstrip(), b"", ["profile", *words, "--width", str(width), *form], wanted, b"", data=data))
    if widths == WIDTHS:
        found.append(Run(f"profile of {name}, compared", b"", ["profile", *words, "--compare"], wanted_comparison(counts), b"", data=data))
    return found


def example_runs(root):
    found = []
    for name in NAMED:
        words = examples.arguments(root, name)
        given = examples.input_of(root, name)
        input_words, data = examples.with_input(name, given)
        options = meant.options_of(words, given)
        source = (root / f"examples/{name}.ispc").read_text()
        found += runs_of(name, source, [*words, *input_words], options, data, widths=WIDTHS if not given else (4,))
    return found


def kernel_runs(root):
    found = []
    for name in KERNELS:
        folder = root / "examples/kernels"
        given = (folder / f"{name}.input").read_bytes()
        options = {"rows": meant.rows_of(given.decode())}
        source = (folder / f"{name}.ispc").read_text()
        found += runs_of(name, source, ["--input", f"{name}.input"], options, {f"{name}.input": given}, MOST_OF_KERNEL)
    return found


@functools.lru_cache(maxsize=None)
def of_page(root, file, given, width):
    """The run of a program of the page, with its input."""
    return Counted((root / file).read_text(), {"width": width, "rows": meant.rows_of((root / given).read_text())}, 10_000_000)


def shown_runs(root):
    """The commands of the page. What stands below one is what it gives, or a part of that."""
    blocks = re.findall(r"^```\n(.*?)^```$", (root / PAGE).read_text(), re.M | re.S)
    found = []
    for command, shown in zip(blocks, blocks[1:] + [""]):
        words = command.split()
        if words[:2] != ["rinddecade", "profile"]:
            continue
        value = lambda name, usual: words[words.index(name) + 1] if name in words else usual
        file, given = words[2], value("--input", None)
        runs = {width: of_page(root, file, given, width) for width in (WIDTHS if "--compare" in words else (int(value("--width", 4)),))}
        top, counted = int(value("--top", 20)), [*runs.values()][0]
        if "--compare" in words:
            wanted = wanted_comparison([*runs.values()])
        elif "--annotate" in words:
            wanted = wanted_annotated(counted)
        else:
            tables = {"form": wanted_forms, "function": wanted_functions, "access": wanted_accesses, "parting": wanted_partings, "line": wanted_lines}
            wanted = tables[value("--by", "line")](counted, top)
        if not shown.startswith("rinddecade") and shown.encode() not in wanted:
            wanted = shown.encode()
        found.append(Run(f"{PAGE}: {' '.join(words[2:])}", b"", words[1:], wanted, b"", data={it: root / it for it in (file, given)}))
    return found


def printed(row):
    """What the prompt prints first, with no bound on elements and repeats, of an array of the file whose first numbers a row has."""
    name, _, numbers = row.partition(" = ")
    return f"{name} ={array_text([int(it) for it in numbers.split()], 'int', most=len(row), repeats=len(row))}".encode()


def known_runs():
    """What the accesses of a program touch, by arithmetic."""
    judged = lambda wanted: lambda text: [] if json.loads(text)["accesses"] == wanted else [f"{json.loads(text)['accesses']}, and {wanted} is wanted"]
    found = [
        Run(f"accesses by arithmetic, {width} lanes", b"", ["profile", "known.ispc", "--json", "--width", str(width)], judged(touches.known_members(width)), b"", data={"known.ispc": touches.KNOWN.encode()})
        for width in WIDTHS
    ]
    return found + runs_of("known", touches.KNOWN)


def called_runs():
    """How often a function is called, and by how many lanes, by arithmetic: in round i of three by those whose number is above i, and then by all."""
    found = []
    for width in WIDTHS:
        own = {"half": (4, 3 * width - 6 + width), "last": (1, width), "go": (0, 0)}
        judged = lambda text, own=own: [f"{it['name']}: {it}" for it in json.loads(text)["functions"] if (it["calls"], it["call_lanes"]) != own[it["name"]]]
        words = ["profile", "called.ispc", "--json", "--width", str(width)]
        found.append(Run(f"calls by arithmetic, {width} lanes", b"", words, judged, b"", data={"called.ispc": CALLED.encode()}))
    return found + runs_of("called", CALLED)


def random_runs():
    """What the accesses of random programs touch, and where their lanes part and meet again. Not all steps of an endless one are counted."""
    found = []
    for number in range(RANDOM):
        source = "\n".join(Written(random.Random(f"profile {number}")).lines) + "\n"
        for width in WIDTHS:
            counted = Counted(source, {"width": width}, MOST_OF_RANDOM)
            wanted = wanted_json(counted, "random.ispc")
            judged = is_json({key: wanted[key] for key in ("accesses", "partings")}, False)
            words = ["profile", "random.ispc", "--json", "--width", str(width), "--most", str(MOST_OF_RANDOM)]
            found.append(Run(f"accesses and partings of random program {number}, {width} lanes", b"", words, judged, b"", data={"random.ispc": source.encode()}))
    return found


def result_runs(root):
    """A rewritten program gives what its kernel gives: the file's variables, where its entry is left."""
    found = []
    for name, kernel in REWRITTEN.items():
        source, given = f"examples/profiles/{name}.ispc", f"examples/kernels/{kernel}.input"
        rows = [it for it in (root / f"examples/kernels/{kernel}.expected").read_text().splitlines() if " = " in it]
        lines = [f"break {(root / source).read_text().rstrip().count(chr(10)) + 1}", "continue", "set print elements 0", "set print repeats 0"]
        text = "".join(f"{it}\n" for it in [*lines, *(f"print {row.split()[0]}" for row in rows)]).encode()
        for width in WIDTHS:
            words = ["debug", source, "--input", given, "--width", str(width)]
            found.append(Run(f"results of {source}, {width} lanes", text, words, has_words(*map(printed, rows)), None, data={it: root / it for it in (source, given)}))
    return found


def hostile_runs():
    """Texts that no terminal is to do, and no JSON is to break."""
    data = {"hostile.ispc": HOSTILE, "odd\".ispc": EMPTY.encode()}
    lines = [b"export void go() { // \xff??[31m", b"int x = 1;\t// \t\"\\", b"x = 2; // 45678901234567890123456789012345678\n", b"x = 3; // 45678901234567890123456789012345678901\n"]
    json_of = lambda name: lambda text: [] if json.loads(text.decode(errors="surrogateescape"))["source"] == name else ["the source has another name"]
    counted, ends = Counted(MIXED, {"width": 4}, 10_000_000), {"mixed.ispc": MIXED.replace("\n", "\r\n").encode()}
    shown = has_words(b"     1  " + lines[0] + b"\n", b"     2  \t" + lines[1] + b"\n")
    return [
        Run("profile of a hostile source, its lines", b"", ["profile", "hostile.ispc"], has_words(*lines[1:2], lines[3]), b"", data=data),
        Run("profile of a hostile source, annotated", b"", ["profile", "hostile.ispc", "--annotate"], shown, b"", data=data),
        Run("profile of lines that end by two characters", b"", ["profile", "mixed.ispc"], wanted_lines(counted, 20), b"", data=ends),
        Run("profile of lines that end by two characters, annotated", b"", ["profile", "mixed.ispc", "--annotate"], wanted_annotated(counted), b"", data=ends),
        Run("profile of a name with a quote", b"", ["profile", 'odd".ispc', "--json"], json_of('odd".ispc'), b"", data=data),
        Run("profile of a name with controls", b"", ["profile", "odd\x7f\x1b\\.ispc", "--json"], json_of("odd??\\.ispc"), b"", data={"odd\x7f\x1b\\.ispc": EMPTY.encode()}),
    ]


def coloured_runs():
    """Shares in the colours of how large they are; without the codes the text is that of `--color never`."""
    counted = Counted(MIXED, {"width": 8}, 10_000_000)
    forms = {(): wanted_lines(counted, 20), ("--by", "function"): wanted_functions(counted, 20), ("--by", "form"): wanted_forms(counted, 20), ("--annotate",): wanted_annotated(counted)}
    forms["--compare",] = wanted_comparison([Counted(MIXED, {"width": width}, 10_000_000) for width in WIDTHS])
    run = lambda words, form, wanted: Run(f"coloured profile {' '.join([*form, *words])}", b"", ["profile", "mixed.ispc", "--width", "8", *form, *words], wanted, b"", data=FILES)
    found = [run(["--color", "always"], form, coloured(wanted)) for form, wanted in forms.items()]
    found += [run(words, form, wanted) for words in (["--color", "never"], ["--color=auto"], []) for form, wanted in forms.items()]
    wrong = has_words(b"--color takes auto, always or never, and not blue")
    return [*found, Run("coloured profile of a wrong colour", b"", ["profile", "mixed.ispc", "--color", "blue"], b"", wrong, 2, FILES)]


def coloured(text):
    """A text with the codes of its shares: the column of a share begins behind the digits before it, and a bar has the colour of its share."""

    def painted(found):
        share = float(found[2])
        code = b"31" if share < 25 else b"33" if share < 75 else b"32"
        return b"\x1b[" + code + b"m" + found[0] + b"\x1b[0m"

    return re.sub(rb"( {0,3})(\d{1,3}\.\d)%(  [#.]{8}(?=[ >][ <>] {4}))?", painted, text)


def wrong_runs():
    several = [["--by", "line", "--annotate"], ["--json", "--compare"], ["--annotate", "--json"], ["--by", "function", "--json"], ["--compare", "--by", "line"]]
    one = b"only one of --by, --annotate, --json and --compare may be given"
    words = [["--by"], ["--from", "0"], ["--from", "10000001"], ["--most", "0"], ["--most", "10000001"], ["--most", "x"], ["--top", "0"], ["--top", "65537"], ["--top"], ["--to"], ["--nothing"]]
    words += [["--json", "--json"], ["--by", "line", "--by", "line"], ["--annotate=yes"], ["--width", "5"], ["second.ispc"], ["--watch", "x"], ["--commands", "a"]]
    found = [Run(f"wrong profile: {' '.join(it)}", b"", ["profile", "mixed.ispc", *it], b"", begins_with(b"error: "), 2, FILES) for it in words]
    found.append(Run("wrong profile: no source", b"", ["profile"], b"", begins_with(b"error: "), 2, FILES))
    found += [Run(f"wrong profile: {' '.join(it)}", b"", ["profile", "mixed.ispc", *it], b"", has_words(one), 2, FILES) for it in several]
    far = has_words(b"--from: the run ends before this step, or --steps is less")
    found += [Run(f"wrong profile: {' '.join(it)}", b"", ["profile", "mixed.ispc", *it], b"", far, 2, FILES) for it in (["--from", "9999"], ["--from", "10000000", "--compare"], ["--from", "10", "--steps", "8"])]
    by = has_words(b"--by takes line, function, form, access or parting, and not lanes")
    return [*found, Run("wrong profile: --by lanes", b"", ["profile", "mixed.ispc", "--by", "lanes"], b"", by, 2, FILES)]


def file_runs():
    over = has_words(b"the profile would be written over what it is made from: mixed.ispc")
    holds = has_words(b"only --force writes over a file that holds something: held.txt")
    run = lambda name, words, errors=b"", status=0: Run(f"profile {name}", b"", ["profile", "mixed.ispc", *words], b"", errors, status, FILES)
    missing = has_words(b"cannot read no.ispc: there is no such file")
    return [
        run("over its source", ["--to", "mixed.ispc"], over, 2),
        run("over its source by force", ["--to", "mixed.ispc", "--force"], over, 2),
        run("over its source by another path", ["--to", "./mixed.ispc", "--force"], has_words(b"what it is made from: ./mixed.ispc"), 2),
        run("over its input by another path", ["--to", "./held.txt", "--input", "held.txt", "--force"], has_words(b"what it is made from: ./held.txt"), 2),
        run("over its input", ["--to", "held.txt", "--input", "held.txt", "--force"], has_words(b"what it is made from: held.txt"), 2),
        run("over a file", ["--to", "held.txt"], holds, 2),
        run("over a file by force", ["--to", "held.txt", "--force"]),
        run("to a new file", ["--to", "new.txt", "--json"]),
        run("to a folder that is not there", ["--to", "no/new.txt"], begins_with(b"cannot write no/new.txt"), 2),
        Run("profile of no file", b"", ["profile", "no.ispc"], b"", missing, 2),
        Run("profile of a refused source", b"", ["profile", "go.ispc"], b"", begins_with(b"1:1: S"), 2, {"go.ispc": b"nothing\n"}),
        Run("help of profile", b"", ["help", "profile"], has_words(b"Usage: rinddecade profile [OPTIONS] <SOURCE>", *(f"--{it}".encode() for it in OPTIONS)), b""),
    ]


PAGE = "docs/PROFILE.md"
# The programs that the page makes of kernels.
REWRITTEN = {"refilled": "mandelbrot", "sha256_in_order": "sha256", "utf8_by_bytes": "utf8"}
OPTIONS = ("input", "entry", "width", "from", "most", "top", "by", "color", "annotate", "json", "compare", "to", "force")


def runs(root):
    own = runs_of("mixed", MIXED) + runs_of("empty", EMPTY) + runs_of("endless", ENDLESS, most=50)
    cut = [run for most in (1, 2, 7, 30) for run in runs_of("mixed", MIXED, most=most, widths=(8,))]
    late = [run for first in (2, 9, 23, 40, 61) for run in runs_of("mixed", MIXED, widths=(8,), first=first)] + runs_of("mixed", MIXED, most=12, first=30)
    late += runs_of("mixed", MIXED, ["--steps", "8"], most=5, widths=(8,), first=9)
    own += [run for name, source in partings.SOURCES.items() for run in runs_of(name, source)] + partings.known_runs()
    own += [run for most in (9, 14, 21, 33) for run in runs_of("deep_partings", partings.SOURCES["deep_partings"], most=most, widths=(8,))]
    own += known_runs() + called_runs() + random_runs() + runs_of("forms", FORMED) + runs_of("deep", DEEP) + coloured_runs()
    other = [*shown_runs(root), *result_runs(root), *hostile_runs()]
    return [*own, *cut, *late, *other, *example_runs(root), *kernel_runs(root), *wrong_runs(), *file_runs()]
