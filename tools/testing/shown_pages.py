"""Pages of runs in a browser: what is shown at moments all over a run is what tools/meaning works out; each key and click does what `?` says.

Nothing goes wrong and nothing is fetched; a move and a jump in a long run are quick.
"""

import json
import pathlib
import subprocess

from . import examples, meant, profiles, run_pages
from .tried import Result

MOMENTS = 40
MOST_MOVE, MOST_JUMP = 16, 50  # milliseconds

# A run of some hundred thousand steps, whose lanes go through the states of a small machine.
LONG = """uniform int seen[64];
int state = 0;
export void go() {
    for (uniform int at = 0; at < 12000; at++) {
        int c = (at * 7 + programIndex * 5) % 11;
        switch (state) {
            case 0:
                if (c > 4) state = 1;
                break;
            case 1:
                state = c % 3;
                break;
            default:
                state = 0;
        }
        seen[at % 64] = at;
    }
}
"""

# Foreach forms one in another, of full rounds and others, and calls in them.
ROUNDS = """uniform int a[23];
uniform int total = 0;
int twice(int x) {
    return x + x;
}
export void go() {
    for (uniform int k = 0; k < 2; k++) {
        foreach (i = 0 ... 10 + k) { // ; } not the end
            int t = twice(i);
            a[i] = t * (k + 1);
            foreach_active (l) {
                total += 1;
            }
        }
        foreach (i = 0 ... 3)
            if (i > 0) { a[i + 12] = i; } else a[i + 12] = -1;
    }
}
"""

SHOWN = """(async () => {
    if (location.hash !== "#%d") await new Promise(done => {
        addEventListener("hashchange", done, { once: true });
        location.hash = "#%d";
    });
    const rows = [...document.querySelectorAll("#values tr[data-name]")];
    return JSON.stringify([$("place").textContent, $("calls").textContent, $("step").value, rows.map(row =>
        [Number(row.dataset.depth), row.dataset.name, [...row.querySelectorAll("td[data-part]")].map(cell => cell.textContent)])]);
})()"""


def written(program, folder, name, source, words, data):
    """The page that the program writes of a source."""
    for file, text in ({f"{name}.ispc": source} | data).items():
        (folder / file).write_bytes(text)
    file = folder / f"{name}.html"
    subprocess.run([program, "page", f"{name}.ispc", *words, "--to", file], cwd=folder, check=True)
    return file


def spread(last):
    """Numbers of moments all over a run, its ends with them."""
    return sorted({round(at * (last - 1) / (MOMENTS - 1)) + 1 for at in range(MOMENTS)})


def merged(rows):
    """The values of each variable, also where several rows have them."""
    found = {}
    for depth, name, values in rows:
        found[(depth, name)] = found.get((depth, name), []) + values
    return found


def calls_text(calls):
    return " ".join(f"< {name} {line}" for line, _, name in reversed(calls))


def why_not_shown(browser, file, wanted, steps=None):
    """What a page shows at moments all over its run that is not as wanted; where it has but some moments, so many steps were done before each."""
    browser.open(file.as_uri())
    why = []
    for at_moment in spread(len(wanted)):
        number = steps[at_moment - 1] + 1 if steps else at_moment
        place, calls, variables, _ = wanted[at_moment - 1]
        shown = json.loads(browser.value(SHOWN % (number, number)))
        own = {(depth, name): values for depth, name, values in variables}
        for what, came, meant_value in [
            ("place", shown[0], place),
            ("calls", shown[1], calls_text(calls)),
            ("step", shown[2], str(number)),
            ("values", merged(shown[3]), own),
        ]:
            why += [] if came == meant_value else [f"step {number}, {what}: {came}, and {meant_value} is wanted"]
    return [line[:400] for line in why] + browser.faults()


# ---- keys and clicks

def at(browser):
    return browser.value("here.at")


def keys(browser, file, wanted):
    """What a key or a click does that it is not to do; `wanted` has the moments of a run of several calls."""
    browser.open(file.as_uri() + "#1")
    lines = [int(place.split(":")[0].split()[1]) if place != "ended" else 0 for place, *_ in wanted]
    depths = [int(place.split(" depth ")[1].split()[0]) if place != "ended" else 0 for place, *_ in wanted]
    last, why = len(wanted) - 1, []

    def goes(key, start, end, text=None, shift=False):
        browser.value(f"go({start})")
        browser.key(key, text, shift)
        why.extend([] if at(browser) == end else [f"{key} from {start} goes to {at(browser)}, and {end} is wanted"])

    def first(start, holds, step=1):
        found = range(start + step, last + 1 if step > 0 else -1, step)
        return next((it for it in found if holds(it)), start)

    middle = last // 2
    goes("ArrowRight", middle, middle + 1)
    goes("ArrowLeft", middle, middle - 1)
    goes("Home", middle, 0)
    goes("End", middle, last)
    goes("PageDown", 0, min(last, 100))
    goes("PageUp", last, max(0, last - 100))
    goes("ArrowDown", 0, first(0, lambda it: lines[it] == lines[0]))
    goes("ArrowDown", middle, first(middle, lambda it: lines[it] == lines[middle]) if lines[middle] in lines[middle + 1 :] else lines.index(lines[middle]))
    goes("ArrowUp", middle, first(middle, lambda it: lines[it] == lines[middle], -1))
    for start in (0, middle, depths.index(max(depths))):
        goes("n", start, first(start, lambda it: depths[it] <= depths[start]), "n")
        goes("p", start, first(start, lambda it: depths[it] <= depths[start], -1), "p")
        goes("o", start, first(start, lambda it: depths[it] < depths[start]), "o")
        goes("i", start, first(start, lambda it: depths[it] < depths[start], -1), "i")
    return why + marks(browser) + typed(browser) + texts(browser, lines) + clicks(browser, lines, wanted) + chosen(browser, lines, wanted) + played(browser) + browser.faults()


def marks(browser):
    """Bookmarks, and the address that keeps them."""
    for start in (3, 7):
        browser.value(f"go({start})")
        browser.key("m", "m")
    browser.value("go(5)")
    browser.key(".", ".")
    after = at(browser)
    browser.key(",", ",")
    before = at(browser)
    browser.value("new Promise(done => setTimeout(done, 400))")
    kept = browser.value("location.hash")
    wanted = (7, 3, "#4,marks=4,8")
    return [] if (after, before, kept) == wanted else [f"bookmarks: {(after, before, kept)}, and {wanted} is wanted"]


def typed(browser):
    """An address that is typed right after a move goes to its step, also where the page is late."""
    browser.value("go(5)")
    browser.value("(() => { const end = performance.now() + 250; while (performance.now() < end); location.hash = '#9'; })()")
    browser.value("new Promise(done => setTimeout(done, 400))")
    came = (at(browser), browser.value("location.hash"))
    return [] if came == (8, "#9") else [f"an address that is typed: {came}, and {(8, '#9')} is wanted"]


def texts(browser, lines):
    """The field of the step, the search, the heat, the zoom and the list of keys."""
    why = []
    browser.value("go(0)")
    browser.key("g", "g")
    for digit in "6":
        browser.key(digit, digit)
    browser.key("Enter")
    why += [] if at(browser) == 5 else [f"g 6 Enter goes to {at(browser)}"]
    browser.value("go(0)")
    browser.key("/", "/")
    for letter in "twice":
        browser.key(letter, letter)
    browser.key("Enter")
    found = browser.value("lines[moments[here.at][LINE] - 1]")
    why += [] if "twice" in found else [f"the search goes to {found}"]
    browser.key("Escape")
    browser.key("h", "h")
    why += [] if browser.value("$('source').classList.contains('heated')") else ["h shows no heat"]
    browser.key("+", "+")
    why += [] if browser.value("here.to - here.from < LAST") else ["+ does not zoom"]
    browser.key("0", "0")
    why += [] if browser.value("here.to - here.from") == len(lines) - 1 else ["0 does not show all"]
    browser.key("?", "?")
    why += [] if browser.value("$('keys').open") else ["? lists no keys"]
    browser.value("$('keys').close()")
    return why


def clicks(browser, lines, wanted):
    """A click on a line, on a value, and the keys for the changes of a value that is picked."""
    why = []
    line = lines[len(lines) // 2]
    browser.value("go(0)")
    x, y = browser.value(f"(() => {{ const it = rows[{line - 1}]; it.scrollIntoView(); const box = it.getBoundingClientRect(); return [box.x + 120, box.y + 8]; }})()")
    browser.click(x, y)
    why += [] if at(browser) == lines.index(line, 1) else [f"a click on line {line} goes to {at(browser)}"]
    name = next(it for depth, it, values in wanted[-1][2] if depth == 0 and len(values) == 1)
    values = [next(values for depth, it, values in moment[2] if depth == 0 and it == name) for moment in wanted]
    changed = [at for at in range(1, len(values)) if values[at] != values[at - 1]]
    browser.value("go(LAST)")
    browser.value(f"document.querySelector('tr[data-depth=\"0\"][data-name=\"{name}\"] td').click()")
    why += [] if at(browser) == changed[-1] - 1 else [f"a click on {name} goes to {at(browser)}, and {changed[-1] - 1} is wanted"]
    browser.key("]", "]")
    why += [] if at(browser) == changed[-1] else [f"] goes to {at(browser)}"]
    return why


def chosen(browser, lines, wanted):
    """The keys that choose a line or a value, ask it, and leave it; and the changes of a picked value, forward and back."""
    why, line = [], lines[len(lines) // 2]
    browser.value("go(0)")
    browser.key("l", "l")
    for _ in range(abs(line - lines[0])):
        browser.key("ArrowDown" if line > lines[0] else "ArrowUp")
    came = browser.value("document.activeElement.dataset.line")
    why += [] if came == str(line) else [f"l and arrows choose line {came}, and {line} is wanted"]
    browser.key("Enter")
    why += [] if at(browser) == lines.index(line, 1) else [f"Enter on line {line} goes to {at(browser)}"]
    browser.key("Enter", shift=True)
    came_to = lines.index(line, 1)
    before = next((it for it in range(came_to - 1, -1, -1) if lines[it] == line), came_to)
    why += [] if at(browser) == before else [f"Shift Enter on line {line} goes to {at(browser)}, and {before} is wanted"]
    browser.key("Escape")
    why += [] if browser.value("document.activeElement === document.body") else ["Escape does not leave a line"]
    browser.value("go(LAST)")
    browser.key("v", "v")
    for _ in wanted[-2][2]:
        depth, name, part = browser.value("[...['depth', 'name'].map(it => document.activeElement.parentElement.dataset[it]), document.activeElement.dataset.part]")
        if depth == "0":
            break
        browser.key("ArrowDown")
    values = [next((values for level, it, values in moment[2] if (str(level), it) == (depth, name)), None) for moment in wanted]
    changed = [it for it in range(1, len(values)) if values[it] != values[it - 1]]
    browser.key("Enter")
    why += [] if (part, at(browser)) == ("0", changed[-1] - 1) else [f"v Enter goes to {at(browser)} for part {part} of {name}, and {changed[-1] - 1} is wanted"]
    browser.key("ArrowDown")
    chosen_now = browser.value("document.activeElement.parentElement.dataset.name ?? ''")
    why += [] if chosen_now not in ("", name) and at(browser) == changed[-1] - 1 else [f"Down from {name} chooses {chosen_now!r} at {at(browser)}"]
    browser.key("Escape")
    browser.key("]", "]")
    browser.key("[", "[")
    wanted_before = changed[-2] if len(changed) > 1 else 0
    why += [] if at(browser) == wanted_before else [f"[ goes to {at(browser)}, and {wanted_before} is wanted"]
    return why


def played(browser):
    """The run is played, and stops; and a longer part of the time line is shown."""
    wait = "new Promise(done => setTimeout(done, 600))"
    browser.value("go(0)")
    browser.key(" ", " ")
    browser.value(wait)
    browser.key(" ", " ")
    stopped = at(browser)
    browser.value(wait)
    why = [] if stopped > 0 and at(browser) == stopped else [f"played, it comes to {stopped}, and stopped to {at(browser)}"]
    browser.key("+", "+")
    shorter = browser.value("here.to - here.from")
    browser.key("-", "-")
    why += [] if browser.value("here.to - here.from") > shorter else ["- shows no longer part"]
    browser.key("0", "0")
    browser.key("?", "?")
    missing = browser.value("KEYS.filter(it => !$('keys').textContent.includes(it[2])).length")
    browser.value("$('keys').close()")
    return why + ([] if missing == 0 else [f"? does not list {missing} keys"])


# ---- some of the moments

def left_out(browser, file, steps):
    """What a page with some of the moments does, each with so many steps before it, that it is not to do: the first ones are far apart."""
    browser.open(file.as_uri())
    why = []
    apart = steps[1]
    text = f"the next moment is {apart} steps on; {apart - 1} between are left out, and what they change is told as one"
    came = browser.value("[$('gap').textContent, $('said').textContent.endsWith(gap_text(0))]")
    why += [] if came == [text, True] else [f"the first moment tells {came}"]
    browser.key("ArrowRight")
    came = browser.value("[$('step').value, $('of').textContent, rounds.length]")
    wanted = [str(apart + 1), f"of {steps[-1] + 1}", 0]
    why += [] if came == wanted else [f"Right goes to {came}, and {wanted} is wanted"]
    whole = next(at for at, step in enumerate(steps) if at and step == steps[at - 1] + 1)
    came = browser.value(f"(go({whole - 1}), $('gap').textContent)")
    why += [] if came == "" else [f"where no step is left out the page tells {came}"]
    browser.value("go(0)")
    browser.key("g", "g")
    for digit in str(apart):
        browser.key(digit, digit)
    browser.key("Enter")
    came = browser.value("[$('step').value, $('told').textContent]")
    why += [] if came == ["1", f"Step {apart} is left out; this is the moment before it."] else [f"g {apart} Enter: {came}"]
    browser.value("(go(2), who(moments[2][CHANGES][0][0], moments[2][CHANGES][0][1]))")
    came = browser.value("[here.at, $('told').textContent]")
    ends = f"got its value in the {steps[2] - steps[1]} steps from here to the next moment. ] goes to after it."
    why += [] if came[0] == 1 and came[1].endswith(ends) else [f"who wrote it: {came}"]
    browser.value("go(2)")
    browser.key("m", "m")
    browser.value("new Promise(done => setTimeout(done, 400))")
    came, wanted = browser.value("location.hash"), f"#{steps[2] + 1},marks={steps[2] + 1}"
    why += [] if came == wanted else [f"the address is {came}, and {wanted} is wanted"]
    return why + browser.faults()


# ---- how a page looks

def looks(browser, file):
    """What is not so of a page of a run that ends with a fault: the fault is big, a narrow window stacks, paper has all of it, and nothing else may run."""
    browser.open(file.as_uri())
    big = browser.value("(go(LAST), [$('fault').hidden, getComputedStyle($('fault').firstChild).fontSize, $('fault').textContent])")
    wanted = [False, "19px", "F1 DivideByZero in lane 2The right side of / or % is 0 in this lane. Nothing of this step was done."]
    why = [] if big == wanted else [f"the fault is told as {big}"]
    why += [] if browser.value("(go(0), $('fault').hidden)") else ["the fault is told at the first moment"]
    live = browser.value("[$('said').getAttribute('aria-live'), (go(3), $('said').textContent.startsWith('step 4, at '))]")
    why += [] if live == ["polite", True] else [f"a screen reader is told {live}"]
    beside = "$('source').getBoundingClientRect().right <= $('values').getBoundingClientRect().left + 1"
    why += [] if browser.value(beside) else ["in a wide window the values are not beside the source"]
    browser.call("Emulation.setDeviceMetricsOverride", width=420, height=800, deviceScaleFactor=1, mobile=False)
    why += [] if browser.value("$('source').getBoundingClientRect().bottom <= $('values').getBoundingClientRect().top + 1") else ["a narrow window does not stack"]
    browser.call("Emulation.clearDeviceMetricsOverride")
    browser.call("Emulation.setEmulatedMedia", media="print")
    printed = browser.value("[getComputedStyle($('source')).overflowY, getComputedStyle($('values')).overflowY, getComputedStyle($('play')).display]")
    why += [] if printed == ["visible", "visible", "none"] else [f"on paper: {printed}"]
    browser.call("Emulation.setEmulatedMedia", media="")
    why += browser.faults()
    policy = browser.value("document.querySelector('meta[http-equiv]').content")
    why += [] if policy.startswith("default-src 'none'; script-src 'sha256-") and "unsafe" not in policy else [f"the policy is {policy}"]
    ran = browser.value("(() => { const it = document.createElement('script'); it.textContent = 'window.ran = 1'; document.body.append(it); return window.ran === undefined; })()")
    return why + ([] if ran else ["another script runs"])


# ---- bands

def lanes_of_rounds(count, width=4):
    """The lanes of each round over so many indices, as numbers."""
    return [(1 << min(width, count - first)) - 1 for first in range(0, count, width)]


def wanted_rounds():
    """The rounds of ROUNDS: line, number, how many there are, and lanes."""
    found = []
    for k in range(2):
        outer = lanes_of_rounds(10 + k)
        for number, lanes in enumerate(outer, 1):
            found.append([8, number, len(outer), lanes])
            own = [1 << lane for lane in range(4) if lanes >> lane & 1]
            found += [[11, at, len(own), lane] for at, lane in enumerate(own, 1)]
        found.append([15, 1, 1, 7])
    return found


def bands(browser, file):
    """What the bands of rounds and calls, the heat and the strip of an array have that they are not to have."""
    browser.open(file.as_uri())
    rounds = json.loads(browser.value("JSON.stringify(rounds.map(it => [it.line, it.number, it.of.all, it.lanes]))"))
    why = [] if rounds == wanted_rounds() else [f"rounds: {rounds}, and {wanted_rounds()} is wanted"]
    calls = json.loads(browser.value("JSON.stringify(spans.map(it => [it.name, it.depth]))"))
    wanted = [["twice", 2]] * len([it for it in wanted_rounds() if it[0] == 8])
    why += [] if calls == wanted else [f"calls: {calls}, and {wanted} is wanted"]
    inside = json.loads(browser.value("JSON.stringify(moments.flatMap((moment, at) => moment[LINE] === 12 ? [rounds_in[at]?.line] : []))"))
    why += [] if inside and set(inside) == {11} else [f"the steps on line 12 are in rounds of the lines {inside}"]
    text = browser.value("(go(rounds.find(it => it.line === 8 && it.number === 3).from), $('round').textContent)")
    why += [] if text == "round 3 of 3 of line 8, 2 of 4 lanes" else [f"the round is told as {text}"]
    share = browser.value("rows[11].querySelector('.share').textContent")
    why += [] if share == "25%" else [f"line 12 is done by {share} of the lanes, and 25% is wanted"]
    heat = json.loads(browser.value("JSON.stringify(times_of.map((times, at) => [at + 1, times.length, lane_steps_of[at]]).filter(it => it[1]))"))
    wanted = [[line, row["steps"], row["lane_steps"]] for line, row in profiles.Counted(ROUNDS, {"width": 4}, 100_000).lines().items()]
    why += [] if heat == wanted else [f"the heat has {heat}, and the profile {wanted}"]
    browser.value("go(LAST)")
    browser.value("who(variables.findIndex(it => it[NAME] === 'a'), 9)")
    last = json.loads(browser.value("JSON.stringify(here.pick.strip.filter(it => it[2] > LAST).map(it => it[3]))"))
    wanted = [2 * 2 * i for i in range(11)] + [0, -1, 1, 2] + [0] * 8
    why += [] if sorted(last) == sorted(wanted) else [f"the strip ends with {last}, and {wanted} is wanted"]
    return why + browser.faults()


# ---- time

def slow(browser, file):
    """What takes too long in a page of a long run, as the least of nine tries."""
    browser.open(file.as_uri())
    browser.value("pick(0, 0)")
    why = [] if browser.value("LAST") >= 50_000 else ["the run is too short"]
    for name, text, most in [("a move", "go(here.at + 1)", MOST_MOVE), ("a move back", "go(here.at - 1)", MOST_MOVE), ("a jump", "go(LAST * .7 - here.at / 2)", MOST_JUMP)]:
        browser.value("go(LAST / 2)")
        took = browser.value(f"Math.min(...Array.from({{ length: 9 }}, () => {{ const start = performance.now(); {text}; document.body.offsetHeight; return performance.now() - start; }}))")
        print(f"    {name} in {browser.value('LAST')} steps: {took:.1f} ms", flush=True)
        why += [] if took < most else [f"{name} takes {took} ms, and {most} is the most"]
    return why + browser.faults()


def results(root, program, browser, folder):
    """A result for each example and kernel, for the keys, for the bands, for a hostile source, and for a long run."""
    for run in run_pages.example_runs(root) + run_pages.kernel_runs(root):
        name = run.arguments[1].removesuffix(".ispc")
        data = {it: (text.read_bytes() if isinstance(text, pathlib.Path) else text) for it, text in run.data.items()}
        if "--from" in run.arguments:
            continue
        file = written(program, folder, name, data[f"{name}.ispc"], run.arguments[2:], data)
        wanted = run_pages.wanted_of(data[f"{name}.ispc"].decode(errors="replace"), *run.wanted)[0]
        why = why_not_shown(browser, file, wanted)
        yield Result(f"{run.name}, in a browser", not why, why)
    file = written(program, folder, "hostile", run_pages.HOSTILE, [], {})
    wanted = run_pages.wanted_of(run_pages.HOSTILE.decode(errors="replace"), {"width": 4}, 1, 100_000)[0]
    why = why_not_shown(browser, file, wanted)
    yield Result("page of a hostile source, in a browser", not why, why)
    file = written(program, folder, "calls", run_pages.CALLS.encode(), [], {})
    why = keys(browser, file, run_pages.wanted_of(run_pages.CALLS, {"width": 4}, 1, 100_000)[0])
    yield Result("keys and clicks", not why, why)
    why = looks(browser, file)
    yield Result("the fault, narrow windows, paper and the policy", not why, why)
    file = written(program, folder, "loop", run_pages.LOOP.encode(), ["--each", "100", "--around", "1500"], {})
    wanted, _, steps = run_pages.wanted_steps(run_pages.LOOP, {"width": 4}, 1, 100_000, run_pages.MOST_ELEMENTS, 100, (1500,))
    why = why_not_shown(browser, file, wanted, steps) + left_out(browser, file, steps)
    yield Result("one step of a hundred", not why, why)
    file = written(program, folder, "rounds", ROUNDS.encode(), [], {})
    why = bands(browser, file)
    yield Result("rounds, calls and strips", not why, why)
    file = written(program, folder, "long", LONG.encode(), ["--width", "16"], {})
    why = slow(browser, file)
    yield Result("a long run", not why, why)
