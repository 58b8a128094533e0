"""Random programs in an editor: what the adapter tells is what tools/meaning/adapter.py makes of it, at 4, 8 and 16 lanes.

The programs are those of `random_prompts`, with variables of all nine types, arrays and a recursion. An editor moves on and back, with breakpoints and
data breakpoints that ask for conditions and counts, and looks at frames, of the gang or of lanes as threads, at scopes, at what opens, and at
expressions, also in hexadecimal digits; it sets values in each frame.

`python3 -m testing.adapter_meant [--seed N] [--many N] COMMAND..` (in tools/) draws more of them, or the one of a number.
"""

import functools
import pathlib
import random
import tempfile
import threading

from meaning.adapter import GONE, LINES, WAITS, Adapter, refusal_text
from meaning.debugging import Refused
from meaning.values import Fault

from . import seeded
from .adapter_members import Wrong, same
from .calls import side_by_side
from .random_prompts import STEPS, WIDTHS, Expressions, Source
from .tried import Result

NAME = "rinddecade, random editors"
SEED, MANY, ASKED, SECONDS = 95, 48, 60, 120
VALUES = ("7", "-3", "0", "1", "true", "false", "300", "0x1f")


class Told:
    """A random program, what an editor asks, and what it is to be told."""

    def __init__(self, number):
        self.chance = random.Random(f"{SEED} {number}")
        self.number, self.width = number, WIDTHS[number % len(WIDTHS)]
        self.source = "\n".join(Source(self.chance).lines) + "\n"
        self.meant = Adapter(self.source, "told.ispc", width=self.width, steps=STEPS)
        self.has_lanes = self.is_in(40)  # whether each lane is a thread
        self.asked = []
        for _ in range(ASKED):
            kinds = [self.move] * 6 + [self.scope] * 3 + [self.value] * 4 + [self.set_value] * 2
            self.chance.choice([*kinds, *[self.stops] * (1 if self.meant.stops else 3)])()

    def note(self, kind, wanted, *given):
        self.asked.append((kind, given, wanted))

    def depth(self):
        return self.chance.randrange(1, self.meant.depth() + 1)

    def is_in(self, percent):
        return self.chance.random() * 100 < percent

    # ---- what is asked

    def stops(self):
        """Breakpoints and data breakpoints, some of which ask for a condition or a count."""
        terms = lambda: (self.condition() if self.is_in(50) else None, self.chance.randrange(2, 4) if self.is_in(30) else 0)
        lines = [(self.line(), *terms()) for _ in range(self.chance.randrange(1, 5))]
        self.note("lines", self.meant.break_on(lines), lines)
        names = ("gu", "gt", "gv", "gw", "gx", "gb[2]", "gb[9]", "gv[1]", f"gw[{self.width - 1}]", "ga", "x1")
        targets = [(name, *terms()) for name in self.chance.sample(names, self.chance.randrange(0, 3))]
        self.note("targets", self.meant.watch_all(targets), targets)

    def line(self):
        """A line, mostly one to which the run comes."""
        states = [state for _, state in self.meant.kept if state.frames and state.top.tasks]
        if states and self.is_in(60):
            return self.chance.choice(states).top.tasks[0].statement.place[0]
        return self.chance.choice([*self.meant.program.lines, self.chance.randrange(1, self.source.count("\n") + 2)])

    def condition(self):
        """An expression of names of the file that no function has, which may fault."""
        names = ("gd1", "gd6", "gc4", "gu", "gv", "gt", "programIndex")
        one, other = self.chance.sample(names, 2)
        return self.chance.choice((f"{one} > {other}", f"{one} % 4 == {self.chance.randrange(4)}", one, f"{one} / {other} < 3", f"{one} - {other} == -1"))

    def move(self):
        meant, command = self.meant, self.chance.choice((*LINES, *GONE, *GONE, "stepIn", "stepIn", "stepIn", "next"))
        if not meant.state.frames and command in ("next", "stepIn", "stepOut", "continue"):
            command = "stepBack"  # A further step on would end the session.
        if command == "reverseContinue" and self.ends_at_a_stop():
            return
        try:
            reason, ids, text = meant.moved(command)
            wanted = reason, ids, text, list(meant.console), meant.thread_of(text) if self.has_lanes else 1
        except Refused as refused:
            wanted = refusal_text(refused)
        self.note("move", wanted, command)
        if self.is_in(60):
            self.stack()

    def ends_at_a_stop(self):
        """Whether the way back passes a stop where the history begins: how that is told is not asked here."""
        kept = next((state for kind, state in self.meant.kept if kind == "step"), None)
        lines = [what for kind, what in self.meant.stops.values() if kind == "breakpoint"]
        watches = any(kind == "watch" for kind, _ in self.meant.stops.values())
        return kept is not None and bool(kept.frames) and (watches or kept.top.tasks[0].statement.place[0] in lines)

    def stack(self):
        """The frames of a thread, mostly of a lane that waits; of a lane also what it is called, or of the gang."""
        waiting = [at for at, (_, name) in enumerate(self.meant.threads()) if self.has_lanes and name.endswith(WAITS)]
        lane = self.chance.choice(waiting) if waiting and self.is_in(70) else self.chance.randrange(self.width)
        self.note("stack", self.meant.lane_stack(lane) if self.has_lanes else self.meant.stack(), lane + 1)
        self.note("called", self.meant.threads() if self.has_lanes else [(1, "gang")])

    def scope(self):
        """A scope of a frame, and what one of its variables opens into."""
        depth, which, is_hexadecimal = self.depth(), self.chance.choice(self.meant.scopes()), self.is_in(25)
        self.note("scopes", self.meant.scopes(), depth)
        told = self.meant.scope(depth, which, is_hexadecimal)
        self.note("scope", told, depth, which, is_hexadecimal)
        names = [it[0] for it in told if it[-1]]
        if names:
            name = self.chance.choice(names)
            self.note("parts", self.meant.parts(depth, name, is_hexadecimal), depth, which, name, is_hexadecimal)

    def text(self, depth):
        """A name, a lane, an element or an expression."""
        it = self.meant.standing_at(depth)
        scope = it.scope if it else []
        names = [v.name for v in scope] * 3 + [v.name for v in self.meant.program.globals]
        name = self.chance.choice(names)
        parts = [v.name for v in (*scope, *self.meant.program.globals) if v.is_array or v.rate == "varying"]
        found = [name, name, f"{self.chance.choice(parts)}[{self.chance.randrange(self.width + 1)}]"]
        return self.chance.choice(found + [Expressions(self.chance, scope).one()] * 3 * bool(it))

    def value(self):
        """A text that is looked up in a frame, and what it opens into."""
        depth, context, is_hexadecimal = self.depth(), self.chance.choice(("watch", "hover")), self.is_in(25)
        text = self.text(depth)
        try:
            wanted = self.meant.looked_up(text, depth, context, is_hexadecimal)
            opened = self.opened(text, depth, is_hexadecimal) if wanted[1] else None
        except Refused as refused:
            wanted, opened = refusal_text(refused), None
        except Fault as fault:
            wanted, opened = f"{fault.name} in lane {fault.lane}: the expression has no value", None
        self.note("value", (wanted, opened), text, depth, context, is_hexadecimal)

    def opened(self, text, depth, is_hexadecimal):
        """What a text opens into: the lanes or elements of a variable, or those of an expression."""
        try:
            return self.meant.parts(depth, text, is_hexadecimal)
        except Refused:
            return self.meant.opened(text, depth, is_hexadecimal)

    def set_value(self):
        """A value that is set where a frame's variable is shown, or by a text in a frame."""
        depth, value, is_hexadecimal = self.depth(), self.chance.choice(VALUES), self.is_in(25)
        which = self.chance.choice(self.meant.scopes())
        told = self.meant.scope(depth, which)
        if not told:
            return
        name, _, _, _, _, has_parts = self.chance.choice(told)
        part = self.chance.choice(self.meant.parts(depth, name)) if has_parts and self.is_in(60) else None
        # A variable of the file is told as the top frame finds it, and set so.
        at = self.meant.depth() if which == "File" else depth
        target = part[-1] if part else name
        try:
            set_to = self.meant.set(at, target, value, is_hexadecimal)
            wanted = *set_to, None if part or not has_parts else self.meant.parts(at, name, is_hexadecimal)
        except Refused as refused:
            wanted = refusal_text(refused)
        self.note("set", wanted, at, which, name, part[0] if part else None, target, value, is_hexadecimal, self.is_in(40))

    # ---- a session

    def judged(self, client):
        """Asks all in a session with an adapter; the first answer that is another one is Wrong."""
        with tempfile.TemporaryDirectory(prefix="told-") as folder:
            path = pathlib.Path(folder).resolve() / "told.ispc"
            path.write_text(self.source)
            client.launch(path, width=self.width, steps=STEPS, history=65536, laneThreads=self.has_lanes)
            client.begin()
            for at, (kind, given, wanted) in enumerate(self.asked):
                try:
                    same(getattr(Client, kind)(client, *given), wanted)
                except Wrong as wrong:
                    raise Wrong(f"{at}, {kind} {given}: {wrong}") from None
            client.end()


class Client:
    """What is asked of an adapter, and what it tells, by a client of it."""

    def lines(client, asked):
        made = client.ask("setBreakpoints", source={"path": client.source}, breakpoints=[{"line": line, **terms(*more)} for line, *more in asked])
        return [(it["id"], it["line"]) if it["verified"] else None for it in made["breakpoints"]]

    def targets(client, asked):
        made = client.ask("setDataBreakpoints", breakpoints=[{"dataId": target, **terms(*more)} for target, *more in asked])
        return [it["id"] if it["verified"] else None for it in made["breakpoints"]]

    def move(client, command):
        said = client.answer(command, {"threadId": 1})
        while not client.events or client.events[-1][0] != "stopped":
            client.take_event(client.read_message())
        events, client.events = client.events, []
        lines = [body["output"] for name, body in events if name == "output"]
        stop = events[-1][1]
        if not said["success"]:
            same(stop["text"], said["message"])
            return said["message"]
        return stop["reason"], stop.get("hitBreakpointIds", []), stop["text"], lines, stop["threadId"]

    def called(client):
        return [(it["id"], it["name"]) for it in client.ask("threads")["threads"]]

    def stack(client, thread):
        told = client.ask("stackTrace", threadId=thread)
        same(told["totalFrames"], len(told["stackFrames"]))
        return [(it["id"], it["name"], it["line"], it["column"]) for it in told["stackFrames"]]

    def scopes(client, depth):
        return [it["name"] for it in client.ask("scopes", frameId=depth)["scopes"]]

    def scope(client, depth, which, is_hexadecimal):
        return [whole(it) for it in listed(client, reference(client, depth, which), is_hexadecimal)]

    def parts(client, depth, which, name, is_hexadecimal):
        return [part(it) for it in listed(client, child(client, depth, which, name), is_hexadecimal)]

    def value(client, text, depth, context, is_hexadecimal):
        said = client.answer("evaluate", {"expression": text, "frameId": depth, "context": context, **form(is_hexadecimal)})
        if not said["success"]:
            return said["message"], None
        opens = said["body"]["variablesReference"]
        parts = [part(it) for it in listed(client, opens, is_hexadecimal)] if opens else None
        return (said["body"]["result"], len(parts or [])), parts

    def set(client, depth, which, name, shown, target, value, is_hexadecimal, by_text):
        if by_text:
            said = client.answer("setExpression", {"expression": target, "frameId": depth, "value": value, **form(is_hexadecimal)})
        else:
            at = child(client, depth, which, name) if shown else reference(client, depth, which)
            said = client.answer("setVariable", {"variablesReference": at, "name": shown or name, "value": value, **form(is_hexadecimal)})
        if not said["success"]:
            return said["message"]
        opens = said["body"]["variablesReference"]
        lanes = [part(it) for it in listed(client, opens, is_hexadecimal)] if opens else None
        return said["body"]["value"], len(lanes or ()), lanes


# Spellings of a count.
COUNTS = (lambda count: f"{count}", lambda count: f">={count}", lambda count: f">{count - 1}", lambda count: f" >= {count} ", lambda count: f"> {count - 1}")


def terms(condition, count):
    spelled = COUNTS[(len(condition or "") + count) % len(COUNTS)]
    return ({"condition": condition} if condition else {}) | ({"hitCondition": spelled(count)} if count else {})


def form(is_hexadecimal):
    return {"format": {"hex": True}} if is_hexadecimal else {}


def reference(client, depth, which):
    scopes = client.ask("scopes", frameId=depth)["scopes"]
    return next(it["variablesReference"] for it in scopes if it["name"] == which)


def child(client, depth, which, name):
    return next(it["variablesReference"] for it in listed(client, reference(client, depth, which), False) if it["name"] == name)


def listed(client, at, is_hexadecimal):
    return client.ask("variables", variablesReference=at, **form(is_hexadecimal))["variables"]


def whole(it):
    """A variable as tools/meaning tells it."""
    same((it["evaluateName"], it["presentationHint"]["kind"]), (it["name"], "data"))
    return it["name"], it["value"], it["type"], it["presentationHint"]["attributes"], it.get("indexedVariables"), it["variablesReference"] > 0


def part(it):
    """A lane or an element; a lane of an expression has no name to look up, and is only read."""
    same((it["variablesReference"], WAITS in it["name"]), (0, WAITS in it["value"]))
    if "evaluateName" not in it:
        same(it["presentationHint"]["attributes"], ["readOnly"])
    return it["name"], it["value"], it["type"], it.get("evaluateName")


@functools.cache
def told(number):
    return Told(number)


def tried(number, command):
    """The result of the session of a number."""
    from .adapter_client import Client as Speaking

    asked, client = told(number), Speaking(command)
    late = threading.Timer(SECONDS, client.process.kill)
    late.start()
    try:
        asked.judged(client)
        return Result(f"adapter, random program {number}", True)
    except (Wrong, OSError, StopIteration, KeyError, ValueError) as wrong:
        return Result(f"adapter, random program {number}", False, [f"{type(wrong).__name__}: {wrong}"])
    finally:
        late.cancel()
        client.process.kill()
        client.process.wait()


def results(command, numbers=range(MANY)):
    """A result for each random program in a session with the adapter that a command starts."""
    return side_by_side(lambda number: tried(number, command), numbers)


if __name__ == "__main__":
    seeded.main(MANY, results)
