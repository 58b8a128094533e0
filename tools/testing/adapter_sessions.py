"""Sessions with the debug adapter that are drawn by chance, each message of which is judged by the Debug Adapter Protocol (`protocol`).

`python3 -m testing.adapter_sessions [--seed N] [--many N] COMMAND..` (in tools/) draws more of them, or the one of a number.
"""

import json
import pathlib
import random
import subprocess
import tempfile
import threading

from .adapter_frames import RECURSION
from .adapter_values import ARRAYS, EVEN, GIVEN, TABLE, row
from .calls import side_by_side
from . import seeded, turned_messages
from .protocol import judged
from .protocol_types import RESPONSES
from .tried import Result

MANY, BURSTS, SECONDS = 60, 40, 120
WIDTHS = (4, 8, 16)
FAULT = "export void go() {\n    int x = 6 / (2 - programIndex);\n    assert(x > 7);\n}\n"
ARRAYS_INPUT = f"table = {row(TABLE)}\neven = {row(EVEN)}\na = {row(GIVEN)}\ncount = 1001\n"
# The events that the adapter has, and requests that it refuses where an argument is wrong.
ADAPTER_EVENTS = ("initialized", "stopped", "terminated", "invalidated", "output")
REFUSABLE = (
    "launch", "breakpointLocations", "gotoTargets", "goto", "exceptionInfo", "dataBreakpointInfo", "stackTrace", "scopes", "variables", "setVariable",
    "setExpression", "completions", "evaluate", "stepBack", "reverseContinue", "pause",
)
# Arguments that no request takes.
WRONG = (None, True, -1, 1.5, 2**31, 2**64, "", "x", "é🙂 x", [], {}, [None], {"line": 1})
NAMES = ("x", "i", "k", "r", "total", "table", "even", "a", "count", "most", "best", "wide", "programIndex", "no_such")
EXPRESSIONS = ("{0}", "{0} + 1", "{0}[1]", "{0}[-1]", "reduce_add({0})", "{0} > 0 ? {0} : 2", "1 / {0}", "{0} +", "f({0})", "@", "", "é🙂", "{{{0}}}")
LINES = (
    "print {0}", "info locals", "info breakpoints", "backtrace", "step", "next", "finish", "continue", "reverse-step", "reverse-next",
    "reverse-continue", "reverse-finish", "undo", "set var {0} = 3", "watch {0}", "break 3", "delete 1", "quit", "help", "step 3",
)
RAW = (b"Content-Length: 3\r\n\r\n\xff{]", b"Content-Length: 2\r\n\r\n{}", b"Content-Length: x\r\n\r\n", b"Content-Type: json\r\n\r\n", b"Length\r\n\r\n")
NO_REQUESTS = (
    *({"type": "request", **it} for it in ({"seq": 1}, {"command": "next"}, {"seq": "1", "command": "next"}, {"seq": -1, "command": "next"}, {"seq": 1.5, "command": "next"})),
    *({"seq": 1, "command": "next", **it} for it in ({}, {"type": "response"}, {"type": "Request"}, {"type": 7})), [], 7,
)


class Session:
    """A conversation with an adapter: what has been told makes what is asked next."""

    def __init__(self, command, source, given, draw):
        self.source, self.given, self.draw = str(source), given, draw
        self.process = subprocess.Popen(command, stdin=subprocess.PIPE, stdout=subprocess.PIPE, stderr=subprocess.PIPE)
        self.log, self.number = [], 0  # what was sent and told, in this order, each with True where it was told
        self.waiting = set()  # the numbers of the requests that are not answered yet
        self.frames, self.references, self.names, self.targets, self.data = [1], [0], list(NAMES), [4, 5], ["total"]

    # ---- messages

    def write(self, raw):
        self.process.stdin.write(raw)
        self.process.stdin.flush()

    def send(self, command, arguments=None):
        """Sends a request, and gives its number. Numbers grow, and some are left out."""
        self.number += self.draw.choice((1, 1, 1, 2, 1000))
        message = {"seq": self.number, "type": "request", "command": command}
        if arguments is not None:
            message["arguments"] = arguments
        self.log.append((False, message))
        self.waiting.add(self.number)
        self.write(framed(message))
        return self.number

    def read(self):
        """The next message, or None at the end."""
        head = b""
        while not head.endswith(b"\r\n\r\n"):
            byte = self.process.stdout.read(1)
            if not byte:
                return None
            head += byte
        if not head.startswith(b"Content-Length: ") or not head[16:-4].isdigit():
            raise ValueError(f"the head is {head!r}")
        message = json.loads(self.process.stdout.read(int(head[16:-4])).decode(), object_pairs_hook=once)
        self.log.append((True, message))
        self.learn(message)
        return message

    def answered(self, number):
        """Reads up to the response of a request."""
        while number in self.waiting:
            if self.read() is None:
                return False
        return True

    def refused(self, raw):
        """Sends what is no request, and reads up to the console's text of it: with a head that is refused all goes that has come until then."""
        self.write(raw)
        while (message := self.read()) is not None and not message.get("body", {}).get("output", "").startswith("a message is refused: "):
            pass

    def learn(self, message):
        """Keeps what a message tells, for later requests."""
        self.waiting.discard(message.get("request_seq"))
        body = message.get("body", {})
        self.frames = [it["id"] for it in body.get("stackFrames", [])] or self.frames
        self.references += [it["variablesReference"] for it in body.get("scopes", []) + body.get("variables", [])]
        self.references += [body["variablesReference"]] if body.get("variablesReference") else []
        self.names += [it["name"] for it in body.get("variables", [])]
        self.targets += [it["id"] for it in body.get("targets", []) if "id" in it]
        self.data += [body["dataId"]] if body.get("dataId") else []
        for list_ in (self.references, self.names, self.targets, self.data):
            del list_[:-40]

    # ---- what is asked

    def expression(self):
        return self.draw.choice(EXPRESSIONS).format(self.draw.choice(self.names))

    def frame(self):
        return self.draw.choice([{}, {"frameId": self.draw.choice(self.frames)}, {"frameId": self.draw.randrange(6)}])

    def reference(self):
        return self.draw.choice([*self.references, self.draw.randrange(20)])

    def line(self):
        return self.draw.randrange(self.given["lines"] + 3)

    def breakpoint(self):
        more = self.draw.choice([{}, {}, {}, {"condition": self.expression()}, {"hitCondition": self.draw.choice(("2", ">= 2", ">1", "== 2"))}, {"logMessage": "at {x}"}, {"column": 1}])
        return {"line": self.line(), **more}

    def terms(self):
        """A condition or a count, or a message, which only a breakpoint of a line has."""
        return self.draw.choice([{}, {}, {}, {"condition": self.expression()}, {"hitCondition": "3"}, {"logMessage": "at {x}"}])

    def function(self):
        return {"name": self.draw.choice(("go", "f", "g", "scale", "x", "")), **self.terms()}

    def several(self, call):
        return [call() for _ in range(self.draw.randrange(4))]

    def frames_asked(self):
        return self.draw.choice([{}, {"startFrame": 0, "levels": 20}, {"startFrame": self.draw.randrange(4), "levels": self.draw.randrange(4)}])

    def place(self):
        return {"path": self.draw.choice([self.source, self.source, self.source, "/another.ispc"])}

    def page(self):
        start, count = self.draw.choice((0, 1, 3, 999, 2499)), self.draw.choice((0, 1, 2, 5, 1001))
        kind = self.draw.choice(("named", "indexed"))
        return self.draw.choice([{}, {}, {"start": start, "count": count}, {"count": count}, {"start": start}, {"filter": kind}])

    def request(self):
        """A request and its arguments."""
        draw = self.draw
        thread = {"threadId": draw.choice((1, 1, 1, 2, 4, 17))}
        makes = {
            "next": lambda: thread, "stepIn": lambda: {**thread, "granularity": "statement"}, "stepOut": lambda: thread, "stepBack": lambda: thread,
            "continue": lambda: thread, "reverseContinue": lambda: thread, "goto": lambda: {**thread, "targetId": draw.choice(self.targets)},
            "threads": lambda: None, "stackTrace": lambda: {**thread, **self.frames_asked()},
            "scopes": lambda: {"frameId": draw.choice(self.frames)},
            "variables": lambda: {"variablesReference": self.reference(), **self.page()},
            "setVariable": lambda: {"variablesReference": self.reference(), "name": draw.choice(self.names), "value": draw.choice(("7", "-3", "true", "x"))},
            "setExpression": lambda: {"expression": draw.choice((self.expression(), draw.choice(self.names))), "value": "1", **self.frame()},
            "evaluate": lambda: {"expression": self.expression(), **self.frame(), "context": draw.choice(("watch", "hover", "variables", "clipboard"))},
            "completions": lambda: self.completed(),
            "exceptionInfo": lambda: thread,
            "dataBreakpointInfo": lambda: {"name": draw.choice(self.names), "variablesReference": self.reference()},
            "setFunctionBreakpoints": lambda: {"breakpoints": self.several(self.function)},
            "setDataBreakpoints": lambda: {"breakpoints": self.several(lambda: {"dataId": draw.choice(self.data), "accessType": "write", **self.terms()})},
            "setBreakpoints": lambda: {"source": self.place(), "breakpoints": self.several(self.breakpoint)},
            "setExceptionBreakpoints": lambda: {"filters": ["faults"]},
            "breakpointLocations": lambda: {"source": self.place(), "line": self.line(), "endLine": self.line()},
            "gotoTargets": lambda: {"source": self.place(), "line": self.line()},
        }
        command = draw.choice([*makes, *("scopes", "variables", "evaluate") * 2, "stackTrace", "console"])
        if command == "console":
            return "evaluate", {"expression": draw.choice(LINES).format(draw.choice(self.names)), "context": "repl", **self.frame()}
        return command, makes[command]()

    def completed(self):
        text = self.draw.choice(("", "x", "pr", "info l", "print ta", "2 * ", "é + to", "\U0001d11e to", "reverse-s", self.draw.choice(self.names)))
        return {"text": text, "column": self.draw.randrange(1, len(text) + 2), **self.frame()}

    def rare(self):
        """A request that a session seldom has, or that is not known."""
        launch = self.launch()
        return self.draw.choice([
            ("restart", None), ("terminate", None), ("launch", launch), ("initialize", {"adapterID": "rinddecade"}), ("configurationDone", None),
            ("stepInTargets", {"frameId": 1}), ("pause", {"threadId": 1}), ("no such", None), ("é", {}), ("", {}), ("source", {"sourceReference": 0}),
        ])

    def launch(self):
        """A launch, which may lack what can be left out."""
        width, steps = self.draw.choice(WIDTHS), self.draw.choice((5, 300, 2000))
        given = {"width": width, "steps": steps, "history": self.draw.choice((1, 10, 65536)), "stopOnEntry": self.draw.random() < 0.7, "laneThreads": self.draw.random() < 0.5}
        given = {name: value for name, value in given.items() if name == "steps" or self.draw.random() < 0.8}
        return {"program": self.source, **given, **({"input": self.given["input"]} if self.given["input"] else {})}

    def spoiled(self, arguments):
        """Arguments of which one is wrong, or is not there."""
        if not arguments:
            return self.draw.choice((None, [], "x", {"x": 1}))
        name, value = self.draw.choice(list(arguments)), self.draw.choice([*WRONG, ...])
        return {it: arguments[it] for it in arguments if it != name} if value is ... else {**arguments, name: value}

    # ---- the whole

    def burst(self):
        """Some requests that are sent before the first of them is answered."""
        number = 0
        for _ in range(self.draw.choice((1, 1, 1, 2, 4))):
            chance = self.draw.random()
            if chance < 0.05:
                self.refused(self.draw.choice((*RAW, *map(framed, NO_REQUESTS))))
            else:
                command, arguments = self.rare() if chance < 0.1 else self.request()
                number = self.send(command, self.spoiled(arguments) if self.draw.random() < 0.12 else arguments)
        return self.answered(number)

    def run(self):
        hears = self.draw.choice([{}, {"supportsInvalidatedEvent": self.draw.choice((True, True, False))}])
        self.send("initialize", {"adapterID": "rinddecade", "linesStartAt1": True, "columnsStartAt1": True, **hears})
        for _ in range(self.draw.choice((0, 0, 1))):
            self.send(*self.request())
        for arguments in ([self.spoiled(self.launch())] if self.draw.random() < 0.2 else []) + [self.launch()]:
            self.answered(self.send("launch", arguments))
        self.send("setBreakpoints", {"source": {"path": self.source}, "breakpoints": self.several(self.breakpoint)})
        self.answered(self.send("configurationDone"))
        for _ in range(BURSTS):
            if not self.burst():
                break
        self.send("disconnect", {"restart": False})
        while self.read() is not None:
            pass
        self.process.stdin.close()
        if status := self.process.wait():
            raise ValueError(f"status {status}: {self.process.stderr.read().decode(errors='replace')}")


def framed(message):
    text = json.dumps(message).encode()
    return b"Content-Length: %d\r\n\r\n%s" % (len(text), text)


def once(pairs):
    """An object, none of whose members stands there twice."""
    if len({name for name, _ in pairs}) < len(pairs):
        raise ValueError(f"a member twice: {pairs}")
    return dict(pairs)


# ---- what is tried


def sources(root, folder):
    """What is run, each with its source, its input if it has one, and how many lines it has: the examples, the kernels and texts of the tests."""
    texts = {"recursion": (RECURSION, None), "arrays": (ARRAYS, ARRAYS_INPUT), "fault": (FAULT, None)}
    found = []
    for name, (text, given) in texts.items():
        file = pathlib.Path(folder, f"{name}.ispc")
        file.write_text(text)
        if given:
            file.with_suffix(".input").write_text(given)
        found.append(file)
    found += sorted((root / "examples").glob("*.ispc")) + sorted((root / "examples/kernels").glob("*.ispc"))
    return [(it, {"input": str(given) if (given := it.with_suffix(".input")).is_file() else None, "lines": len(it.read_text().splitlines())}) for it in found]


def tried(command, listed, seed):
    """A session that is drawn: its result, and what was sent and told."""
    source, given = listed[seed % len(listed)]
    session = Session(command, source, given, random.Random(seed))
    late = threading.Timer(SECONDS, session.process.kill)
    late.start()
    try:
        session.run()
        why = judged(session.log)
    except (OSError, ValueError) as fault:
        why = judged(session.log) + [str(fault)]
    finally:
        late.cancel()
        session.process.kill()
        session.process.wait()
    return Result(f"adapter session {seed}, of {source.name}", not why, why), session.log


def results(root, command, seeds=range(MANY)):
    """A result for each session, and for what they have together."""
    with tempfile.TemporaryDirectory(prefix="sessions-") as folder:
        listed = sources(root.resolve(), pathlib.Path(folder).resolve())
        tries = side_by_side(lambda seed: tried(command, listed, seed), seeds)
    found, logs = [it for it, _ in tries], [log for it, log in tries if it.passed]
    if len(logs) < len(found):
        return found
    return [*found, every_message(logs), turned_messages.of_members(logs), turned_messages.of_order(min(logs, key=len))]


def every_message(logs):
    """Each command was answered and each event came that the adapter has; and of the requests that need arguments each was refused."""
    told = [message for log in logs for is_told, message in log if is_told]
    done = {it["command"] for it in told if it.get("success")}
    refused = {it["command"] for it in told if it.get("success") is False}
    events = {it["event"] for it in told if it["type"] == "event"}
    pairs = ((RESPONSES, done, "is never done"), (REFUSABLE, refused, "is never refused"), (ADAPTER_EVENTS, events, "never comes"))
    why = [f"{it} {what}" for wanted, came, what in pairs for it in wanted if it not in came]
    return Result("adapter sessions: every message", not why, why)


if __name__ == "__main__":
    seeded.main(MANY, lambda command, seeds: results(pathlib.Path(__file__).resolve().parents[2], command, seeds))
