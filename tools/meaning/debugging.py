"""A debugger over a run: its commands, and the text of its answers."""

import re

from . import running
from .typed import Program
from .values import Fault, bits, is_signed

REFUSALS = {
    1: "BadCommand",
    2: "NoSuchName",
    3: "NoHistory",
    4: "Ended",
    6: "Outermost",
    7: "NoLine",
    8: "OutOfRange",
    9: "Constant",
    10: "NoSuchNumber",
    11: "TableFull",
}
LONGEST, MOST_STOPS, MOST = 256, 64, 10_000_000
SHORT = {"s": "step", "n": "next", "c": "continue", "rs": "reverse-step", "rn": "reverse-next", "rc": "reverse-continue", "p": "print", "b": "break"}
SHORT |= {"bt": "backtrace", "q": "quit"}
BACKWARD = ("reverse-step", "reverse-next", "reverse-continue", "reverse-finish")
COUNTED = ("step", "next", "reverse-step", "reverse-next")
MOVES = (*COUNTED, "continue", "finish", "reverse-continue", "reverse-finish")
NAME, NUMBER, VALUE = r"[A-Za-z_]\w*", r"\d+", r"-?(?:0x[0-9a-fA-F]+|\d+)|true|false"
TARGET = rf"{NAME}\s*(?:\[\s*{NUMBER}\s*\])?"
MOST_HISTORY = 65_536


class Refused(Exception):
    """A refused command."""

    def __init__(self, number):
        super().__init__(f"C{number} {REFUSALS[number]}")
        self.number = number


class Debugger:
    """A run of a source with options, and what the debugger has of it."""

    def __init__(self, source, width=4, history=64, steps=1_000_000, entry=None, rows=None):
        self.program, self.width, self.history, self.steps = Program(source), width, history, steps
        exported = [it for it in self.program.functions if it.is_exported and entry in (None, it.name)]
        self.state = running.begun(self.program, exported[0], width, rows or {})
        self.kept, self.stops, self.next_number = [], {}, 1

    # what is shown

    def depth(self):
        return max(1, len(self.state.frames))

    def spot(self):
        """The place, the lanes and the scope of now, if the program has not ended."""
        if not self.state.frames:
            return None
        frame = self.state.top
        if not frame.tasks:
            return frame.function.closing, frame.lanes, frame.function.closing_scope
        first = frame.tasks[0]
        return first.statement.place, first.lanes, first.statement.scope

    def text_of(self, place, frame, depth, lanes):
        shown = "".join("1" if k in lanes else "0" for k in range(self.width))
        return f"at {place[0]}:{place[1]} {frame.function.name} depth {depth} lanes {shown}"

    def place_text(self):
        spot = self.spot()
        return self.text_of(spot[0], self.state.top, len(self.state.frames), spot[1]) if spot else "ended"

    def variable(self, name):
        spot = self.spot()
        found = [it for it in (spot[2] if spot else []) if it.name == name] + [it for it in self.program.globals if it.name == name]
        if not found:
            raise Refused(2)
        return found[0]

    def target(self, text, whole_array):
        """The variable that a target names, and its index if it has one."""
        name, index = parts_of(text)
        return self.checked(self.variable(name), index, whole_array)

    def checked(self, variable, index, whole_array):
        if variable.is_array and index is None and not whole_array:
            raise Refused(2)
        if not variable.is_array and variable.rate == "uniform" and index is not None:
            raise Refused(2)
        if index is not None and index >= len(self.words(variable)):
            raise Refused(8)
        return variable, index

    def words(self, variable):
        if variable.is_array:
            array, first, length = self.state.view(variable)
            return self.state.memory[array][first : first + length]
        return self.state.words(variable)

    def shown(self, variable, index=None):
        words = self.words(variable) if index is None else [self.words(variable)[index]]
        name = variable.name if index is None else f"{variable.name}[{index}]"
        return " ".join([name, "=", *(("false", "true")[it] if variable.type == "bool" else str(it) for it in words)])

    # commands

    def answers(self, lines):
        """The answer to each line, up to `quit`."""
        found = []
        for line in lines:
            try:
                words = line.split()
                if len(line.encode()) > LONGEST:
                    raise Refused(1)
                if words and SHORT.get(words[0], words[0]) == "quit" and len(words) == 1:
                    return found
                found.append(self.answer(line.rstrip(" \t\r")) if words else [])
            except Refused as refused:
                found.append([str(refused)])
        return found

    def answer(self, line):
        for pattern, method in COMMANDS:
            found = re.fullmatch(pattern, re.sub(rf"^({'|'.join(SHORT)})(?=\s|$)", lambda it: SHORT[it[1]], line))
            if found:
                said = getattr(self, method)(*found.groups())
                return [said] if isinstance(said, str) else said
        raise Refused(1)

    def number(self, text, usual=None):
        if text is None:
            return usual
        if not 1 <= int(text) <= MOST:
            raise Refused(1)
        return int(text)

    def go(self, command):
        return self.move(command, None)

    def move(self, command, count):
        count, backward = self.number(count, 1), command in BACKWARD
        if backward and not any(kind == "step" for kind, _ in self.kept):
            raise Refused(3)
        if not backward and not self.state.frames:
            raise Refused(4)
        if command.endswith("finish") and len(self.state.frames) <= 1:
            raise Refused(6)
        start, moves = self.depth(), 0
        while True:
            before = self.state.memory
            if not backward:
                try:
                    self.forward()
                except Fault as fault:
                    return f"fault {fault.name} lane {fault.lane}: {self.place_text()}"
                moves += 1
            else:
                self.back()
            if command in ("step", "reverse-step") or command in ("next", "reverse-next") and self.depth() <= start:
                count, start = count - 1, self.depth()
            if count == 0 or command.endswith("finish") and self.depth() < start:
                return self.place_text()
            stop = self.stopped(before)
            if stop:
                return f"{stop}: {self.place_text()}"
            if not backward and not self.state.frames:
                return self.place_text()
            if backward and not any(kind == "step" for kind, _ in self.kept):
                return f"history end: {self.place_text()}"
            if not backward and moves == self.steps:
                return f"step limit: {self.place_text()}"

    def stopped(self, before):
        spot = self.spot()
        for number, (kind, what) in sorted(self.stops.items()):
            if kind == "breakpoint" and spot and spot[0][0] == what:
                return f"breakpoint {number}"
        for number, (kind, what) in sorted(self.stops.items()):
            if kind == "watch":
                old, new = (it[what[0]] if what[1] is None else it[what[0]][what[1]] for it in (before, self.state.memory))
                if old != new:
                    return f"watch {number}"
        return None

    def forward(self):
        after = running.step(self.state)
        self.keep("step", after)

    def keep(self, kind, after):
        self.kept = [*self.kept, (kind, self.state)][-self.history :]
        self.state = after

    def back(self):
        kind = "poke"
        while kind == "poke":
            kind, self.state = self.kept.pop()

    def limit(self, number):
        number = self.number(number)
        if number > MOST_HISTORY:
            raise Refused(8)
        self.history, self.kept = number, self.kept[-number:]
        return f"history {number}"

    def undo(self):
        if not self.kept:
            raise Refused(3)
        kind, self.state = self.kept.pop()
        return f"undone {kind}: {self.place_text()}"

    def show(self, target):
        return self.shown(*self.target(target, whole_array=True))

    def poke(self, target, value):
        value = value_of(value)
        variable, index = self.target(target, whole_array=False)
        after = self.state.copy()
        set_part(after, variable, index, value)
        self.keep("poke", after)
        name = variable.name if index is None else f"{variable.name}[{index}]"
        return f"{name} = " + self.shown(variable, index).split(" = ")[1]

    def add_break(self, line):
        line = self.number(line)
        found = [it for it in sorted(self.program.lines) if it >= line]
        if not found:
            raise Refused(7)
        return f"breakpoint {self.add(('breakpoint', found[0]))} at line {found[0]}"

    def add_watch(self, target):
        name, index = parts_of(target)
        variable = next((it for it in self.program.globals if it.name == name), None)
        if variable is None:
            raise Refused(2)
        self.checked(variable, index, whole_array=False)
        shown = name if index is None else f"{name}[{index}]"
        return f"watch {self.add(('watch', (variable, index, shown)))}: {shown}"

    def add(self, stop):
        if len(self.stops) == MOST_STOPS or self.next_number > MOST:
            raise Refused(11)
        self.stops[self.next_number] = stop
        self.next_number += 1
        return self.next_number - 1

    def delete(self, number):
        if number is None:
            self.stops = {}
            return "deleted all"
        if self.number(number) not in self.stops:
            raise Refused(10)
        del self.stops[int(number)]
        return f"deleted {int(number)}"

    def list_stops(self):
        lines = {"breakpoint": lambda what: f"breakpoint line {what}", "watch": lambda what: f"watch {what[2]}"}
        return [f"{number} {lines[kind](what)}" for number, (kind, what) in sorted(self.stops.items())] or "none"

    def list_locals(self):
        spot = self.spot()
        return [self.shown(it) for it in (spot[2] if spot else []) if not it.is_parameter] or "none"

    def frames(self):
        spot = self.spot()
        if not spot:
            return "ended"
        place, lanes, said = spot[0], spot[1], []
        for depth in range(len(self.state.frames), 0, -1):
            frame = self.state.frames[depth - 1]
            said.append(self.text_of(place, frame, depth, lanes))
            if frame.call:
                place, lanes = frame.call.place, frame.lanes
        return said


def set_part(state, variable, index, value):
    """Sets a variable of the file or of the top frame, or a part that it has, where it is no constant and its type has the value."""
    low, high = (0, 1) if variable.type == "bool" else ends(variable.type)
    if not low <= value <= high:
        raise Refused(8)
    if variable.is_constant:
        raise Refused(9)
    if variable.is_array:
        array, first, _ = state.view(variable)
        words = list(state.memory[array])
        words[first + index] = value
        state.memory[array] = words
    else:
        words = state.words(variable)
        state.set_words(variable, [value if index in (None, k) else it for k, it in enumerate(words)])


def parts_of(text):
    """The name of a target, and its index if it has one."""
    name, _, index = text.partition("[")
    index = int(index.strip(" \t\r]")) if index else None
    if index is not None and index > MOST:
        raise Refused(1)
    return name.strip(), index


def value_of(text):
    if text in ("true", "false"):
        return int(text == "true")
    value = int(text, 16 if "x" in text else 10)
    if abs(value) >= 2**64:
        raise Refused(1)
    return value


def ends(of_type):
    return (-(2 ** (bits(of_type) - 1)), 2 ** (bits(of_type) - 1) - 1) if is_signed(of_type) else (0, 2 ** bits(of_type) - 1)


COMMANDS = [
    (rf"({'|'.join(COUNTED)})(?:\s+({NUMBER}))?", "move"),
    (r"(continue|finish|reverse-continue|reverse-finish)", "go"),
    (r"undo", "undo"),
    (rf"print\s+({TARGET})", "show"),
    (rf"set\s+var\s+({TARGET})\s*=\s*({VALUE})", "poke"),
    (rf"break\s+({NUMBER})", "add_break"),
    (rf"watch\s+({TARGET})", "add_watch"),
    (rf"delete(?:\s+({NUMBER}))?", "delete"),
    (r"info\s+breakpoints", "list_stops"),
    (r"info\s+locals", "list_locals"),
    (r"backtrace", "frames"),
    (rf"set\s+record\s+full\s+insn-number-max\s+({NUMBER})", "limit"),
]
