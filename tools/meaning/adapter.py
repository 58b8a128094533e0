"""What an editor is told of a run, by docs/EDITORS.md: frames, variables and what they open into, values that are looked up or set, and stops."""

import re

from .debugging import Refused, parts_of, set_part, value_of
from .looks import Looks
from .printed import text_of
from .running import State, opened
from .values import Fault

LINES = {"next": "next", "stepIn": "step", "stepOut": "finish", "continue": "continue", "stepBack": "reverse-step", "reverseContinue": "reverse-continue"}
GONE = ("continue", "reverseContinue")
HOVERED, WAITS = 200, " (waits)"
TARGET = re.compile(r"([A-Za-z_]\w*)(?:\[(\d+)\])?")
STOPS = (("breakpoint", "breakpoint "), ("data breakpoint", "watch "), ("exception", "fault "), ("pause", "step limit: "))
MEANINGS = {
    1: "a variable, a lane or an element is set to a number, true or false",
    2: "there is no such variable, lane or element here, or it cannot be set or watched",
    3: "nothing is kept that could be taken back",
    4: "the program has ended; a step back goes back into it, and a restart begins it anew",
    6: "this is the outermost frame, which no other called",
    7: "no line from there on has a step",
    8: "an index is past the end, or a value outside its range",
    9: "constants and the indices of foreach are not set",
    10: "no breakpoint or watch has this number",
    11: "64 breakpoints and watches are there; one that is removed makes room",
}


def refusal_text(refused):
    """What an editor is told of a refusal: its number, its name and what it means."""
    return f"{refused}: {MEANINGS[refused.number]}"


def lane_place(lane, frame, called):
    """Where a lane waits in a frame: at the call of the frame that was called there, if it made that, else at the first step that is ahead of it."""
    if called and lane in called.lanes:
        return called.call.place
    return next((it for it in map(first_place, frame.tasks_ahead(lane)) if it), frame.function.closing)


def first_place(task):
    """The place of the first step of a task; None where it has no step."""
    if task.kind in ("test", "round"):
        return task.statement.place
    steps = opened(task.statement, task.lanes) if task.statement else []
    return steps[0].statement.place if steps else None


class Adapter(Looks):
    """A debugger that an editor drives. A frame is named by its depth, that of the entry function being 1."""

    def __init__(self, *source_and_name, **options):
        super().__init__(*source_and_name, **options)
        self.terms, self.console = {}, []  # what breakpoints and watches ask for, by their numbers, and what the console was told
        self.entry = self.state.frames[0].function

    # ---- frames

    def stack(self):
        """The number, the name with the active lanes, the line and the column of each frame, the top one first; at the end that of the end."""
        found = self.standings()
        if not found:
            return [self.end()]
        bits = lambda it: "".join("01"[lane in it.lanes] for lane in range(self.width))
        return [(len(found) - at, f"{it.frame.function.name} [{bits(it)}]", *it.place) for at, it in enumerate(found)]

    def end(self):
        """The frame of a program that has ended, at the closing brace of the function with which it began."""
        return 1, f"{self.entry.name} (ended)", *self.entry.closing

    def threads(self):
        """The number and the name of each lane as a thread, with a mark where it is not active at the next step."""
        top = next(iter(self.standings()), None)
        return [(lane + 1, f"lane {lane}" + (WAITS if top and lane not in top.lanes else "")) for lane in range(self.width)]

    def lane_stack(self, lane):
        """The frames that were made for a lane, at its own places, marked where it does not do what is next in them; at the end that of the end."""
        if not self.standings():
            return [self.end()]
        inner = [None, *(it.frame for it in self.standings())]
        rows = [it for it in zip(self.standings(), self.stack(), inner) if lane in it[0].frame.lanes]
        return [(number, name + ("" if lane in it.lanes else WAITS), *lane_place(lane, it.frame, called)) for it, (number, name, *_), called in rows]

    def thread_of(self, text):
        """The thread of a stop, where lanes are threads: that of the lane that faults, or else of the lowest active lane."""
        fault, top = re.match(r"fault .* lane (\d+): ", text), next(iter(self.standings()), None)
        return int(fault[1]) + 1 if fault else min(top.lanes) + 1 if top else 1

    def standing_at(self, depth):
        """Where a frame stands; None where the program has ended."""
        found = self.standings()
        return found[len(found) - depth] if found else None

    # ---- variables

    def scopes(self):
        """The names of the scopes of a frame; that of the end has the file's variables alone."""
        return ["Locals", "Arguments", "File"] if self.state.frames else ["File"]

    def scope(self, depth, which, is_hexadecimal=False):
        """The variables of a scope of a frame that a name finds there; those of the file as the top frame finds them."""
        top, it = self.standing_at(self.depth()), self.standing_at(depth)
        if which == "File":
            hidden = {v.name for v in top.scope} if top else set()
            return [self.whole(v, top, is_hexadecimal) for v in self.program.globals if v.name not in hidden]
        return [self.whole(v, it, is_hexadecimal) for v in (it.scope if it else []) if v.is_parameter == (which == "Arguments")]

    def whole(self, variable, it, is_hexadecimal):
        """A variable: its name, its value, its type, what its hint has, how many elements it has, and whether it opens."""
        words, kind = self.words_in(variable, it), f"{variable.rate} {variable.type}"
        hint = ["constant", "readOnly"] if variable.is_constant else []
        if variable.is_array:
            return variable.name, f"{len(words)} elements", f"{kind}[{len(words)}]", hint, len(words), True
        return variable.name, self.row(words, variable.type, is_hexadecimal), kind, hint, None, variable.rate == "varying"

    def parts(self, depth, name, is_hexadecimal=False):
        """The lanes or elements of a variable that a frame finds: the name, the value, the type and the name without a mark of each."""
        variable = self.found(depth, name)
        it = self.standing_at(self.depth() if variable in self.program.globals else depth)
        waits = lambda at: not variable.is_array and it is not None and at not in it.lanes
        mark = lambda at: WAITS if waits(at) else ""
        texts = [self.row([word], variable.type, is_hexadecimal) for word in self.words_in(variable, it)]
        return [(f"{name}[{at}]{mark(at)}", text + mark(at), variable.type, f"{name}[{at}]") for at, text in enumerate(texts)]

    def row(self, words, of_type, is_hexadecimal=False):
        letter = "/x" if is_hexadecimal and of_type != "bool" else ""
        return " ".join("." if word is None else text_of(word, of_type, letter) for word in words)

    def found(self, depth, name):
        """The variable that a name finds in a frame."""
        it = self.standing_at(depth)
        found = [v for v in (it.scope if it else []) if v.name == name] + [v for v in self.program.globals if v.name == name]
        if not found:
            raise Refused(2)
        return found[0]

    # ---- values

    def looked_up(self, text, depth, context="watch", is_hexadecimal=False):
        """The value of a text in a frame, and how many lanes or elements it opens into."""
        value, parts = self.value_of_text(text, depth, is_hexadecimal)
        return (value[:HOVERED] + "..." if context == "hover" and len(value) > HOVERED else value), parts

    def value_of_text(self, text, depth, is_hexadecimal):
        it, target = self.standing_at(depth), TARGET.fullmatch(text)
        try:
            variable = self.found(depth, target[1]) if target else None
        except Refused:
            variable = None
        if variable is None or target[2] and not variable.is_array and variable.rate == "uniform":
            of_type, words = self.lanes_of(text, depth)
            return self.row(words, of_type, is_hexadecimal), len(words) if len(words) > 1 else 0
        words = self.words_in(variable, it)
        if target[2] is None:
            return self.row(words, variable.type, is_hexadecimal), len(words) if variable.is_array or variable.rate == "varying" else 0
        if int(target[2]) >= len(words):
            raise Refused(8)
        return self.row([words[int(target[2])]], variable.type, is_hexadecimal), 0

    def lanes_of(self, text, depth):
        """The type of an expression in a frame, and its value in each lane, None in one that waits; one value, where it is uniform."""
        it = self.standing_at(depth)
        e, values = self.value(text, it)
        return e.type, [values.get(lane) for lane in range(self.width)] if e.rate == "varying" else [values[min(it.lanes)]]

    def opened(self, text, depth, is_hexadecimal=False):
        """The lanes of an expression: the name, the value and the type of each, by the marks of those that wait."""
        of_type, words = self.lanes_of(text, depth)
        mark = lambda word: WAITS if word is None else ""
        return [(f"[{lane}]{mark(word)}", self.row([word], of_type, is_hexadecimal) + mark(word), of_type, None) for lane, word in enumerate(words)]

    def set(self, depth, target, value, is_hexadecimal=False):
        """Sets what a frame finds by a name, or a lane or an element of it, there and in no other frame; gives what it has then, and how many lanes that opens into."""
        name, index = parts_of(target)
        variable, at = self.found(depth, name), depth - 1
        self.checked_at(variable, index, depth)
        after = self.state.copy()
        if after.frames:
            after.frames[at] = self.state.frames[at].copy()
        set_part(State(self.width, after.memory, after.frames[: at + 1]), variable, index, value_of(value))
        self.keep("poke", after)
        words = self.words_in(variable, self.standing_at(depth))
        lanes = len(words) if index is None and variable.rate == "varying" else 0
        return self.row(words if index is None else [words[index]], variable.type, is_hexadecimal), lanes

    def checked_at(self, variable, index, depth):
        """Refuses a whole array, a part of what has none, and one past the end."""
        if variable.is_array and index is None or index is not None and not variable.is_array and variable.rate == "uniform":
            raise Refused(2)
        if index is not None and index >= len(self.words_in(variable, self.standing_at(depth))):
            raise Refused(8)

    # ---- breakpoints

    def break_on(self, asked):
        """Breakpoints of lines in the place of those that are there, each a line, a condition and a count; the number and the line of each."""
        self.forget("breakpoint")
        lines = [self.added(lambda: self.add_break(str(line)), *terms) for line, *terms in asked]
        number_on = lambda line: min(number for number, (kind, what) in self.stops.items() if kind == "breakpoint" and what == line)
        return [None if number is None else (number_on(self.stops[number][1]), self.stops[number][1]) for number in lines]

    def watch_all(self, asked):
        """Watches in the place of those that are there, each a target, a condition and a count; the number of each."""
        self.forget("watch")
        made = [self.added(lambda: self.add_watch(target), *terms) for target, *terms in asked]
        first = lambda what: min(number for number, (kind, other) in self.stops.items() if kind == "watch" and other == what)
        return [None if number is None else first(self.stops[number][1]) for number in made]

    def forget(self, kind):
        self.stops = {number: it for number, it in self.stops.items() if it[0] != kind}
        self.terms = {number: it for number, it in self.terms.items() if number in self.stops}

    def added(self, add, condition, count):
        """The number of what is added, which asks for a condition and a count; None where it is refused."""
        try:
            add()
        except Refused:
            return None
        self.terms[self.next_number - 1] = [condition, max(0, count - 1)]
        return self.next_number - 1

    # ---- moves

    def moved(self, command):
        """Why a move ended, at which breakpoint or watch if at one, and how that is told."""
        self.console = []
        text = self.gone(command == "reverseContinue") if command in GONE else self.answer(LINES[command])[0]
        reason = next((reason for reason, front in STOPS if text.startswith(front)), "step")
        return reason, [int(it) for it in re.findall(r"^(?:breakpoint|watch) (\d+): ", text)], text

    def gone(self, backward):
        """On or back to a stop that counts, or as far as it goes; each stop on the way is asked, and begins a move anew."""
        if backward and not self.made():
            raise Refused(3)
        if not backward and not self.state.frames:
            raise Refused(4)
        moves = 0
        while True:
            before, moves = self.state.memory, moves + 1
            try:
                self.back() if backward else self.forward()
            except Fault as fault:
                return f"fault {fault.name} lane {fault.lane}: {self.place_text()}"
            stops = self.stops_here(before)
            counted = [it for it in stops if self.counts(it[1])]
            if counted:
                self.tell_unjudged(counted[0][1])
                return f"{counted[0][0]} {counted[0][1]}: {self.place_text()}"
            moves = 0 if stops else moves
            if not backward and not self.state.frames:
                return self.place_text()
            if backward and not self.made():
                return f"history end: {self.place_text()}"
            if not backward and moves == self.steps:
                return f"step limit: {self.place_text()}"

    def stops_here(self, before):
        """The breakpoints on this line, and then the watches of what changed, in the order of their numbers."""
        spot, found = self.spot(), sorted(self.stops.items())
        lines = [("breakpoint", number) for number, (kind, what) in found if kind == "breakpoint" and spot and spot[0][0] == what]
        shown = lambda memory, what: memory[what[0]] if what[1] is None else memory[what[0]][what[1]]
        return lines + [("watch", number) for number, (kind, what) in found if kind == "watch" and shown(before, what) != shown(self.state.memory, what)]

    def counts(self, number):
        """Whether a stop counts: its condition is not 0 in an active lane, or has no value, and so many before it have been passed."""
        condition, left = self.terms[number]
        if condition and self.fault_of(condition):
            return True
        if condition and not any(self.lanes_now(condition)):
            return False
        self.terms[number][1] = max(0, left - 1)
        return left == 0

    def lanes_now(self, condition):
        return [word for word in self.lanes_of(condition, self.depth())[1] if word is not None]

    def fault_of(self, condition):
        try:
            self.lanes_now(condition)
        except Fault as fault:
            return f"{fault.name} in lane {fault.lane}: the expression has no value"
        return None

    def tell_unjudged(self, number):
        condition = self.terms[number][0]
        why = condition and self.fault_of(condition)
        if why:
            self.console.append(f"the condition has no value: {why}\n")
