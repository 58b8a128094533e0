"""What a prompt shows for a line that is typed: the moves are the debugger's, and the texts are made here anew, by docs/FROM_GDB.md."""

import re

from .debugging import MOVES, Refused, parts_of, set_part, value_of
from .looks import COLUMNS, FAULTS, Looks, lines
from .printed import text_of
from .running import State, step
from .values import Fault

MOST_TOLD, MOST_ASKED = 10, 20  # changes of a variable, and moments
REASONS = {
    "history end": "the history goes back no further",
    "step limit": "the step limit of one command is reached",
    "undone step": "a step is taken back",
    "undone poke": "a change by `set var` is taken back",
}
IS_SET = "Nothing is done: a value was set by `set var`, which going back would take back; `undo` takes it back."


class Prompt(Looks):
    """A debugger at whose prompt lines are typed."""

    def __init__(self, *source_and_name, **options):
        super().__init__(*source_and_name, **options)
        self.displayed, self.next_display, self.temporary = {}, 1, set()

    def shown_for(self, line):
        """The lines that are shown for one that is typed; of a refusal its number alone."""
        try:
            return self.typed(line)
        except Refused as refused:
            return [str(refused).split()[0]]

    def typed(self, line):
        if re.fullmatch(rf"({'|'.join(MOVES)}|undo)( \d+)?", line):
            return self.moved(line)
        for pattern, method in TYPED:
            found = re.fullmatch(pattern, line)
            if found:
                return getattr(self, method)(*found.groups())
        raise ValueError(line)

    def comment(self):
        return []

    # ---- moves

    def scalars(self):
        """What the scalars in sight are: those of the file, and the parameters and local ones of the top frame."""
        return self.scalars_of_file() | self.scalars_in(next(iter(self.standings()), None))

    def scalars_of_file(self):
        return {it: self.state.memory[it] for it in self.program.globals if not it.is_array}

    def scalars_in(self, standing):
        """What the parameters and local scalars in sight of a frame are, if there is one."""
        return {it: standing.frame.words[it] for it in standing.scope if not it.is_array} if standing else {}

    def noted(self):
        """Of the top frame and the one that called it, by depth and function: the lanes that it shows, and what its scalars are."""
        depth = len(self.state.frames)
        return {(depth - number, it.frame.function.name): (it.lanes, self.scalars_in(it)) for number, it in enumerate(self.standings()[:2])}

    def top(self):
        """The depth and the function of the top frame, if there is one."""
        frames = self.state.frames
        return (len(frames), frames[-1].function.name) if frames else None

    def active(self):
        """The lanes that are active where the program stands, all where it has ended."""
        top = next(iter(self.standings()), None)
        return top.lanes if top else range(self.width)

    def moved(self, line):
        return self.after(lambda: self.answer(line)[0], self.awaited() if line == "finish" else None)

    def awaited(self):
        """The variable that gets what the top frame's function returns, of its type, with the lanes of the call."""
        frame = self.state.frames[-1] if self.state.frames else None
        what, variable = frame.result_for if frame else ("nothing", None)
        is_told = what in ("declares", "assigns") and variable.type == frame.function.type
        return (variable, frame.lanes) if is_told else None

    def returned(self, reason, awaited):
        """The value that was returned, where the frame was left, by the variable that got it, where its name stands for it."""
        if reason or not awaited or not self.state.frames:
            return []
        variable, lanes = awaited
        named = [it for it in (*self.standings()[0].scope, *self.program.globals) if it.name == variable.name]
        return [f"Value returned:{words_text(variable, self.scalars()[variable], lanes)}"] if named[:1] == [variable] else []

    def after(self, move, awaited=None):
        """What is shown of a move, which gives the debugger's answer."""
        file, frames, lanes = self.scalars_of_file(), self.noted(), self.active()
        reason = reason_of(move())
        self.selected, self.listed = 0, None
        self.end_temporary(reason)
        place = self.place()
        between = " " if len(f"{reason}: {place}") <= COLUMNS and "\n" not in place else "\n"
        head = f"{reason}:{between}{place}" if reason else place
        return [*head.split("\n"), *self.around(), *self.changes(file, frames, lanes), *self.returned(reason, awaited), *self.displays()]

    def end_temporary(self, reason):
        """A temporary breakpoint goes that has stopped a move."""
        number = int(reason.split()[1]) if re.fullmatch(r"breakpoint \d+", reason) else None
        if number in self.temporary:
            del self.stops[number]

    def changes(self, file, frames, lanes):
        """A line for each scalar in sight that is new or another than before: of the top frame where it was the top one, or called that one."""
        found = self.changed(self.scalars_of_file(), file, lanes)
        if self.top() not in frames:
            return found
        lanes, before = frames[self.top()]
        return found + self.changed(self.scalars_in(self.standings()[0]), before, lanes)

    def changed(self, scalars, before, lanes):
        """A line for each of these that is new or another than before, when these lanes were active."""
        found = []
        for it, words in scalars.items():
            if before.get(it) != words:
                old = f"{words_text(it, before[it], lanes)} ->" if it in before else ""
                found.append(f"  {it.name} ={old}{words_text(it, words, self.active())}")
        return found

    def goto(self, number):
        """Single steps, back or on, to the moment after so many steps."""
        number = int(number)

        def move():
            while self.made() > number:
                self.back()
            while self.made() < number and self.state.frames:
                try:
                    self.forward()
                except Fault as fault:
                    return f"fault {fault.name} lane {fault.lane}: there"
            return ""

        shown = self.after(move)
        if self.made() == number:
            return shown
        return [f"step {number} is never reached: the run has {self.made()} step{'s' if self.made() != 1 else ''}", *shown]

    # ---- what changed a variable of the file: it is found by a watch, which takes a number and goes

    def words_text(self, target):
        """What a variable of the file, or a lane or an element of it, has now."""
        name, index = parts_of(target)
        variable = next(it for it in self.program.globals if it.name == name)
        part = slice(None) if index is None else slice(index, index + 1)
        return "".join(f" {text_of(word, variable.type)}" for word in self.state.memory[variable][part])

    def back_to_change(self, target):
        """Goes back to the statement that changed it last, or to the start: what it has there and what it had behind it."""
        now = self.words_text(target)
        while self.kept and self.words_text(target) == now:
            self.back()
        return self.words_text(target), now

    def is_set(self):
        """Whether a value that was set can be taken back."""
        return any(kind == "poke" for kind, _ in self.kept)

    def last(self, target):
        """Back to the last change; where there is none, the program stands where it stood. Nothing is done where a value was set."""
        if self.is_set():
            return [IS_SET]
        stood = [*self.kept], self.state
        old, new = self.back_to_change(target)
        self.next_number += 1
        if old == new:
            self.kept, self.state = stood
            return [f"{target} has had its value from the start"]
        self.selected, self.listed = 0, None
        return [f"{target} ={old} ->{new} by this statement:", *self.here(), *self.displays()]

    def changes_told(self, target, most):
        """The last changes, the newest first; the program stands where it stood. Nothing is done where a value was set."""
        if self.is_set():
            return [IS_SET]
        stood, found = ([*self.kept], self.state), []
        for _ in range(int(most or MOST_TOLD)):
            old, new = self.back_to_change(target)
            if old == new:
                found += [f"at the start:{old}" if found else f"{target} has had its value from the start"]
                break
            found += lines(f"{self.place()}:{old} ->{new}")
        self.next_number += 1
        self.kept, self.state = stood
        return found

    # ---- the moments of a run at which an expression is not 0

    def when(self, text, most=1):
        """The first moments of the whole run at which an expression is not 0 in a lane that is active there, and how many there are."""
        stood, found = ([*self.kept], self.state), []
        for number, state in enumerate(self.moments()):
            self.kept, self.state = [("step", None)] * number, state
            lanes = self.lanes_where(text)
            if lanes is not None:
                found.append((number, lanes, self.place(lanes=lanes)))
        self.kept, self.state = stood
        hits = [it for it in found if it[1]]
        last = f" of the {len(found)} moments at which it has a value"
        if not hits:
            return [f"{text}: 0 at each{last}"]
        shown = [line for _, _, place in hits[:most] for line in lines(place)]
        return [*shown, f"{text}: not 0 at {len(hits)}{last}; `goto {hits[0][0]}` goes to the first"]

    def when_all(self, text):
        return self.when(text, MOST_ASKED)

    def moments(self):
        """The state of each moment of the run, up to its end or its fault."""
        states = [*(state for _, state in self.kept), self.state]
        while states[-1].frames:
            try:
                states.append(step(states[-1]))
            except Fault:
                break
        return [it for it in states if it.frames]

    def lanes_where(self, text):
        """The lanes in which an expression is not 0; None where it has no value."""
        it = self.standings()[0]
        try:
            _, values = self.value(text, it)
        except (Fault, StopIteration):
            return None
        return {lane for lane, value in values.items() if value}

    # ---- what is set and displayed

    def set_value(self, target, value):
        """Sets a value in the frame that is selected, and shows all of what was set."""
        if self.selected == 0:
            self.answer(f"set var {target} = {value}")
        else:
            self.set_outer(target, value_of(value))
        return self.print("", target)

    def set_outer(self, target, value):
        """Sets a value in the outer frame that is selected, where the frames above it are as they were."""
        name, index = parts_of(target)
        variable = self.named(name)
        if variable.is_array and index is None:
            raise Refused(2)
        if index is not None:
            self.has_part(variable, index)
        after = self.state.copy()
        after.frames[-1 - self.selected] = self.standing().frame.copy()
        set_part(State(self.width, after.memory, after.frames[: -self.selected]), variable, index, value)
        self.keep("poke", after)

    def display(self, letter, target):
        """Shows a target, and displays it from then on: in any case where other digits are asked for, else where it is not refused."""
        if letter not in (None, "/d"):
            self.add_display(letter, target)
            return self.print(letter, target)
        shown = self.print(letter, target)
        self.add_display("", target)
        return shown

    def add_display(self, letter, target):
        self.displayed[self.next_display] = letter, target
        self.next_display += 1

    def displays_listed(self):
        return [f"{number}: {letter + ' ' if letter else ''}{target}" for number, (letter, target) in self.displayed.items()]

    def undisplay(self, number):
        if number is None:
            self.displayed = {}
            return ["nothing is displayed any more"]
        if self.displayed.pop(int(number), None) is None:
            return [f"nothing is displayed by number {number}"]
        return [f"{number} is displayed no more"]

    def displays(self):
        """What is displayed, but for what is not in scope."""
        found = []
        for number, (letter, target) in self.displayed.items():
            try:
                first, *rest = self.print(letter, target)
            except Refused:
                continue
            found += [f"{number}: {first}", *rest]
        return found

    # ---- breakpoints and watches

    def break_at(self, line):
        return [self.add_break(line)]

    def break_once(self, line):
        said = self.break_at(line)
        self.temporary.add(self.next_number - 1)
        return said

    def watch_value(self, target):
        return [self.add_watch(target)]

    def stops_listed(self):
        told = {"breakpoint": lambda what: f"breakpoint, line {what}", "watch": lambda what: f"watch, {what[2]}"}
        return [f"{number}  {told[kind](what)}" for number, (kind, what) in sorted(self.stops.items())] or ["no breakpoints or watches"]

    def deleted(self, number):
        said = self.delete(number)
        return ["all breakpoints and watches are deleted"] if number is None else [said]


def words_text(variable, words, lanes):
    """The words of a scalar, those of lanes that wait in brackets."""
    texts = [text_of(word, variable.type) for word in words]
    return "".join(f" {text}" if variable.rate == "uniform" or lane in lanes else f" ({text})" for lane, text in enumerate(texts))


def reason_of(said):
    """Why a move ended, as a sentence, by the debugger's answer; nothing at its goal and at the end."""
    reason, _, _ = said.rpartition(": ")
    fault = re.fullmatch(r"fault (F\d \w+) lane (\d+)", reason)
    if fault:
        return f"{fault[1]}: {FAULTS[fault[1]]} in lane {fault[2]}; nothing of this step is done"
    return REASONS.get(reason, reason)


TARGET, LETTER, NUMBER = r"[A-Za-z_]\w*(?:\[\d+\])?", r"(?: ?(/[xtoucd]))?", r"(\d+)"
TYPED = [
    (r" *#.*", "comment"),
    (rf"goto {NUMBER}", "goto"),
    (rf"last ({TARGET})", "last"),
    (r"when (?!-a)(.+)", "when"),
    (r"when -a (.+)", "when_all"),
    (rf"changes ({TARGET})(?: {NUMBER})?", "changes_told"),
    (rf"print{LETTER} (programIndex|programCount)", "print_value"),
    (rf"print{LETTER} ({TARGET})", "print"),
    (rf"print{LETTER} ([A-Za-z_]\w*)(?:\[(\d+)\])?@{NUMBER}", "print_elements"),
    (rf"print{LETTER} (.+)", "print_value"),
    (rf"display{LETTER} ({TARGET})", "display"),
    (r"info display", "displays_listed"),
    (rf"undisplay(?: {NUMBER})?", "undisplay"),
    (r"echo (.*)", "echo"),
    (r"info locals", "locals"),
    (r"info args", "arguments"),
    (r"info variables", "globals"),
    (r"info line", "here"),
    (r"info breakpoints", "stops_listed"),
    (rf"whatis ({TARGET})", "type_of"),
    (rf"set var ({TARGET}) = (\S+)", "set_value"),
    (rf"backtrace(?: {NUMBER})?", "frames_shown"),
    (r"backtrace full", "full_frames"),
    (r"list", "list_on"),
    (r"list -", "list_before"),
    (rf"list {NUMBER}", "list_around"),
    (rf"list {NUMBER}?,{NUMBER}?", "list_between"),
    (r"frame", "frame_shown"),
    (rf"frame {NUMBER}", "select"),
    (rf"up(?: {NUMBER})?", "up"),
    (rf"down(?: {NUMBER})?", "down"),
    (rf"break {NUMBER}", "break_at"),
    (rf"tbreak {NUMBER}", "break_once"),
    (rf"watch ({TARGET})", "watch_value"),
    (rf"delete(?: {NUMBER})?", "deleted"),
]
