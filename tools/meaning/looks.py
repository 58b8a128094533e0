"""What a prompt shows of where a program stands, by docs/FROM_GDB.md: places, lines of the source, values, and frames."""

from .debugging import Debugger, Refused, parts_of
from .printed import array_text, lanes_text, text_of
from .running import evaluated
from .source import Parser
from .typed import Checker
from .values import Fault

WHOLE = 10_000_000  # so many steps are kept where no limit is set
COLUMNS, AROUND, LONGEST, CUT, BEFORE, LISTED = 80, 2, 68, 60, 30, 10
FAULTS = {
    "F1 DivideByZero": "a division by 0",
    "F2 Index": "an index outside the array",
    "F3 LaneIndex": "a lane that is not there",
    "F4 Assert": "what is asserted is false",
    "F5 CallDepth": "64 frames exist",
}


class Standing:
    """Where a frame stands: the frame, its place, the lanes that are active there, and what is in scope."""

    def __init__(self, frame, place, lanes, scope):
        self.frame, self.place, self.lanes, self.scope = frame, place, lanes, scope


class Looks(Debugger):
    """A debugger of a source with a name, and what can be looked at."""

    def __init__(self, source, name, history=None, **options):
        super().__init__(source, history=history or WHOLE, **options)
        self.name, self.source_lines, self.is_whole = name, source.split("\n"), history is None
        self.selected, self.listed = 0, None

    def standings(self):
        """Where each frame stands, the top one first."""
        found, spot = [], self.spot()
        for frame in reversed(self.state.frames):
            found.append(Standing(frame, *spot))
            if frame.call:
                spot = frame.call.place, frame.lanes, frame.call.scope
        return found

    def standing(self):
        """Where the frame stands that is selected; None where the program has ended."""
        found = self.standings()
        return found[self.selected] if found else None

    def made(self):
        return sum(kind == "step" for kind, _ in self.kept)

    def place(self, number=0, has_step=True, lanes=None):
        """Where a frame stands, on a line, or with the marks on one of their own; of its lanes, or of others."""
        found = self.standings()
        if not found:
            count = self.made()
            return "the program has ended" + (f" after {count} step{'s' if count != 1 else ''}" if self.is_whole else "")
        it, depth = found[number], len(found) - number
        front = f"{it.frame.function.name} at {self.name}:{it.place[0]}:{it.place[1]}" + (f", depth {depth}" if depth > 1 else "")
        front += f", step {self.made()}" if has_step and self.is_whole else ""
        marks = "lanes " + "".join(".#"[lane in (it.lanes if lanes is None else lanes)] for lane in range(self.width))
        return f"{front}, {marks}" if len(f"#0   {front}, {marks}") <= COLUMNS else f"{front},\n    {marks}"

    def around(self, number=0):
        """The line of a frame's place with a mark under its column, and those around."""
        found = self.standings()
        if not found:
            return []
        line, column = found[number].place
        text, mark = marked(self.source_lines[line - 1], column - 1)
        there = lambda it: 0 < it <= self.line_count()
        lines = lambda numbers: [f"   {it:5}  {self.source_lines[it - 1]}" for it in numbers if there(it)]
        here = [f"-> {line:5}  {text}", " " * (max(5, len(str(line))) + 5 + mark) + "^"]
        return lines(range(line - AROUND, line)) + here + lines(range(line + 1, line + AROUND + 1))

    def line_count(self):
        return len(self.source_lines) - (self.source_lines[-1] == "")

    def list_on(self):
        """The lines around the place of the frame that is selected, or the next ones behind those that were listed."""
        return self.list_from(self.listed[1] if self.listed else self.standing().place[0] - LISTED // 2)

    def list_before(self):
        """The lines before those that were listed."""
        return self.list_from(self.listed[0] - LISTED, self.listed[0])

    def list_around(self, line):
        return self.list_from(int(line) - LISTED // 2)

    def list_between(self, first, last):
        first, last = int(first or 0) or int(last) - LISTED + 1, int(last or 0) or int(first) + LISTED - 1
        return self.list_from(first, last + 1)

    def list_from(self, first, end=None):
        """The lines from one on, ten if nothing else is said, of which that of the place has an arrow."""
        first = max(1, first)
        end = end or first + LISTED
        if first >= end:
            return ["line 1 is the first one"]
        self.listed = first, end
        if first > self.line_count():
            return [f"there is no line {first}: the source has {self.line_count()} lines"]
        here = self.spot()[0][0] if self.state.frames else None
        return [f"{'->' if it == here else '  '} {it:5}  {self.source_lines[it - 1]}" for it in range(first, min(end, self.line_count() + 1))]

    def here(self):
        return [*self.place().split("\n"), *self.around()]

    def frame_shown(self):
        return [*f"#{self.selected}  {self.place(self.selected, has_step=False)}".split("\n"), *self.around(self.selected)]

    # ---- values

    def named(self, name):
        """The variable of a name in the frame that is selected."""
        it = self.standing()
        found = [v for v in (it.scope if it else []) if v.name == name] or [v for v in self.program.globals if v.name == name]
        if not found:
            raise Refused(2)
        return found[0]

    def words_in(self, variable, it):
        """The words of a variable where a frame stands."""
        if variable.is_array:
            array, first, length = it.frame.views[variable] if it and variable in it.frame.views else (variable, 0, len(self.state.memory[variable]))
            return self.state.memory[array][first : first + length]
        return self.state.memory[variable] if variable in self.state.memory else it.frame.words[variable]

    def told(self, variable, it, letter="", part=None):
        """What is told of a variable where a frame stands, or of some of its lanes or elements."""
        words, part = self.words_in(variable, it), part or slice(None)
        first = part.start or 0
        if variable.rate == "varying" and not variable.is_array:
            lanes = it.lanes if it else range(self.width)
            return lanes_text(words[part], lanes, variable.type, letter, first)
        return array_text(words[part], variable.type, letter, first)

    def print(self, letter, target):
        name, index = parts_of(target)
        variable = self.named(name)
        if index is not None:
            self.has_part(variable, index)
        part = None if index is None else slice(index, index + 1)
        shown = name if index is None else f"{name}[{index}]"
        return lines(f"{shown} ={self.told(variable, self.standing(), letter or '', part)}")

    def has_part(self, variable, index):
        """Faults where a variable of the frame that is selected has no lane or element of this number."""
        if not variable.is_array and variable.rate == "uniform":
            raise Refused(2)
        if index >= len(self.words_in(variable, self.standing())):
            raise Refused(8)

    def print_elements(self, letter, name, first, count):
        if not self.state.frames:
            raise Refused(4)
        typed = name + ("" if first is None else f"[{first}]") + f"@{count}"
        variable, first, count = self.named(name), int(first or 0), int(count)
        if not variable.is_array or not 0 < first + count <= len(self.words_in(variable, self.standing())):
            raise Refused(8)
        return lines(f"{typed} ={self.told(variable, self.standing(), letter or '', slice(first, first + count))}")

    def print_value(self, letter, text):
        """The value of an expression in each lane that is active where the frame stands."""
        it = self.standing()
        try:
            e, values = self.value(text, it)
        except Fault as fault:
            return [f"{fault.name}: {FAULTS[fault.name]} in lane {fault.lane}; the expression has no value."]
        words = [values.get(lane) for lane in range(self.width)] if e.rate == "varying" else [values[min(it.lanes)]]
        return [f"{text} =" + "".join(" ." if word is None else f" {text_of(word, e.type, letter or '')}" for word in words)]

    def value(self, text, it):
        """An expression with its type, and its value in each lane that is active where a frame stands."""
        checker = Checker(self.program, it.frame.function)
        checker.visible = list(it.scope)
        e = checker.expression(Parser(text).expression())
        state = self.state.copy()
        state.frames = [it.frame]
        return e, evaluated(e, it.lanes, state)

    def variables_of(self, it, are_parameters, front=""):
        """A line for each parameter or local variable in scope where a frame stands."""
        found = [v for v in it.scope if v.is_parameter == are_parameters] if it else []
        return [line for v in found for line in lines(f"{front}{v.name} ={self.told(v, it)}")]

    def locals(self):
        return self.variables_of(self.standing(), False) or ["no locals"]

    def arguments(self):
        if not self.state.frames:
            return ["the program has ended: no parameters"]
        return self.variables_of(self.standing(), True) or ["no parameters"]

    def echo(self, text):
        return [text]

    def globals(self):
        return [f"{it.name}: {self.type_text(it)}" for it in self.program.globals] or ["no variables of the file"]

    def type_of(self, target):
        name, index = parts_of(target)
        variable = self.named(name)
        return [f"{target}: {front_of(variable)}{variable.type}" if index is not None else f"{name}: {self.type_text(variable)}"]

    def type_text(self, variable):
        """The type of a variable of the file, or of the frame that is selected."""
        length = f"[{len(self.words_in(variable, self.standing()))}]" if variable.is_array else ""
        return f"{front_of(variable)}{variable.rate} {variable.type}{length}"

    # ---- frames

    def frames_shown(self, most=None):
        found = self.standings()
        if not found:
            return ["the program has ended: no frames"]
        count = min(len(found), int(most or len(found)))
        more = ["there are more frames; `where` lists all"] if count < len(found) else []
        return [line for number in range(count) for line in self.frame_line(number)] + more

    def frame_line(self, number):
        return lines(f"#{number}  {self.place(number, has_step=False)}")

    def full_frames(self):
        found = self.standings()
        if not found:
            return ["the program has ended: no frames"]
        shown = lambda it: self.variables_of(it, True, "    ") + self.variables_of(it, False, "    ")
        return [line for number, it in enumerate(found) for line in [*self.frame_line(number), *shown(it)]]

    def select(self, number):
        """Selects a frame, where it is there."""
        number = int(number)
        if not 0 <= number < len(self.state.frames):
            return ["there is no such frame; `where` lists them"]
        self.selected, self.listed = number, None
        return self.frame_shown()

    def up(self, count):
        """Selects the frame so many calls above; without a number there is none above the entry's."""
        if count is None and self.state.frames and self.selected == len(self.state.frames) - 1:
            return ["Initial frame selected; you can't go up."]
        return self.select(self.selected + int(count or 1))

    def down(self, count):
        """Selects the frame so many calls below, the top one at the most; without a number there is none below that."""
        if count is None and self.selected == 0 and self.state.frames:
            return ["Bottom (innermost) frame selected; you can't go down."]
        return self.select(max(0, self.selected - int(count or 1)))


def lines(text):
    return text.split("\n")


def front_of(variable):
    return "const " if variable.is_constant else ""


def marked(line, at):
    """A line, or so much of a long one around a place, and the column of that place in it."""
    if len(line) <= LONGEST:
        return line, at
    first = min(max(at - BEFORE, 0), len(line) - CUT)
    front, back = "..." * (first > 0), "..." * (first + CUT < len(line))
    return front + line[first : first + CUT] + back, len(front) + at - first
