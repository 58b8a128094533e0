"""Checks of the debug adapter over random programs: at each stop frames, variables, lanes and expressions are those that tools/meaning works out."""

import random

from meaning.adapter import refusal_text
from meaning.debugging import Refused
from meaning.printed import text_of
from meaning.prompt import Prompt
from meaning.values import Fault

from .adapter_frames import row, written
from .adapter_members import WAITS, same
from .random_prompts import Expressions, Source

SEED, PROGRAMS, MOVES, STEPS = 83, 12, 16, 400
WIDTHS = (4, 8, 16)
FORWARD = {"next": "next", "stepIn": "step", "stepOut": "finish", "continue": "continue"}
BACK = {"stepBack": "reverse-step", "reverseContinue": "reverse-continue"}
NO_VALUE = "{} in lane {}: the expression has no value"


class Walk:
    """A random program that an adapter runs, and the same by tools/meaning."""

    def __init__(self, client, number):
        self.client, self.chance, self.width = client, random.Random(f"{SEED} {number}"), WIDTHS[number % len(WIDTHS)]
        self.source = "\n".join(Source(self.chance).lines) + "\n"
        self.prompt = Prompt(self.source, "go.ispc", width=self.width, steps=STEPS)
        self.entry = self.prompt.state.frames[0].function

    def walk(self):
        with written(self.source) as path:
            self.client.launch(path, width=self.width, steps=STEPS, history=65536)
            same(self.client.begin()["reason"], "entry")
            self.look()
            for _ in range(MOVES):
                self.chance.choice([self.move, self.move, self.move, self.stop_at, self.set_value])()
                self.look()
            self.client.end()

    def move(self):
        """A move, which leads where the debugger's command does, or is refused as it is."""
        moves = [*FORWARD] * 3 + [*BACK] if self.prompt.state.frames else [*BACK]
        name = self.chance.choice([*moves, *["stepIn"] * (5 if self.prompt.state.frames else 0)])
        try:
            said = self.prompt.answer((FORWARD | BACK)[name])[0]
        except Refused as refused:
            self.client.refused_move(name, refusal_text(refused))
        else:
            same(self.client.move(name)["text"], said)

    def stop_at(self):
        """Some breakpoints in the place of those before, each on a line with a step or on the first one behind it; behind the last there is none."""
        there = sorted(self.prompt.program.lines)
        apart = there[:: self.chance.randrange(5, 20)]
        asked = [line - self.chance.randrange(2) for line in apart[-4:]] + [there[-1] + 1] * self.chance.randrange(2)
        self.prompt.delete(None)
        told = self.client.breakpoints(*asked)
        found = [self.broken(line) for line in asked]
        same([(it["verified"], it.get("line"), it.get("id")) for it in told], found)

    def broken(self, line):
        """Whether a breakpoint stands from a line on, where, and its number."""
        try:
            _, number, *_, there = self.prompt.add_break(line).split()
        except Refused:
            return False, None, None
        return True, int(there), int(number)

    def set_value(self):
        """A variable of the top frame or of the file is set, in all lanes or in one."""
        it = next(iter(self.prompt.standings()), None)
        own = [v for v in (it.scope if it else []) if not (v.is_array or v.is_constant or v.is_parameter)]
        if not own:
            return
        v, value = self.chance.choice(own), str(self.chance.randrange(2))
        self.prompt.poke(v.name, value)
        local = self.client.scopes(len(self.prompt.state.frames))[0]
        same(self.client.ask("setVariable", variablesReference=local, name=v.name, value=value)["value"], self.whole(v, self.prompt.standings()[0]))

    def look(self):
        """The frames, and of one of them the variables, the lanes of one, and an expression."""
        found = self.prompt.standings()
        bits = lambda lanes: "".join("01"[lane in lanes] for lane in range(self.width))
        wanted = [(*it.place, f"{it.frame.function.name} [{bits(it.lanes)}]") for it in found]
        same(self.client.place(), wanted or [(*self.entry.closing, f"{self.entry.name} (ended)")])
        if found:
            number = self.chance.randrange(len(found))
            self.look_into(found[number], len(found) - number)

    def look_into(self, it, frame):
        local, arguments, of_file = self.client.scopes(frame)
        self.variables(local, it, [v for v in it.scope if not v.is_parameter])
        self.variables(arguments, it, [v for v in it.scope if v.is_parameter])
        self.variables(of_file, it, self.prompt.program.globals)
        self.expression(Expressions(self.chance, it.scope).one(), it, frame)

    def variables(self, reference, it, variables):
        """Each has the value of its frame; one that opens has its lanes, of which those that wait are marked, or its elements."""
        shown = self.client.variables(reference)
        same({name: told["value"] for name, told in shown.items()}, {v.name: self.whole(v, it) for v in variables})
        parts = [v for v in variables if v.is_array or v.rate == "varying"]
        if parts:
            v = self.chance.choice(parts)
            same(self.client.values(shown[v.name]["variablesReference"]), dict(self.part(v, it, at) for at in range(len(self.prompt.words_in(v, it)))))

    def whole(self, v, it):
        words = self.prompt.words_in(v, it)
        return f"{len(words)} element{'s' if len(words) != 1 else ''}" if v.is_array else row(text_of(word, v.type) for word in words)

    def part(self, v, it, at):
        """A lane or an element: its name and its value."""
        mark = "" if v.is_array or at in it.lanes else WAITS
        return f"{v.name}[{at}]{mark}", text_of(self.prompt.words_in(v, it)[at], v.type) + mark

    def expression(self, text, it, frame):
        """The value of an expression in a frame, or why it has none. A variable alone is shown as among the others."""
        alone = [v for v in (*it.scope, *self.prompt.program.globals) if v.name == text]
        if alone:
            return same(self.client.value(text, frame), self.whole(alone[0], it))
        try:
            e, values = self.prompt.value(text, it)
        except Fault as fault:
            return same(self.client.refused("evaluate", expression=text, frameId=frame, context="watch"), NO_VALUE.format(fault.name, fault.lane))
        words = [values.get(lane) for lane in range(self.width)] if e.rate == "varying" else [values[min(it.lanes)]]
        return same(self.client.value(text, frame), row("." if word is None else text_of(word, e.type) for word in words))


def of_program(number):
    def random_program(client, examples):
        Walk(client, number).walk()

    random_program.__name__ = f"random_program_{number}"
    return random_program


PROGRAM_CHECKS = [of_program(number) for number in range(PROGRAMS)]
