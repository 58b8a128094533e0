"""Checks of the debug adapter: behind a restart breakpoints and watches have the numbers that an editor was told.

The program runs a loop of 6 rounds. Behind the sum of the round `i` the total is i + 1, so each stop is worked out here by arithmetic.
"""

from .adapter_conditions import ask
from .adapter_frames import written
from .adapter_functions import functions
from .adapter_members import same

SOURCE = """uniform int total = 0;
void left(uniform int n) {
}
export void go() {
    uniform int i = 0;
    while (i < 6) {
        total += 1;
        left(i);
        i += 1;
    }
}
"""
LEFT, SUM, CALL, NEXT = 3, 7, 8, 9
# The same without the call, of 8 lines: no step stands on the line NEXT or behind it.
SHORT = SOURCE.replace("        left(i);\n        i += 1;\n    }\n}\n", "        i += 1; } }\n")


def told(made):
    return [it["id"] for it in made]


def watched(client, target="total", **more):
    return client.ask("setDataBreakpoints", breakpoints=[{"dataId": target, **more}])["breakpoints"][0]["id"]


def stops(client, stop, number, line, i):
    """A stop is at the breakpoint or the watch of this number, on this line, in this round."""
    same((stop["hitBreakpointIds"], client.place()[0][0], client.value("i", 1)), ([number], line, str(i)))


def at_go(client, stop, number):
    """A stop is at the breakpoint of the entry, before its first statement."""
    same((stop["hitBreakpointIds"], client.place()), ([number], [(5, 5, "go [1111]")]))


def numbers(client):
    """The numbers of the breakpoints and watches that there are."""
    return [int(line.split()[0]) for line in client.ask("evaluate", expression="info breakpoints", context="repl")["result"].splitlines()]


def same_numbers(client, examples):
    """Lines that are set twice have the numbers 4, 5 and 6 then, and keep them with what each asks for, as a function and a watch do."""
    with written(SOURCE) as path:
        client.launch(path, stopOnEntry=False)
        lines = [(SUM, {"condition": "i == 1"}), (CALL, {"condition": "i == 2"}), (NEXT, {"hitCondition": "6"})]
        same(told(ask(client, *lines)), [1, 2, 3])
        same(told(ask(client, *lines)), [4, 5, 6])
        same(told(functions(client, {"name": "left", "condition": "total == 4"})), [7])
        same(watched(client, condition="total == 5"), 8)
        for again in (False, True, True):
            stops(client, client.event("stopped") if again else client.begin(), 4, SUM, 1)
            stops(client, client.move("continue"), 5, CALL, 2)
            stops(client, client.move("continue"), 7, LEFT, 3)
            stops(client, client.move("continue"), 8, CALL, 4)
            stops(client, client.move("continue"), 6, NEXT, 5)
            # No breakpoint that used a number up is left.
            same(numbers(client), [4, 5, 6, 7, 8])
            client.ask("restart")
        stops(client, client.event("stopped"), 4, SUM, 1)
        # Those that come have numbers of their own.
        same(told(ask(client, (SUM, {}))), [9])
        client.end()


def gone_lines(client, examples):
    """Those that cannot be set in the text of then use their numbers up: the others, and those that come, have no number of theirs."""
    with written(SOURCE) as path:
        client.launch(path, stopOnEntry=False)
        ask(client, (SUM, {}))
        same(told(ask(client, (SUM, {"condition": "i == 1"}), (NEXT, {}), (CALL, {"condition": "false"}))), [2, 3, 4])
        same(told(functions(client, "left", "go")), [5, 6])
        same(watched(client, condition="total == 4"), 7)
        at_go(client, client.begin(), 6)
        path.write_text(SHORT.replace("left", "right"))
        client.ask("restart")
        at_go(client, client.event("stopped"), 6)
        same(numbers(client), [2, 4, 6, 7])
        stops(client, client.move("continue"), 2, SUM, 1)
        stops(client, client.move("continue"), 7, CALL, 3)
        same(told(ask(client, (SUM, {}))), [8])
        # The last one goes too, and its number is not given again.
        ask(client)
        path.write_text(SHORT.replace("total", "whole"))
        client.ask("restart")
        at_go(client, client.event("stopped"), 6)
        same(numbers(client), [6])
        same(watched(client, "whole"), 8)
        client.end()


def large_numbers(client, examples):
    """Numbers that have grown by many changes are kept too."""
    with written(SOURCE) as path:
        client.launch(path, stopOnEntry=False)
        for _ in range(300):
            made = ask(client, *[(SUM, {"condition": "i == 1"})] * 60, (NEXT, {}))
        number = made[60]["id"]
        same(number, 300 * 61)
        client.begin()
        ask(client, (NEXT, {}))
        client.ask("restart")
        stops(client, client.event("stopped"), number + 1, NEXT, 0)
        same(numbers(client), [number + 1])
        client.end()


def on_one_line(client, examples):
    """Numbers are kept in a source of one line too, and those before them are used up."""
    with written("export void go() { int x = 1; x += 2; }\n") as path:
        client.launch(path)
        for number in (1, 2, 3):
            same(told(ask(client, (1, {}))), [number])
        client.begin()
        client.ask("restart")
        same(client.event("stopped")["reason"], "entry")
        same(numbers(client), [3])
        same(told(ask(client, (1, {}))), [4])
        client.end()


RESTART_CHECKS = [same_numbers, gone_lines, large_numbers, on_one_line]
