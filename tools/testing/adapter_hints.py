"""Checks of the debug adapter: what to do in place of a line of the console that begins with a word of the prompt or of GDB and is no command there."""

from .adapter_frames import NO_NAME, RECURSION, at_depth_3, row, written
from .adapter_members import same
from .adapter_targets import at_widths

SOURCE = "The editor shows the source; `backtrace` lists where the frames stand."
LINE = "Set a breakpoint on the line, or go to it by the editor's jump to the cursor; `continue` and `next` are done here."
BREAKPOINTS = "`break LINE` and `delete N` are done here; functions, conditions, counts and messages are set at the editor's breakpoints."
DELETING = "`delete N` deletes one breakpoint or watch, `delete` alone all of them."
WATCHES = "`watch T` takes a variable of the file, a lane or an element of one; its condition is set at the editor's data breakpoint."
DISPLAYS = "Put the expression on the editor's watch list: it is shown at each stop."
FRAMES = "Select the frame in the editor's call stack: what is typed here is looked up there."
BEGINNING = "The editor's restart begins anew; `reverse-continue` goes back to a breakpoint or to the beginning."
GOING = "`continue` takes no number here: how often a stop is passed is set at the editor's breakpoint."
TYPES = "The editor shows the types beside the variables of a frame; a name alone shows its values."
LISTS = "`info locals`, `info args` and `info breakpoints` are done here; the others are at the prompt: rinddecade debug SOURCE."
SETTINGS = "`set var T = V` and `set record full insn-number-max N` are done here."
AT_THE_PROMPT = "This is done at the prompt: rinddecade debug SOURCE."
OF_GDB = "This command of GDB has nothing to do here; `help` lists what can be typed."

# Lines with more behind a word: none is an expression, whatever variables there are.
LINES = [
    ("list 5", SOURCE), ("l f", SOURCE), ("tbreak 17", LINE), ("until 17", LINE), ("advance f", LINE), ("u 17", LINE), ("tb 9", LINE),
    ("b 14 if k > 3", BREAKPOINTS), ("break f", BREAKPOINTS), ("ignore 1 5", BREAKPOINTS), ("disable 1", BREAKPOINTS), ("cond 1 k > 3", BREAKPOINTS),
    ("d 1 2", DELETING), ("delete 1-3", DELETING), ("watch total > 3", WATCHES), ("rwatch total", WATCHES), ("display k", DISPLAYS),
    ("display/x k", DISPLAYS), ("undisplay 1", DISPLAYS), ("frame 1", FRAMES), ("f 1", FRAMES), ("  up 2 ", FRAMES), ("run 3", BEGINNING),
    ("restart 1", BEGINNING), ("continue 3", GOING), ("c 3", GOING), ("whatis k", TYPES), ("ptype table", TYPES), ("info functions", LISTS),
    ("i line 5", LISTS), ("set listsize 5", SETTINGS), ("show values", SETTINGS), ("goto 3", AT_THE_PROMPT), ("last total", AT_THE_PROMPT),
    ("when total > 1", AT_THE_PROMPT), ("checkpoint 1", AT_THE_PROMPT), ('printf "%d", k', OF_GDB), ("shell ls", OF_GDB), ("return 5", OF_GDB),
]

# Words alone, which may be meant for a variable that is not there.
ALONE = [
    ("list", SOURCE), ("  l ", SOURCE), ("tbreak", LINE), ("clear", BREAKPOINTS), ("rwatch", WATCHES), ("display", DISPLAYS), ("up", FRAMES), ("run", BEGINNING),
    ("whatis", TYPES), ("info", LISTS), ("set", SETTINGS), ("record", AT_THE_PROMPT), ("disassemble", OF_GDB),
]

# Expressions that begin with such a word: why they have no value is told as of others.
EXPRESSIONS = ["i + 1", "d / 2", "last[2]", "f (3)", "up - 1", "l < k", "r / 0", "display/k", "lis 5", "lis"]

# Variables that have names of commands.
NAMED = """export void go() {
    uniform int list = 3;
    int frame = programIndex;
    uniform int up = 0;
    list += 1;
}
"""


def typed(client, line, context="repl", **frame):
    return client.refused("evaluate", expression=line, context=context, **frame)


def told_in_place(client, width):
    """What to do in place of a line is told in each frame, and nothing is done; of a word alone why it has no value is told before that."""
    with written(RECURSION) as source:
        at_depth_3(client, source, width)
        stops = client.ask("evaluate", expression="info breakpoints", context="repl")
        for frame in ({}, {"frameId": 3}, {"frameId": 1}):
            for line, text in LINES:
                same((line, typed(client, line, **frame)), (line, text))
            for line, text in ALONE:
                column = len(line) - len(line.lstrip()) + 1
                same((line, typed(client, line, **frame)), (line, f"{NO_NAME.replace('column 1', f'column {column}')}. {text}"))
        same(client.ask("evaluate", expression="info breakpoints", context="repl"), stops)
        same(client.events, [])
        client.end()


def told_of_expressions(client, width):
    """An expression that begins with such a word is told as in the watch list, and so is any line there and under the mouse."""
    with written(RECURSION) as source:
        at_depth_3(client, source, width)
        for line in EXPRESSIONS:
            same((line, typed(client, line, frameId=2)), (line, typed(client, line, "watch", frameId=2)))
        for context in ("watch", "hover"):
            for line in ("list", "run"):
                same(typed(client, line, context, frameId=2), NO_NAME)
            for line, column in [("tbreak 17", 8), ("b 14 if k > 3", 3), ("display k", 9), ("frame 1", 7), ("info functions", 6)]:
                same(typed(client, line, context, frameId=2), f"S3 Unexpected, column {column}: an expression does not go on so")
        client.end()


def values_of_such_names(client, width):
    """A variable with the name of a command has its value, and so has an expression of it, which opens; a fault is told."""
    with written(NAMED) as source:
        client.launch(source, width=width)
        client.breakpoints(5)
        client.begin()
        client.move("continue")
        value = lambda line: client.ask("evaluate", expression=line, context="repl")
        same([value("list")["result"], value("list + 1")["result"]], ["list = 3", "4"])
        same(value("frame + 1")["result"], row(lane + 1 for lane in range(width)))
        opened = client.values(value("frame + 1")["variablesReference"])
        same(opened, {f"[{lane}]": str(lane + 1) for lane in range(width)})
        same(typed(client, "list / up"), "F1 DivideByZero in lane 0: the expression has no value")
        same(typed(client, "list 5"), SOURCE)
        client.end()


HINT_CHECKS = [check for it in (told_in_place, told_of_expressions, values_of_such_names) for check in at_widths(it)]
