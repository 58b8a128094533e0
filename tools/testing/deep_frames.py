"""Frames of a deep recursion at the prompt, at 4, 8 and 16 lanes: where each stands is told on one line up to its last column, at whatever depth.

The source has names of several lengths, so that the lanes of a frame at each depth just fit, or stand on a line of their own. What is shown is that
of tools/meaning/prompt.py.
"""

from meaning.prompt import Prompt

from .random_prompts import MARK, blocks, is_same
from .tried import Run

WIDTHS = (4, 8, 16)
DEPTH = 13
COLUMNS = 80
SOURCE = f"""uniform int least = 0;
int down(uniform int n) {{
    int v = n * 2 - 7;
    if (n > 0) {{
        int w = down(n - 1);
        v -= w;
    }}
    return v;
}}
export void go() {{
    int x = down({DEPTH - 2});
}}
"""
LINES = ["break 8", "continue", "backtrace", "info line", "step", "step 2", "up", "up 9", "backtrace 3", "backtrace full", "reverse-step 4", "finish", "delete", "finish"]


def names(width):
    """Names of the source, with which a frame at depth 9, 10 and above is told in 80 columns, and in one more or less."""
    front = len("#0   down at :5:14, depth 10, lanes ") + width
    least = COLUMNS - front - 3
    return ["n" * (length - len(".ispc")) + ".ispc" for length in range(least, least + 6)]


def run(name, width):
    prompt = Prompt(SOURCE, name, width=width)
    first = prompt.here()
    return meant(f"deep frames, {width} lanes, {name}", SOURCE, prompt, first, LINES, [prompt.shown_for(line) for line in LINES])


def meant(title, source, prompt, first, lines, wanted):
    """A run of lines that are typed, for each of which this is to be shown."""

    def judge(text):
        came = blocks(text.decode(errors="replace").split("\n"), len(first))
        if came[0] != first:
            return ["the first place:", *came[0]]
        for line, found, right in zip(lines, came[1:], wanted):
            if not is_same(found, right):
                return [f"{line}:", *found, "wanted:", *right]
        return [] if len(came) == len(lines) + 2 else [f"{len(came) - 2} lines are answered"]

    typed = "".join(f"{line}\necho {MARK}\n" for line in lines)
    return Run(title, typed.encode(), ["debug", prompt.name, "--width", str(prompt.width)], judge, b"", data={prompt.name: source.encode()})


def runs():
    return [run(name, width) for width in WIDTHS for name in names(width)]
