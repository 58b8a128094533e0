"""Behind each line that moves the program or selects a frame `list` begins anew around the place, and behind no other: at 4, 8 and 16 lanes.

What is shown is that of tools/meaning/prompt.py, which goes to a checkpoint as to its step.
"""

from meaning.prompt import Prompt

from .deep_frames import meant

WIDTHS = (4, 8, 16)
NAME = "moved.ispc"
SOURCE = """uniform int total = 0;
int twice(int n) {
    int m = n;
    m += n;
    return m;
}


int other(int n) {
    int k = twice(n);
    k -= 1;
    return k;
}



export void go() {
    int x = programIndex;
    x = other(x);
    x += 5;
    total = reduce_add(x);
    x = twice(x);
}
"""
CHECKPOINT = 3  # in `other`
# Each is typed behind a list of the first lines; and in front of a list that stands for more of them it is left out.
MOVES = ("restart 1", "goto 5", "up", "down", "up 2", "frame 1", "frame 0", "step", "next", "finish", "reverse-step", "reverse-next", "undo", "goto 3", "step 2", "reverse-finish")
OTHERS = ("print total", "info line", "backtrace", "info locals", "break 20", "delete", "display total", "undisplay")


def run(width):
    """Lines, and what is shown for each: behind those of the first kind a list is that of the place, behind the others it goes on."""
    prompt = Prompt(SOURCE, NAME, width=width)
    first = prompt.here()
    lines, wanted = [], []

    def type_(line):
        lines.append(line)
        wanted.append(prompt.shown_for(line))

    type_(f"goto {CHECKPOINT}")
    lines.append("checkpoint")
    wanted.append([f"checkpoint 1 at step {CHECKPOINT}"])
    type_("step 3")
    for line in MOVES:
        type_("list 1,3")
        if line == "restart 1":
            lines.append(line)
            wanted.append(prompt.shown_for(f"goto {CHECKPOINT}"))
            type_("list")
            type_("step 3")
        else:
            type_(line)
            type_("list")
    for line in OTHERS:
        type_("list 1,3")
        type_(line)
        type_("list")
    return meant(f"lists behind moves, {width} lanes", SOURCE, prompt, first, lines, wanted)


def runs():
    return [run(width) for width in WIDTHS]
