"""`when` and `when -a` of names that only some frames have, at 4, 8 and 16 lanes, in a recursion in which lanes wait: what is told is that of
tools/meaning/prompt.py.
"""

from meaning.prompt import Prompt

from .deep_frames import meant

WIDTHS = (4, 8, 16)
NAME = "frames.ispc"
SOURCE = """uniform int total = 0;
int8 down(uniform int n, int k) {
    int8 v = k * 20 - n;
    uniform bool is_last = n == 0;
    if (k > n) {
        v -= 5;
        if (n > 0) {
            int8 w = down(n - 1, k - 1);
            v += w;
        }
    }
    total += reduce_add(k);
    return v;
}
export void go() {
    int x = programIndex + 1;
    int8 y = down(3, x);
    x -= y;
    total = -1;
}
"""
ASKED = (
    "n == 2", "k == 1", "v < 0", "v > 100", "is_last", "w != 0", "x < 0", "x == 2 && programIndex > 1", "y > 7", "total > 3", "n + k == 3", "k > n", "v - w > 0",
    "reduce_add(k) > 4", "programIndex % 3 == 1", "10 / k > 4", "10 / (n - 1) < 0", "n > 9", "!is_last",
)
BEFORE = ([], ["step 12"], ["break 13", "continue", "delete"])


def run(width, number):
    prompt = Prompt(SOURCE, NAME, width=width)
    first = prompt.here()
    lines = [*BEFORE[number], *(f"when {letter}{text}" for text in ASKED for letter in ("", "-a ")), "info line"]
    return meant(f"asked in frames, {width} lanes, {number}", SOURCE, prompt, first, lines, [prompt.shown_for(line) for line in lines])


def runs():
    return [run(width, number) for width in WIDTHS for number in range(len(BEFORE))]
