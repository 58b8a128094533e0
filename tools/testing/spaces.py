"""The built program in address spaces of each size, from too small to enough: it says `memory`, or does what it does with ample memory.

The system limits its addresses as `ulimit -v` does, from the moment on at which it begins, with 1 MB of stack taken: of neither what the system
loads nor the stack can a program say that the system refused it.
"""

import pathlib
import subprocess
import tempfile

from . import examples, hostile, large
from .calls import go_on
from .tried import SECONDS, Result

# Bytes beyond those which a program begins with: none, and from 4 KB to 256 MB each larger than the one before by the same ratio.
SIZES = [0, *(int(2 ** (12 + number / 2)) for number in range(33))]
STACK = 1 << 20
MOST_HISTORY = ["--history", "65536", "--width", "16"]
GROWTH = b"step\nset record full insn-number-max 65536\nundo\n"
REFUSED_GROWTH = (0, b"at 3:5 go depth 1 lanes 1111111111111111\nC12 Memory\nundone step: at 2:5 go depth 1 lanes 1111111111111111\n", b"")
LARGE = ("sums of 256 operators", "functions", "calls", "arrays")


class Space:
    """A run of the program that is made in address spaces of each size, in a folder that has its files."""

    def __init__(self, name, program, failing, folder, words, commands):
        self.name, self.call, self.folder, self.commands = name, [program, *words], folder, commands
        self.failing = failing

    def ended(self, **variables):
        go_on()
        environment = {"LD_PRELOAD": self.failing, **{name: str(value) for name, value in variables.items()}}
        how = {"cwd": self.folder, "env": environment, "input": self.commands, "capture_output": True, "timeout": float(SECONDS)}
        ran = subprocess.run(self.call, **how)
        return ran.returncode, ran.stdout, ran.stderr

    def result(self, *others):
        """At each size it says `memory`, or ends as with ample memory, or as one of the others; without any it says `memory`."""
        whole, came = self.ended(), {size: self.ended(ADDRESS_BYTES=size, STACK_BYTES=STACK) for size in SIZES}
        why = [f"{size} bytes: {it!r}" for size, it in came.items() if it not in (hostile.MEMORY, whole, *others)]
        few, enough = (sum(it == wanted for it in came.values()) for wanted in (hostile.MEMORY, whole))
        why += [] if whole[0] == 0 else [f"with ample memory: {whole!r}"]
        why += [] if few and enough else [f"{few} sizes are too small, and {enough} are enough"]
        return Result(f"{self.name}: {few} of {len(came)} sizes without memory", not why, why)


def without(words, option):
    """The words but for an option and its value."""
    return [it for number, it in enumerate(words) if option not in words[max(number - 1, 0) : number + 1]]


def of_examples(root):
    """Each example with the longest history and most lanes: its name, words and commands, and the files that it has."""
    for name in examples.names(root):
        words, data = examples.with_input(name, examples.input_of(root, name))
        words = [f"{name}.ispc", *without(examples.arguments(root, name), "--history"), *words, *MOST_HISTORY]
        commands = (root / f"examples/{name}.commands").read_bytes()
        yield name, words, commands, data | {f"{name}.ispc": root / f"examples/{name}.ispc"}


def of_large_texts():
    """Sources of as many bytes as one may have."""
    for name, text, _ in large.shapes():
        if name in LARGE:
            yield f"{len(text)} bytes of {name}", ["large.ispc"], b"step\n", {"large.ispc": text.encode()}


def tasks(root, program, failing):
    """For each run its address spaces."""
    growing = ("a history limit that grows to the most", ["growing.ispc", "--width", "16"], GROWTH, {"growing.ispc": hostile.GROWING})

    def of_run(name, words, commands, data, *others):
        def done():
            with tempfile.TemporaryDirectory(prefix="spaces-") as folder:
                for file, content in data.items():
                    pathlib.Path(folder, file).write_bytes(content if isinstance(content, bytes) else content.read_bytes())
                return [Space(name, program, failing, folder, words, commands).result(*others)]

        return done

    larges = [of_run(*it) for it in of_large_texts()]
    return [*larges, of_run(*growing, REFUSED_GROWTH), *(of_run(*it) for it in of_examples(root))]
