"""A program without the sanitizer of its memory, which takes no more addresses than it needs, and about the time of a proved one.

It is made from the code that rt try makes the program from. The kit's compiler reads this code, and the system's links it.
"""

import concurrent.futures
import pathlib
import shutil
import threading

from . import built
from .calls import called

WAITED = 3600  # seconds for the code, which is there once the program is built


class Plain:
    """A program in a folder, which is made when it is first asked for, once its code is there."""

    def __init__(self, folder):
        self.folder, self.code = pathlib.Path(folder), concurrent.futures.Future()
        self.lock, self.made = threading.Lock(), None

    def take(self, folder):
        """Keeps the code that lies in a folder, or knows that none comes."""
        if self.code.done():
            return
        found = folder and built.code_of(folder)
        if found:
            shutil.copyfile(found, self.folder / built.CODE)
        self.code.set_result(found is not None)

    def program(self):
        """The path of the program, and why it is not there if it is not."""
        is_there = self.code.result(WAITED)
        with self.lock:
            if self.made is None:
                self.made = linked(self.folder) if is_there else (None, [f"rt try leaves no {built.CODE} to make the program from"])
            return self.made


def linked(folder):
    """The program that the code in a folder makes, and why there is none if there is none."""
    kit, to, object_file = pathlib.Path(shutil.which("rt")).resolve().parents[1], folder / "program", "program.o"
    flags = ["--target=x86_64-unknown-linux-gnu", "-march=x86-64", "--no-default-config", "-fPIE", "-O1", "-mllvm", "-trap-unreachable"]
    compiled = [kit / "toolchain/bin/clang", *flags, "-c", "-x", "ir", built.CODE, "-o", object_file]
    joined = ["cc", "-pie", "-o", to, object_file, kit / "c/libos_c.a", kit / "c/liblibc_c.a", "-lm"]
    for words in (compiled, joined):
        try:
            output, errors, status = called([str(it) for it in words], folder)
        except OSError as fault:
            return None, [str(fault)]
        if status:
            return None, (output + errors).decode(errors="replace").splitlines()
    return to, []
