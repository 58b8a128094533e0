"""The rows of tools/refusals, as runs of the program: sources with the refusal of their names or types, or without one."""

import importlib.util
import re

from .tried import Run

NO_ENTRY = b"entry: E1 NoEntry\n"
NO_ROW = b"input: I2 Missing "


def tables(root):
    """The tables of tools/refusals/table.py, each as its name and its rows: a source, its refusal and a note."""
    spec = importlib.util.spec_from_file_location("table", root / "tools/refusals/table.py")
    module = importlib.util.module_from_spec(spec)
    spec.loader.exec_module(module)
    return [(name, rows) for name, _, rows in module.TABLES]


def begins_with(start):
    return lambda text: [] if text.startswith(start) else [f"{text.decode()!r} does not begin with {start.decode()!r}"]


def run_of(name, source, refusal):
    file = f"{name.replace(' ', '-')}.ispc"
    data = {file: source.encode()}
    if refusal is not None:
        number, line, column = refusal.split()
        return Run(name, b"step\n", [file], b"", begins_with(f"{line}:{column}: {number} ".encode()), 2, data)
    entry = re.search(r"\bexport [\w ]+\(([^)]*)\)", source)
    if entry is None:
        return Run(name, b"", [file], b"", NO_ENTRY, 2, data)
    if entry[1].strip() in ("", "void"):
        return Run(name, b"", [file], b"", b"", 0, data)
    return Run(name, b"", [file], b"", begins_with(NO_ROW), 2, data)


def runs(root):
    return [run_of(f"{name} {number}", source, refusal) for name, rows in tables(root) for number, (source, refusal, _) in enumerate(rows)]
