"""The answers that are stored in this repository, judged by tools/meaning: another working out of what sources and commands mean.

Sessions, examples, worked rows, the tables of the pages and the runs that fault, but for refusals of sources and inputs, for reports, and where
memory is short.
"""

import pathlib
import sys

sys.dont_write_bytecode = True
sys.path.insert(0, str(pathlib.Path(__file__).resolve().parents[1]))

from meaning.debugging import Debugger

from . import answers, commands, examples, faults, refusal_page, sessions, worked_rows
from .tried import Result, differences

NUMBERS = ("width", "history", "steps")


def read(content):
    return content if isinstance(content, bytes) else content.read_bytes()


def rows_of(text):
    """The rows of an input: the values of each name."""
    rows = {}
    for line in text.splitlines():
        if line.strip() and not line.startswith("#"):
            name, _, values = line.partition("=")
            rows[name.strip()] = [value_of(it) for it in values.split()]
    return rows


def options_of(words, given):
    """The options of the meaning of a run with these words and this input, if there is one."""
    rows = {"rows": rows_of(given.decode())} if given else {}
    return rows | ({"entry": words[words.index("--entry") + 1]} if "--entry" in words else {})


def value_of(text):
    return int(text == "true") if text in ("true", "false") else int(text, 16 if "x" in text else 10)


def asked(run):
    """The source, the commands, and the options of a run."""
    named, source, words = {}, None, iter(run.arguments)
    for word in words:
        if word.startswith("--"):
            named[word.removeprefix("--")] = next(words)
        else:
            source = read(run.data[word])
    commands = run.stdin
    if source is None:
        source, _, commands = commands.partition(b"\n%%\n")
    options = {it: int(named[it]) for it in NUMBERS if it in named} | ({"entry": named["entry"]} if "entry" in named else {})
    rows = rows_of(read(run.data[named["input"]]).decode()) if "input" in named else {}
    return source.decode(), commands.decode().removesuffix("\n").split("\n"), options | {"rows": rows}


def answered(run):
    """The answers to the commands of a run, as the meaning has them."""
    source, commands, options = asked(run)
    return "".join(f"{line}\n" for answer in Debugger(source, **options).answers(commands) for line in answer)


def judged(run):
    """Whether a run's stored answers are those of the meaning."""
    why = differences("by the meaning", answered(run).encode(), run.output)
    return Result(f"{run.name}, by the meaning", not why, why)


def is_run(run):
    return run.status == 0 and run.memory is None and isinstance(run.output, bytes) and not {"--lane-pure", "--help"} & set(run.arguments)


def check(root):
    """A result for each stored run whose answers say what a source means."""
    found = [it for module in (sessions, examples, worked_rows, answers, commands, refusal_page) for it in module.runs(root)] + faults.runs()
    return [judged(it) for it in found if is_run(it)]
