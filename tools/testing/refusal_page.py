"""docs/REFUSALS.md: it has each refusal and fault of the tables of the other pages, with a cure, and each of its examples is run.

An example is a source, which is a block with a brace; an input, which is a block without one; and either a table of commands with their
answers, or a call with what the program writes on standard error, which is a block that begins with `$ `. A call that writes nothing is that
of the table under it.
"""

import re
import shlex

from . import answers
from .tried import Result, Run

PAGE = "docs/REFUSALS.md"
OTHERS = ("docs/LANGUAGE.md", "docs/COMMANDS.md")
NAMED = re.compile(r"\b[A-Z]\d+ [A-Z]\w+")
CALL = re.compile(r"\$ (?:ulimit -v (\d+); )?ispc_cli (.*)")
SOURCE, INPUT = "go.ispc", "go.input"


class Page(answers.Reader):
    """The page, with the calls that are refused, and the text under each heading."""

    def __init__(self, root):
        self.calls, self.texts = [], {}
        super().__init__(root, PAGE)

    def read(self, line):
        super().read(line)
        self.texts[self.heading] = self.texts.get(self.heading, "") + line + "\n"

    def take(self, text):
        if text.startswith("$ "):
            self.take_call(*text.split("\n", 1))
        elif "{" in text:
            self.show(text)
        else:
            self.input_text = text.encode()

    def take_call(self, line, written):
        call = CALL.fullmatch(line)
        if call is None:
            self.faults.append(f"{self.heading}: this is no call of the program: {line}")
            return
        self.memory = int(call[1]) << 10 if call[1] else None
        words = shlex.split(call[2])
        if written:
            self.calls.append(self.refused(words, written.encode()))
        elif words[0] == SOURCE:
            self.options = words[1:]
        else:
            self.faults.append(f"{self.heading}: a call above a table begins with {SOURCE}")

    def refused(self, words, written):
        """The run of a call that is refused."""
        source = self.source.encode()
        data = {SOURCE: source} if self.input_text is None else {SOURCE: source, INPUT: self.input_text}
        name, is_script = f"{self.page}, {self.heading}", words == ["<", SOURCE]
        return Run(name, source if is_script else b"", [] if is_script else words, b"", written, 2, data, self.memory)

    def written(self, heading):
        """What the examples under a heading write."""
        of_calls = [run.errors.decode() for run in self.calls if run.name == f"{self.page}, {heading}"]
        return of_calls + [line for table in self.tables if table.heading == heading for line in table.answers]

    def why_not(self, name):
        """What the page lacks of a refusal or fault."""
        if name not in self.texts:
            return [f"there is no heading {name}"]
        why = [] if any(name in it for it in self.written(name)) else ["no example writes it"]
        return why + ([] if "\nCure: " in self.texts[name] else ["there is no cure"])


def names(root):
    """The refusals and faults of the tables of the other pages."""
    texts = [(root / it).read_text(encoding="utf-8") for it in OTHERS]
    return dict.fromkeys(name for text in texts for line in text.splitlines() if line.startswith("|") for name in NAMED.findall(line))


def check(root):
    """A result for each refusal and fault, and one for the page: it has no others, and its examples are what they are to be."""
    page, wanted = Page(root), names(root)
    results = [Result(f"{PAGE}: {name}", not why, why) for name in wanted for why in [page.why_not(name)]]
    why = page.faults + [f"no table has {it}" for it in page.texts if NAMED.fullmatch(it) and it not in wanted]
    return [*results, Result(f"{PAGE}: its examples", not why, why)]


def runs(root):
    page = Page(root)
    return page.calls + [it.run() for it in page.tables]
