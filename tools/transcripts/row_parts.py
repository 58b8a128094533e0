"""What a worked row is: a name, what it shows, and sources with their runs."""

import re
from dataclasses import dataclass, field


@dataclass
class Run:
    """One run of a source: its input, its entry if one is named, its options, and the commands with their answers; or its report."""

    script: list
    input: str = ""
    entry: str = ""
    width: int = 4
    history: int = 64
    steps: int = 1000000
    refusal: str = ""
    report: list = field(default_factory=list)

    def commands(self):
        return "".join(command + "\n" for command, _ in self.script)

    def transcript(self):
        text = "".join(line + "\n" for line in [self.refusal, *self.report] if line)
        for _, answer in self.script:
            for line in [answer] if isinstance(answer, str) else answer:
                text += re.sub(r"\[(\d+:\d+) ([01]+)\]", r"at \1 go depth 1 lanes \2", line) + "\n"
        return text


@dataclass
class Row:
    """A file of rows: what they show, and the sources with their runs; and whether the definitions compute their answers too."""

    name: str
    shows: str
    parts: list
    is_computed: bool = True


def refused(text, input=""):
    return Run([], input=input, refusal=text)


def refused_at(marked, refusal):
    """A source that is refused at the place of its mark `@`, which is no part of it."""
    before, after = marked.split("@")
    line, column = before.count("\n") + 1, len(before) - (before.rfind("\n") + 1) + 1
    return before + after, [refused(f"{line}:{column}: {refusal}")]
