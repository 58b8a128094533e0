"""The sessions of sessions/*.session: sources with options, and what the program answers to each command, or why it refuses the source.

A session begins with `=== NAME`, or `=== NAME | OPTIONS`. The source follows, without the last LF. Then either a line `%%` and commands
behind `> `, each with the lines of its answer under it, or the text of the refusal behind `!!! `. Blank lines may stand at its end.
"""

from .tried import Result, Run

HEAD, COMMANDS, COMMAND, REFUSAL = "=== ", "%%", "> ", "!!! "


class Session:
    """A session: its name, the options, the source, its commands, the answers, both as they are written, and the refusal if there is one."""

    def __init__(self, file, number, lines):
        head, _, options = lines[0].removeprefix(HEAD).partition(" | ")
        self.name, self.options = f"{file.stem}: {head}", options.split()
        self.source_name = f"{file.stem}-{number:03}.ispc"
        ends = next((at for at, line in enumerate(lines) if line == COMMANDS or line.startswith(REFUSAL)), None)
        self.is_whole = ends is not None
        said = lines[ends + 1 :] if self.is_whole else []
        self.source = "\n".join(lines[1:ends]).encode()
        self.refusal = lines[ends].removeprefix(REFUSAL) if self.is_whole and lines[ends] != COMMANDS else None
        self.said = "".join(f"{it}\n" for it in said)
        self.commands = lines_as_bytes(it.removeprefix(COMMAND) for it in said if it.startswith(COMMAND))
        self.answers = lines_as_bytes(it for it in said if not it.startswith(COMMAND))

    def run(self):
        words, data = [self.source_name, *self.options], {self.source_name: self.source}
        if self.refusal is None:
            return Run(self.name, self.commands, words, self.answers, b"", data=data)
        return Run(self.name, b"step\n", words, b"", f"{self.refusal}\n".encode(), 2, data)


def lines_as_bytes(lines):
    return "".join(f"{line}\n" for line in lines).encode()


def sessions(root):
    """All sessions, in the order of their files."""
    found = []
    for file in sorted((root / "sessions").glob("*.session")):
        texts = ("\n" + file.read_text(encoding="utf-8")).split("\n" + HEAD)[1:]
        found += [Session(file, number, (HEAD + text).rstrip("\n").split("\n")) for number, text in enumerate(texts)]
    return found


def check(root):
    """A result for each session: it has commands or a refusal, and no other has its name."""
    found = sessions(root)
    names = [it.name for it in found]
    why = ["it has neither commands nor a refusal, or its name is there twice"]
    return [Result(it.name, it.is_whole and names.count(it.name) == 1, why) for it in found]


def runs(root):
    return [it.run() for it in sessions(root)]
