"""What a program says of itself by `--help`: its purpose, its arguments, its options and its verbs, as lists."""

import pathlib
import re
import subprocess
import sys

ROOT = pathlib.Path(__file__).resolve().parents[1]
PROGRAMS = ("rinddecade", "ispc_cli")
ENTRY = re.compile(r"^  (.*?\S)(?:  +(\S.*))?$")
CHOICES = re.compile(r" \[possible values: ([^]]*)\]")


class Option:
    """An option: its words, the name of its value if it takes one, what it does, and the values that it may have, if these are listed."""

    def __init__(self, words, text):
        names, _, value = words.partition(" <")
        self.names = names.split(", ")
        self.value = value.removesuffix(">") or None
        listed = CHOICES.search(text)
        self.choices = listed[1].split(", ") if listed else []
        self.text = CHOICES.sub("", text)

    @property
    def long(self):
        return next(name for name in self.names if name.startswith("--"))


class Help:
    """What a program, or one of its verbs, says by `--help`."""

    def __init__(self, text):
        head, *sections = re.split(r"\n\n(?=Usage: |Arguments:\n|Options:\n|Commands:\n)", text.rstrip("\n"))
        self.about, self.behind = head, ""
        self.usage, self.arguments, self.options, self.verbs = "", [], [], []
        for section in sections:
            name, _, rest = section.partition(":")
            rest, _, behind = rest.partition("\n\n")
            self.behind = behind or self.behind
            if name == "Usage":
                self.usage = rest.strip()
            else:
                entries = [ENTRY.match(line).groups() for line in rest.strip("\n").splitlines()]
                self.add(name, [(words.strip(), text or "") for words, text in entries])

    def add(self, name, entries):
        if name == "Commands":
            self.verbs = entries
        elif name == "Arguments":
            self.arguments = [(words.strip("<>. []"), text) for words, text in entries]
        else:
            self.options = [Option(words, text) for words, text in entries]


def help_of(program, *words):
    """What a program says, or a verb of it."""
    ran = subprocess.run([program, *words, "--help"], env={}, stdin=subprocess.DEVNULL, capture_output=True, check=True)
    return Help(ran.stdout.decode())


def verbs_of(program, help_text):
    """What each verb says, by its name."""
    return {name: help_of(program, name) for name, _ in help_text.verbs if name != "help"}


def write_files(folder, files):
    """Writes into a folder of the repository what a call makes of each program, of those that the command names or of the quick builds."""
    paths = sys.argv[1:] or [ROOT / f"crates/{name}/out/quick" for name in PROGRAMS]
    if len(paths) != len(PROGRAMS):
        sys.exit(f"it takes two programs: {', '.join(PROGRAMS)}")
    (ROOT / folder).mkdir(exist_ok=True)
    for name, path in zip(PROGRAMS, paths):
        for file, text in files(name, str(pathlib.Path(path).resolve())).items():
            (ROOT / folder / file).write_text(text, encoding="utf-8")
            print(f"{folder}/{file}")
