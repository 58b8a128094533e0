"""What is installed below a folder: programs, manual pages, completions, the editors' files, and a command for the prompt with line editing."""

import pathlib
import shutil

PROMPT = "rinddecade-debug"
PROMPT_TEXT = """#!/bin/sh
# `rinddecade debug` with line editing, where the terminal can: rlwrap keeps a history of lines and completes files and commands. Pages are as
# high as the terminal.
LINES=${LINES:-$(tput lines 2> /dev/null || echo 24)}
export LINES
folder=$(dirname "$(readlink -f "$0")")
if [ "${TERM:-dumb}" != dumb ] && command -v rlwrap > /dev/null; then
    exec rlwrap -c -b '[]=' -f "$folder/../share/rinddecade/rinddecade.words" "$folder/rinddecade" debug "$@"
fi
exec "$folder/rinddecade" debug "$@"
"""
# Where the files of a folder of the repository go, by the ends of their names.
PLACES = [
    ("manuals", "*.1", "share/man/man1", lambda name: name),
    ("completions", "*.bash", "share/bash-completion/completions", lambda name: name.removesuffix(".bash")),
    ("completions", "_*", "share/zsh/site-functions", lambda name: name),
    ("completions", "*.fish", "share/fish/vendor_completions.d", lambda name: name),
    ("completions", "*.words", "share/rinddecade", lambda name: name),
]
OWN = "share/rinddecade"  # a folder of ours alone
EDITORS = f"{OWN}/editors"


def files(root):
    """Where each file of the repository goes, below the prefix."""
    found = {}
    for folder, ends, to, named in PLACES:
        found.update({file: f"{to}/{named(file.name)}" for file in sorted((root / folder).glob(ends))})
    editors = root / "editors"
    found.update({file: f"{EDITORS}/{file.relative_to(editors)}" for file in sorted(editors.rglob("*")) if file.is_file() and "out" not in file.parts})
    return found


def put(text, path, mode):
    """Writes a file in the place of one that may be there and in use."""
    path.parent.mkdir(parents=True, exist_ok=True)
    new = path.with_name(path.name + ".new")
    new.write_bytes(text)
    new.chmod(mode)
    new.replace(path)


def put_program(file, name, prefix):
    """Puts a build of a program where it is called by its name, and says where."""
    put(pathlib.Path(file).read_bytes(), prefix / "bin" / name, 0o755)
    return prefix / "bin" / name


def put_files(root, prefix):
    """Puts all but the programs."""
    put(PROMPT_TEXT.encode(), prefix / "bin" / PROMPT, 0o755)
    for file, to in files(root).items():
        put(file.read_bytes(), prefix / to, 0o644)


def remove(root, prefix, programs):
    """Takes all away that is installed, and the folders that have nothing else in them and are ours alone."""
    for path in [*(f"bin/{name}" for name in (*programs, PROMPT)), *files(root).values()]:
        (prefix / path).unlink(missing_ok=True)
    shutil.rmtree(prefix / OWN, ignore_errors=True)
