"""Manual pages and completions: they are what the tools make of a built program; groff reads the pages without a warning; bash completes the
verbs, the options of each, the values that are listed, files and numbers. And what is installed is all there, and all goes again."""

import pathlib
import shutil
import subprocess
import sys
import tempfile

TOOLS = pathlib.Path(__file__).resolve().parents[1]
sys.path.insert(0, str(TOOLS))

import completions
import installed
import manuals

from .tried import Result, differences

PROGRAMS = ("ispc_cli", "rinddecade")
SHELLS = {"bash": "*.bash", "zsh": "_*", "fish": "*.fish"}
# What is typed, and what bash completes its last word by, among files go.ispc, go.input and a folder sub.
TYPED = {
    "rinddecade ": {"debug", "picture", "explain", "adapter", "help", "--help", "--version"},
    "rinddecade de": {"debug"},
    "rinddecade help pi": {"picture"},
    "rinddecade debug --hi": {"--history"},
    "rinddecade debug --width ": {"4", "8", "16"},
    "rinddecade debug --width = 1": {"16"},
    "rinddecade debug --color a": {"auto", "always"},
    "rinddecade debug go.is": {"go.ispc"},
    "rinddecade debug ": {"go.ispc", "go.input", "sub"},
    "rinddecade debug --input go.in": {"go.input"},
    "rinddecade debug --entry ": set(),
    "rinddecade picture --f": {"--force", "--from"},
    "rinddecade picture --to g": {"go.ispc", "go.input"},
    "rinddecade port go.is": {"go.ispc"},
    "rinddecade page --el": {"--elements"},
    "rinddecade page --a": {"--around"},
    "rinddecade explain S1": {"S1", "S10", "S11", "S12", "S13"},
    "ispc_cli --la": {"--lane-pure"},
    "ispc_cli --width ": {"4", "8", "16"},
    "ispc_cli go.is": {"go.ispc"},
}
HAS_MORE = {"rinddecade "}  # other verbs may come


def of_program(root, name, built):
    """Whether the stored files are what the tools make of a built program."""
    found = []
    for module, tool in ((manuals, "make_manuals"), (completions, "make_completions")):
        for file, text in module.files(name, str(built)).items():
            path = root / module.FOLDER / file
            stored = path.read_bytes() if path.is_file() else b""
            found.append(Result(f"{module.FOLDER}/{file} is what tools/{tool} writes", stored == text.encode(), differences("the file", stored, text.encode())))
    return found


def check(root):
    """What needs no program."""
    return pages(root) + syntax(root) + completed(root) + [all_installed(root)]


def pages(root):
    if shutil.which("groff") is None:
        return []
    found = []
    for page in sorted((root / manuals.FOLDER).glob("*.1")):
        ran = subprocess.run(["groff", "-man", "-Tascii", "-ww", page], capture_output=True)
        found.append(Result(f"groff reads {page.name} without a warning", ran.returncode == 0 and not ran.stderr and page.stem.encode() in ran.stdout, [ran.stderr.decode()]))
    return found


def syntax(root):
    """Each shell that is here reads its files."""
    found = []
    for shell, ends in SHELLS.items():
        for file in sorted((root / completions.FOLDER).glob(ends)) if shutil.which(shell) else ():
            ran = subprocess.run([shell, "-n", file], capture_output=True)
            found.append(Result(f"{shell} reads {file.name}", (ran.returncode, ran.stderr) == (0, b""), [ran.stderr.decode()]))
    return found


def completed(root):
    if shutil.which("bash") is None:
        return []
    with tempfile.TemporaryDirectory(prefix="completed-") as folder:
        for name in ("go.ispc", "go.input"):
            pathlib.Path(folder, name).touch()
        pathlib.Path(folder, "sub").mkdir()
        return [completes(root, folder, typed, wanted) for typed, wanted in TYPED.items()]


def completes(root, folder, typed, wanted):
    """Whether bash completes the last word of a line by these: the function that `complete` names is called as bash calls it."""
    name, *rest = typed.split(" ")
    words = " ".join(f"'{word}'" for word in (name, *rest))
    script = f"""source '{root / completions.FOLDER / name}.bash'
complete -p {name} > /dev/null || exit 1
COMP_WORDS=({words}) COMP_CWORD={len(rest)}
_{name} && true
printf '%s\\n' "${{COMPREPLY[@]}}"
"""
    ran = subprocess.run(["bash", "--norc", "-c", script], cwd=folder, capture_output=True)
    came = set(ran.stdout.decode().split())
    is_right = ran.returncode == 0 and not ran.stderr and (came >= wanted if typed in HAS_MORE else came == wanted)
    return Result(f"bash completes {typed!r}", is_right, [f"it completes {sorted(came)}, {ran.stderr.decode()}"])


def all_installed(root):
    """All that is installed is as it is here, and all of it goes again."""
    why = []
    with tempfile.TemporaryDirectory(prefix="installed-") as folder:
        prefix = pathlib.Path(folder)
        other = prefix / "share/man/man1/other.1"
        other.parent.mkdir(parents=True)
        other.write_bytes(b"another page\n")
        for name in PROGRAMS:
            installed.put_program(__file__, name, prefix)
        for _ in range(2):  # the second time over the first
            installed.put_files(root, prefix)
        why += [f"{to} is not as it is here" for file, to in installed.files(root).items() if (prefix / to).read_bytes() != file.read_bytes()]
        why += [f"no {path}" for path in ("share/man/man1/rinddecade.1", "share/man/man1/ispc_cli.1") if not (prefix / path).is_file()]
        why += [f"no {path}" for path in ("share/bash-completion/completions/rinddecade", "share/zsh/site-functions/_rinddecade") if not (prefix / path).is_file()]
        why += [f"no {path}" for path in ("share/fish/vendor_completions.d/rinddecade.fish", "share/rinddecade/rinddecade.words") if not (prefix / path).is_file()]
        ran = subprocess.run(["sh", "-n", prefix / "bin" / installed.PROMPT], capture_output=True)
        why += [f"{installed.PROMPT}: {ran.stderr.decode()}"] if ran.returncode else []
        installed.remove(root, prefix, PROGRAMS)
        why += [f"{path} is left" for path in prefix.rglob("*") if path.is_file() and path != other]
        why += [] if other.is_file() else ["another program's page is gone"]
    return Result("what is installed is all there, and goes again", not why, why)
