"""What `rt try` says of a crate's tests, and of the runs of a program."""

import pathlib
import re
import tempfile

from .calls import called

# A test or a run ends in far less; a busy machine may take longer than the tool's own limit of 60.
SECONDS = "300"


class Result:
    """One thing that passed or failed, and why it failed."""

    def __init__(self, name, passed, why=()):
        self.name, self.passed, self.why = name, passed, list(why)


class Run:
    """A run of a program, and what it is to give.

    What is wanted of its output and of standard error is bytes, or a call that says what is wrong with what came, or None where
    anything will do. Its data are the files that lie where it runs, each as a path or as its bytes. Its memory is the most that it is
    to find, in bytes, to which a built program alone is held.
    """

    def __init__(self, name, stdin=b"", arguments=(), output=b"", errors=None, status=0, data=None, memory=None):
        self.name, self.stdin, self.arguments = name, stdin, list(arguments)
        self.output, self.errors, self.status = output, errors, status
        self.data, self.memory = data or {}, memory

    def judged(self, status, output, errors):
        why = [] if status == self.status else [f"status {status}, and {self.status} is wanted"]
        why += differences("standard output", output, self.output)
        why += differences("standard error", errors, self.errors)
        return Result(self.name, not why, why)


def differences(what, came, wanted):
    if wanted is None:
        return []
    if callable(wanted):
        return [f"{what}: {line}" for line in wanted(came)]
    return [] if came == wanted else [f"{what}:", *shown(came), "wanted:", *shown(wanted)]


def shown(text):
    return ["| " + line for line in text.decode(errors="backslashreplace").splitlines()]


def tests(crate):
    """A result for each test of a crate."""
    said, status = said_of_tests(crate.folder)
    found = results(crate, said)
    return found + [ended_badly(status, said)] if status and all(it.passed for it in found) else found


def said_of_tests(folder):
    """What is said of the tests of the crate in a folder, and the status."""
    output, errors, status = called(["rt", "try", "--test", "--seconds", SECONDS], folder)
    return (output + errors).decode(errors="replace"), status


def ran(said, before=""):
    """The names of the tests that ran, of those that begin so, and how each ended."""
    return re.findall(rf"^test {before}(\S+) \.\.\. (\w+)", said, re.M)


def results(crate, said, before=""):
    """A result for each test of a crate, whose names begin so."""
    found = [Result(name, how == "ok", lines_of(said, before + name)) for name, how in ran(said, before)]
    missing = crate.tests - len(found)
    return found + all_failed([f"{missing} tests did not run"] * missing, said)


def ended_badly(status, said):
    return Result(f"rt try ended with status {status}", False, said.strip().splitlines()[-12:])


def all_failed(names, said):
    """A failed result for each name, of which the first one tells why."""
    end = said.strip().splitlines()[-12:]
    return [Result(name, False, [] if number else end) for number, name in enumerate(names)]


def lines_of(said, name):
    """What the tests' output has on a test, or all of it where its name stands nowhere else."""
    lines = said.strip().splitlines()
    about = [line for line in lines if name in line]
    return about + [line for line in lines if not line.startswith("test ")][:11]


def stored_run(crate):
    """The run that stands beside a program's source, as the merge gate runs it."""
    def kept(name):
        file = crate.folder / name
        return file.read_bytes() if file.is_file() else b""

    folder = crate.folder / "data"
    data = {it.relative_to(folder).as_posix(): it for it in folder.rglob("*") if it.is_file()} if folder.is_dir() else {}
    arguments = kept("args").decode().splitlines()
    return [Run("stored", kept("stdin"), arguments, kept("stdout"), None, int(kept("status") or b"0"), data)]


def runs(crate, wanted):
    """A result for each run of a program, which is built once."""
    with tempfile.TemporaryDirectory(prefix="runs-") as folder:
        words, names = ["rt", "try", "--seconds", SECONDS, "--cases", folder], []
        data = {}
        for number, run in enumerate(wanted):
            name = f"{number:03}"
            names.append(name)
            pathlib.Path(folder, name).write_bytes(run.stdin)
            if run.arguments:
                pathlib.Path(folder, name + ".args").write_text("".join(f"{it}\n" for it in run.arguments))
            data.update(run.data)
        with tempfile.TemporaryDirectory(prefix="data-") as files:
            for name, file in data.items():
                words += ["--data", f"{name}={laid(file, files, name)}"]
            output, errors, status = called(words, crate.folder)
    outputs = parts(output, names, lambda name: f"== {name}\n".encode(), is_before=True)
    said = parts(errors, names, lambda name: f"case={name} ".encode(), is_before=False)
    if any(name not in said for name in names):
        return all_failed(["the runs did not end"] * len(wanted), errors.decode(errors="replace"))
    return [judged_case(run, outputs.get(name, b""), *said[name]) for name, run in zip(names, wanted)]


def laid(file, folder, name):
    """The path of a file that is given as its path or as its bytes."""
    if not isinstance(file, bytes):
        return file
    path = pathlib.Path(folder, name)
    path.parent.mkdir(parents=True, exist_ok=True)
    path.write_bytes(file)
    return path


def judged_case(run, output, errors, line):
    ended = re.search(rb"run=ended status=(\d+)", line)
    if not ended:
        return Result(run.name, False, shown(line + errors))
    return run.judged(int(ended[1]), output, errors)


def parts(text, names, mark, is_before):
    """What stands after the line of each name and before the next, or, with that line, before it and after the one before."""
    found, at, last = {}, 0, None
    for line_at, line in lines_at(text):
        name = next((it for it in names if line.startswith(mark(it))), None)
        if name is None or name in found:
            continue
        if is_before:
            if last is not None:
                found[last] = text[at:line_at]
            at, last = line_at + len(line), name
        else:
            found[name] = (text[at:line_at], line)
            at = line_at + len(line)
    if is_before and last is not None:
        found[last] = text[at:]
    return found


def lines_at(text):
    at = 0
    for line in text.splitlines(keepends=True):
        yield at, line
        at += len(line)
