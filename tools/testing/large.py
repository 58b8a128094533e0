"""The built program on large texts: sources of 65,536 bytes of each shape, each compiled in time that grows as they do; reports of chains of
calls; an input of a million values; and a million command lines, answered in little memory.

A source takes half a second of the processor at most, with its report too, and the input two.
"""

import os
import pathlib
import resource
import subprocess
import tempfile

from .calls import ended_early, go_on
from .tried import Result

MOST_BYTES = 65_536
SECONDS, ROUNDS = 0.5, 3
MOST_SECONDS = 600  # of the processor, after which a run is ended
PART, LEAST_SECONDS = 4, 0.004  # a source of a quarter of the bytes takes a quarter of the time, where that can be told
MOST_VALUES, INPUT_SECONDS = 1 << 20, 2
LINES = b"step\nprint x\ninfo locals\nundo\n"
TURNS, MORE_SPACE = 250_000, 1 << 20  # of these lines; and the bytes that all may take beyond those of one
PAGE, MOST_SPACE = 1 << 12, 1 << 26
GO = "export void go() {\n"
EMPTY = "export void go() { }\n"


def repeated(most, head, piece, tail):
    """A source of at most so many bytes: as many pieces as fit, each made from its number."""
    text, number = head, 0
    while len(text) + len(piece(number)) + len(tail) <= most:
        text += piece(number)
        number += 1
    return text + tail


def short(number):
    """A name of capital letters, another one for each number."""
    return (short(number // 26 - 1) if number >= 26 else "") + chr(ord("A") + number % 26)


def shapes(most=MOST_BYTES):
    """Sources of at most so many bytes, each with its name and the refusal that it has, if it has one."""
    filled = lambda head, piece, tail: repeated(most, head, piece, tail)
    sum_of_256 = "x = " + "x + " * 256 + "1;\n"
    nested = "{" * 60 + "}" * 60 + "\n"
    parens = "x = " + "(" * 60 + "x" + ")" * 60 + ";\n"
    locals_of = "".join(f"int v{number}; " for number in range(200))
    overloads = "".join(f"void f({it} a, int b) {{ }}\n" for it in ("int8", "int16", "int", "int64"))
    labels_of = "".join(f"case {number}: " for number in range(255)) + "default: ; }\n"
    one_name = "x" * (most - 60)
    yield "assignments", filled(GO + "int x = 0;\n", lambda number: "x = x + 1;\n", "}\n"), b""
    yield "sums of 256 operators", filled(GO + "int x = 0;\n", lambda number: sum_of_256, "}\n"), b""
    yield "parentheses", filled(GO + "int x = 0;\n", lambda number: parens, "}\n"), b""
    yield "one expression", filled(GO + "int x = ", lambda number: "1  " if number == 0 else "+ 1" if number < 257 else " /**/", ";\n}\n"), b""
    yield "arguments of one call", filled("void f(int a) { }\n" + GO + "f(1", lambda number: ", 1", ");\n}\n"), b"3:1: S9 NoOverload\n"
    yield "blocks", filled(GO, lambda number: nested, "}\n"), b""
    yield "loops", filled(GO, lambda number: "while (false) ;\n", "}\n"), b""
    yield "calls", filled("int f(int x) { return x; }\n" + GO + "int x = 0;\n", lambda number: "x = f(x);\n", "}\n"), b""
    yield "labels", filled(GO, lambda number: f"switch ({number}) {{ {labels_of}", "}\n"), b""
    yield "functions", filled("", lambda number: f"void {short(number)}(){{}}", EMPTY), b""
    yield "overloads", filled(overloads, lambda number: f"void g{number}() {{ f((int8)1, 2); }}\n", EMPTY), b""
    yield "variables of the file", filled("", lambda number: f"int {short(number)};", EMPTY), b""
    yield "arrays", filled("", lambda number: f"uniform int a{number}[1];\n", EMPTY), b""
    yield "locals", filled("", lambda number: f"void f{number}() {{ {locals_of}}}\n", EMPTY), b""
    yield "one name", f"int {one_name};\n{EMPTY}", b""
    yield "comments", filled(EMPTY, lambda number: "// nothing\n", "\n"), b""
    yield "blanks", filled(EMPTY, lambda number: " ", "\n"), b""


def ended(words, commands, space=None, most=MOST_SECONDS):
    """The processor's seconds of a run, of which it has so many at most, its status, its output and its errors; in an address space of so many
    bytes, if they are given."""
    go_on()

    def limited():
        resource.setrlimit(resource.RLIMIT_CPU, (most, most))
        if space is not None:
            resource.setrlimit(resource.RLIMIT_AS, (space, space))

    with tempfile.TemporaryFile() as given, tempfile.TemporaryFile() as output, tempfile.TemporaryFile() as errors:
        given.write(commands)
        given.seek(0)
        streams = {"stdin": given, "stdout": output, "stderr": errors}
        process = subprocess.Popen(words, env={}, preexec_fn=limited, **streams)
        with ended_early(process):
            _, status, used = os.wait4(process.pid, 0)
        process.returncode = os.waitstatus_to_exitcode(status)
        for it in (output, errors):
            it.seek(0)
        return used.ru_utime + used.ru_stime, process.returncode, output.read(), errors.read()


def quickest(program, folder, text, refusal, rounds):
    """The least of the processor's seconds of some runs of a source, and why one of them did not end as it should."""
    file, seconds, why = pathlib.Path(folder, "large.ispc"), [], []
    file.write_text(text)
    for _ in range(rounds):
        spent, status, _, errors = ended([program, file], b"step\n")
        seconds.append(spent)
        why += [] if (status, errors) == (2 if refusal else 0, refusal) else [f"status {status}, {errors!r}"]
    return min(seconds), why


def compiled(program, folder, name, text, few, refusal):
    """A source is judged in half a second, and in twice the seconds at most that a part of it takes for as many bytes.

    Where it is not, it is tried again, and the least seconds count.
    """
    for rounds in (1, ROUNDS):
        (seconds, why), (less, _) = quickest(program, folder, text, refusal, rounds), quickest(program, folder, few, refusal, rounds)
        ratio = seconds / max(less, LEAST_SECONDS)
        why += [f"{seconds:.2f} seconds"] if seconds > SECONDS else []
        why += [f"{ratio:.1f} times the seconds of {len(few)} bytes"] if ratio > 2 * PART else []
        if not why:
            break
    return Result(f"{len(text)} bytes of {name}", not why, why)


def chains(most=MOST_BYTES):
    """Sources of functions of which each calls the next one, or the one before it, with the answer that all have: that of the last one called."""
    called = lambda number, other: f"int f{number}(int i){{ int x = f{other}(i); return x; }}\n"
    last = {"yes": "{ return i; }", "no": "{ return programCount; }"}
    for answer, body in last.items():
        back = repeated(most, f"int f0(int i){body}\n", lambda number: called(number + 1, number), EMPTY)
        count = back.count("return") - 1
        yield "backwards", answer, back
        yield "forwards", answer, "".join(called(it, it + 1) for it in range(count)) + f"int f{count}(int i){body}\n" + EMPTY


def reported(program, folder, name, answer, text):
    """The report of a chain of calls says the same of all its functions, in half a second."""
    file = pathlib.Path(folder, "chain.ispc")
    file.write_text(text)
    seconds, status, output, errors = ended([program, file, "--lane-pure"], b"")
    *lines, entry = output.decode().splitlines() or [""]
    is_right = (status, errors) == (0, b"") and len(lines) > 1000 and all(it.endswith(f": {answer}") for it in lines) and entry.endswith(" go: yes")
    why = [] if is_right and seconds <= SECONDS else [f"status {status}, {errors!r}, {len(lines)} lines, {seconds:.2f} seconds"]
    return Result(f"the report of {len(text)} bytes of calls {name}, all {answer}", not why, why)


def least_space(program, file):
    """The least address space, up to a page, in which the lines are answered once; and their answers."""
    _, status, once, _ = ended([program, file], LINES)
    few, enough = 0, MOST_SPACE
    while enough - few > PAGE:
        space = (few + enough) // 2
        if ended([program, file], LINES, space)[1:3] == (status, once):
            enough = space
        else:
            few = space
    return enough, once


def many_commands(program, folder):
    """A million lines, of 8 MB with their answers of 24 MB, in an address space 1 MB larger than the least in which four are answered."""
    file = pathlib.Path(folder, "first.ispc")
    file.write_text(GO + "int x = 3 * programIndex;\nx++;\n}\n")
    space, once = least_space(program, file)
    _, status, output, _ = ended([program, file], LINES * TURNS, space + MORE_SPACE)
    is_right = status == 0 and once.count(b"\n") == 4 and output == once * TURNS
    return Result("a million command lines", is_right, [f"status {status} in {space} bytes and 1 MB, {len(once)} and {len(output)} bytes"])


def inputs(program, folder):
    """As many values as an entry's arrays may have, the last of which is printed, read in two seconds; and one more: I4."""
    source, text = pathlib.Path(folder, "values.ispc"), pathlib.Path(folder, "values.input")
    source.write_text("export void go(uniform int8 a[]) { }\n")
    commands, words = b"print a[%d]\n" % (MOST_VALUES - 1), [program, source, "--input", text]
    text.write_bytes(b"a =" + b" 1" * (MOST_VALUES - 1) + b" 7\n")
    seconds, *most = ended(words, commands)
    text.write_bytes(b"a =" + b" 1" * (MOST_VALUES + 1) + b"\n")
    _, *many = ended(words, commands)
    why = [] if most == [0, b"a[%d] = 7\n" % (MOST_VALUES - 1), b""] else [f"{MOST_VALUES} values: {most!r}"]
    why += [] if many == [2, b"", b"input 1: I4 TooLarge\n"] else [f"{MOST_VALUES + 1} values: {many!r}"]
    why += [f"{seconds:.2f} seconds"] if seconds > INPUT_SECONDS else []
    return Result(f"an input of {MOST_VALUES} values, and of one more", not why, why)


def of(call, program, *more):
    """A task: what a call gives for a program in a folder."""

    def done():
        with tempfile.TemporaryDirectory(prefix="large-") as folder:
            return [call(program, folder, *more)]

    return done


def tasks(program):
    """A task for each source, and one for the inputs."""
    pairs = zip(shapes(), shapes(MOST_BYTES // PART))
    sources = [of(compiled, program, name, text, few, refusal) for (name, text, refusal), (_, few, _) in pairs]
    return [of(inputs, program), *sources, *(of(reported, program, *it) for it in chains())]
