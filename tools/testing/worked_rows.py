"""The worked rows of tools/transcripts, as runs of the program; and each front of the first one's source."""

import importlib.util

from .tried import Run


def rows(root):
    """The rows of tools/transcripts/rows.py."""
    spec = importlib.util.spec_from_file_location("rows", root / "tools/transcripts/rows.py")
    module = importlib.util.module_from_spec(spec)
    spec.loader.exec_module(module)
    return module.ROWS


def options(run):
    named = [("--width", run.width, 4), ("--history", run.history, 64), ("--steps", run.steps, 1000000), ("--entry", run.entry, "")]
    words = [word for name, value, usual in named if value != usual for word in (name, str(value))]
    return words + (["--lane-pure"] if run.report else [])


def run_of(name, source, run):
    stem = name.replace(" ", "-")
    words, data = [f"{stem}.ispc", *options(run)], {f"{stem}.ispc": source.encode()}
    if run.input:
        words += ["--input", f"{stem}.input"]
        data[f"{stem}.input"] = run.input.encode()
    if run.refusal:
        return Run(name, b"step\n", words, b"", f"{run.refusal}\n".encode(), 2, data)
    return Run(name, run.commands().encode(), words, run.transcript().encode(), b"", data=data)


def is_cut_short(text):
    return [] if text.endswith(b": S3 Unexpected\n") else [f"{text.decode()!r} is no S3 Unexpected"]


def fronts(source):
    """The source without its end: it has no entry where nothing is left, and else no tree."""
    for end in range(len(source)):
        file, why = f"front-{end}.ispc", is_cut_short if end else b"entry: E1 NoEntry\n"
        yield Run(f"a front of {end} bytes", b"step\n", [file], b"", why, 2, {file: source[:end].encode()})


def runs(root):
    found = list(fronts(rows(root)[0].parts[0][0]))
    for row in rows(root):
        parts = [(source, run) for source, given in row.parts for run in given]
        found += [run_of(f"row {row.name} {number}", source, run) for number, (source, run) in enumerate(parts, 1)]
    return found
