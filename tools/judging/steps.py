"""How a crate is judged: its text and proofs, its tests, and the run of a program. What a landing calls passed is what these answer."""

import os
import re
import shutil

from toolchain import rt, rtlib

KEPT = "incremental"
# (each further job of a check loads anew what lies below; the processors are for the checks of other crates, where there are any)
JOBS = ["--jobs", "1"]
BUILT = ["--toolchain", f"{rt.KIT}/toolchain"]
OVER = ["--incremental", f"out/{KEPT}"]
# A verdict of the toolchain's gate takes nothing from earlier checks. Here the crate's own kept work counts, and nothing else does.
rtlib.VERDICT = re.compile(rtlib.VERDICT.pattern.replace(r"\n\Z", r"( incremental=trusted)?\n\Z"), re.M)


def why_refused(crate, crates):
    """Returns why the gate refuses the crate's text before any proof, or None."""
    try:
        rtlib.stop_on_links(crate.folder)
        rtlib.stop_on_unread(crate.folder, crates)
        rtlib.stop_on_text(crate, "verdict")
        rt.stop_on_words(crate)
    except SystemExit:
        return "its text is refused"
    code = rtlib.code_of(crate.folder)
    if re.search(rt.RENAMES, code):
        return "it renames std, or takes it whole"
    if re.search(rt.IGNORED, code):
        return "it has a test under #[ignore]"
    for handle, words in rt.REACHES.items():
        if handle not in crate.allowed and re.search(words, code):
            return f"it names what only the handle {handle} reaches"
    return "run rt fmt in the crate's folder" if rtlib.fmt(crate.folder, "--check", crate.out) else None


def words_of(crate, jobs=1, **more):
    """Returns the words of a check of a crate by so many jobs, which changes no verdict."""
    return crate.words([JOBS[0], str(jobs)], keeps=False, **more)


def library(crate, jobs):
    """Whether a library is proved over its kept work, by so many jobs. It is built, for the crates above it."""
    folder = os.path.dirname(crate.rlib)
    shutil.rmtree(folder, ignore_errors=True)
    os.makedirs(folder)
    return not crate.prove(["build", *words_of(crate, jobs), *OVER, "-o", crate.rlib])


def program(crate, jobs):
    """Whether a program is proved over its kept work, by so many jobs. LLVM builds it."""
    to = f"out/{crate.name}"
    words = [*words_of(crate, jobs), *OVER, *BUILT]
    return not (crate.prove(["build", *words, "--backend", "llvm", "-o", f"{to}.o"]) or crate.link(f"{to}.o", to))


def tests(crate):
    """Whether the crate's tests are proved over its kept work, and pass."""
    to = f"out/{crate.name}_tests"
    words = [*words_of(crate, tests=True), *OVER, *BUILT]
    if crate.prove(["build", *words, "--backend", "llvm", "-o", f"{to}.o"]) or crate.link(f"{to}.o", to):
        return False
    return rt.run(crate, True)


def run(crate):
    """Whether a proved program, as LLVM built it and as the toolchain's own compiler builds it here, writes what it must."""
    to = f"{crate.folder}/out/{crate.name}"
    for it in rt.BACKENDS.values():
        if it and os.path.isfile(to + it):
            os.remove(to + it)
    if not os.path.isfile(to):
        print("what LLVM built of it is gone", file=crate.out)
        return False
    if crate.compile_by("rattle", [*words_of(crate), *OVER, *BUILT], f"out/{crate.name}"):
        return False
    return all([rt.run(crate, False, it) for it in rt.BACKENDS.values() if os.path.isfile(to + it)])
