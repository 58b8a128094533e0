"""Must-fail edits: wrong bodies that a clause must refuse, several in one check where they change the bodies of different functions.

A function's proof rests on the contracts of the others and not on their bodies, so a body that is refused beside other wrong bodies is
refused alone. Functions of one cycle have one proof: of them one is edited at a time. An edit of which a check of several cannot tell is
tried alone.

Refused means refused at a clause: a goal of a function that the edit changes is not proved, in the prover's words 'it is not proved that'
what the function ensures, a call requires or an invariant says holds there. Nothing else counts: not what the borrow checker does not
cover, a text that cannot be read, a limit of the prover, or a proof that names what went. Where a written answer no longer proves its
goal, that may be the answer's fault: the edit is tried once more without that answer, and the prover must leave the goal open.
"""

import dataclasses
import os
import re
import shutil
import signal
import tempfile

from toolchain import rt, rtlib

NOT_PROVED = "it is not proved that "
FALSE_AT = "the facts known there allow values at which this goal is false"
NOT_COVERED = "does not cover this function yet"
NAME_WENT = re.compile(r"has no field|is not in scope|has no `|was not admitted")
AT = re.compile(r"(?:note: )?(?:\./)?(\S+?):(\d+):\d+: (.*)")
UNCOVERED = re.compile(rf"fn \S+: no proof: .*?{NOT_COVERED}: (?:\./)?(\S+?):(\d+):\d+: (.*)")
ANSWER = re.compile(r"error: `([^`\s]+)`: ")


@dataclasses.dataclass(frozen=True)
class Body:
    """A function: its file, name and lines with its attributes, the cycle that it is in, and the type whose method it is."""

    file: str
    name: str
    first: int
    last: int
    cycle: str
    owner: str

    def key(self):
        """What only one edit of a check may change."""
        return self.cycle or (self.file, self.first)

    def has_goal(self, path, line):
        """Whether this line of a source or this proof is about the function."""
        if path == self.file:
            return self.first <= line <= self.last
        module = os.path.splitext(self.file)[0].removeprefix("src/")
        inside = path.startswith("proofs/" if module == "lib" else f"proofs/{module}/")
        # (a method's proofs stand in a folder of its type, or its type and trait, under the module of the type, which may be another)
        is_method = self.owner and re.match(rf"proofs/.*\b{self.owner}\w*/{self.name}/", path)
        return bool(is_method) or (inside and any(f"/{it}/" in f"/{path}" for it in (self.name, f"+{self.cycle}")))


@dataclasses.dataclass(frozen=True)
class Message:
    """What the prover said of a place: the file and line, and its words in one line."""

    file: str
    line: int
    said: str

    def is_about(self, bodies):
        return not bodies or any(it.has_goal(self.file, self.line) for it in bodies)

    def leaves_a_goal(self):
        """Whether a goal of a function is not proved."""
        return self.file.startswith("src/") and self.said.startswith(NOT_PROVED)

    def answer(self):
        """Returns the goal whose written answer does not prove it, or None."""
        found = ANSWER.match(self.said)
        return found[1] if found and os.path.basename(self.file) == "Answers.antt" and not NAME_WENT.search(self.said) else None

    def __str__(self):
        return f"{self.file}:{self.line}: {self.said[:300]}"


def messages_in(said):
    """Returns the messages that name a place; the lines that a message goes on in are indented."""
    whole = re.sub(r"\n[ \t]+", " ", said).split("\n")
    found = [("", AT.match(it)) for it in whole] + [(f"{NOT_COVERED}: ", UNCOVERED.match(it)) for it in whole]
    return [Message(it[1], int(it[2]), before + " ".join(it[3].split())) for before, it in found if it]


def bodies_in(file, text):
    """Returns the bodies of the functions of a source as the formatter lays it out, by their lines from 1 on."""
    lines, found, cycle, owner = text.split("\n"), [], "", ""
    for at, line in enumerate(lines):
        begins = re.match(r"(?:unsafe )?impl\b(?:.*\bfor)?[^{]*?(\w+)(?:<[^{]*>)?(?:\s*(?:where\b.*)?\{.*)?$", line)
        owner = begins[1] if begins else "" if line.startswith("}") else owner
        named = re.match(r"\s*#\[cycle\((\w+)\)\]", line)
        cycle = named[1] if named else cycle
        begun = re.match(r"(\s*)(?:pub(?:\(\w+\))? )?(?:const |unsafe )*fn (\w+)", line)
        if not begun:
            continue
        ends = next((i for i in range(at, len(lines)) if lines[i] == f"{begun[1]}}}"), None)
        if ends is not None:
            opens = next((i for i in range(at, ends) if lines[i] == f"{begun[1]}{{"), None)
            opens = next(i for i in range(at, ends) if lines[i].endswith("{")) if opens is None else opens
            first = next(i for i in range(at, -1, -1) if i == 0 or not lines[i - 1].lstrip().startswith("#["))
            found.append((Body(file, begun[2], first + 1, ends + 1, cycle, owner), opens + 1))
        cycle = ""
    return found


def bodies_changed(folder, texts):
    """Returns the functions whose bodies these texts change, or None where they change anything else."""
    changed = set()
    for file, text in texts.items():
        with open(f"{folder}/{file}", encoding="utf-8") as it:
            old = it.read()
        lines = [at for at, (a, b) in enumerate(zip(old.split("\n"), text.split("\n")), 1) if a != b]
        bodies = bodies_in(file, old) if file.startswith("src/") else []
        for line in lines:
            inside = [body for body, opens in bodies if opens < line < body.last]
            if not inside:
                return None
            changed.add(inside[-1])
    return changed or None


def batches(crate, edits):
    """Returns the edits in lists that may be tried in one check, each with the bodies that it changes; one that changes more is alone."""
    changes, alone = {}, []
    for edit in edits:
        texts, why = rt.read_edit(edit, crate.folder)
        bodies = None if why else bodies_changed(crate.folder, texts)
        if bodies is None:
            alone.append([(edit, set())])
        else:
            changes[edit] = bodies
    return together(changes) + alone


def together(changes):
    """Spreads edits evenly over as few lists as it finds, so that no two of a list change one body: first those that meet the most others."""
    keys = {edit: {it.key() for it in bodies} for edit, bodies in changes.items()}
    meets = {edit: sum(not mine.isdisjoint(it) for it in keys.values()) for edit, mine in keys.items()}
    made = []
    for edit in sorted(changes, key=lambda it: -meets[it]):
        fits = [it for it in made if all(keys[edit].isdisjoint(keys[other]) for other, _ in it)]
        if not fits:
            fits = [[]]
            made += fits
        min(fits, key=len).append((edit, changes[edit]))
    return made


def applied(crate, batch):
    """Returns the texts of the files with all edits of a batch made, or none and why they cannot be made."""
    made = {}
    with tempfile.TemporaryDirectory(prefix="edits-") as room:
        for part in rtlib.PARTS:
            if os.path.isdir(f"{crate.folder}/{part}"):
                shutil.copytree(f"{crate.folder}/{part}", f"{room}/{part}")
        for edit, _ in batch:
            texts, why = rt.read_edit(edit, room)
            if why:
                return None, why
            made.update(texts)
            for path, text in texts.items():
                with open(f"{room}/{path}", "w", encoding="utf-8") as it:
                    it.write(text)
    return made, None


def without_answer(text, goal):
    """Returns a text of answers without the one to a goal; where the name is only what answers cite, without any."""
    is_goal = re.search(rf"^(?:pub )?{re.escape(goal)} : goal\.", text, re.M)
    goals = [goal] if is_goal else re.findall(r"^(?:pub )?(\S+) : goal\.", text, re.M)
    for it in goals:
        text = re.sub(rf"^(?:pub )?{re.escape(it)}\s.*\n(?:[ \t)}}].*\n|\n)*", "", text, flags=re.M)
    return text


def without_answers(crate, texts, failing):
    """Returns these texts and those of the files of answers without the answers to some goals: each a pair of a file and a goal."""
    made = dict(texts)
    for file, goal in failing:
        if file not in made:
            with open(f"{crate.folder}/{file}", encoding="utf-8") as it:
                made[file] = it.read()
        made[file] = without_answer(made[file], goal)
    return made


def why_unheard(ran, texts):
    """Returns why what a check said tells nothing of a clause, or None where it tells which goals are not proved."""
    lines = ran.stdout.rstrip("\n").split("\n")
    unread = next((it for it in lines if rt.unread(it, texts)), None)
    if ran.returncode == 0:
        return "NOT REFUSED: the crate is still proved with it (one that means the same as before is to be removed)"
    if unread:
        return f"it cannot be read: {unread[:300]}"
    if rtlib.STALE.search(ran.stdout):
        return "the kept work of a library could not be used"
    if ran.returncode != 1 or not lines[-1].startswith("logic=not-proved"):
        limit = next((it for it in lines if rt.LIMITS.search(it)), "")
        return f"its check ended with status {ran.returncode} and no verdict{f', at a limit: {limit[:300]}' if limit else ''}"
    return None


class Trial:
    """The check of a crate with the edits of a batch made and without some written answers, and what it says of each edit."""

    def __init__(self, crate, batch, jobs, kept, left_out=frozenset()):
        self.crate, self.jobs, self.kept = crate, jobs, kept
        self.texts, self.why = applied(crate, batch)
        self.messages = self.check(without_answers(crate, self.texts, left_out)) if self.texts else []

    def check(self, texts):
        """Returns the messages of a check with these texts, none where it tells nothing of a clause."""
        ran = rt.checked(self.crate, texts, self.jobs, self.kept)
        if ran.returncode == -signal.SIGKILL:  # most likely for memory
            ran = rt.checked(self.crate, texts, self.jobs, self.kept)
        self.why = why_unheard(ran, self.texts)
        return [] if self.why else messages_in(ran.stdout)

    def open_goal(self, bodies):
        """Returns the message of a goal of these bodies that is not proved, first of one at which values are known that make it false."""
        found = [it for it in self.messages if it.leaves_a_goal() and it.is_about(bodies)]
        return next((it for it in found if FALSE_AT in it.said), found[0] if found else None)

    def failing_answers(self, bodies):
        """Returns the written answers of these bodies that do not prove their goals."""
        return {(it.file, it.answer()) for it in self.messages if it.answer() and it.is_about(bodies)}

    def why_not(self, bodies):
        """Returns why what was said does not count as a refusal of these bodies."""
        told = [it for it in self.messages if it.is_about(bodies)]
        for words, why in ((NOT_COVERED, "the borrow checker does not cover it"), (NAME_WENT.pattern, "a proof names what went")):
            found = next((it for it in told if re.search(words, it.said)), None)
            if found:
                return f"{why}: {found}"
        return self.why or f"no goal of the function is left open{f': {told[0]}' if told else ''}"


def tried(crate, batch, jobs, kept):
    """Tries the edits of a batch over kept work; returns each edit, whether a clause refuses it, and what was said."""
    trial, refused = Trial(crate, batch, jobs, kept), {}
    first = {edit: trial.open_goal(bodies) for edit, bodies in batch}
    refused.update({edit: f"refused: {it}" for edit, it in first.items() if it})
    failing = {edit: trial.failing_answers(bodies) for edit, bodies in batch if not first[edit]}
    why = {edit: trial.why_not(bodies) for edit, bodies in batch}
    again = [(edit, bodies) for edit, bodies in batch if failing.get(edit)]
    if again:
        # (those that are refused already are not checked once more: what is not proved takes longest)
        second = Trial(crate, again, jobs, kept, set().union(*(failing[edit] for edit, _ in again)))
        for edit, bodies in again:
            found, goals = second.open_goal(bodies), ", ".join(sorted(goal for _, goal in failing[edit]))
            refused.update({edit: f"refused, without the answer to {goals}: {found}"} if found else {})
            why[edit] = f"without the answer to {goals}: {second.why_not(bodies)}"
    answers = [(edit, True, f"must-fail {crate.name}/{os.path.basename(edit)}: {said}") for edit, said in refused.items()]
    for edit, bodies in batch:
        if edit not in refused and len(batch) > 1:
            answers += tried(crate, [(edit, bodies)], jobs, kept)
        elif edit not in refused:
            answers.append((edit, False, f"must-fail {crate.name}/{os.path.basename(edit)}: does not count: {why[edit]}"))
    return answers
