#!/usr/bin/env python3
"""Writes rows of the crate tests_masks: where the masked run of a worked row's source stands after the steps of its commands."""

import pathlib
import re

from rows import ROWS

PROOFS = pathlib.Path(__file__).resolve().parents[2] / "crates/tests_masks/proofs"

# The worked rows with control flow, calls or foreach forms.
NAMES = """
ActiveInForeach BreakAndContinue BreakBeforeSibling CallInForeach ContinueInDo ContinueInFor ContinueWithoutUpdate DoEmptyBody ElseLanes
EmptyFunction ForeachRange ForeachRows IfWithoutLanes InactiveLanes IndexVariables LastForeachIndex Recursion Results ReturnInLoops
ReturnedLanesInForeach Switch SwitchWithoutLabel Tiles TilesOfEight TilesOfSixteen TilesOfThree UniqueAndActive
""".split()

HEAD = """-- {shows}
use Rattle.std.specs.Prelude.{{◌≡◌, refl, [], ◌∷◌, codes}}
use Rattle.std.specs.Fmt.{{digits}}
use Rattle.gang_types.specs.Values.{{value_of, residue, word_of, value_in, wrapped, binary_of}}
use Rattle.tests_transcripts.proofs.{name}.{{{sources}}}
use Rattle.tests_masks.proofs.MaskedRuns.{{places, stands}}
"""

PLACE = re.compile(r"(?:at |\[)(\d+):(\d+)(?: \w+ depth \d+ lanes)? ([01]+)\]?$")
STEPS = re.compile(r"step(?: (\d+))?$")
SHOWS_ONLY = ("print", "info", "backtrace")


def stops(script):
    """The steps of the first commands, up to one that is not a step or that shows something else, and where each stops."""
    found = []
    for command, answer in script:
        steps = STEPS.match(command)
        place = steps and isinstance(answer, str) and PLACE.match(answer)
        if place:
            found.append((int(steps.group(1) or 1), *place.groups()))
        elif not command.startswith(SHOWS_ONLY):
            break
    return found


def row_term(number, source, run):
    found = stops(run.script)
    if not found or run.input or run.entry:
        return ""
    steps = " ∷ ".join([str(it[0]) for it in found] + ["[]"])
    shown = " ∷ ".join([f'stands {line} {column} (codes "{lanes}")' for _, line, column, lanes in found] + ["[]"])
    return (
        f"\nrow_{number} : places {source} {run.width} ({steps})\n    ≡ {shown}\n"
        + f"unfolding digits value_of residue word_of value_in wrapped binary_of\nrow_{number} = refl\n"
    )


def main():
    for row in ROWS:
        if row.name not in NAMES:
            continue
        terms, sources, number = "", [], 0
        for index, (_, runs) in enumerate(row.parts):
            source = "source" if len(row.parts) == 1 else f"source_{index + 1}"
            for run in runs:
                term = row_term(number + 1, source, run)
                if term:
                    number += 1
                    terms += term
                    sources += [source] if source not in sources else []
        if terms:
            head = HEAD.format(shows=row.shows[0].upper() + row.shows[1:] + ".", name=row.name, sources=", ".join(sources))
            (PROOFS / f"{row.name}.antt").write_text(head + terms)
    names = sorted(path.stem for path in PROOFS.glob("*.antt") if path.stem != "Lib")
    (PROOFS / "Lib.antt").write_text("".join(f"pub mod {name}\n" for name in names))


main()
