"""Runs that are drawn by chance, from a command line: so many of them, or the one of a number again."""

import argparse
import sys


def main(many, results):
    """Draws what the command line asks for, says what failed, and ends. The call gives the results of a program's words and of some numbers."""
    options = argparse.ArgumentParser()
    options.add_argument("--seed", type=int)
    options.add_argument("--many", type=int, default=many)
    options.add_argument("command", nargs=argparse.REMAINDER)
    given = options.parse_args()
    found = results(given.command, range(given.many) if given.seed is None else [given.seed])
    for result in (it for it in found if not it.passed):
        print(result.name, *result.why, sep="\n    ")
    print(f"{sum(it.passed for it in found)} of {len(found)} passed")
    sys.exit(not all(it.passed for it in found))
