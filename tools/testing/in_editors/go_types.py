"""The table of the protocol's types that `make test` holds messages to, beside those of Go's package: python3 go_types.py SCHEMATYPES

Each member that Go's types know is in the table, and is needed in both or in none. The table knows a later state of the protocol, which has more
members. The status is 0 where they agree.
"""

import pathlib
import re
import sys

sys.path.insert(0, str(pathlib.Path(__file__).resolve().parents[2]))

from testing.protocol_types import EVENTS, RESPONSES, TYPES

# The types that have another name in Go.
NAMES = {"Completion": "CompletionItem", "Filter": "ExceptionBreakpointsFilter", "Message": "ErrorMessage", "VariableHint": "VariablePresentationHint"}
# What the protocol lets an adapter leave out since then.
LOOSER = {("Message", "showUser"), ("Resumed", "allThreadsContinued")}
STRUCT, MEMBER = re.compile(r"^type (\w+) struct \{\n(.*?)^\}", re.M | re.S), re.compile(r'`json:"(\w+)(,omitempty)?"`')


def structs(text):
    """The types of Go's package: of each member whether it is needed."""
    return {name: {member: not may_lack for member, may_lack in MEMBER.findall(body)} for name, body in STRUCT.findall(text)}


def pairs(given):
    """The types of the table, each with its name in Go, where it has one there."""
    for command, name in RESPONSES.items():
        yield name, f"{command[0].upper()}{command[1:]}ResponseBody"
    for event, name in EVENTS.items():
        yield name, f"{event[0].upper()}{event[1:]}EventBody"
    for name in TYPES:
        yield name, NAMES.get(name, name)


def wrong(given):
    """Where the table and Go's types differ, and how many types were compared."""
    found, compared = [], [it for it in pairs(given) if it[1] in given]
    for name, other in compared:
        members = {it.rstrip("?"): not it.endswith("?") for it in TYPES[name]}
        found += [f"{name} has no {member}" for member in given[other] if member not in members]
        for member in members.keys() & given[other].keys():
            if members[member] != given[other][member] and (name, member) not in LOOSER:
                found.append(f"{name}.{member} is needed in one of both")
    return found, len({name for name, _ in compared})


def main():
    found, count = wrong(structs(pathlib.Path(sys.argv[1]).read_text(encoding="utf-8")))
    print(*found, f"{count} of {len(TYPES)} types are compared", sep="\n")
    sys.exit(1 if found or count < len(TYPES) - 4 else 0)


main()
