"""That the judgement of messages finds something: messages that came, of which one member or the order is turned, are all refused."""

import copy

from .protocol import STANDS, MOVES, faults, judged
from .tried import Result

# Members that are found to be missing: those of any message, and those of bodies.
HEADS = {("response", it) for it in ("seq", "type", "request_seq", "success", "command")} | {("event", it) for it in ("seq", "type", "event")}
NEEDED = {
    ("setBreakpoints", "breakpoints"), ("setBreakpoints", "breakpoints.verified"), ("setDataBreakpoints", "breakpoints"),
    ("setFunctionBreakpoints", "breakpoints"), ("setFunctionBreakpoints", "breakpoints.verified"),
    ("setDataBreakpoints", "breakpoints.verified"), ("breakpointLocations", "breakpoints"), ("breakpointLocations", "breakpoints.line"),
    ("dataBreakpointInfo", "dataId"), ("dataBreakpointInfo", "description"), ("exceptionInfo", "exceptionId"), ("exceptionInfo", "breakMode"),
    ("threads", "threads"), ("threads", "threads.id"), ("threads", "threads.name"), ("stackTrace", "stackFrames"),
    ("stackTrace", "stackFrames.id"), ("stackTrace", "stackFrames.name"), ("stackTrace", "stackFrames.line"), ("stackTrace", "stackFrames.column"),
    ("scopes", "scopes"), ("scopes", "scopes.name"), ("scopes", "scopes.variablesReference"), ("scopes", "scopes.expensive"),
    ("variables", "variables"), ("variables", "variables.name"), ("variables", "variables.value"), ("variables", "variables.variablesReference"),
    ("setVariable", "value"), ("setExpression", "value"), ("evaluate", "result"), ("evaluate", "variablesReference"),
    ("completions", "targets"), ("completions", "targets.label"), ("gotoTargets", "targets"), ("gotoTargets", "targets.id"),
    ("gotoTargets", "targets.label"), ("gotoTargets", "targets.line"), ("initialize", "exceptionBreakpointFilters.filter"),
    ("initialize", "exceptionBreakpointFilters.label"), ("stopped", "reason"), ("output", "output"), ("refused", "error.id"), ("refused", "error.format"),
}
# Needed members of what may be left out itself.
OPTIONAL = {it for it in NEEDED if it[0] in ("initialize", "refused")}
# Members whose words the protocol lists.
WORDED = {
    ("exceptionInfo", "breakMode"), ("scopes", "scopes.presentationHint"), ("variables", "variables.presentationHint.attributes"),
    ("dataBreakpointInfo", "accessTypes"), ("stopped", "reason"), ("output", "category"), ("invalidated", "areas"),
}
# Values of other types than one of a type.
OTHERS = {
    str: lambda value: [7, [value]],
    bool: lambda value: [int(value), str(value).lower()],
    int: lambda value: [str(value), value + 0.5, True],
    list: lambda value: [{}, None],
    dict: lambda value: [[], None, "x"],
    type(None): lambda value: [0, False],
}


# ---- members


def members(message):
    """The members and items of a message: whose they are, their names without the places in lists, their whole places and their values."""
    is_event = message["type"] == "event"
    owner = message["event"] if is_event else message["command"] if message["success"] else "refused"
    for place, value in places(message):
        names = [it for it in place if isinstance(it, str)]
        yield (owner if names[0] == "body" else message["type"], ".".join(names[1:]) or names[0]), place, value


def places(value, place=()):
    items = value.items() if isinstance(value, dict) else enumerate(value) if isinstance(value, list) else ()
    for name, it in items:
        yield (*place, name), it
        yield from places(it, (*place, name))


def turned(message, place, turn):
    """A message of which a part is changed by a call with what it stands in and its name there."""
    message = copy.deepcopy(message)
    inside = message
    for name in place[:-1]:
        inside = inside[name]
    turn(inside, place[-1])
    return message


def rename(inside, name):
    inside[f"{name}_"] = inside.pop(name)


def turns(key, place, value):
    """What is done to a member, each with a word for it."""
    for other in OTHERS[type(value)](value):
        yield f"is {other!r}", lambda inside, name: inside.__setitem__(name, other)
    if isinstance(place[-1], str):
        yield "has another name", rename
        if key in NEEDED | HEADS or key[1] == "body" and any(owner == key[0] for owner, _ in NEEDED - OPTIONAL):
            yield "is lost", lambda inside, name: inside.pop(name)
    if key in WORDED and isinstance(value, str):
        yield "is another word", lambda inside, name: inside.__setitem__(name, f"{value}s")


def of_members(logs):
    """Each member that came is turned once in each way, and each that is needed came."""
    why, seen = [], set()
    for message in (it for log in logs for is_told, it in log if is_told):
        for key, place, value in members(message):
            if (key, type(value)) not in seen:
                seen.add((key, type(value)))
                how = turns(key, place, value)
                why += [f"{key} {what}, and it is not found" for what, turn in how if not faults(turned(message, place, turn))]
    came = {key for key, _ in seen}
    why += [f"{owner} {name} never came" for owner, name in sorted((NEEDED | HEADS | WORDED) - came)]
    return Result("what is turned in a message is found", not why, why)


# ---- their order


def told(log):
    """The places of a log where something is told."""
    return [at for at, (is_told, _) in enumerate(log) if is_told]


def changed(log, at, **members):
    return [*log[:at], (True, {**log[at][1], **members}), *log[at + 1 :]]


def numbered(log):
    """A log whose messages are numbered anew."""
    count, found = 0, []
    for is_told, message in log:
        count += is_told
        found.append((is_told, {**message, "seq": count} if is_told else message))
    return found


def stops_first(log):
    """Logs in which a program is told to stand before its move is answered."""
    answered = [at for at in told(log)[:-1] if log[at][1].get("success") and log[at][1]["command"] in MOVES]
    for at in answered:
        behind = next((it for it in told(log) if it > at), None)
        if behind is not None and log[behind][1].get("event") in STANDS:
            yield numbered([*log[:at], log[behind], *log[at:behind], *log[behind + 1 :]])


def orders(log):
    """Logs whose messages are not in order, each with a word for what is wrong."""
    for at in told(log):
        message = log[at][1]
        yield "a message is lost", [*log[:at], *log[at + 1 :]]
        yield "a message comes twice", [*log[: at + 1], *log[at:]]
        yield "a number is left out", changed(log, at, seq=message["seq"] + 1)
        if message["type"] == "response":
            yield "a response is lost", numbered([*log[:at], *log[at + 1 :]])
            yield "a response comes twice", numbered([*log[: at + 1], *log[at:]])
            yield "a response is that of another request", changed(log, at, request_seq=message["request_seq"] + 1)
            yield "a response is that of the request before", changed(log, at, request_seq=message["request_seq"] - 1)
            yield "a response is that of another command", changed(log, at, command=message["command"] + "s")
        elif message["event"] in STANDS:
            yield "a stop comes twice", numbered([*log[: at + 1], *log[at:]])
    yield from (("a stop comes before its move is answered", it) for it in stops_first(log))


def of_order(log):
    """Each message of a log is lost, doubled or misnamed once, and this is found."""
    why = sorted({f"{what}, and it is not found" for what, turned in orders(log) if not judged(turned)})
    return Result("what is turned in the order of messages is found", not why, why)
