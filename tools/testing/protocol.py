"""What is wrong with the messages of a debug adapter by the Debug Adapter Protocol: with each member of each of them, by the tables of
`protocol_types`, and with their order: which of them answers which request, and what has to follow."""

import json
import re

from .protocol_types import EVENT, EVENTS, REFUSAL, RESPONSE, RESPONSES, SCALARS, TYPES, WORDS

# What is answered before the program moves, and what tells that it stands still again.
MOVES = ("next", "stepIn", "stepOut", "stepBack", "continue", "reverseContinue", "goto", "restart", "configurationDone")
STANDS = ("stopped", "terminated")
# Behind whose response values may have changed though the program stands still.
SETS = ("setVariable", "setExpression", "evaluate")
# Behind whose response the program may be told to stand: `evaluate` where it does a line of the console, and `terminate`.
MOVES_OR_LINES = (*MOVES, "evaluate", "terminate")
# Of which requests each entry of a list is answered.
LISTS = {"setBreakpoints": "breakpoints", "setFunctionBreakpoints": "breakpoints", "setDataBreakpoints": "breakpoints"}
NAMED = re.compile(r"\{(\w+)\}")


# ---- a message


def faults(message):
    """What is wrong with the members of a message, each with its place."""
    kind = message.get("type") if isinstance(message, dict) else None
    if kind == "response":
        return faults_of_response(message)
    if kind == "event":
        return faults_of_event(message)
    return [f"neither a response nor an event: {message!r}"]


def faults_of_response(message):
    found = faults_of_members(message, RESPONSE, "response")
    if found:
        return found
    if not message["success"]:
        found = ([] if message.get("message") else ["a refusal has no message"]) + faults_of_body(message, REFUSAL)
        return found or unnamed_variables(message)
    if message["command"] not in RESPONSES:
        return [f"the unknown command {message['command']!r} succeeds"]
    return faults_of_body(message, RESPONSES[message["command"]]) + (["a response that succeeds has a message"] if "message" in message else [])


def faults_of_event(message):
    found = faults_of_members(message, EVENT, "event")
    if found:
        return found
    return faults_of_body(message, EVENTS[message["event"]]) if message["event"] in EVENTS else [f"an event {message['event']!r}"]


def faults_of_body(message, type_name):
    """The body may be left out where its type needs no member."""
    return faults_of(message.get("body", {}), type_name, message.get("event") or message["command"])


def unnamed_variables(message):
    """The format of an error names no variable that is not there."""
    error = message.get("body", {}).get("error", {})
    missing = set(NAMED.findall(error.get("format", ""))) - set(error.get("variables", {}))
    return [f"the format has no variable for {it}" for it in sorted(missing)]


def faults_of(value, type_name, place):
    """What is wrong with a value of a type."""
    if type_name.endswith("[]"):
        if not isinstance(value, list):
            return [f"{place} is {value!r} and no list"]
        return [it for number, item in enumerate(value) for it in faults_of(item, type_name[:-2], f"{place}[{number}]")]
    if type_name in TYPES:
        return faults_of_members(value, TYPES[type_name], place)
    return [] if any(is_one(value, it) for it in type_name.split("|")) else [f"{place} is {value!r} and no {type_name}"]


def is_one(value, name):
    """Whether a value is of a scalar's type, one of a list of words, or the word in quotes."""
    if name in SCALARS:
        return SCALARS[name](value)
    return isinstance(value, str) and value in (WORDS[name] if name in WORDS else (name.strip("'"),))


def faults_of_members(value, members, place):
    """What is wrong with an object: a member that is missing, that is not known, or that is of another type."""
    if not isinstance(value, dict):
        return [f"{place} is {value!r} and no object"]
    types = {name.rstrip("?"): type_name for name, type_name in members.items()}
    found = [f"{place} has no {it}" for it in members if not it.endswith("?") and it not in value]
    found += [f"{place} has an unknown member {it}" for it in value if it not in types]
    return found + [it for name in value if name in types for it in faults_of(value[name], types[name], f"{place}.{name}")]


# ---- their order


class Dialogue:
    """What was sent and told up to now, and what is wrong with it."""

    def __init__(self):
        self.asked = {}  # the requests that are not answered yet, by their numbers, in their order
        self.count = 0  # of the messages that were told
        self.last = ""  # the command of the last response
        self.is_moving = False  # a move has been answered, and where it came to is not told yet
        self.stands = False  # where it stands has been told since the last response
        self.frames, self.references, self.elements = set(), set(), {}
        self.hears, self.can_change = False, False  # whether the editor asks to hear of changes, and whether there may be one behind the last response

    def sent(self, request):
        self.asked[request["seq"]] = request
        if request["command"] == "initialize" and isinstance(request.get("arguments"), dict) and self.last == "":
            self.hears = request["arguments"].get("supportsInvalidatedEvent") is True

    def told(self, message):
        """What is wrong with the next message."""
        found = faults(message)
        self.count += 1
        if found:
            return found
        if message["seq"] != self.count:
            found.append(f"the message has the number {message['seq']} and is the {self.count}th")
        return found + (self.event(message) if message["type"] == "event" else self.response(message))

    def ended(self):
        """What is wrong where no message comes any more."""
        found = [f"{it['command']} is not answered" for it in self.asked.values()]
        return found + ([f"{self.last} is not told to stand"] if self.is_moving else [])

    def event(self, message):
        name, command = message["event"], self.last
        if name == "initialized" and command not in ("launch", "initialize"):
            return [f"initialized behind {command}"]
        if name == "invalidated":
            found = [] if self.hears and self.can_change else [f"{name} behind {command}" if self.hears else f"{name}, which was not asked for"]
            self.can_change = False
            return found
        if name not in STANDS:
            return []
        self.can_change = False
        self.frames, self.references, self.elements = set(), set(), {}
        found = [] if command in MOVES_OR_LINES else [f"{name} behind {command}"]
        found += [f"{name} a second time behind {command}"] if self.stands else []
        self.is_moving, self.stands = False, True
        return found

    def response(self, message):
        command, request = message["command"], self.asked.pop(message["request_seq"], None)
        if request is None:
            return [f"the response to {command} answers no request {message['request_seq']}, or one that was answered"]
        if request["command"] != command:
            return [f"the response to {command} answers a request {request['command']}"]
        found = [f"{self.last} is not told to stand before {command} is answered"] if self.is_moving else []
        self.last, self.stands = command, False
        self.can_change = message["success"] and command in SETS
        self.is_moving = message["success"] and command in MOVES
        arguments = request.get("arguments")
        arguments = arguments if isinstance(arguments, dict) else {}
        return found + (self.answer(command, arguments, message.get("body", {})) if message["success"] else self.refusal(command, arguments))

    def refusal(self, command, arguments):
        """What was told since the last stop has no reason to be refused."""
        given = {"scopes": ("frameId", self.frames), "variables": ("variablesReference", self.references)}.get(command)
        if given is None:
            return []
        number, page = arguments.get(given[0]), [arguments.get(it) for it in ("start", "count")]
        is_right = is_reference(number) and all(it is None or is_reference(it) for it in page) and isinstance(arguments.get("filter"), (str, type(None)))
        return [f"{command} of {arguments} is refused, which was told"] if is_right and number in given[1] else []

    def answer(self, command, arguments, body):
        """What is wrong with a body beside its members, by what was asked and told before."""
        if command in LISTS:
            return one_for_each(command, arguments, body[LISTS[command]])
        if command == "completions":
            return [it for target in body["targets"] for it in outside(arguments, target)]
        if command == "stackTrace":
            self.frames |= {it["id"] for it in body["stackFrames"]}
            return twice("frames", [it["id"] for it in body["stackFrames"]]) + too_many(arguments, body)
        if command == "scopes":
            self.references |= {it["variablesReference"] for it in body["scopes"]}
            return twice("scopes", [it["variablesReference"] for it in body["scopes"]])
        if command == "evaluate":
            self.references |= {body["variablesReference"]} - {0}
        if command == "variables":
            return self.children(arguments, body["variables"])
        return []

    def children(self, arguments, variables):
        """No more children are told than are asked for, and as many as an array has elements; their names differ."""
        found = twice("variables", [it["name"] for it in variables])
        start, count, all_of = arguments.get("start") or 0, arguments.get("count") or 0, self.elements.get(arguments["variablesReference"])
        if count and len(variables) > count:
            found.append(f"{len(variables)} children for {arguments}")
        if count and all_of is not None and arguments.get("filter") != "named" and len(variables) != max(0, min(count, all_of - start)):
            found.append(f"{len(variables)} elements of {all_of} for {arguments}")
        self.references |= {it["variablesReference"] for it in variables if it["variablesReference"]}
        self.elements.update({it["variablesReference"]: it["indexedVariables"] for it in variables if "indexedVariables" in it})
        return found


is_reference = SCALARS["reference"]


def too_many(arguments, body):
    """As many frames are told as are asked for and there are, from the place that is asked for on."""
    start, levels, total, told = arguments.get("startFrame") or 0, arguments.get("levels") or 0, body["totalFrames"], len(body["stackFrames"])
    left = max(total - start, 0)
    return [] if told == (min(left, levels) if levels else left) else [f"{told} frames of {total} for {arguments}"]


def twice(what, keys):
    return [f"two {what} are alike: {keys}"] if len(set(keys)) < len(keys) else []


def one_for_each(command, arguments, told):
    asked = arguments.get(LISTS[command])
    asked = asked if isinstance(asked, list) else []
    return [] if len(told) == len(asked) else [f"{command} of {len(asked)} is told {len(told)}"]


def outside(arguments, target):
    """What a completion takes the place of lies in the text before the cursor. Columns count units of UTF-16."""
    text, start, length = arguments["text"], target.get("start", 1), target.get("length", 0)
    units = min(len(text.encode("utf-16-le", "surrogatepass")) // 2, max(arguments["column"] - 1, 0))
    return [] if start - 1 + length <= units else [f"the completion {target} lies outside of {text!r}"]


def judged(log):
    """The first things that are wrong with a conversation."""
    dialogue = Dialogue()
    for is_told, message in log:
        if not is_told:
            dialogue.sent(message)
        elif why := dialogue.told(message):
            return [*why, f"in {json.dumps(message)[:300]}"]
    return dialogue.ended()
