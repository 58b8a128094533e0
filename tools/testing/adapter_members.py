"""What the Debug Adapter Protocol says of the members of each reply and event, of their types and of their values."""

import json
import re

TEXT, NUMBER, TRUTH, LIST, MEMBERS = str, int, bool, list, dict

# The members that each body must have, and those that it may have, with their types.
BODIES = {
    "initialize": ({}, {}),
    "launch": ({}, {}),
    "setBreakpoints": ({"breakpoints": LIST}, {}),
    "setFunctionBreakpoints": ({"breakpoints": LIST}, {}),
    "breakpointLocations": ({"breakpoints": LIST}, {}),
    "gotoTargets": ({"targets": LIST}, {}),
    "goto": ({}, {}),
    "setExceptionBreakpoints": ({}, {}),
    "exceptionInfo": ({"exceptionId": TEXT, "breakMode": TEXT}, {"description": TEXT, "details": MEMBERS}),
    "dataBreakpointInfo": ({"dataId": (TEXT, type(None)), "description": TEXT}, {"accessTypes": LIST, "canPersist": TRUTH}),
    "setDataBreakpoints": ({"breakpoints": LIST}, {}),
    "configurationDone": ({}, {}),
    "threads": ({"threads": LIST}, {}),
    "stackTrace": ({"stackFrames": LIST}, {"totalFrames": NUMBER}),
    "scopes": ({"scopes": LIST}, {}),
    "variables": ({"variables": LIST}, {}),
    "setVariable": ({"value": TEXT, "variablesReference": NUMBER}, {}),
    "setExpression": ({"value": TEXT, "variablesReference": NUMBER}, {}),
    "completions": ({"targets": LIST}, {}),
    "evaluate": ({"result": TEXT, "variablesReference": NUMBER}, {}),
    "next": ({}, {}),
    "stepIn": ({}, {}),
    "stepOut": ({}, {}),
    "stepBack": ({}, {}),
    "reverseContinue": ({}, {}),
    "continue": ({"allThreadsContinued": TRUTH}, {}),
    "restart": ({}, {}),
    "disconnect": ({}, {}),
    "terminate": ({}, {}),
}
CAPABILITIES = [
    "exceptionBreakpointFilters",
    "supportsBreakpointLocationsRequest",
    "supportsCompletionsRequest",
    "supportsConditionalBreakpoints",
    "supportsConfigurationDoneRequest",
    "supportsDataBreakpoints",
    "supportsDelayedStackTraceLoading",
    "supportsEvaluateForHovers",
    "supportsExceptionInfoRequest",
    "supportsFunctionBreakpoints",
    "supportsGotoTargetsRequest",
    "supportsHitConditionalBreakpoints",
    "supportsLogPoints",
    "supportsRestartRequest",
    "supportsSetExpression",
    "supportsSetVariable",
    "supportsStepBack",
    "supportsTerminateRequest",
    "supportsValueFormattingOptions",
]
EVENTS = {
    "initialized": ({}, {}),
    "terminated": ({}, {}),
    "invalidated": ({"areas": LIST}, {}),
    "output": ({"category": TEXT, "output": TEXT}, {}),
    "stopped": (
        {"reason": TEXT, "description": TEXT, "text": TEXT, "threadId": NUMBER, "allThreadsStopped": TRUTH},
        {"hitBreakpointIds": LIST},
    ),
}
ITEMS = {
    "breakpoints": ({"verified": TRUTH}, {"id": NUMBER, "line": NUMBER, "message": TEXT}),
    "threads": ({"id": NUMBER, "name": TEXT}, {}),
    "stackFrames": ({"id": NUMBER, "name": TEXT, "line": NUMBER, "column": NUMBER, "source": MEMBERS, "presentationHint": TEXT}, {}),
    "scopes": ({"name": TEXT, "variablesReference": NUMBER, "expensive": TRUTH}, {"presentationHint": TEXT}),
    "variables": ({"name": TEXT, "value": TEXT, "variablesReference": NUMBER}, {"type": TEXT, "evaluateName": TEXT, "indexedVariables": NUMBER, "presentationHint": MEMBERS}),
}

# The words of the protocol, of which the adapter uses these, and the greatest reference that it has room for.
HITS = ["breakpoint", "data breakpoint"]
REASONS = ["entry", "step", "exception", "pause", "goto", *HITS]
HINTS = ["locals", "arguments"]
# What a hint says of a variable, of one that is only looked at where it stands, and of a constant.
ATTRIBUTES = [[], ["readOnly"], ["constant", "readOnly"]]
ACCESSES = ["write"]
BREAK_MODES = ["never", "always", "unhandled", "userUnhandled"]
GREATEST = 2**31 - 1
THREAD = 1
# The requests that editors make by themselves, or whose refusal they show in the place of a value.
QUIET = ["breakpointLocations", "exceptionInfo", "dataBreakpointInfo", "stackTrace", "scopes", "variables", "completions", "evaluate"]
# A variable of the format of an error.
VARIABLE = re.compile(r"\{(\w+)\}")
# What stands behind the name and the value of a lane that is not active.
WAITS = " (waits)"


class Wrong(Exception):
    pass


def framed(message):
    """A message behind its head."""
    text = json.dumps(message).encode()
    return b"Content-Length: %d\r\n\r\n%s" % (len(text), text)


def need(holds, why):
    if not holds:
        raise Wrong(why)


def same(found, wanted):
    need(found == wanted, f"{found!r} and not {wanted!r}")


def need_members(what, given, needed, allowed):
    """An object has all the members that it needs and no others than it may have, each of its type."""
    need(isinstance(given, dict), f"{what} is {given!r} and no object")
    for name, kind in needed.items():
        need(name in given, f"{what} has no member {name}: {given}")
    for name, value in given.items():
        kind = needed.get(name) or allowed.get(name)
        need(kind is not None, f"{what} has a member {name}: {given}")
        is_truth_for_number = kind is NUMBER and isinstance(value, bool)
        need(isinstance(value, kind) and not is_truth_for_number, f"the member {name} of {what} is {value!r}")


def need_reference(what, value, least):
    need(least <= value <= GREATEST, f"the variablesReference of {what} is {value}")


def need_breakpoint(item):
    """A breakpoint has a number where it is there, and else a message says why it is not."""
    need(("id" in item) == item["verified"] and ("message" in item) != item["verified"], f"the breakpoint {item}")
    need(item.get("id", 1) >= 1 and item.get("line", 1) >= 1, f"the numbers of the breakpoint {item}")


def need_frame(item):
    """A frame has a place that counts from 1, and the path of its source with its last part as the name."""
    need(item["line"] >= 1 and item["column"] >= 1, f"the place of the frame {item}")
    need(item["presentationHint"] == "normal", f"the hint of the frame {item}")
    source = item["source"]
    need_members("the source of a frame", source, {"name": TEXT, "path": TEXT}, {})
    need(source["name"] == source["path"].rpartition("/")[2], f"the name of the source {source}")


def need_scope(item):
    need_reference("a scope", item["variablesReference"], 1)
    need(item.get("presentationHint", HINTS[0]) in HINTS, f"the hint of the scope {item}")


def need_variable(item):
    need_reference("a variable", item["variablesReference"], 0)
    is_marked = item["name"].endswith(WAITS)
    need(is_marked == item["value"].endswith(WAITS), f"the marks of the variable {item}")
    name = item["name"][: -len(WAITS)] if is_marked else item["name"]
    is_range = ".." in name
    is_of_expression = name.startswith("[")
    need_members("the hint of a variable", item["presentationHint"], {"attributes": LIST, "kind": TEXT}, {})
    need(item["presentationHint"]["attributes"] in ATTRIBUTES, f"the hint of the variable {item}")
    need(item["presentationHint"]["kind"] == ("virtual" if is_range else "data"), f"the kind of the variable {item}")
    need(("evaluateName" in item) != (is_range or is_of_expression) and item.get("evaluateName", name) == name, f"the variable {item}")
    need(not is_of_expression or item["presentationHint"]["attributes"] == ["readOnly"], f"the lane {item} can be set")
    is_array = item["type"].endswith("]")
    need(("indexedVariables" in item) == is_array, f"the number of the elements of {item}")
    need(not is_array or item["value"] == f"{item['indexedVariables']} elements", f"the elements of {item}")
    need(not is_range or item["variablesReference"] > 0, f"the range {item} has no elements")


# What holds of each item, beside the types of its members.
HOLDS = {"breakpoints": need_breakpoint, "stackFrames": need_frame, "scopes": need_scope, "variables": need_variable}
# The member by which no two items are alike.
DIFFERS = {"threads": "id", "stackFrames": "id", "scopes": "variablesReference", "variables": "name"}


def need_items(name, items):
    """Each item of a list of a reply has its members, and no two are alike."""
    for item in items:
        need_members(f"an item of {name}", item, *ITEMS[name])
        HOLDS.get(name, lambda it: None)(item)
    keys = [it[DIFFERS[name]] for it in items] if name in DIFFERS else []
    need(len(keys) == len(set(keys)), f"two of {name} are alike: {items}")


def need_stop(body, threads):
    """A stop is that of one of the threads, by a word of the protocol, with the breakpoint where it stands at one."""
    need(body["reason"] in REASONS, f"the reason is {body['reason']}")
    need(body["threadId"] in threads and body["allThreadsStopped"], f"not every thread has stopped: {body}")
    need(body["description"] == body["text"], f"two texts: {body}")
    hits = body.get("hitBreakpointIds", [])
    need(len(hits) == (body["reason"] in HITS) and all(type(it) is NUMBER for it in hits), f"the breakpoints of the stop {body}")


def need_target(body):
    """What can be watched says how, and what cannot does not."""
    is_watched = body["dataId"] is not None
    need(("accessTypes" in body) == is_watched and ("canPersist" in body) == is_watched, f"the target {body}")
    need(body.get("accessTypes", ACCESSES) == ACCESSES, f"the accesses are {body}")


def need_capabilities(body):
    """Each is true, but the filters of exceptions, each of which has its members."""
    need(sorted(body) == CAPABILITIES, f"the capabilities are {body}")
    for name, value in body.items():
        need(value is True or name == "exceptionBreakpointFilters", f"the capability {name} is {value}")
    for item in body["exceptionBreakpointFilters"]:
        need_members("a filter", item, {"filter": TEXT, "label": TEXT}, {"description": TEXT, "default": TRUTH})


def need_exception(body):
    """A fault always stops, and its type is its name."""
    need(body["breakMode"] in BREAK_MODES, f"the mode is {body['breakMode']}")
    need_members("the details of a fault", body.get("details", {}), {}, {"message": TEXT, "typeName": TEXT})


# Lists whose items have other members than those of the same name in other replies.
LISTED = {
    "breakpointLocations": ("breakpoints", {"line": NUMBER}),
    "gotoTargets": ("targets", {"id": NUMBER, "label": TEXT, "line": NUMBER}),
    "completions": ("targets", {"label": TEXT, "start": NUMBER, "length": NUMBER}),
}
# How many of what a request lists its reply lists.
ASKED = {"setBreakpoints": "breakpoints", "setFunctionBreakpoints": "breakpoints", "setDataBreakpoints": "breakpoints"}


def need_body(command, arguments, body):
    """What the reply to a request tells has the members of its command, and what the protocol says of their values."""
    need_members(f"the body of {command}", body, *BODIES[command])
    if command in LISTED:
        name, members = LISTED[command]
        for item in body[name]:
            need_members(f"an item of {command}", item, members, {})
        return
    for name, items in body.items():
        if name in ITEMS:
            need_items(name, items)
    if command in ASKED:
        need(len(body[ASKED[command]]) == len(arguments[ASKED[command]]), f"not each of {arguments} is answered: {body}")
    if command == "dataBreakpointInfo":
        need_target(body)
    if command == "exceptionInfo":
        need_exception(body)
    if command in ("evaluate", "setVariable", "setExpression"):
        need_reference("an answer", body["variablesReference"], 0)
    if command == "stackTrace":
        start, levels, total = arguments.get("startFrame") or 0, arguments.get("levels") or 0, body["totalFrames"]
        left = max(total - start, 0)
        need(len(body["stackFrames"]) == (min(left, levels) if levels else left), f"the number of the frames: {body}")
