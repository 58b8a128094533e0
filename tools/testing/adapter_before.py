"""Checks of the debug adapter: what is asked before a program is launched, at whatever time a launch is refused, and once it has disconnected; and
messages that are no requests, or have no end, before a launch and behind it."""

from .adapter_frames import written
from .adapter_members import need, same

# Requests that the adapter knows, and some that it does not know.
KNOWN = ("configurationDone", "next", "stepBack", "threads", "stackTrace", "scopes", "variables", "evaluate", "setBreakpoints", "restart", "terminate", "pause")
UNKNOWN = ("stepInTargets", "no such", "Next", "source")
TEXT = "export void go() {\n    int x = programIndex;\n    x += 1;\n}\n"
ARGUMENTS = {"scopes": {"frameId": 1}, "variables": {"variablesReference": 1}, "evaluate": {"expression": "x"}, "setBreakpoints": {"source": {}, "breakpoints": []}}


def asks_before(client):
    for command in KNOWN:
        same(client.refused(command, **ARGUMENTS.get(command, {})), "no program is launched")
    for command in UNKNOWN:
        same(client.refused(command), f"no request {command}")


def before_a_launch(client, examples):
    """Known requests wait for a launch and unknown ones are none, before it and behind one that is refused; then the launch is done."""
    asks_before(client)
    client.ask("initialize", adapterID="rinddecade")
    asks_before(client)
    with written(TEXT) as path:
        for more in ({"width": 5}, {"entry": "other"}, {"history": 0}, {"steps": 10_000_001}):
            need(client.refused("launch", program=str(path), **more) != "", "no reason")
            asks_before(client)
        client.launch(path, width=8)
        same(client.begin()["reason"], "entry")
        for command in UNKNOWN:
            same(client.refused(command), f"no request {command}")
        same(client.refused("launch", program=str(path)), "the program is launched already")
        same(client.move("next")["text"], "at 3:5 go depth 1 lanes 11111111")
        client.end()


# What is no request, with its name in docs/EDITORS.md.
NONE = [(b"Content-Length: 3\r\n\r\n\xff{]", "NoJson"), (b"Content-Length: 2\r\n\r\n{}", "NoRequest"), (b"Content-Length: 1\r\n\r\n7", "NoRequest"), (b"Content-Type: json\r\n\r\n", "NoLength")]


def no_requests_before_a_launch(client, examples):
    """The console tells what is no request by its name, and the requests behind it are answered."""
    for raw, name in NONE:
        client.write(raw)
        need(client.event("output")["output"].startswith(f"a message is refused: {name}"), f"not {name}")
    client.launch(examples / "first.ispc")
    client.begin()
    client.end()


def unfinished(client, examples):
    """Where the input ends within a message or its head, the console is told so, and the adapter ends as at the end of the input."""
    for is_launched in (False, True):
        for raw in (b"Content-Length: 9\r\n\r\n{}", b"Content-Length: 2\r\n\r\n", b"Content-Le"):
            if is_launched:
                client.launch(examples / "first.ispc")
                client.begin()
            client.write(raw)
            client.process.stdin.close()
            same(client.event("output")["output"], "a message is refused: Unfinished\n")
            same(client.process.wait(10), 0)
            client.start()
    client.ask("initialize", adapterID="rinddecade")
    client.end()


BEFORE_CHECKS = [before_a_launch, no_requests_before_a_launch, unfinished]
