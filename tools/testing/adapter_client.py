"""A client of the debug adapter that checks each field of what it is told.

`python3 -m testing.adapter_client COMMAND..` (in tools/) speaks with a program that serves the Debug Adapter Protocol on its standard
streams, as `rinddecade adapter`. Every message must have the members that the protocol gives it, of their types, and the values are those
that docs/COMMANDS.md and README.md give for the examples.
"""

import json
import pathlib
import subprocess
import sys
import threading

from .adapter_members import (
    EVENTS, MEMBERS, NUMBER, QUIET, TEXT, THREAD, TRUTH, VARIABLE, Wrong, framed, need, need_body, need_capabilities, need_members, need_stop, same,
)
from .adapter_before import BEFORE_CHECKS
from .adapter_changes import CHANGE_CHECKS
from .adapter_children import CHILD_CHECKS
from .adapter_conditions import CONDITION_CHECKS
from .adapter_examples import EXAMPLE_CHECKS
from .adapter_formats import FORMAT_CHECKS
from .adapter_frames import FRAME_CHECKS
from .adapter_functions import FUNCTION_CHECKS
from .adapter_hints import HINT_CHECKS
from .adapter_lanes import LANE_CHECKS
from .adapter_launches import LAUNCH_CHECKS
from .adapter_links import LINK_CHECKS
from .adapter_logs import LOG_CHECKS
from .adapter_moves import MOVE_CHECKS
from .adapter_places import PLACE_CHECKS
from .adapter_programs import PROGRAM_CHECKS
from .adapter_restarts import RESTART_CHECKS
from .adapter_targets import TARGET_CHECKS
from .adapter_values import VALUE_CHECKS
from .adapter_watched import WATCHED_CHECKS
from .adapter_words import WORD_CHECKS
from .tried import Result

# How long a check may take.
SECONDS = 60


class Client:
    def __init__(self, command):
        self.command = command
        self.start()

    def start(self):
        self.process = subprocess.Popen(self.command, stdin=subprocess.PIPE, stdout=subprocess.PIPE, stderr=subprocess.PIPE)
        self.sent, self.told, self.events, self.threads = 0, 0, [], [THREAD]

    def again(self):
        """Ends the adapter, and starts it anew."""
        self.end()
        self.start()

    # ---- frames

    def write(self, raw):
        self.process.stdin.write(raw)
        self.process.stdin.flush()

    def write_message(self, message):
        self.write(framed(message))

    def read_message(self):
        head = b""
        while not head.endswith(b"\r\n\r\n"):
            byte = self.process.stdout.read(1)
            if not byte:
                raise Wrong(f"the adapter has ended: {self.process.stderr.read().decode()}")
            head += byte
        lines = head[:-4].split(b"\r\n")
        need(len(lines) == 1 and lines[0].startswith(b"Content-Length: "), f"the head is {head!r}")
        message = json.loads(self.process.stdout.read(int(lines[0][16:])))
        self.told += 1
        need(message.get("seq") == self.told, f"the message has not the number {self.told}: {message}")
        return message

    # ---- messages

    def take_event(self, message):
        name = message.get("event")
        need(name in EVENTS, f"an event {name}")
        need_members(f"the event {name}", message, {"seq": NUMBER, "type": TEXT, "event": TEXT, "body": MEMBERS}, {})
        need_members(f"the body of {name}", message["body"], *EVENTS[name])
        if name == "stopped":
            need_stop(message["body"], self.threads)
        if name == "output":
            need(message["body"]["category"] == "console", f"the category is {message['body']['category']}")
        self.events.append((name, message["body"]))

    def event(self, name):
        """The next event, which must have this name."""
        if not self.events:
            message = self.read_message()
            need(message.get("type") == "event", f"not the event {name}: {message}")
            self.take_event(message)
        found, body = self.events.pop(0)
        need(found == name, f"the event is {found} and not {name}: {body}")
        return body

    def answer(self, command, arguments=None):
        """The response to a request, whatever it says."""
        self.sent += 1
        message = {"seq": self.sent, "type": "request", "command": command}
        if arguments is not None:
            message["arguments"] = arguments
        self.write_message(message)
        while True:
            message = self.read_message()
            if message.get("type") == "event":
                self.take_event(message)
                continue
            needed = {"seq": NUMBER, "type": TEXT, "request_seq": NUMBER, "success": TRUTH, "command": TEXT}
            need_members(f"the response to {command}", message, needed, {"body": MEMBERS, "message": TEXT})
            need(message["type"] == "response", f"the type is {message['type']}")
            need(message["request_seq"] == self.sent and message["command"] == command, f"not the response to {command}: {message}")
            return message

    def ask(self, command, **arguments):
        """The body of the response to a request, which must succeed."""
        message = self.answer(command, arguments)
        need(message["success"] and "message" not in message, f"{command} is refused: {message}")
        body = message.get("body", {})
        if command == "initialize":
            need_capabilities(body)
            return body
        need_body(command, arguments, body)
        return body

    def refused(self, command, **arguments):
        """The text by which a request is refused."""
        message = self.answer(command, arguments)
        need(not message["success"] and "message" in message, f"{command} is not refused: {message}")
        need_members("the body of a refusal", message.get("body"), {"error": MEMBERS}, {})
        error = message["body"]["error"]
        has_brace = any(it in message["message"] for it in "{}")
        need_members("the error", error, {"id": NUMBER, "format": TEXT, "showUser": TRUTH, **({"variables": MEMBERS} if has_brace else {})}, {})
        text = VARIABLE.sub(lambda it: error["variables"][it[1]], error["format"])
        need(text == message["message"], f"two texts: {message}")
        need(error["showUser"] == (command not in QUIET), f"whether the user is shown why {command} is refused: {message}")
        return message["message"]

    def launch(self, source, **arguments):
        self.ask("initialize", adapterID="rinddecade")
        self.ask("launch", **{"program": str(source), "history": 1000, **arguments})
        self.threads = range(1, arguments.get("width", 4) + 1) if arguments.get("laneThreads") else [THREAD]
        self.event("initialized")
        self.source = str(source)

    def begin(self):
        self.ask("configurationDone")
        return self.event("stopped")

    def move(self, command):
        self.ask(command, threadId=1)
        return self.event("stopped")

    def refused_move(self, command, text):
        """A move that is refused with this text. The editor is told once more that the program stands still, and the stop is given."""
        same(self.refused(command, threadId=1), text)
        stop = self.event("stopped")
        same(stop["text"], text)
        return stop

    def breakpoints(self, *lines):
        body = self.ask("setBreakpoints", source={"path": self.source}, breakpoints=[{"line": it} for it in lines])
        return body["breakpoints"]

    def place(self):
        frames = self.ask("stackTrace", threadId=THREAD)["stackFrames"]
        need(all(it["source"]["path"] == self.source for it in frames), f"another source: {frames}")
        return [(it["line"], it["column"], it["name"]) for it in frames]

    def variables(self, reference):
        return {it["name"]: it for it in self.ask("variables", variablesReference=reference)["variables"]}

    def end(self, command="disconnect"):
        """Ends the adapter, which does not wait for the end of its input."""
        self.ask(command)
        try:
            need(self.process.wait(10) == 0, "the status is not 0")
        except subprocess.TimeoutExpired:
            raise Wrong(f"it goes on behind {command}, while its input is open") from None
        self.process.stdin.close()


    def scopes(self, frame):
        """The references of the local variables, of the parameters and of the variables of the file of a frame."""
        scopes = self.ask("scopes", frameId=frame)["scopes"]
        same([it["name"] for it in scopes], ["Locals", "Arguments", "File"])
        return [it["variablesReference"] for it in scopes]

    def file_at_end(self):
        """The reference of the variables of the file in the frame of a program that has ended, which has no others."""
        [scope] = self.ask("scopes", frameId=1)["scopes"]
        same(scope["name"], "File")
        return scope["variablesReference"]

    def values(self, reference):
        """The names and values of the variables of a reference."""
        return {name: it["value"] for name, it in self.variables(reference).items()}

    def value(self, expression, frame=None):
        """The values of an expression, in a frame if it is given."""
        return self.ask("evaluate", expression=expression, context="watch", **({} if frame is None else {"frameId": frame}))["result"]


CHECKS = [*EXAMPLE_CHECKS, *FRAME_CHECKS, *LANE_CHECKS, *PLACE_CHECKS, *LAUNCH_CHECKS, *LINK_CHECKS, *LOG_CHECKS, *VALUE_CHECKS, *TARGET_CHECKS, *CHILD_CHECKS, *CHANGE_CHECKS, *FORMAT_CHECKS, *MOVE_CHECKS, *CONDITION_CHECKS, *FUNCTION_CHECKS, *RESTART_CHECKS, *WATCHED_CHECKS, *PROGRAM_CHECKS, *WORD_CHECKS, *HINT_CHECKS, *BEFORE_CHECKS]


def check(root, command):
    """A result for each of the checks, by the adapter that this command starts."""
    return [tried(it, root, command) for it in CHECKS]


def tried(it, root, command):
    client = Client(command)
    late = threading.Timer(SECONDS, lambda: client.process.kill())
    late.start()
    try:
        it(client, (root / "examples").resolve())
        return Result(f"adapter: {it.__name__}", True, [])
    except (Wrong, OSError) as wrong:
        return Result(f"adapter: {it.__name__}", False, [str(wrong)])
    finally:
        late.cancel()
        client.process.kill()
        client.process.wait()


def main():
    results = check(pathlib.Path(__file__).resolve().parents[2], sys.argv[1:])
    for result in results:
        print(result.name, "passed" if result.passed else "failed", *result.why, sep=": ")
    sys.exit(not all(it.passed for it in results))


if __name__ == "__main__":
    main()
