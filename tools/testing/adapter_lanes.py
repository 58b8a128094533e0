"""Checks of the debug adapter: each lane as a thread of its own.

`go` calls `twice` in each lane but lane 0, and `twice` calls `deeper` in the odd ones. So where `deeper` stands, the odd lanes have three frames, the
others but lane 0 have two and wait in theirs behind the call, and lane 0 waits in `go` behind its call: each set of lanes, and each line, is worked
out here by the lanes' numbers. `adapter_places` has more of where they wait.
"""

from .adapter_frames import written
from .adapter_members import need, same
from .adapter_refusals import NO_HISTORY

WIDTHS = (4, 8, 16)
SOURCE = """uniform int total = 0;
int deeper(int k) {
    int y = k * 2 - 40;
    return y;
}
int twice(int k) {
    int z = -1;
    if (k % 2 == 1) {
        z = deeper(k);
    }
    return z + 1;
}
export void go() {
    int x = programIndex;
    if (x > 0) {
        x = twice(x);
    }
    total = 7;
}
"""
DEEPER, CALLS_DEEPER, TWICE, BEHIND, CALLS_TWICE, LAST = 3, 9, 7, 11, 16, 18
FAULT = "export void go() {\n    int x = 6 / (2 - programIndex);\n}\n"
NO_THREAD = "no thread has this number"
WAITS = " (waits)"


def bits(width, holds):
    return "".join("01"[holds(lane)] for lane in range(width))


def is_odd(lane):
    return lane % 2 == 1


def is_called(lane):
    return lane > 0


def stack(client, lane, **more):
    """The frames that a lane has: the depth, the line and the name of each."""
    return [(it["id"], it["line"], it["name"]) for it in client.ask("stackTrace", threadId=lane + 1, **more)["stackFrames"]]


def threads(client):
    return [(it["id"], it["name"]) for it in client.ask("threads")["threads"]]


def named(width, holds):
    """The threads of a gang whose lanes stand or wait."""
    return [(lane + 1, f"lane {lane}" + ("" if holds(lane) else WAITS)) for lane in range(width)]


def marked(name, width, holds, lane):
    return f"{name} [{bits(width, holds)}]" + ("" if holds(lane) else WAITS)


def in_go(width, lane):
    """The frame of `go` of a lane, where those that call `twice` have called it."""
    return 1, CALLS_TWICE if is_called(lane) else LAST, marked("go", width, is_called, lane)


def in_deeper(width, lane):
    """The frames of a lane where the odd ones stand in `deeper`."""
    found = [in_go(width, lane)]
    if is_called(lane):
        found.insert(0, (2, CALLS_DEEPER if is_odd(lane) else BEHIND, marked("twice", width, is_odd, lane)))
    if is_odd(lane):
        found.insert(0, (3, DEEPER, marked("deeper", width, is_odd, lane)))
    return found


def frames_of_lanes(client, examples):
    """A lane has the frames that were made for it, and waits in its top one where others have gone on; each stop names the lowest active lane."""
    with written(SOURCE) as path:
        for width in WIDTHS:
            client.launch(path, width=width, laneThreads=True)
            same((client.begin()["threadId"], threads(client)), (1, named(width, lambda lane: True)))
            same([stack(client, lane) for lane in range(width)], [[(1, 14, f"go [{'1' * width}]")]] * width)
            client.breakpoints(TWICE, DEEPER, BEHIND)
            same((client.move("continue")["threadId"], threads(client)), (2, named(width, is_called)))
            for lane in range(width):
                found = [in_go(width, lane)]
                if is_called(lane):
                    found.insert(0, (2, TWICE, f"twice [{bits(width, is_called)}]"))
                same(stack(client, lane), found)
            same((client.move("continue")["threadId"], threads(client)), (2, named(width, is_odd)))
            same([stack(client, lane) for lane in range(width)], [in_deeper(width, lane) for lane in range(width)])
            same((client.move("continue")["threadId"], threads(client)), (2, named(width, is_called)))
            behind = [[(2, BEHIND, f"twice [{bits(width, is_called)}]")] * is_called(lane) + [in_go(width, lane)] for lane in range(width)]
            same([stack(client, lane) for lane in range(width)], behind)
            # Back at the call's breakpoint they are as before.
            client.move("reverseContinue")
            same([stack(client, lane) for lane in range(width)], [in_deeper(width, lane) for lane in range(width)])
            client.again()
        client.end()


def pieces_of_stacks(client, examples):
    """So many frames of a lane are told from one on, and how many it has; a frame's number is that of its depth in each thread."""
    with written(SOURCE) as path:
        client.launch(path, width=8, laneThreads=True, stopOnEntry=False)
        client.breakpoints(DEEPER)
        client.begin()
        same([stack(client, 5, startFrame=1, levels=1), stack(client, 5, startFrame=2), stack(client, 4, startFrame=1)], [in_deeper(8, 5)[1:2], in_deeper(8, 5)[2:], in_deeper(8, 4)[1:]])
        same([client.ask("stackTrace", threadId=lane + 1)["totalFrames"] for lane in range(8)], [1, 3, 2, 3, 2, 3, 2, 3])
        same((client.value("k * -3", 3), client.value("k * -3", 2), client.value("x - 10", 1)), (". -3 . -9 . -15 . -21", ". -3 . -9 . -15 . -21", ". -9 -8 -7 -6 -5 -4 -3"))
        same(client.variables(client.scopes(2)[1])["k"]["value"], client.value("k", 2))
        client.end()


def wrong_threads(client, examples):
    """A thread that no lane has is refused; without the argument, each number stands for the gang."""
    with written(SOURCE) as path:
        for width in WIDTHS:
            client.launch(path, width=width, laneThreads=True)
            client.begin()
            for wrong in (0, width + 1, 2**40):
                same(client.refused("stackTrace", threadId=wrong), NO_THREAD)
            same(client.refused("stackTrace"), NO_THREAD)
            same(client.refused("stackTrace", threadId="1"), NO_THREAD)
            need(stack(client, width - 1), "no frame of the last lane")
            client.again()
        for more in ({}, {"laneThreads": False}, {"laneThreads": None}):
            client.launch(path, width=8, **more)
            client.begin()
            same((threads(client), stack(client, 8)), ([(1, "gang")], [(1, 14, "go [11111111]")]))
            client.again()
        same(client.refused("launch", program=str(path), laneThreads="true"), "the argument `laneThreads` is missing or of a wrong type")
        same(client.refused("launch", program=str(path), laneThreads=1), "the argument `laneThreads` is missing or of a wrong type")
        client.end()


def moves_of_threads(client, examples):
    """A move by any thread moves the gang, a line of the console too, and a move that is refused tells the last stop anew."""
    with written(SOURCE) as path:
        client.launch(path, width=4, laneThreads=True)
        client.begin()
        client.breakpoints(DEEPER)
        client.ask("continue", threadId=3)
        same(client.event("stopped")["threadId"], 2)
        client.ask("next", threadId=1)
        same((client.event("stopped")["threadId"], stack(client, 3)[0]), (2, (3, DEEPER + 1, "deeper [0101]")))
        client.ask("stepOut", threadId=1)
        same((client.event("stopped")["threadId"], [len(stack(client, lane)) for lane in range(4)]), (2, [1, 2, 2, 2]))
        client.ask("evaluate", expression="reverse-continue", context="repl")
        same((client.event("stopped")["threadId"], stack(client, 1)), (2, in_deeper(4, 1)))
        client.breakpoints()
        client.move("reverseContinue")
        same(client.refused_move("stepBack", NO_HISTORY)["threadId"], 1)
        client.end()


def faults_and_ends(client, examples):
    """A fault names the lane that faults; at the end each lane stands there with the frame of the end, and a restart shows the lanes again."""
    with written(FAULT) as path:
        for width in WIDTHS:
            client.launch(path, width=width, laneThreads=True)
            client.begin()
            stop = client.move("next")
            same((stop["reason"], stop["threadId"]), ("exception", 3))
            client.again()
        client.launch(path, width=4)
        client.begin()
        same(client.move("next")["threadId"], 1)
        client.again()
    with written(SOURCE) as path:
        for width in WIDTHS:
            client.launch(path, width=width, laneThreads=True)
            client.begin()
            stop = client.move("continue")
            same((stop["text"], stop["threadId"], threads(client)), ("ended", 1, named(width, lambda lane: True)))
            same([stack(client, lane) for lane in range(width)], [[(1, LAST + 1, "go (ended)")]] * width)
            same([stack(client, lane, startFrame=1) for lane in range(width)], [[]] * width)
            same((client.values(client.file_at_end()), client.value("total", 1)), ({"total": "7"}, "7"))
            same([client.refused("stackTrace", threadId=wrong) for wrong in (0, width + 1)], [NO_THREAD] * 2)
            client.breakpoints(LAST)
            same((client.move("reverseContinue")["threadId"], stack(client, 0)), (1, [(1, LAST, f"go [{'1' * width}]")]))
            client.ask("restart")
            same((client.event("stopped")["reason"], len(threads(client))), ("entry", width))
            client.again()
        client.end()


def pauses(client, examples):
    """The program stands still where a request to pause it is read, and the editor is told so; nothing else happens."""
    same(client.refused("pause", threadId=1), "no program is launched")
    for more in ({}, {"laneThreads": True}):
        client.launch(examples / "first.ispc", **more)
        client.begin()
        same(client.refused("pause", threadId=1), "the program stands still already: a move ends by itself")
        same(client.place(), [(2, 5, "go [1111]")])
        client.again()
    client.end()


LANE_CHECKS = [frames_of_lanes, pieces_of_stacks, wrong_threads, moves_of_threads, faults_and_ends, pauses]
