"""The subjects of the tests that run `rinddecade`: the crates of whose bodies they are to find the wrong ones, and what they try with a program."""

import functools
import itertools
import tempfile

from testing import adapter_client, adapter_meant, adapter_sessions, conditions, desk, disabling, explained, front_ends, hostile, lanes_so_far, local_past, orders
from testing import pictures, ports, profiles, prompts, random_prompts, run_pages, stop_lines, terminals, watched_expressions, watched_writes, watching
from testing import whole_runs
from testing.built import ended
from testing.calls import side_by_side
from testing.parts import done

PROGRAM = "rinddecade"
# So many runs are made together, and the others are not where one of these finds a body: each run of one that never ends takes its time.
TOGETHER = 24


def of_runs(*calls):
    """What is tried: the runs that these calls give, which are made once."""
    made = functools.cache(lambda root: [run for call in calls for run in call(root)])

    def tried(root, program):
        runs = made(root)
        for at in range(0, len(runs), TOGETHER):
            yield side_by_side(lambda run: ended(program, run), runs[at : at + TOGETHER])

    return tried


def of_stops(root):
    runs = conditions.runs() + disabling.runs() + stop_lines.runs() + watching.runs() + watched_expressions.runs()
    return runs + watched_writes.runs() + local_past.runs()


def of_devices(name):
    """What is tried: the devices of a run fail, after each byte."""

    def tried(root, program):
        with tempfile.TemporaryDirectory(prefix="failing-") as folder:
            yield from side_by_side(done, front_ends.devices(root, program, hostile.library(folder), name))

    return tried


def of_terminals(root, program):
    yield prompts.results(program)
    yield conditions.results(program)
    yield stop_lines.results(program)
    yield terminals.results(program)


def of_adapter(root, program):
    for it in adapter_client.CHECKS:
        yield [adapter_client.tried(it, root, [program, "adapter"])]
    yield adapter_meant.results([program, "adapter"])
    yield adapter_sessions.results(root, [program, "adapter"])
    for task in orders.of_adapter(program, root):
        yield [task()]


def of_orders(root, program):
    for task in orders.tasks(root, program):
        yield [task()]


def of_files(root, program):
    yield desk.results(program)


def of_ports(root, program):
    """What is ported, but for kernels: they run for long."""
    yield from itertools.islice(ports.lists(root, program), 2)


def of_record(root, program):
    yield [whole_runs.beside_many_words(program)]


class Subject:
    """Crates, and the calls that try a program and give lists of results, the quick ones first."""

    def __init__(self, crates, *tried):
        self.crates, self.tried = crates, tried

    def failed(self, root, program):
        """The names of the tests that fail, list by list. One that faults fails."""
        for call in self.tried:
            try:
                for results in call(root, program):
                    yield [it.name for it in results if not it.passed]
            except InterruptedError:
                raise
            except Exception as fault:
                yield [f"a test that ends with {type(fault).__name__} {fault}"]

    def first_failed(self, root, program, right):
        """A test that fails with a body, and not with the right ones; None where there is none."""
        return next((name for names in self.failed(root, program) for name in names if name not in right), None)


SUBJECTS = {
    "prompt": Subject(
        (
            "debug_prompt",
            "prompt_going",
            "prompt_walks",
            "prompt_past",
            "prompt_stops",
            "prompt_moves",
            "prompt_values",
            "prompt_scenes",
            "conditional_stops",
            "prompt_texts",
            "prompt_lines",
            "prompt_help",
            "terminal_lines",
        ),
        of_runs(prompts.runs, of_stops, lambda root: random_prompts.runs(), lanes_so_far.runs, terminals.runs),
        of_terminals,
        of_devices("lines at the prompt"),
    ),
    "picture": Subject(("lane_picture",), of_runs(pictures.runs)),
    "page": Subject(("run_page", "page_viewer", "json_texts"), of_runs(run_pages.runs)),
    "profile": Subject(
        ("lane_counts", "lane_meetings", "lane_profile", "element_accesses", "element_touches", "profile_texts"), of_runs(profiles.runs)
    ),
    "adapter": Subject(
        ("adapter_frames", "adapter_messages", "adapter_replies", "adapter_session", "adapter_paths", "opened_texts", "log_points", "adapter_server"),
        of_adapter,
        of_devices("an editor"),
    ),
    "explain": Subject(("refusal_pages",), of_runs(explained.runs)),
    "program": Subject(
        ("rinddecade",),
        of_orders,
        of_terminals,
        of_files,
        of_runs(lambda root: desk.runs(), prompts.runs, explained.runs, pictures.runs, run_pages.runs, profiles.runs),
        of_adapter,
        of_ports,
        of_devices("lines at the prompt"),
    ),
    "port": Subject(
        ("port_tokens", "port_draft", "port_settling", "port_expressions", "port_arrays", "port_statements", "port_loops", "source_port"), of_ports
    ),
    "desk": Subject(("desk_options",), of_runs(lambda root: desk.runs()), of_files),
    "record": Subject(("undo_log",), of_record),
}
