"""Each public call that takes memory, by itself: each of its allocations is refused in turn.

The library calls_alone makes a call on values that were made before. A program of a few lines, which is built here in a copy of the sources,
makes it, and then once more. Where an allocation of the first call is refused, it says that there was no memory, and the second one is done.
"""

import itertools
import pathlib
import re
import shutil
import subprocess
import sys
import tempfile

from . import built, crates, hostile, plain, turned
from .calls import called, go_on, side_by_side
from .tried import SECONDS, Result, Run, runs

CRATE = "calls_alone"
# The program's crate in the copy of the sources, its text (the toolchain lets no .rt file lie outside of crates), and its run without a call.
PROGRAM, MAIN = "calls_alone_main", pathlib.Path(__file__).with_name("calls_alone_main.txt")
USAGE = [Run("no call", output=b"usage: calls_alone CALL\n")]
# A call, and how many of its allocations it does without: where it asks first for more than it needs. `stop_at_beginning` is made behind a reply
# that is short of one.
CALLS = {
    "ispc_lexer::tokens": 0,
    "ispc_parser::parse": 0,
    "ispc_names_faults::names_fault": 0,
    "ispc_names::resolve": 0,
    "type_check::check": 0,
    "lane_pure::pure_functions": 0,
    "lane_pure::is_pure_in_lanes": 0,
    "type_check::is_lane_pure": 0,
    "type_check::lane_pure_functions": 0,
    "ispc_compiler::compile_source": 0,
    "source_answers::boxed": 0,
    "source_answers::both_boxed": 0,
    "expression_code::compile": 0,
    "mask_lowering::lower": 0,
    "foreach_lowering::lower_rounds": 0,
    "codegen::compile": 0,
    "machine_names::step_lines": 0,
    "gang_memory::Layout::plan": 0,
    "placed_expressions::place_expression": 0,
    "debug_inputs::read_inputs": 0,
    "machine_steps::entry_lengths": 0,
    "gang_machine::PreparedProgram::new": 0,
    "gang_machine::open": 0,
    "whole_runs::WholeRun::begin": 0,
    "whole_runs::WholeRun::begin_by": 0,
    "undo_log::DeltaRing::new": 0,
    "undo_log::DeltaRing::set_limit": 0,
    "undo_log::SnapshotRing::new": 0,
    "undo_log::SnapshotRing::set_limit": 0,
    "undo_log::all_words": 0,
    "ispc_options::read_options": 0,
    "ispc_options::wrong_arguments": 0,
    "desk_options::read_verb": 0,
    "lane_report::report": 0,
    "ispc_debugger::open_machine": 0,
    "ispc_debugger::open_session": 0,
    "ispc_debugger::open_whole_session": 0,
    "ispc_debugger::run": 0,
    "debug_session::Session::do_command": 0,
    "lane_picture::draw": 3,
    "run_page::write_page": 0,
    "frame_values::value_of_expression": 0,
    "expression_watches::judge_text": 0,
    "expression_watches::expression_sight": 0,
    "expression_watches::kept_sight": 0,
    "prompt_texts::told_variable": 0,
    "foreach_forms::forms_of": 0,
    "element_accesses::Accesses::of": 0,
    "lane_counts::Tally::enter": 0,
    "lane_counts::Tally::note": 0,
    "lane_meetings::Meetings::finish": 0,
    "lane_meetings::Meetings::note": 0,
    "lane_profile::count_run": 0,
    "profile_texts::write_profile": 0,
    "profile_texts::write_comparison": 0,
    "conditional_stops::judge_condition": 0,
    "conditional_stops::ask_breakpoints": 0,
    "conditional_stops::continue_on": 0,
    "conditional_stops::walk_on": 0,
    "log_points::write_here": 1,
    "log_points::continue_writing": 1,
    "source_port::port": 0,
    "adapter_frames::FrameReader::next_message": 0,
    "adapter_frames::write_frame": 0,
    "adapter_messages::read_request": 0,
    "adapter_messages::reply_message": 0,
    "adapter_messages::failure_message": 0,
    "adapter_messages::event_message": 0,
    "adapter_messages::stop_body": 0,
    "adapter_messages::change_body": 0,
    "adapter_messages::output_body": 0,
    "adapter_paths::is_same_file": 0,
    "adapter_replies::reply_to": 1,
    "adapter_replies::reply_at_end": 1,
    "adapter_replies::opened_expression": 0,
    "adapter_replies::expression_variables": 0,
    "adapter_replies::exception_reply": 0,
    "adapter_replies::answer_text": 0,
    "adapter_replies::no_value_text": 0,
    "adapter_replies::thread_reply": 0,
    "value_digits::digits_text": 0,
    "adapter_session::command_lines": 0,
    "adapter_session::answer_request": 0,
    "adapter_session::stop_at_beginning": 1,
}
# These keep the allocator, and take no memory.
NONE_TAKEN = {
    "adapter_frames::FrameReader::new",
    "adapter_server::Connection::new",
    "element_accesses::Accesses::none",
    "expression_watches::KeptCodes::new",
    "lane_counts::Tally::new",
    "lane_meetings::Meetings::new",
    "log_points::Written::new",
    "whole_runs::Copies::none",
    "whole_runs::Notes::none",
}
# These show on their page that memory was wanting: hostile.py refuses the first each of its allocations, and it calls the others.
ON_A_PAGE = {"debug_prompt::Dialogue::do_first", "debug_prompt::Dialogue::do_line", "debug_prompt::Prompt::do_line", "prompt_texts::show_arguments", "prompt_texts::show_full_frames", "prompt_texts::show_locals"}
# These are made by `tokens`, by `pure_functions`, by `check`, by `Accesses::of`, by `run` and by `read_options`.
INNER = {"ispc_lexer::first_step", "lane_pure::Found::none", "lane_pure::Found::others", "type_check::typed_program", "element_accesses::StepRows::new", "element_accesses::StepRows::put", "ispc_debugger::run_over", *(f"ispc_options::{it}" for it in ("flag", "option", "option_or", "valued"))}
# The parts of a layer, whose calls are made by those of the crate with the plain name; and the crates of tests.
PARTS = re.compile(r"(ispc_parser|ispc_names|type_check|port|tests)_\w+")

CALL = re.compile(r"^(?P<indent> *)pub fn (?P<name>\w+)(<[^(]*>)?\(\s*(&\w* ?\w+,\s*)?(&mut self,\s*)?alloc: Global\b", re.M)
SUBJECT = re.compile(r"^impl(<.*?>)? (\w+ for )?(?P<name>\w+)", re.M)


def public_calls(crate):
    """The names of a crate's public functions that are given an allocator."""
    for file in sorted((crate.folder / "src").rglob("*.rt")):
        text = file.read_text(encoding="utf-8")
        for found in CALL.finditer(text):
            subjects = [it["name"] for it in SUBJECT.finditer(text, 0, found.start())]
            yield "::".join([crate.name, *(subjects[-1:] if found["indent"] else []), found["name"]])


def check(listed):
    """One result: each public call that is given an allocator is made alone, but for the parts of a layer."""
    wanted = {name for crate in listed if crate.name != CRATE and not PARTS.fullmatch(crate.name) for name in public_calls(crate)}
    why = [f"{it} is not made alone" for it in sorted(wanted - CALLS.keys() - NONE_TAKEN - ON_A_PAGE - INNER)]
    return Result("each public call that is given an allocator", not why, why)


def ends(call, program, failing):
    """How a run ends, with one allocation after another refused, up to the first that is not of the first call or of what goes before it."""
    for number in itertools.count(1):
        go_on()
        how = {"env": {"LD_PRELOAD": failing, "REFUSED_ALLOCATION": str(number)}, "capture_output": True, "timeout": float(SECONDS)}
        ran = subprocess.run([program, call], **how)
        end = ran.returncode, ran.stdout.decode(errors="replace").split()
        if end in (SECOND_REFUSED, SECOND_UNPREPARED):
            return
        yield end


# What there was no memory for: the words of the command line, what the first call is made on, the first call, and the same of the second.
WORDS = (1, [])
UNPREPARED, REFUSED = (0, ["unprepared", "done"]), (0, ["memory", "done"])
SECOND_UNPREPARED, SECOND_REFUSED = (0, ["done", "unprepared"]), (0, ["done", "memory"])
BOTH = (0, ["done", "done"])


def result(call, program, failing):
    given, most = [], CALLS[call]
    for end in ends(call, program, failing):
        given.append(end)
        # Past the allocations of a whole run nothing is refused.
        if given.count(BOTH) > most or end not in (WORDS, UNPREPARED, REFUSED, BOTH):
            break
    why = [f"allocation {at}: {it}" for at, it in enumerate(given, 1) if it not in (WORDS, UNPREPARED, REFUSED, BOTH)]
    if given.count(BOTH) > most or REFUSED not in given:
        why.append(f"it goes on without {given.count(BOTH)} of its allocations, and says so of {given.count(REFUSED)}")
    return Result(f"{call}: each of {given.count(REFUSED)} allocations refused", not why, why)


def laid(root, folder):
    """The crate of the program, in a copy of the sources in a folder."""
    turned.laid(root, folder, ())
    with open(folder / "crates.txt", "a", encoding="utf-8") as lines:
        lines.write(f"\n{PROGRAM}: {CRATE}\n")
    source = folder / "crates" / PROGRAM / "src"
    source.mkdir(parents=True)
    shutil.copy(MAIN, source / "main.rt")
    return crates.Crate(folder, PROGRAM, [CRATE], None)


def of_quick_build(crate, root, folder):
    """The result of each call by the quick build of the copy of the sources."""
    output, errors, status = called([sys.executable, turned.HERE / "quick_build", "--in", root, crate.name], root)
    failing = hostile.library(folder)
    if status or failing is None:
        return [Result(CRATE, False, [(output + errors).decode(errors="replace")[-3000:]])]
    return side_by_side(lambda call: result(call, crate.folder / "out/quick", failing), CALLS)


def results(root, listed):
    """The result of the run without a call, and of each call."""
    with tempfile.TemporaryDirectory(prefix="alone-") as folder, tempfile.TemporaryDirectory(prefix="alone-sources-") as sources:
        folder, sources = pathlib.Path(folder), pathlib.Path(sources)
        crate, made = laid(root, sources), plain.Plain(folder)
        checked = built.taken(crate, USAGE * built.LOOKS, folder)
        if checked is None:
            # On a busy machine it may have ended before it was found.
            return [*runs(crate, USAGE), check(listed), *of_quick_build(crate, sources, folder)]
        made.take(folder)
        program, why = made.program()
        failing = hostile.library(folder)
        if program is None or failing is None:
            return [Result(CRATE, False, why or [hostile.NO_LIBRARY])]
        alone = side_by_side(lambda call: result(call, program, failing), CALLS)
        return [*(built.ended(checked, it) for it in USAGE), check(listed), *alone]
