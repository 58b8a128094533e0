"""Checks of the debug adapter: sources that lead to the program's file, to another one or to none by links, whether the launch names a link or the file."""

import contextlib
import os

from .adapter_changes import knows
from .adapter_frames import written
from .adapter_members import need, same

TEXT = "export void go() {\n    int x = programIndex;\n    x = x + 1;\n}\n"

# Links by what they lead to: to the file and to its folder, by one and by two; to another file; to none; and in a circle.
LINKS = {
    "link.ispc": "{folder}/source.ispc", "second.ispc": "link.ispc", "folder": ".", "outer": "{folder}/folder", "inner": "deep/deeper",
    "to_other.ispc": "other.ispc", "dangling.ispc": "nowhere.ispc", "circle.ispc": "circle.ispc", "here": "there", "there": "here",
}
# What leads to the program's file, and what does not.
OURS = ("source.ispc", "link.ispc", "second.ispc", "hard.ispc", "folder/source.ispc", "outer/folder/second.ispc", "outer/.//link.ispc", "inner/../../source.ispc", "deep/link.ispc")
OTHERS = ("other.ispc", "to_other.ispc", "folder/other.ispc", "outer/to_other.ispc", "dangling.ispc", "circle.ispc", "here", "there/source.ispc", "folder", "link.ispc/source.ispc", "deep/source.ispc", "a" * 300, "a/" * 5000, "link.ispc\0")


@contextlib.contextmanager
def linked():
    """The folder of a program that has these links, a second name and another file of the same text."""
    with written(TEXT) as source:
        folder = source.parent
        (folder / "other.ispc").write_text(TEXT)
        (folder / "deep/deeper").mkdir(parents=True)
        (folder / "deep/source.ispc").write_text(TEXT)
        for name, to in LINKS.items():
            (folder / name).symlink_to(to.format(folder=folder))
        (folder / "deep/link.ispc").symlink_to("../source.ispc")
        os.link(source, folder / "hard.ispc")
        yield folder


def need_known(client, folder, program, ours, others):
    """A launch by a path knows these sources as its program, and no others."""
    for path in ours:
        need(knows(client, f"{folder}/{path}"), f"{path} is another source than {program}")
    for path in others:
        need(not knows(client, f"{folder}/{path}"), f"{path} is {program}")


def sources_by_links(client, examples):
    """Whatever leads to the program's file is the program, by whatever the launch names it; what leads to another one or to none is not."""
    with linked() as folder:
        for program in OURS:
            client.launch(folder / program)
            client.begin()
            need_known(client, folder, program, OURS, OTHERS)
            client.again()
        client.launch(folder / "to_other.ispc")
        client.begin()
        need_known(client, folder, "to_other.ispc", ("other.ispc", "to_other.ispc", "outer/other.ispc"), OURS)
        client.end()


def programs_of_a_folder(client, examples):
    """A program whose path is not whole is looked for where the adapter was started, which may be a folder that is a link."""
    with linked() as folder:
        command = client.command
        client.end()
        for started in ("", "folder", "outer/folder"):
            client.command = ["sh", "-c", f'cd "{folder}/{started}" && exec "$@"', "sh", *command]
            client.start()
            client.launch("second.ispc")
            client.begin()
            need_known(client, folder, "second.ispc", OURS, ("other.ispc", "to_other.ispc", "dangling.ispc"))
            client.end()


def stops_by_links(client, examples):
    """A breakpoint of a source that is known by a link stops the run, whose frames name the program as the launch did."""
    with linked() as folder:
        for program, source in [("link.ispc", "source.ispc"), ("source.ispc", "link.ispc"), ("folder/source.ispc", "source.ispc"), ("source.ispc", "outer/second.ispc")]:
            client.launch(folder / program, stopOnEntry=False)
            made = client.ask("setBreakpoints", source={"path": f"{folder}/{source}"}, breakpoints=[{"line": 3}])["breakpoints"]
            same([(it["verified"], it["line"]) for it in made], [(True, 3)])
            same(client.begin()["reason"], "breakpoint")
            frames = client.ask("stackTrace", threadId=1)["stackFrames"]
            same([(it["line"], it["source"]["path"]) for it in frames], [(3, f"{folder}/{program}")])
            same(client.value("x"), "0 1 2 3")
            client.again()
        client.ask("initialize", adapterID="rinddecade")
        client.end()


def files_that_go(client, examples):
    """A link is followed as the files are when a request comes; the program's own path is its own even where no file is left."""
    with linked() as folder:
        source = folder / "source.ispc"
        client.launch(source)
        client.begin()
        source.rename(folder / "away.ispc")
        need_known(client, folder, "source.ispc", ("source.ispc", "deep/../source.ispc"), ("link.ispc", "folder/source.ispc", "hard.ispc", "away.ispc", "nowhere.ispc"))
        (folder / "to_other.ispc").rename(source)
        need_known(client, folder, "source.ispc", ("source.ispc", "link.ispc", "folder/source.ispc", "other.ispc"), ("hard.ispc", "away.ispc", "deep/source.ispc"))
        (folder / "away.ispc").replace(source)
        need_known(client, folder, "source.ispc", ("source.ispc", "link.ispc", "folder/source.ispc", "hard.ispc"), ("other.ispc", "away.ispc"))
        client.end()


LINK_CHECKS = [sources_by_links, programs_of_a_folder, stops_by_links, files_that_go]
