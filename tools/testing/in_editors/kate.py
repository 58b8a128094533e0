"""Kate's highlighter with editors/kate: `python3 tools/testing/in_editors/kate.py TOKENS EXAMPLES SYNTAX`.

A theme gives each style a colour of its own, so that the colours of the page that it writes say the style of each token. The status is 0 where
every token of the examples has its own.
"""

import html.parser
import json
import os
import pathlib
import re
import shutil
import subprocess
import sys
import xml.etree.ElementTree as trees

# The attribute of the file that a token has, by its kind.
ATTRIBUTES = {
    "comment": "Comment",
    "control": "Control",
    "foreach": "Rounds",
    "function": "Function",
    "lane": "Lane",
    "library": "Library",
    "mark": "Mark",
    "modifier": "Modifier",
    "name": "Text",
    "number": "Number",
    "rate": "Rate",
    "truth": "Truth",
    "type": "Type",
}
FOLDER = pathlib.Path(os.environ["HOME"], ".local/share/org.kde.syntax-highlighting")


class Colours(html.parser.HTMLParser):
    """Each character between <pre> and </pre>, the end of the line of <pre> first, with its colour."""

    def __init__(self, text):
        super().__init__(convert_charrefs=True)
        self.colours, self.found = [], []
        self.feed(text)

    def handle_starttag(self, tag, attributes):
        style = dict(attributes).get("style", "")
        colour = re.search(r"(?<!-)color:(#\w+)", style)
        if tag in ("body", "span"):
            self.colours.append(colour[1] if colour else self.colours[-1])
        self.found = [] if tag == "pre" else self.found

    def handle_endtag(self, tag):
        if tag == "span":
            self.colours.pop()

    def handle_data(self, data):
        self.found += [(it, self.colours[-1] if self.colours else None) for it in data]


def colours_of(syntax):
    """A colour for each attribute of a file, and the theme with the colours of their styles."""
    styles = {it.get("name"): it.get("defStyleNum").removeprefix("ds") for it in trees.parse(syntax).iter("itemData")}
    colours = {name: f"#0000{10 + number:02x}" for number, name in enumerate(styles)}
    theme = {"metadata": {"name": "Kinds", "revision": 1}, "editor-colors": {}}
    theme["text-styles"] = {styles[name]: {"text-color": colour} for name, colour in colours.items()}
    return colours, theme


def wrong(name, tokens, source, colours):
    """The tokens of an example that have another colour than theirs."""
    words = ["kate-syntax-highlighter", "-s", "ISPC", "-t", "Kinds", "-f", "html", str(source)]
    shown = Colours(subprocess.run(words, stdout=subprocess.PIPE, check=True, text=True).stdout).found[1:]
    if not "".join(it for it, _ in shown).startswith(source.read_text(encoding="utf-8")):
        return ["the text is another one"]
    return [f"{it['line']}:{it['column']} is a {it['kind']}" for it in tokens if shown[it["start"]][1] != colours[ATTRIBUTES[it["kind"]]]]


def main():
    told, examples, syntax = map(pathlib.Path, sys.argv[1:])
    colours, theme = colours_of(syntax)
    for folder in ("syntax", "themes"):
        (FOLDER / folder).mkdir(parents=True, exist_ok=True)
    shutil.copy(syntax, FOLDER / "syntax")
    (FOLDER / "themes/kinds.theme").write_text(json.dumps(theme), encoding="utf-8")
    bad = 0
    for name, tokens in json.loads(told.read_text(encoding="utf-8")).items():
        why = wrong(name, tokens, examples / name, colours)
        print("did not come:" if why else "came:", f"the styles of {name}", *why[:12], flush=True)
        bad += len(why)
    sys.exit(1 if bad else 0)


main()
