"""The files of editors/: each names the words of the language, the grammar of VS Code scopes sources by them, and its package is always the
same bytes. `tools/test_editors` tries the editors themselves."""

import io
import itertools
import json
import re
import xml.etree.ElementTree as trees
import zipfile

from . import editor_words, textmate
from .tool import tool
from .tried import Result

VSCODE = "editors/vscode"
GRAMMAR = f"{VSCODE}/ispc.tmLanguage.json"
PAGE = "docs/EDITORS.md"

# What a token's scope begins with, by its kind.
SCOPES = {
    "comment": "comment.",
    "control": "keyword.control.ispc",
    "foreach": "keyword.control.foreach.",
    "function": "entity.name.function.",
    "lane": "variable.language.",
    "library": "support.function.",
    "mark": ("keyword.operator.", "punctuation."),
    "modifier": "storage.modifier.ispc",
    "name": "variable.other.",
    "number": "constant.numeric.",
    "rate": "storage.modifier.rate.",
    "truth": "constant.language.",
    "type": "storage.type.",
}

# The groups of Vim's file, by the kind of their words.
VIM = {
    "control": ("ispcConditional", "ispcRepeat", "ispcLabel", "ispcStatement"),
    "foreach": ("ispcForeach",),
    "lane": ("ispcLane",),
    "library": ("ispcLibrary",),
    "modifier": ("ispcModifier",),
    "rate": ("ispcRate",),
    "truth": ("ispcBoolean",),
    "type": ("ispcType",),
}
# The lists of Kate's file that are not named as the kind of their words.
KATE = {"lane": "lanes", "modifier": "modifiers", "rate": "rates", "truth": "truths", "type": "types"}

DIGITS = ("0", "7", "10", "0x1F", "0XaB", "0b1", "0B10")
NO_NUMBERS = ("01", "00", "0x", "0b", "0b2", "0xg", "1a", "1_", "0b12", "3k", "2M", "1G")
LONGEST_SUFFIX = 4

# The least time that a zip can tell.
LEAST_TIME = (1980, 1, 1, 0, 0, 0)


def check(root):
    words = editor_words.words(root)
    grammar = textmate.Grammar((root / GRAMMAR).read_text(encoding="utf-8"))
    results = [same_as_page(root, words), *package_file(root), scoped_words(grammar, words), scoped_numbers(grammar)]
    results += [scoped_marks(root, grammar), scoped_comments(grammar), snippets(root, grammar)]
    results += [packed_twice(root), named_by_manifest(root), launches_of_kate(root)]
    return results + [named_words(*it, words) for it in named_by_editors(root)]


def result(name, why):
    why = list(why)
    return Result(name, not why, why)


# ---- the language


def same_as_page(root, words):
    """The sources that the words are taken from and the page of the language have the same ones."""
    reserved, marks, library = editor_words.of_page(root)
    of_sources = set().union(*(of_kind for kind, of_kind in words.items() if kind not in ("library", "lane")))
    pairs = ((reserved, of_sources), (marks, editor_words.marks(root)), (library, words["library"]))
    return result("words of the language", [f"only one of page and sources has: {it}" for one, other in pairs for it in sorted(one ^ other)])


# ---- VS Code


def package_file(root):
    """The files of the extension can be read and are there, and a launch takes what the page says."""
    for file in sorted((root / "editors").rglob("*.json")):
        json.loads(file.read_text(encoding="utf-8"))
    package = json.loads((root / VSCODE / "package.json").read_text(encoding="utf-8"))
    given = package["contributes"]
    files = [package["main"], package["icon"], *(it["path"] for it in given["grammars"] + given["snippets"])]
    files += [it["configuration"] for it in given["languages"]]
    why = [f"{it} is not there" for it in files if not (root / VSCODE / it).is_file()]
    types = {it["type"] for it in given["debuggers"]} | {it["when"].split("'")[-2] for it in given["keybindings"]}
    languages = {it["language"] for it in given["breakpoints"] + given["grammars"] + given["snippets"]} | {it["id"] for it in given["languages"]}
    why += [f"not one type and one language: {it}" for it in (types, languages) if len(it) > 1]
    return [result("package.json of VS Code", why), result("arguments of a launch", launch_faults(root, given["debuggers"][0]))]


def rows_of_launch(root):
    """What the page says of each argument of a launch."""
    text = (root / PAGE).read_text(encoding="utf-8")
    return dict(re.findall(r"^\| `(\w+)` \| (.*) \|$", re.search(r"^\| Argument \| Means \|\n(.*?)\n\n", text, re.M | re.S)[1], re.M))


def launch_faults(root, debugger):
    """How the arguments of a launch differ from those of the page: their names, and the bounds, which are to stand there."""
    rows = rows_of_launch(root)
    given = debugger["configurationAttributes"]["launch"]["properties"]
    why = [f"only one of page and package.json has: {it}" for it in sorted(set(rows) ^ set(given))]
    for name in rows.keys() & given.keys():
        numbers = {int(it.replace(",", "")) for it in re.findall(r"\d[\d,]*", rows[name])}
        it = given[name]
        told = {*it.get("enum", ()), it.get("minimum"), it.get("maximum")} - {None}
        why += [f"{name}: the page does not say {it}" for it in sorted(told - numbers)]
    return why


def wrongly_scoped(grammar, text, tokens):
    """What is wrong with the scopes of a text's tokens, each of which is where it begins, where it ends, and its kind."""
    scopes = grammar.scopes(text)
    for start, end, kind in tokens:
        bad = [it for it in scopes[start:end] if not any(name.startswith(SCOPES.get(kind, kind)) for name in it)]
        if bad:
            line = text.count("\n", 0, start) + 1
            yield f"line {line}: {text[start:end]} is a {kind}, and {bad[0]}"


def scoped_words(grammar, words):
    """Each word stands alone, before a bracket, and as a part of a name. The library's words are names where they are not called."""
    why = []
    for kind, word in ((kind, word) for kind in editor_words.KINDS for word in words[kind]):
        why += wrongly_scoped(grammar, f"{word} ", [(0, len(word), "name" if kind == "library" else kind)])
        why += wrongly_scoped(grammar, f"{word} (", [(0, len(word), "function" if kind == "lane" else kind)])
        for longer in (f"{word}_", f"_{word}", f"{word}0"):
            why += wrongly_scoped(grammar, longer, [(0, len(longer), "name")])
    return result("words by the grammar", sorted(why))


def scoped_numbers(grammar):
    """Every number with every suffix, of which those with at most one u and two l are right."""
    suffixes = ["".join(it) for size in range(LONGEST_SUFFIX + 1) for it in itertools.product("uUlL", repeat=size)]
    right = lambda suffix: suffix.lower().count("u") <= 1 and suffix.lower().count("l") <= 2
    why = []
    for digits, suffix in itertools.product(DIGITS, suffixes):
        why += wrongly_scoped(grammar, digits + suffix, [(0, len(digits + suffix), "number" if right(suffix) else "invalid.illegal.number.")])
    for text in NO_NUMBERS:
        why += wrongly_scoped(grammar, text, [(0, len(text), "invalid.illegal.number.")])
    return result("numbers by the grammar", why)


def scoped_marks(root, grammar):
    """Each mark is one token, also between names, and what is no mark is wrong."""
    why = []
    for mark in sorted(editor_words.marks(root)):
        why += wrongly_scoped(grammar, f"a{mark}b", [(1, 1 + len(mark), "mark"), (1 + len(mark), 2 + len(mark), "name")])
        scopes = set(grammar.scopes(f"a{mark}b")[1:-1])
        why += [f"{mark} is several: {scopes}"] if len(scopes) > 1 else []
    for text in ("@", "#", "$", '"', "'", "\\", ".", "..", "\f", "é"):
        why += wrongly_scoped(grammar, text, [(0, len(text), "invalid.illegal.byte.")])
    return result("marks by the grammar", why)


def scoped_comments(grammar):
    """Comments end where they end, and hold anything."""
    text = "A // if /* 1\nB /* int // @\n if */ C /**/ D /***/ E / * F /* /* */ G\n"
    inside = [(text.index("//"), text.index("\n")), (text.index("/* int"), text.index(" C "))]
    inside += [it.span() for it in re.finditer(r"/\*\*+/|/\* /\* \*/", text)]
    names = [(it.start(), it.end(), "name") for it in re.finditer("[A-Z]", text)]
    return result("comments by the grammar", wrongly_scoped(grammar, text, [*((start, end, "comment") for start, end in inside), *names]))


def snippets(root, grammar):
    """The texts that are offered have no wrong part, and close what they open."""
    why = []
    for name, it in json.loads((root / VSCODE / "snippets.json").read_text(encoding="utf-8")).items():
        text = re.sub(r"\$\{\d+:([^}]*)\}|\$\d+", r"\1", "\n".join(it["body"]))
        why += wrongly_scoped(grammar, text, editor_words.tokens(root, text))
        why += [f"{name} has a wrong part"] if any("invalid" in " ".join(names) for names in grammar.scopes(text)) else []
        why += [f"{name} does not close what it opens"] if any(text.count(a) != text.count(b) for a, b in ("{}", "()", "[]")) else []
    return result("snippets", why)


# ---- the package


def packed(root):
    to = io.BytesIO()
    tool(root, "pack_extension").pack(root, to)
    return to.getvalue()


def packed_twice(root):
    """The package is the same bytes each time. No file has a time, a right or a form of its own."""
    text = packed(root)
    with zipfile.ZipFile(io.BytesIO(text)) as package:
        told = {(it.date_time, it.external_attr, it.create_system, it.compress_type) for it in package.infolist()}
    why = [] if text == packed(root) else ["the bytes differ"]
    return result("the package twice", why if told == {(LEAST_TIME, 0o644 << 16, 3, zipfile.ZIP_STORED)} else [*why, f"its files are told as {told}"])


def named_by_manifest(root):
    """The package has the files that its manifest and package.json name, and the types of all of them."""
    with zipfile.ZipFile(io.BytesIO(packed(root))) as package:
        names = set(package.namelist())
        manifest, types = (trees.fromstring(package.read(it)) for it in ("extension.vsixmanifest", "[Content_Types].xml"))
        given = json.loads(package.read("extension/package.json"))
    named = {it.get("Path") for it in manifest.findall(".//{*}Asset")}
    named |= {it.text for tag in ("License", "Icon") for it in manifest.findall(f".//{{*}}{tag}")}
    named |= {f"extension/{it.removeprefix('./')}" for it in re.findall(r'"(\./[^"]+)"', json.dumps(given))}
    told = {it.get("Extension") for it in types.findall("{*}Default")}
    identity = manifest.find(".//{*}Identity")
    why = [f"{it} is not in the package" for it in sorted(named - names)]
    why += [f"no type of {it}" for it in sorted(names) if f".{it.rpartition('.')[2]}" not in told and not it.startswith("[")]
    same = (identity.get("Id"), identity.get("Version"), identity.get("Publisher")) == (given["name"], given["version"], given["publisher"])
    return result("the manifest of the package", why if same else [*why, "its name, version or publisher is not that of package.json"])


# ---- the other editors' files


def launches_of_kate(root):
    """Each launch is of the source that Kate's field for the program names, with the arguments that the page tells."""
    given = json.loads((root / "editors/kate/dap.json").read_text(encoding="utf-8"))["dap"]["rinddecade"]
    why = [] if given["run"]["command"] == ["rinddecade", "adapter"] else ["it does not start the adapter"]
    allowed = {"command", *rows_of_launch(root)}
    for name, it in given["configurations"].items():
        request = it["request"]
        why += [] if (request["command"], request["program"]) == ("launch", "${file}") else [f"{name} does not launch the file"]
        why += [f"{name} has an argument {it}" for it in sorted(request.keys() - allowed)]
    return result("launches of Kate", why)


def named_by_editors(root):
    """Each file with the words that it names, by their kinds."""
    read = lambda path: (root / path).read_text(encoding="utf-8")
    yield "words in Vim's file", words_of_vim(read("editors/vim/syntax/ispc.vim"))
    lists = trees.fromstring(read("editors/kate/ispc.xml")).iter("list")
    of_kate = {it.get("name"): {item.text for item in it} for it in lists}
    yield "words in Kate's file", {kind: of_kate.get(KATE.get(kind, kind), set()) for kind in editor_words.KINDS}
    of_emacs = dict(re.findall(r"\(defconst ispc-(\w+)-words\s+'\(([^)]*)\)", read("editors/emacs/ispc-mode.el")))
    yield "words in Emacs' file", {kind: set(re.findall(r'"(\w+)"', of_emacs.get(kind, ""))) for kind in editor_words.KINDS}


def words_of_vim(text):
    found = {kind: set() for kind in VIM}
    for kind, group in ((kind, group) for kind, groups in VIM.items() for group in groups):
        for words in re.findall(rf"^syn keyword {group} (.*)$", text, re.M):
            found[kind] |= set(words.split())
        for start, words in re.findall(rf'^syn match {group} "\\<(\w*)\\%\(([\w\\|]*)\\\)', text, re.M):
            found[kind] |= {start + it for it in words.split("\\|")}
    return found


def named_words(name, found, words):
    why = [f"{kind}: only one of the file and the language has: {it}" for kind in editor_words.KINDS for it in sorted(found[kind] ^ words[kind])]
    return result(name, why)
