"""The pages: README.md, those of docs/ and those that list crates and examples. What they name is there, and no paragraph is long."""

import re

from . import finding, promises, quotes
from .tool import tool
from .tried import Result

LISTS = ("crates/README.md", "examples/README.md")
DEFINITIONS = "docs/DEFINITIONS.md"

# The most characters of a paragraph or an item of a list. Rows of tables are not counted.
MOST = 500

# What stands in a path for any name, or is made when the program is built or proved; files of an editor; and a format behind GDB's `print` or `x`.
MADE_OR_ANY = re.compile(r"\b(NAME|CRATE|DIR|F|PATH)\b|\.\.$|\bout/|^proved\.txt$|^~|\*|^\.vscode/|^(?:p|print|display|x)/\w+$")
CODE = re.compile(r"`([^`\n]+)`")
LINK = re.compile(r"\]\(([^)#\s]+)[^)]*\)")
PATH = re.compile(r"(?:[\w.~*+-]*\w[\w.~*+-]*/)+[\w.*+-]*|[\w-]+\.(?:antt|rt|py|md|txt|edit|session)")
NAMES_IN = re.compile(r"((?:`[\w>=-]+`(?:,| and) )*`[\w>=-]+`) \(`([\w/.]+\.(?:antt|rt))`\)")
BLOCK = re.compile(r"^```.*?^```", re.M | re.S)


def pages(root):
    return [root / "README.md", *sorted((root / "docs").glob("*.md")), *(root / it for it in LISTS)]


def named(text):
    """The paths that a page names outside its blocks of text: those of links, and those in backticks."""
    plain = BLOCK.sub("", text)
    words = [word for code in CODE.findall(plain) for word in code.split()]
    return LINK.findall(plain), [word for word in words if PATH.fullmatch(word) and not MADE_OR_ANY.search(word)]


def is_there(root, path):
    """Whether a path begins at the top, at the crates, in some crate, or in a folder of tools/."""
    return any((it / path).exists() for it in (root, root / "crates")) or any(root.glob(f"crates/*/{path}")) or any(root.glob(f"tools/*/{path}"))


def paragraphs(text):
    """The paragraphs and items of a page, each with its line; headings, rows of tables and blocks of text are none."""
    found, is_block = [], False
    for number, line in enumerate(text.splitlines(), 1):
        is_fence = line.startswith("```")
        if is_block or is_fence or not line.strip() or line.startswith(("#", "|")):
            is_block ^= is_fence
            found.append(None)
        elif found and found[-1] and not re.match(r"\s*([-*]|\d+\.) ", line):
            found[-1] = (found[-1][0], f"{found[-1][1]} {line.strip()}")
        else:
            found.append((number, line.strip()))
    return [it for it in found if it]


def long_ones(page):
    found = paragraphs(page.read_text(encoding="utf-8"))
    return [f"line {at}: {len(text)} characters, and {MOST} are the most: {text[:60]} .." for at, text in found if len(text) > MOST]


def long_ones_of_crates(root):
    """What each crate's own page has that is long."""
    own = sorted(root.glob("crates/*/README.md"))
    return [f"{it.parent.name}: {why}" for it in own for why in long_ones(it)]


def has(text, name):
    return bool(re.search(rf"(?<![\w'-]){re.escape(name)}(?![\w'-])", text))


def missing(root, page):
    """The links and paths of a page that are not there, and the names that the file behind them has not."""
    text = page.read_text(encoding="utf-8")
    links, words = named(text)
    bad = [it for it in links if "://" not in it and not (page.parent / it).exists()]
    gone = [it for it in words if not is_there(root, it.rstrip("/"))]
    why = [f"{it} is not there" for it in dict.fromkeys([*bad, *gone])]
    for names, path in NAMES_IN.findall(text):
        file = root / "crates" / path
        there = file.read_text(encoding="utf-8") if file.is_file() else ""
        why += [f"{name} is not in {path}" for name in CODE.findall(names) if there and not has(there, name)]
    return why


def rows_of_definitions(root):
    """The rows of the tables of definitions and laws: the line, the folder of their files, the names, and the files."""
    folder, at_file = None, None
    for number, line in enumerate((root / DEFINITIONS).read_text(encoding="utf-8").splitlines(), 1):
        if line.startswith("#"):
            folder = None
        elif found := re.match(r"Files of `([^`]+)`", line):
            folder = root / found[1]
        cells = [it.strip() for it in re.split(r"(?<!\\)\|", line)[1:-1]]
        if "File" in cells:
            at_file = cells.index("File")
        elif folder and at_file and len(cells) > at_file and not re.fullmatch(r"-+", cells[0]):
            files, _, other = cells[at_file].partition(" of ")
            place = root / other.strip("`") if other else folder
            yield number, CODE.findall(cells[0]), [place / f"{it.strip()}.antt" for it in files.split(",")]


def undefined(root):
    """What a table of definitions and laws says of a file in which `tools/where` finds no such one."""
    where = tool(root, "where")
    for number, names, files in rows_of_definitions(root):
        gone = [it for it in files if not it.is_file()]
        yield from (f"line {number}: {it.relative_to(root)} is not there" for it in gone)
        there = {unit.name for file in files if file not in gone for how in (where.DEFINED, where.STATED) for unit in where.units(file, how)}
        for name in (it for it in names if it.strip("◌") not in there):
            yield f"line {number}: {name} is not in {', '.join(it.name for it in files)}"


def check(root):
    """A result for each page: it is there, with what it names, and its paragraphs are short, as those of the crates' own pages; and for the names of definitions, rules and promises, and what is quoted."""
    results = []
    for page in pages(root):
        why = missing(root, page) + long_ones(page) if page.is_file() else ["it is not there"]
        results.append(Result(page.relative_to(root).as_posix(), not why, why))
    why = list(undefined(root))
    results.append(Result("the files of the definitions", not why, why))
    why = long_ones_of_crates(root)
    return [*results, Result("the crates' own pages", not why, why), *finding.check(root), *promises.check(root), *quotes.check(root)]
