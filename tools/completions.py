"""Completions of the programs, from what they say of themselves.

For bash, zsh and fish: the verbs, the options of each, the values that an option lists, files, and the numbers of refusals and faults. For
`rlwrap -f`: the words of the commands at the prompt, as `help` and `info` list them there.
"""

import pathlib
import re
import subprocess
import tempfile

from program_help import help_of, verbs_of

FOLDER = "completions"
FILES = ("FILE", "SOURCE")  # the names of values that are files
PAGES = "NAME"  # the name of the argument of `explain`
SOURCE = b"export void go() { }\n"
NUMBERED = [f"{letter}{number}" for letter in "SEIFC" for number in range(1, 20)]
# A line of the list has the word with how it is used in 20 columns, the last of them a blank.
USAGE, COMMAND = re.compile(r"^(?=.{19} \S)([a-z/-]+) .*", re.M), re.compile(r"`info` lists: (.*?)\.$", re.M)


def explained(program):
    """The numbers that have a page."""
    ran = lambda number: subprocess.run([program, "explain", number], env={}, stdin=subprocess.DEVNULL, capture_output=True)
    return [number for number in NUMBERED if ran(number).returncode == 0]


def typed(program):
    """The words of the commands at the prompt."""
    with tempfile.TemporaryDirectory(prefix="words-") as folder:
        pathlib.Path(folder, "go.ispc").write_bytes(SOURCE)
        words = [program, "debug", "go.ispc"]
        said = subprocess.run(words, cwd=folder, env={}, input=b"echo ----\nhelp\ninfo\n", capture_output=True, check=True).stdout.decode()
    said = said.partition("----\n")[2]
    lists = COMMAND.search(said)[1]
    commands = USAGE.findall(said.partition("A place has")[0])
    return sorted({*commands, *(it.split(" ")[0] for it in lists.split(", "))})


def bash_values(value, choices, numbers):
    """What bash completes a value by."""
    if choices:
        return f'COMPREPLY=($(compgen -W "{" ".join(choices)}" -- "$word"))'
    if value in FILES:
        return "_rinddecade_files"
    return f'COMPREPLY=($(compgen -W "{" ".join(numbers)}" -- "$word"))' if value == PAGES and numbers else ""


def bash_options(said, indent, numbers=()):
    """The lines by which bash completes the options and arguments of a program or a verb."""
    by_values = {}
    for option in said.options:
        if option.value:
            by_values.setdefault(bash_values(option.value, option.choices, ()), []).extend(option.names)
    cases = [f"    {'|'.join(names)}) {value + '; ' if value else ''}return ;;" for value, names in by_values.items()]
    lines = ['case "$before" in', *cases, "esac"] if cases else []
    names = " ".join(name for option in said.options for name in option.names)
    free = bash_values(said.arguments[0][0], (), numbers) if said.arguments else ""
    lines += ['case "$word" in', f'    -*) COMPREPLY=($(compgen -W "{names}" -- "$word")) ;;']
    lines += [f"    *) {free} ;;"] if free else []
    return [" " * indent + line for line in [*lines, "esac"]]


def bash(name, said, verbs, numbers):
    lines = [f"# Completions of {name} for bash, from what it says by --help, as tools/make_completions writes them.", ""]
    lines += ["_rinddecade_files() {", "    compopt -o filenames 2>/dev/null", "    local IFS=$'\\n'", '    COMPREPLY=($(compgen -f -- "$word"))', "}", ""]
    lines += [f"_{name}() {{", '    local word=${COMP_WORDS[COMP_CWORD]} before=${COMP_WORDS[COMP_CWORD-1]}', "    COMPREPLY=()"]
    lines += ['    [[ $word == "=" ]] && word=', '    [[ $before == "=" ]] && before=${COMP_WORDS[COMP_CWORD-2]}']
    if verbs:
        first = " ".join([*(verb for verb, _ in said.verbs), *(it for option in said.options for it in option.names)])
        helped = " ".join(verbs)
        lines += ["    if ((COMP_CWORD == 1)); then", f'        COMPREPLY=($(compgen -W "{first}" -- "$word"))', "        return", "    fi"]
        lines += ['    case "${COMP_WORDS[1]}" in', f'        help) ((COMP_CWORD == 2)) && COMPREPLY=($(compgen -W "{helped}" -- "$word")) ;;']
        for verb, its in verbs.items():
            lines += [f"        {verb})", *bash_options(its, 12, numbers), "            ;;"]
        lines += ["    esac"]
    else:
        lines += bash_options(said, 4)
    return "\n".join([*lines, "}", "", f"complete -F _{name} {name}"]) + "\n"


def zsh_text(text):
    """A text in zsh's descriptions: quotes, brackets and colons have a meaning there."""
    return re.sub(r"([][:\\])", r"\\\1", text).replace("'", "'\\''").replace("`", "")


def zsh_value(value, choices, numbers):
    if choices:
        return f"({' '.join(choices)})"
    if value in FILES:
        return "_files"
    return f"({' '.join(numbers)})" if value == PAGES and numbers else " "


def zsh_options(said, numbers=()):
    lines = []
    for option in said.options:
        for word in option.names:
            value = f":{option.value}:{zsh_value(option.value, option.choices, ())}" if option.value else ""
            lines.append(f"'{word}{'=' if value and word.startswith('--') else ''}[{zsh_text(option.text)}]{value}'")
    lines += [f"'*:{value}:{zsh_value(value, (), numbers)}'" for value, _ in said.arguments[:1]]
    return lines


def zsh(name, said, verbs, numbers):
    lines = [f"#compdef {name}", f"# Completions of {name} for zsh, from what it says by --help, as tools/make_completions writes them.", ""]
    if not verbs:
        return "\n".join([*lines, "_arguments \\", *(f"    {it} \\" for it in zsh_options(said))]).removesuffix(" \\") + "\n"
    lines += ["local -a verbs", "verbs=("]
    lines += [f"    '{verb}:{zsh_text(text)}'" for verb, text in said.verbs]
    lines += [")", "if ((CURRENT == 2)); then", "    _describe verb verbs", "    _arguments \\"]
    lines += [f"        {it} \\" for it in zsh_options(said)]
    lines[-1] = lines[-1].removesuffix(" \\")
    lines += ["    return", "fi", "case $words[2] in", "    help) ((CURRENT == 3)) && _describe verb verbs ;;"]
    for verb, its in verbs.items():
        lines += [f"    {verb})", "        shift words; ((CURRENT--))", "        _arguments \\", *(f"            {it} \\" for it in zsh_options(its, numbers))]
        lines[-1] = lines[-1].removesuffix(" \\") + " ;;"
    return "\n".join([*lines, "esac"]) + "\n"


def fish_text(text):
    return "'" + text.replace("\\", "\\\\").replace("'", "\\'") + "'"


def fish_options(name, said, condition):
    lines = []
    for option in said.options:
        words = " ".join(f"-l {it[2:]}" if it.startswith("--") else f"-s {it[1:]}" for it in option.names)
        value = " -x -a " + fish_text(" ".join(option.choices)) if option.choices else " -r -F" if option.value in FILES else " -x" if option.value else ""
        lines.append(f"complete -c {name}{condition} {words}{value} -d {fish_text(option.text)}")
    return lines


def fish(name, said, verbs, numbers):
    lines = [f"# Completions of {name} for fish, from what it says by --help, as tools/make_completions writes them.", f"complete -c {name} -f"]
    if not verbs:
        return "\n".join([*lines, f"complete -c {name} -F", *fish_options(name, said, "")]) + "\n"
    lines += [f"complete -c {name} -n __fish_use_subcommand -a {verb} -d {fish_text(text)}" for verb, text in said.verbs]
    lines += fish_options(name, said, " -n __fish_use_subcommand")
    for verb, its in verbs.items():
        condition = f" -n '__fish_seen_subcommand_from {verb}'"
        files = any(value in FILES for value, _ in its.arguments)
        lines += [f"complete -c {name}{condition} -F"] if files else []
        named = any(value == PAGES for value, _ in its.arguments)
        lines += [f"complete -c {name}{condition} -a {fish_text(' '.join(numbers))}"] if named else []
        lines += fish_options(name, its, condition)
    lines.append(f"complete -c {name} -n '__fish_seen_subcommand_from help' -a {fish_text(' '.join(verbs))}")
    return "\n".join(lines) + "\n"


def files(name, program):
    """The text of each file of completions of a program, by its name."""
    said = help_of(program)
    verbs = verbs_of(program, said)
    numbers = explained(program) if verbs else []
    found = {f"{name}.bash": bash(name, said, verbs, numbers), f"_{name}": zsh(name, said, verbs, numbers), f"{name}.fish": fish(name, said, verbs, numbers)}
    return {**found, f"{name}.words": "".join(f"{word}\n" for word in typed(program))} if verbs else found
