"""The manual pages of the programs, from what they say by `--help`."""

from program_help import help_of, verbs_of

FOLDER = "manuals"
STATUSES = {
    "rinddecade": [
        ("0", "The run has ended, or the program was told to quit."),
        ("1", "A source is not ported."),
        ("2", "The words are wrong, a file cannot be read or written, the program is refused, or memory is wanting."),
        ("3", "Standard input cannot be read."),
        ("4", "The output cannot be written."),
    ],
}
STATUSES["ispc_cli"] = [row for row in STATUSES["rinddecade"] if row[0] != "1"]
EXAMPLES = {
    "rinddecade": ["rinddecade debug examples/histogram.ispc", "rinddecade picture examples/lanes.ispc --watch x --to lanes.svg", "rinddecade explain S7"],
    "ispc_cli": ["ispc_cli examples/first.ispc < examples/first.commands"],
}
OTHER = {"rinddecade": ["ispc_cli(1)", "gdb(1)", "rlwrap(1)"], "ispc_cli": ["rinddecade(1)", "gdb(1)"]}


def shown(text):
    """A text of the page itself: groff reads no backslash, dash or dot at the start of a line in it as its own."""
    text = text.replace("\\", "\\e").replace("-", "\\-").replace("'", "\\(aq").replace("`", "\\(ga")
    return "\\&" + text if text.startswith(".") else text


def sentence(text):
    """A text of the help as a sentence."""
    text = text[:1].upper() + text[1:]
    return shown(text if text.endswith(".") else text + ".")


def option_lines(options):
    found = []
    for option in options:
        words = ", ".join(f"\\fB{shown(name)}\\fR" for name in option.names)
        found += [".TP", words + (f" \\fI{shown(option.value)}\\fR" if option.value else ""), sentence(option.text)]
        found += [f"It is one of {shown(', '.join(option.choices))}."] if option.choices else []
    return found


def argument_lines(arguments):
    return [line for name, text in arguments for line in (".TP", f"\\fI{shown(name)}\\fR", sentence(text))]


def page(name, program):
    """The manual page of a program."""
    said = help_of(program)
    lines = [f'.\\" What {name} says by --help, as tools/make_manuals writes it.', f'.TH {name.upper()} 1 "" "Rinddecade" "User commands"']
    lines += [".SH NAME", f"{shown(name)} \\- {shown(said.about[:1].lower() + said.about[1:])}"]
    verbs = verbs_of(program, said)
    usages = [it.usage for it in verbs.values()] or [said.usage]
    lines += [".SH SYNOPSIS", ".nf", *(shown(usage) for usage in usages), ".fi", ".SH DESCRIPTION", sentence(said.about)]
    lines += ["", shown(said.behind)] if said.behind else []
    for verb, its in verbs.items():
        lines += [f".SH {verb.upper()}", sentence(its.about), *argument_lines(its.arguments), *option_lines(its.options)]
    lines += [".SH OPTIONS", *argument_lines(said.arguments), *option_lines(said.options), ".SH EXIT STATUS"]
    lines += [line for status, text in STATUSES[name] for line in (".TP", f"\\fB{status}\\fR", shown(text))]
    lines += [".SH EXAMPLES", ".nf", *(shown(example) for example in EXAMPLES[name]), ".fi"]
    lines += [".SH SEE ALSO", ", ".join(f"\\fB{it.replace('(1)', chr(92) + 'fR(1)')}" for it in OTHER[name])]
    return "\n".join(lines) + "\n"


def files(name, program):
    """The text of the page of a program, by its file's name."""
    return {f"{name}.1": page(name, program)}
