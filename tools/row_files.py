"""What the writers of rows share: where the words of a tree and of a run come from, and the imports that the code of a file needs."""

import re

WORDS = """use Rattle.std.specs.Prelude.{◌≡◌, refl, ℕ, true, false, List, [], ◌∷◌, Option, Some, None, codes}
use Rattle.std.specs.Fmt.{digits}
use Rattle.gang_types.specs.Values.{value_of, residue, word_of, value_in, wrapped, binary_of}
use Rattle.gang_types.specs.declared.types.Rate.TheVariants.{Uniform, Varying}
use Rattle.gang_types.specs.declared.types.IntType.TheVariants as t
use Rattle.gang_types.specs.declared.operators.UnaryOp.TheVariants as unary
use Rattle.gang_types.specs.declared.operators.BinaryOp.TheVariants as op
use Rattle.gang_model.specs.declared.forms.Infix.TheVariants.{Op, AndAlso, OrElse}
use Rattle.gang_model.specs.declared.forms.GlobalForm.TheVariants.{Plain, Array, Initial}
use Rattle.gang_model.specs.declared.forms.Literal.TheVariants.{Number, Truth}
use Rattle.gang_model.specs.Source.Parsed.{ParsedNumber, ParsedBool, ParsedName, ParsedIndex, ParsedCall, ParsedParen, ParsedUnary, ParsedCast, ParsedBinary, ParsedChoice, ParsedEnd, ParsedValue, ParsedPart, ParsedPartFrom, ParsedEmpty, ParsedBlock, ParsedDeclare, ParsedAssign, ParsedChange, ParsedIncrement, ParsedDoCall, ParsedBreak, ParsedContinue, ParsedReturn, ParsedIf, ParsedIfElse, ParsedWhile, ParsedDo, ParsedFor, ParsedSwitch, ParsedForEach, ParsedForEachActive, ParsedForEachUnique, ParsedLast, ParsedNext, ParsedNoMore, ParsedSegment, ParsedSource}
use Rattle.tests_transcripts.proofs.Forms.{at, spec, target, dimension, label, parameter, function, file_variable, options, run, run_from}
"""


def comment(text):
    return "".join(f"-- {line}".rstrip() + "\n" for line in text.split("\n"))


def code_words(code):
    """The words of a proof's code, without its comments and the texts in its strings."""
    lines = [line for line in code.split("\n") if not line.startswith("--")]
    without_texts = re.sub(r'"(\\.|[^"\\])*"', '""', "\n".join(lines))
    return set(re.findall(r"[^\s(),.∷≡]+|[∷≡]|\[\]", without_texts))


def imports(head, code):
    """The lines of the head with the names that the code uses."""
    words = code_words(code)
    words |= {f"◌{operator}◌" for operator in ("≡", "∷") if operator in words}
    out = ""
    for line in head.splitlines():
        group = re.fullmatch(r"(use .*\.)\{(.*)\}", line)
        if group is None:
            out += line + "\n" if line.split()[-1] in words else ""
            continue
        used = [name for name in group[2].split(", ") if name in words]
        out += f"{group[1]}{{{', '.join(used)}}}\n" if used else ""
    return out
