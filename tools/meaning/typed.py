"""Names and types: each name with its variable, each expression with its type, each call with its function, each step with its scope."""

from .source import Node, items_of
from .values import ARITHMETIC, COMPARISONS, SHIFTS, bits, is_signed, joined, sum_type, wrapped

PACKED = ("packed_store_active", "packed_load_active")
# What the arguments of a library call become: a type, or "own" for the type of the first, an integer type of it, or the joined type of all.
LIBRARY = {
    "any": ["bool"],
    "all": ["bool"],
    "none": ["bool"],
    "reduce_add": ["number"],
    "reduce_min": ["number"],
    "reduce_max": ["number"],
    "reduce_equal": ["own"],
    "broadcast": ["own", "int32"],
    "extract": ["own", "int32"],
    "insert": ["own", "int32", "own"],
    "rotate": ["own", "int32"],
    "shift": ["own", "int32"],
    "exclusive_scan_add": ["number"],
    "exclusive_scan_and": ["number"],
    "exclusive_scan_or": ["number"],
    "min": ["joined", "joined"],
    "max": ["joined", "joined"],
    "clamp": ["joined", "joined", "joined"],
    "abs": ["number"],
    "lanemask": [],
    "packmask": ["bool"],
}
UNIFORM = ("any", "all", "none", "reduce_add", "reduce_min", "reduce_max", "reduce_equal", "extract", "lanemask", "packmask")
AS_ARGUMENTS = ("min", "max", "clamp", "abs", "select")


class Variable:
    """A variable: of the file, a parameter or a local one."""

    def __init__(self, name, spec, is_array=False, is_parameter=False, is_constant=None, usual="varying"):
        self.name, self.type, self.rate = name, spec.type, spec.rate or ("uniform" if is_array else usual)
        self.is_array, self.is_parameter = is_array, is_parameter
        self.is_constant = spec.is_constant if is_constant is None else is_constant
        self.length, self.value = None, 0


class Function:
    """A function: its parameters, its result, its body, and what is in scope at its closing brace."""

    def __init__(self, item):
        self.item, self.name, self.is_exported = item, item.name, item.spec.is_exported
        self.type, self.rate = item.spec.type, item.spec.rate or "varying"
        self.parameters = [Variable(name, spec, is_array, True) for spec, name, is_array in item.parameters]
        self.closing = item.body.closing
        self.has_returned = False


class Program:
    """The functions and variables of an accepted source."""

    def __init__(self, source):
        items = items_of(source)
        self.globals, self.functions, self.lines = [], [], set()
        for item in items:
            if item.kind == "function":
                self.functions.append(Function(item))
            else:
                made = Variable(item.name, item.spec, item.length is not None)
                made.length, made.value = item.length, wrapped(made.type, item.value)
                self.globals.append(made)
        for function in self.functions:
            Checker(self, function).check()
        self.lines |= {it.closing[0] for it in self.functions}


class Checker:
    """The check of one function."""

    def __init__(self, program, function):
        self.program, self.function, self.visible = program, function, list(function.parameters)
        self.closing_scope = list(function.parameters)

    def check(self):
        f = self.function
        f.body = Node("block", f.item.body.place, statements=self.statements(f.item.body.statements, outermost=True))
        f.closing_scope = self.shown(self.closing_scope)

    # scopes

    def shown(self, visible):
        return [it for at, it in enumerate(visible) if all(later.name != it.name for later in visible[at + 1 :])]

    def variable(self, name):
        found = [it for it in self.visible if it.name == name]
        return found[-1] if found else next(it for it in self.program.globals if it.name == name)

    def index_variable(self, name, rate, of_type):
        made = Variable(name, Node("spec", None, type=of_type, rate=rate, is_constant=True))
        self.visible.append(made)
        return made

    def step(self, place, kind, **fields):
        self.program.lines.add(place[0])
        return Node(kind, place, scope=self.shown(self.visible), **fields)

    # statements

    def block(self, statement):
        depth = len(self.visible)
        made = Node("block", None, statements=self.statements([] if statement is None else [statement]))
        del self.visible[depth:]
        return made

    def statements(self, statements, outermost=False):
        made = []
        for statement in statements:
            before = len(self.visible)
            made.append(self.statement(statement))
            if outermost and not self.function.has_returned:
                self.closing_scope += self.visible[before:]
        return made

    def statement(self, s):
        return getattr(self, "do_" + s.kind.replace(" ", "_"))(s)

    def do_block(self, s):
        depth = len(self.visible)
        made = Node("block", None, statements=self.statements(s.statements))
        del self.visible[depth:]
        return made

    def do_declare(self, s):
        variable = Variable(s.name, s.spec)
        step = self.with_value(s.place, s.value, ("declares", variable)) or self.step(
            s.place, "declare", variable=variable, value=s.value and to(self.expression(s.value), variable.type)
        )
        self.visible.append(variable)
        return step

    def do_assign(self, s):
        target = self.target(s.target)
        return self.with_value(s.place, s.value, ("assigns", target.variable)) or self.step(
            s.place, "assign", target=target, value=to(self.expression(s.value), target.type)
        )

    def do_change(self, s):
        target, value = self.target(s.target), self.expression(s.value)
        of_type, _ = operation(s.operator, target.type, value.type)
        value = value if s.operator in SHIFTS else to(value, of_type)
        return self.step(s.place, "change", target=target, operator=s.operator, in_type=of_type, value=value)

    def do_call_statement(self, s):
        return self.with_value(s.place, s.value, ("nothing", None))

    def do_return(self, s):
        self.function.has_returned = True
        return self.with_value(s.place, s.value, ("returns", None)) or self.step(
            s.place, "return", value=s.value and to(self.expression(s.value), self.function.type)
        )

    def do_break(self, s):
        return self.step(s.place, "break")

    def do_continue(self, s):
        return self.step(s.place, "continue")

    def do_if(self, s):
        test = to(self.expression(s.test), "bool")
        return self.step(s.place, "if", test=test, first=self.block(s.first), other=self.block(s.other))

    def do_for(self, s):
        depth = len(self.visible)
        start = [self.statement(s.start)] if s.start else []
        test = to(self.expression(s.test), "bool") if s.test else typed_number(1, "bool")
        loop = self.step(s.place, "loop", test=test)
        loop.update = Node("block", None, statements=[self.statement(s.update)] if s.update else [])
        loop.body = self.block(s.body)
        del self.visible[depth:]
        return Node("block", None, statements=[*start, loop])

    def do_do(self, s):
        body = self.block(s.body)
        return self.step(s.place, "do", test=to(self.expression(s.test), "bool"), update=Node("block", None, statements=[]), body=body)

    def do_switch(self, s):
        made = self.step(s.place, "switch", selector=self.expression(s.selector))
        made.segments = [(label, Node("block", None, statements=self.statements(body))) for label, body in s.segments]
        return made

    def do_domain(self, s):
        bounds = [(to(self.expression(low), "int32"), to(self.expression(high), "int32")) for _, low, high in s.dimensions]
        made, depth = self.step(s.place, "domain", is_tiled=s.is_tiled, bounds=bounds), len(self.visible)
        made.indices = [self.index_variable(name, "varying", "int32") for name, _, _ in s.dimensions]
        made.body = self.block(s.body)
        del self.visible[depth:]
        return made

    def do_each_lane(self, s):
        made, depth = self.step(s.place, "each lane"), len(self.visible)
        made.indices = [self.index_variable(s.name, "uniform", "int64")]
        made.body = self.block(s.body)
        del self.visible[depth:]
        return made

    def do_each_value(self, s):
        made, depth = self.step(s.place, "each value", value=self.expression(s.value)), len(self.visible)
        made.indices = [self.index_variable(s.name, "uniform", made.value.type)]
        made.body = self.block(s.body)
        del self.visible[depth:]
        return made

    def target(self, t):
        variable = self.variable(t.name)
        index = self.expression(t.index) if t.kind == "element" else None
        return Node("target", t.place, variable=variable, index=index, type=variable.type)

    # calls that are statements

    def with_value(self, place, e, result_for):
        """The step of a call of a function, `assert` or a packed call, if this is one."""
        if e is None or e.kind != "call":
            return None
        if e.name == "assert":
            return self.step(place, "check", test=to(self.expression(e.arguments[0]), "bool"))
        if e.name in PACKED:
            array = self.passed(e.arguments[0])
            if e.name == PACKED[0]:
                value = to(self.expression(e.arguments[1]), array.variable.type)
                return self.step(place, "packed store", array=array, value=value, result_for=result_for)
            return self.step(place, "packed load", array=array, variable=self.variable(e.arguments[1].name), result_for=result_for)
        named = [it for it in self.program.functions if it.name == e.name]
        if not named:
            return None
        given = [self.passed(it) for it in e.arguments]
        costs = [(it, [cost(x, p) for x, p in zip(given, it.parameters)]) for it in named if len(it.parameters) == len(given)]
        chosen = min((it for it in costs if None not in it[1]), key=lambda it: sum(it[1]))[0]
        given = [x if p.is_array else to(x, p.type) for x, p in zip(given, chosen.parameters)]
        return self.step(place, "call", function=chosen, arguments=given, result_for=result_for)

    def passed(self, e):
        is_array = e.kind == "part" or e.kind == "name" and self.is_array(e.name)
        if not is_array:
            return self.expression(e)
        start = e.kind == "part" and e.start
        return Node("array", e.place, variable=self.variable(e.name), start=self.expression(start) if start else None)

    def is_array(self, name):
        return name not in ("programIndex", "programCount") and self.variable(name).is_array

    # expressions

    def expression(self, e):
        return getattr(self, "of_" + e.kind)(e)

    def of_number(self, e):
        return typed_number(e.value, e.type)

    def of_name(self, e):
        if e.name in ("programIndex", "programCount"):
            return Node(e.name, e.place, type="int32", rate="varying" if e.name == "programIndex" else "uniform")
        variable = self.variable(e.name)
        return Node("read", e.place, variable=variable, type=variable.type, rate=variable.rate)

    def of_element(self, e):
        variable, index = self.variable(e.name), self.expression(e.index)
        return Node("element", e.place, variable=variable, index=index, type=variable.type, rate=index.rate)

    def of_unary(self, e):
        operand = self.expression(e.operand)
        of_type = "bool" if e.operator == "!" else "int32" if operand.type == "bool" else operand.type
        return Node("unary", e.place, operator=e.operator, operand=to(operand, of_type), type=of_type, rate=operand.rate)

    def of_cast(self, e):
        return to(self.expression(e.operand), e.spec.type, e.spec.rate)

    def of_binary(self, e):
        left, right = self.expression(e.left), self.expression(e.right)
        rate = together(left, right)
        if e.operator in ("&&", "||"):
            return Node("both", e.place, operator=e.operator, left=to(left, "bool"), right=to(right, "bool"), type="bool", rate=rate)
        of_type, result = operation(e.operator, left.type, right.type)
        right = right if e.operator in SHIFTS else to(right, of_type)
        return Node("binary", e.place, operator=e.operator, left=to(left, of_type), right=right, in_type=of_type, type=result, rate=rate)

    def of_choice(self, e):
        test, first, other = to(self.expression(e.test), "bool"), self.expression(e.first), self.expression(e.other)
        of_type = "bool" if first.type == other.type == "bool" else joined(first.type, other.type)
        first, other = to(first, of_type), to(other, of_type)
        return Node("choice", e.place, test=test, first=first, other=other, type=of_type, rate=together(test, first, other))

    def of_call(self, e):
        given = [self.expression(it) for it in e.arguments]
        rate = together(*given)
        if e.name == "popcnt":
            if given[0].type == "bool":
                return Node("library", e.place, name="count", given=given, type="int32", rate="uniform")
            return Node("library", e.place, name="popcnt", given=given, type="int32", rate=rate)
        if e.name == "shuffle":
            of_type = given[0].type if len(given) == 2 else joined(given[0].type, given[1].type)
            given = [to(it, of_type) for it in given[:-1]] + [to(given[-1], "int32")]
            return Node("library", e.place, name="shuffle", given=given, type=of_type, rate="varying")
        if e.name == "select":
            of_type = both_joined(given[1], given[2])
            given = [to(given[0], "bool"), to(given[1], of_type), to(given[2], of_type)]
            return Node("library", e.place, name="select", given=given, type=of_type, rate=rate)
        asked = {"own": given[0].type if given else None, "number": number(given[0].type) if given else None}
        asked["joined"] = joined_all([number(it.type) for it in given]) if given else None
        given = [to(it, asked.get(want, want)) for it, want in zip(given, LIBRARY[e.name])]
        of_type = given[0].type if given else None
        of_type = {"reduce_add": sum_type(of_type), "lanemask": "uint64", "packmask": "uint64"}.get(e.name, of_type)
        of_type = "bool" if e.name in ("any", "all", "none", "reduce_equal") else of_type
        rate = "uniform" if e.name in UNIFORM else rate if e.name in AS_ARGUMENTS else "varying"
        return Node("library", e.place, name=e.name, given=given, type=of_type, rate=rate)


def typed_number(value, of_type):
    return Node("number", None, value=value, type=of_type, rate="uniform")


def to(e, of_type, rate=None):
    if e.type == of_type and rate in (None, e.rate):
        return e
    return Node("convert", e.place, operand=e, type=of_type, rate=rate or e.rate)


def together(*parts):
    return "varying" if any(it.rate == "varying" for it in parts) else "uniform"


def number(of_type):
    return "int32" if of_type == "bool" else of_type


def both_joined(a, b):
    return "bool" if a.type == b.type == "bool" else joined(a.type, b.type)


def joined_all(types):
    found = types[0]
    for it in types[1:]:
        found = joined(found, it)
    return found


def operation(operator, left, right):
    """The type in which an operation is made, and that of its result."""
    if operator in SHIFTS:
        return number(left), number(left)
    are_bools = left == right == "bool"
    of_type = "bool" if are_bools and operator in ("&", "|", "^", "==", "!=") else joined(left, right)
    assert operator in COMPARISONS or operator in ARITHMETIC, operator
    return of_type, "bool" if operator in COMPARISONS else of_type


def cost(given, parameter):
    """What it costs to pass this, if it can be passed."""
    if parameter.is_array or given.kind == "array":
        fits = parameter.is_array and given.kind == "array" and given.variable.type == parameter.type
        return 0 if fits and (parameter.is_constant or not given.variable.is_constant) else None
    if given.rate == "varying" and parameter.rate == "uniform":
        return None
    spread = given.rate != parameter.rate
    if given.type == parameter.type:
        return 2 if spread else 0
    pair = (given.type, parameter.type)
    widens = "bool" not in pair and is_signed(pair[0]) == is_signed(pair[1]) and bits(pair[0]) < bits(pair[1])
    return (4 if spread else 1) if widens else (5 if spread else 3)
