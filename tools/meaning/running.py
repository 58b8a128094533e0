"""A run: the state of a program, and its steps one by one."""

from .library import called
from .rounds import rounds_of
from .source import Node
from .values import Fault, computed, unary, wrapped

FRAMES = 64


class Task:
    """What is to be done, and the lanes that will do it: a statement, a loop's test or update, a round, a round's or a switch's end."""

    def __init__(self, kind, lanes, statement=None, indices=None):
        self.kind, self.lanes, self.statement, self.indices = kind, lanes, statement, indices

    def without(self, lanes):
        return Task(self.kind, self.lanes - lanes, self.statement, self.indices)


class Frame:
    """A call that has not been left."""

    def __init__(self, function, lanes, call=None, result_for=("nothing", None)):
        self.function, self.lanes, self.call, self.result_for = function, lanes, call, result_for
        self.views, self.words, self.result, self.tasks = {}, {}, None, []

    def copy(self):
        made = Frame(self.function, self.lanes, self.call, self.result_for)
        made.views, made.words, made.result, made.tasks = self.views, dict(self.words), self.result, list(self.tasks)
        return made

    def tasks_ahead(self, lane):
        """The tasks that are done before a lane is past them all: its own, and each round of a foreach form that some lane does."""
        return [it for it in self.tasks if lane in it.lanes or it.kind == "round" and it.lanes]


class State:
    """The variables of the file, and the frames, the top one last. Lists of words are never changed in place."""

    def __init__(self, width, memory, frames):
        self.width, self.memory, self.frames = width, memory, frames

    def copy(self):
        return State(self.width, dict(self.memory), [*self.frames[:-1], *(it.copy() for it in self.frames[-1:])])

    @property
    def top(self):
        return self.frames[-1]

    def words(self, variable):
        return self.memory[variable] if variable in self.memory else self.top.words[variable]

    def set_words(self, variable, words):
        (self.memory if variable in self.memory else self.top.words)[variable] = words

    def view(self, variable):
        """The array that a name stands for, its first element and its length."""
        return (variable, 0, len(self.memory[variable])) if variable in self.memory else self.top.views[variable]


def begun(program, entry, width, rows):
    """The state in which a program begins, with the rows of its input."""
    memory = {}
    for it in program.globals:
        memory[it] = [0] * it.length if it.is_array else [it.value] * (width if it.rate == "varying" else 1)
        given = rows.get(it.name, []) if it.rate == "uniform" and not it.is_constant else []
        memory[it] = given + memory[it][len(given) :]
    frame = Frame(entry, frozenset(range(width)))
    state = State(width, memory, [frame])
    for it in entry.parameters:
        if it.is_array:
            memory[it] = rows[it.name]
            frame.views[it] = (it, 0, len(rows[it.name]))
        else:
            frame.words[it] = rows[it.name]
    frame.result = [0] * width
    frame.tasks = [Task("run", frame.lanes, entry.body)]
    settle(state)
    return state


# ---- values


def evaluated(e, lanes, state):
    """The value of an expression in each of these lanes, of which there are some."""
    return EVALUATED[e.kind](e, lanes, state)


def each(lanes, what):
    """A value for each lane, or the fault at the lowest one that has one."""
    found = {}
    for k in sorted(lanes):
        try:
            found[k] = what(k)
        except ZeroDivisionError:
            raise Fault("F1 DivideByZero", k) from None
        except IndexError:
            raise Fault("F2 Index", k) from None
    return found


def read(e, lanes, state):
    words = state.words(e.variable)
    return {k: words[0 if e.variable.rate == "uniform" else k] for k in lanes}


def place_in(view, index):
    if not 0 <= index < view[2]:
        raise IndexError
    return view[1] + index


def element(e, lanes, state):
    index, view = evaluated(e.index, lanes, state), state.view(e.variable)
    return each(lanes, lambda k: state.memory[view[0]][place_in(view, index[k])])


def one_operand(e, lanes, state):
    a = evaluated(e.operand, lanes, state)
    return {k: unary(e.operator, e.type, a[k]) for k in lanes}


def two_operands(e, lanes, state):
    a, b = evaluated(e.left, lanes, state), evaluated(e.right, lanes, state)
    return each(lanes, lambda k: computed(e.operator, e.in_type, a[k], b[k]))


def both(e, lanes, state):
    a = evaluated(e.left, lanes, state)
    needing = frozenset(k for k in lanes if bool(a[k]) == (e.operator == "&&"))
    return a | (evaluated(e.right, needing, state) if needing else {})


def choice(e, lanes, state):
    test = evaluated(e.test, lanes, state)
    yes = frozenset(k for k in lanes if test[k])
    found = evaluated(e.first, yes, state) if yes else {}
    return found | (evaluated(e.other, lanes - yes, state) if lanes - yes else {})


def library(e, lanes, state):
    given = [evaluated(it, lanes, state) for it in e.given]
    return called(e, given, lanes, state.width)


def converted(e, lanes, state):
    a = evaluated(e.operand, lanes, state)
    return {k: wrapped(e.type, a[k]) for k in lanes}


EVALUATED = {
    "number": lambda e, lanes, state: {k: e.value for k in lanes},
    "programIndex": lambda e, lanes, state: {k: k for k in lanes},
    "programCount": lambda e, lanes, state: {k: state.width for k in lanes},
    "read": read,
    "element": element,
    "unary": one_operand,
    "binary": two_operands,
    "both": both,
    "choice": choice,
    "library": library,
    "convert": converted,
}


# ---- writing


def declare(state, variable, lanes, values):
    uniform = variable.rate == "uniform"
    state.set_words(variable, [values[min(lanes)]] if uniform else [values.get(k, 0) for k in range(state.width)])


def merged(rate, lanes, values, old):
    return [values[min(lanes)]] if rate == "uniform" else [values[k] if k in lanes else word for k, word in enumerate(old)]


def assign(state, variable, lanes, values):
    state.set_words(variable, merged(variable.rate, lanes, values, state.words(variable)))


def store(state, view, lanes, places, values):
    words = list(state.memory[view[0]])
    for k in sorted(lanes):
        words[places[k]] = values[k]
    state.memory[view[0]] = words


def deliver(state, of_type, result_for, lanes, values):
    what, variable = result_for
    if what in ("declares", "assigns"):
        values = {k: wrapped(variable.type, values[k]) for k in lanes}
        (declare if what == "declares" else assign)(state, variable, lanes, values)
    if what == "returns":
        leave_all(state, lanes, {k: wrapped(state.top.function.type, values[k]) for k in lanes})


def leave_all(state, lanes, values):
    """The result in these lanes, which leave every task of the frame."""
    frame = state.top
    if values is not None and frame.function.type != "void":
        frame.result = merged(frame.function.rate, lanes, values, frame.result)
    frame.tasks = [it.without(lanes) for it in frame.tasks]


# ---- settling


def opened(statement, lanes):
    """A statement as tasks, up to its first step; none where it has no step."""
    if statement.kind == "block":
        for at, it in enumerate(statement.statements):
            first = opened(it, lanes)
            if first:
                return [*first, Task("run", lanes, Node("block", None, statements=statement.statements[at + 1 :]))]
        return []
    if statement.kind == "loop":
        return [Task("test", lanes, statement)]
    if statement.kind == "do":
        body = opened(statement.body, lanes)
        return [*body, *([Task("update", lanes, statement.update)] if body else []), Task("test", lanes, statement)]
    return [Task("run", lanes, statement)]


def settle(state):
    """Drops what is no step of some lane from the top frame's first tasks."""
    if not state.frames:
        return
    tasks = state.top.tasks
    while tasks:
        first = tasks[0]
        if first.lanes and first.kind in ("test", "round"):
            return
        made = opened(first.statement, first.lanes) if first.lanes and first.kind in ("run", "update") else []
        tasks[:1] = made
        if made:
            return


# ---- steps


def step(state):
    """The state after one step. The one before is not changed."""
    state = state.copy()
    if not state.top.tasks:
        leave(state)
    else:
        task = state.top.tasks.pop(0)
        if task.kind == "test":
            test(state, task)
        elif task.kind == "round":
            for variable, values in task.indices:
                declare(state, variable, task.lanes, values)
            put_first(state, [Task("run", task.lanes, task.statement.body), Task("round end", task.lanes)])
        else:
            DONE[task.statement.kind](state, task.statement, task.lanes)
    settle(state)
    return state


def leave(state):
    frame = state.frames.pop()
    if state.frames:
        state.frames[-1] = state.top.copy()
        result = frame.result if frame.function.type != "void" else [0] * state.width
        values = {k: result[0 if frame.function.rate == "uniform" else k] for k in frame.lanes}
        deliver(state, frame.function.type, frame.result_for, frame.lanes, values)


def put_first(state, tasks):
    state.top.tasks[:0] = tasks


def test(state, task):
    loop, values = task.statement, evaluated(task.statement.test, task.lanes, state)
    stay = frozenset(k for k in task.lanes if values[k])
    put_first(state, [Task("run", stay, loop.body), Task("update", stay, loop.update), Task("test", stay, loop)])


def do_declare(state, s, lanes):
    values = evaluated(s.value, lanes, state) if s.value else {k: 0 for k in lanes}
    declare(state, s.variable, lanes, values)


def do_assign(state, s, lanes):
    written(state, s, lanes, lambda old, values: values)


def do_change(state, s, lanes):
    def changed(old, values):
        found = each(lanes, lambda k: computed(s.operator, s.in_type, wrapped(s.in_type, old[k]), values[k]))
        return {k: wrapped(s.target.type, found[k]) for k in lanes}

    written(state, s, lanes, changed)


def written(state, s, lanes, change):
    """An assignment: the index, the value, whether the index is one, the old values and the new ones."""
    target = s.target
    if target.index is None:
        values = evaluated(s.value, lanes, state)
        assign(state, target.variable, lanes, change(read(target, lanes, state), values))
        return
    index, view = evaluated(target.index, lanes, state), state.view(target.variable)
    values = evaluated(s.value, lanes, state)
    places = each(lanes, lambda k: place_in(view, index[k]))
    store(state, view, lanes, places, change({k: state.memory[view[0]][places[k]] for k in lanes}, values))


def do_if(state, s, lanes):
    values = evaluated(s.test, lanes, state)
    yes = frozenset(k for k in lanes if values[k])
    put_first(state, [Task("run", yes, s.first), Task("run", lanes - yes, s.other)])


def do_switch(state, s, lanes):
    values, labels = evaluated(s.selector, lanes, state), [label for label, _ in s.segments]
    default = labels.index(None) if None in labels else len(labels)
    entry = {k: labels.index(values[k]) if values[k] in labels else default for k in lanes}
    tasks = [Task("run", frozenset(k for k in lanes if entry[k] <= at), body) for at, (_, body) in enumerate(s.segments)]
    put_first(state, [*tasks, Task("switch end", lanes)])


def do_break(state, s, lanes):
    for at, it in enumerate(state.top.tasks):
        state.top.tasks[at] = it.without(lanes)
        if it.kind in ("test", "switch end"):
            return


def do_continue(state, s, lanes):
    for at, it in enumerate(state.top.tasks):
        if it.kind in ("update", "round end"):
            return
        state.top.tasks[at] = it.without(lanes)


def do_return(state, s, lanes):
    leave_all(state, lanes, evaluated(s.value, lanes, state) if s.value else None)


def do_form(state, s, lanes):
    turns = rounds_of(s, lanes, state.width, lambda e: evaluated(e, lanes, state))
    put_first(state, [Task("round", these, s, indices) for these, indices in turns])


def do_call(state, s, lanes):
    frame = Frame(s.function, lanes, s, s.result_for)
    frame.result = [0] * (1 if s.function.rate == "uniform" else state.width)
    for parameter, given in zip(s.function.parameters, s.arguments):
        if parameter.is_array:
            frame.views[parameter] = part(given, lanes, state)
        else:
            values = evaluated(given, lanes, state)
            uniform = parameter.rate == "uniform"
            frame.words[parameter] = [values[min(lanes)]] if uniform else [values.get(k, 0) for k in range(state.width)]
    if len(state.frames) == FRAMES:
        raise Fault("F5 CallDepth", min(lanes))
    frame.tasks = [Task("run", lanes, s.function.body)]
    state.frames.append(frame)


def part(given, lanes, state):
    array, first, length = state.view(given.variable)
    if given.start is None:
        return array, first, length
    start = evaluated(given.start, lanes, state)[min(lanes)]
    if not 0 <= start <= length:
        raise Fault("F2 Index", min(lanes))
    return array, first + start, length - start


def do_check(state, s, lanes):
    values = evaluated(s.test, lanes, state)
    failing = [k for k in sorted(lanes) if not values[k]]
    if failing:
        raise Fault("F4 Assert", failing[0])


def packed_places(view, lanes):
    return each(lanes, lambda k: place_in(view, sorted(lanes).index(k)))


def do_packed_store(state, s, lanes):
    view, values = part(s.array, lanes, state), evaluated(s.value, lanes, state)
    store(state, view, lanes, packed_places(view, lanes), values)
    deliver(state, "int32", s.result_for, lanes, {k: len(lanes) for k in lanes})


def do_packed_load(state, s, lanes):
    view = part(s.array, lanes, state)
    places = packed_places(view, lanes)
    assign(state, s.variable, lanes, {k: state.memory[view[0]][places[k]] for k in lanes})
    deliver(state, "int32", s.result_for, lanes, {k: len(lanes) for k in lanes})


DONE = {
    "declare": do_declare,
    "assign": do_assign,
    "change": do_change,
    "if": do_if,
    "switch": do_switch,
    "break": do_break,
    "continue": do_continue,
    "return": do_return,
    "domain": do_form,
    "each lane": do_form,
    "each value": do_form,
    "call": do_call,
    "check": do_check,
    "packed store": do_packed_store,
    "packed load": do_packed_load,
}
