"""The machines for sequential consistency, TSO and PSO, as docs/machines.md has them."""


def wrapped(n):
    """The int of 32 bits."""
    return (n + 2**31) % 2**32 - 2**31


def quotient(x, y):
    """Cut toward zero; 0 where the divisor is."""
    if y == 0:
        return 0
    return wrapped(abs(x) // abs(y) * (1 if (x < 0) == (y < 0) else -1))


def remainder(x, y):
    return wrapped(x - quotient(x, y) * y) if y else 0


ONE = {"-": lambda x: wrapped(-x), "+": lambda x: x, "!": lambda x: int(x == 0), "~": lambda x: ~x}
TWO = {
    "+": lambda x, y: wrapped(x + y),
    "-": lambda x, y: wrapped(x - y),
    "*": lambda x, y: wrapped(x * y),
    "/": quotient,
    "%": remainder,
    "<<": lambda x, y: wrapped(x << y % 32),
    ">>": lambda x, y: x >> y % 32,
    "<": lambda x, y: int(x < y),
    "<=": lambda x, y: int(x <= y),
    ">": lambda x, y: int(x > y),
    ">=": lambda x, y: int(x >= y),
    "==": lambda x, y: int(x == y),
    "!=": lambda x, y: int(x != y),
    "&": lambda x, y: x & y,
    "^": lambda x, y: x ^ y,
    "|": lambda x, y: x | y,
    "&&": lambda x, y: int(x != 0 and y != 0),
    "||": lambda x, y: int(x != 0 or y != 0),
}


# ---- what an instruction reads, as a function of a thread's locals

def two_of(mark, x, y):
    operation = TWO[mark]
    return lambda locals_: operation(x(locals_), y(locals_))


def value_of(value):
    """The function that gives the value."""
    kind, *parts = value
    if kind == "number":
        return lambda locals_: parts[0]
    if kind == "local":
        return lambda locals_: locals_[parts[0]]
    if kind == "address":
        return lambda locals_: parts[0] + 1
    if kind == "address_at":
        first, index = parts[0], value_of(parts[2])
        return lambda locals_: wrapped(first + 1 + index(locals_))
    if kind == "one":
        operation, x = ONE[parts[0]], value_of(parts[1])
        return lambda locals_: operation(x(locals_))
    if kind == "two":
        return two_of(parts[0], value_of(parts[1]), value_of(parts[2]))
    test, x, y = map(value_of, parts)
    return lambda locals_: x(locals_) if test(locals_) else y(locals_)


def cell_of(target, cells):
    """The function that gives the cell of a target, and None where there is none."""
    kind, *parts = target
    if kind == "cell":
        return lambda locals_: parts[0]
    first, length, index = parts if kind == "element" else (0, cells, ("two", "-", parts[0], ("number", 1)))
    index = value_of(index)

    def cell(locals_):
        k = index(locals_)
        return first + k if 0 <= k < length else None

    return cell


# which parts of an instruction are values, targets and labels
SHAPES = {"set": " v", "load": " t", "store": "tv", "input": " ", "jump": "l", "branch": "vl", "assert": "v ", "assume": "v"}
SHAPES |= {"fence": "", "lock": " ", "unlock": " ", "add": " tv", "swap": " tvv", "start": " ", "join": " "}
SHAPES |= {"begin": "", "leave": "", "end": ""}


class Thread:
    """Where a thread is, what its locals have, and its pending stores, the oldest first."""

    def __init__(self, number, started, locals_, code):
        self.number, self.started, self.ended, self.code = number, started, False, code
        self.place, self.locals, self.pending = 0, [0] * locals_, []


class Machine:
    """Takes entries `step t`, `in t v`, `flush t` and `flush t c`; one that is not enabled changes nothing."""

    def __init__(self, program, model, bound):
        self.model, self.bound = model, bound
        self.memory, self.owners = list(program.cells), [None] * program.mutexes
        self.section, self.verdict = None, None
        self.threads = [Thread(t, t == 0, one.locals, self.read(one.code)) for t, one in enumerate(program.threads)]

    def read(self, code):
        readers = {"v": value_of, "t": lambda target: cell_of(target, len(self.memory)), "l": lambda label: label.place}
        readers[" "] = lambda part: part
        found = []
        for kind, *parts in code:
            parts = [readers[shape](part) for shape, part in zip(SHAPES[kind], parts)]
            found.append((kind, getattr(self, "do_" + kind), parts))
        return found

    def take(self, entry):
        word, number, *rest = entry
        if number >= len(self.threads):
            return False
        thread = self.threads[number]
        return self.flush(thread, *rest) if word == "flush" else self.step(thread, word == "in", *rest)

    def step(self, thread, is_input, *value):
        if not thread.started or thread.ended or self.verdict is not None or self.section not in (None, thread):
            return False
        kind, action, parts = thread.code[thread.place]
        return (kind == "input") == is_input and action(thread, *parts, *value)

    def flush(self, thread, *cell):
        if self.model == "sc" or len(cell) != (self.model == "pso"):
            return False
        found = [k for k, (c, _) in enumerate(thread.pending) if not cell or c == cell[0]]
        if found:
            to, value = thread.pending.pop(found[0])
            self.memory[to] = value
        return bool(found)

    # ---- what actions have in common

    def goes_on(self, thread):
        thread.place += 1
        return True

    def assigned(self, thread, local, value):
        thread.locals[local] = value
        return self.goes_on(thread)

    def seen(self, thread, cell):
        mine = [value for c, value in thread.pending if c == cell]
        return mine[-1] if mine else self.memory[cell]

    # ---- the actions

    def do_set(self, thread, local, value):
        return self.assigned(thread, local, value(thread.locals))

    def do_load(self, thread, local, target):
        cell = target(thread.locals)
        return cell is not None and self.assigned(thread, local, self.seen(thread, cell))

    def do_store(self, thread, target, value):
        cell, value = target(thread.locals), value(thread.locals)
        if cell is None:
            return False
        if self.model == "sc":
            self.memory[cell] = value
            return self.goes_on(thread)
        if sum(self.model == "tso" or c == cell for c, _ in thread.pending) >= self.bound:
            return False
        thread.pending.append((cell, value))
        return self.goes_on(thread)

    def do_input(self, thread, local, value):
        return self.assigned(thread, local, value)

    def do_jump(self, thread, place):
        thread.place = place
        return True

    def do_branch(self, thread, value, place):
        thread.place = thread.place + 1 if value(thread.locals) else place
        return True

    def do_assert(self, thread, value, number):
        if not value(thread.locals):
            self.verdict = number
        return self.goes_on(thread)

    def do_assume(self, thread, value):
        return value(thread.locals) != 0 and self.goes_on(thread)

    def do_fence(self, thread):
        return not thread.pending and self.goes_on(thread)

    def do_lock(self, thread, mutex):
        if thread.pending or self.owners[mutex] is not None:
            return False
        self.owners[mutex] = thread
        return self.goes_on(thread)

    def do_unlock(self, thread, mutex):
        if thread.pending or self.owners[mutex] is not thread:
            return False
        self.owners[mutex] = None
        return self.goes_on(thread)

    def do_add(self, thread, local, target, value):
        cell, value = target(thread.locals), value(thread.locals)
        if thread.pending or cell is None:
            return False
        old = self.memory[cell]
        self.memory[cell] = wrapped(old + value)
        return self.assigned(thread, local, old)

    def do_swap(self, thread, local, target, old, new):
        cell, old, new = target(thread.locals), old(thread.locals), new(thread.locals)
        if thread.pending or cell is None:
            return False
        is_same = self.memory[cell] == old
        if is_same:
            self.memory[cell] = new
        return self.assigned(thread, local, int(is_same))

    def do_start(self, thread, number):
        if thread.pending or self.threads[number].started:
            return False
        self.threads[number].started = True
        return self.goes_on(thread)

    def do_join(self, thread, number):
        other = self.threads[number]
        return not thread.pending and other.ended and not other.pending and self.goes_on(thread)

    def do_begin(self, thread):
        if self.section is not None:
            return False
        self.section = thread
        return self.goes_on(thread)

    def do_leave(self, thread):
        if self.section is not thread:
            return False
        self.section = None
        return self.goes_on(thread)

    def do_end(self, thread):
        thread.ended = True
        return True
