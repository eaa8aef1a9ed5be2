"""The goto program of a tree, and the limits that it may pass, as docs/flattening.md has them.

An instruction is its kind and its parts; a jump goes to a label, which has a place once its thread is made. A value is a
number, a local, an address or an operation of such."""
import collections

from reading import Refused

MOST = {"threads": 16, "nested calls": 64, "instructions": 16384, "locals": 4096, "mutexes": 64, "cells": 65536}
CODED = ("cell", "element", "follow", "address_at")

# a thread: how many locals it has, its instructions, and where in the text each comes from
Thread = collections.namedtuple("Thread", "locals code places")

# the start values of the cells, how many mutexes there are, and the threads, of which the first is main
Program = collections.namedtuple("Program", "cells mutexes threads")


class Label:
    place = None


def number(n):
    return "number", n


def not_zero(value):
    return "two", "!=", value, number(0)


def in_range(value, length):
    return "two", "&&", ("two", "<=", number(0), value), ("two", "<", value, number(length))


def has_code(tree):
    """Whether an expression has code."""
    if tree.kind in CODED or tree.kind == "two" and tree.parts[0] in ("/", "%"):
        return True
    operands = {"one": tree.parts[1:], "two": tree.parts[1:], "choice": tree.parts}.get(tree.kind, ())
    return any(map(has_code, operands))


class Flattening:
    """The code of a body, by a method for each kind of part; locals are named by the numbers that they have in the body."""

    def __init__(self, functions):
        self.functions, self.size, self.fresh_local = functions, 0, 0
        self.names, self.result, self.home, self.behind, self.again = {}, None, Label(), None, None

    def emit(self, at, *instruction):
        self.size += 1

    def fresh(self):
        self.fresh_local += 1
        return self.fresh_local - 1

    def mark(self, label):
        label.place = self.size

    def check(self, at, value):
        self.emit(at, "assert", value, 0)

    # ---- targets

    def target(self, tree, at):
        """What is accessed by a tree that names no local, behind its code and its check."""
        return getattr(self, "target_" + tree.kind)(at, *tree.parts)

    def target_cell(self, at, cell):
        return "cell", cell

    def target_element(self, at, array, index):
        index = self.value(index)
        self.check(at, in_range(index, array.length))
        return "element", array.first, array.length, index

    def target_follow(self, at, pointer):
        pointer = self.value(pointer)
        self.check(at, not_zero(pointer))
        return "follow", pointer

    def locked(self, at, tree):
        """What a locked instruction accesses, by the address that it is given."""
        if tree.kind == "address":
            return self.target_cell(at, *tree.parts)
        if tree.kind == "address_at":
            return self.target_element(at, *tree.parts)
        return self.target_follow(at, tree)

    def loaded(self, at, target):
        local = self.fresh()
        self.emit(at, "load", local, target)
        return "local", local

    # ---- values

    def value(self, tree):
        """The value of an expression or a call, behind its code."""
        return getattr(self, "value_" + tree.kind)(tree.at, *tree.parts)

    def value_number(self, at, n):
        return number(n)

    def value_local(self, at, name):
        return "local", self.names[name]

    def value_cell(self, at, cell):
        return self.loaded(at, self.target_cell(at, cell))

    def value_element(self, at, array, index):
        return self.loaded(at, self.target_element(at, array, index))

    def value_follow(self, at, pointer):
        return self.loaded(at, self.target_follow(at, pointer))

    def value_address(self, at, cell):
        return "address", cell

    def value_address_at(self, at, array, index):
        return ("address_at", *self.target_element(at, array, index)[1:])

    def value_one(self, at, mark, tree):
        return "one", mark, self.value(tree)

    def value_two(self, at, mark, left, right):
        if mark in ("&&", "||") and has_code(right):
            return self.short(at, mark, left, right)
        left, right = self.value(left), self.value(right)
        self.check_divisor(at, mark, right)
        return "two", mark, left, right

    def check_divisor(self, at, mark, divisor):
        if mark in ("/", "%"):
            self.check(at, not_zero(divisor))

    def short(self, at, mark, left, right):
        """The second operand is left out where the first decides."""
        left, local, end = self.value(left), self.fresh(), Label()
        self.emit(at, "set", local, number(int(mark == "||")))
        self.emit(at, "branch", ("one", "!", left) if mark == "||" else left, end)
        self.emit(at, "set", local, not_zero(self.value(right)))
        self.mark(end)
        return "local", local

    def value_choice(self, at, test, first, second):
        test = self.value(test)
        if not has_code(first) and not has_code(second):
            return "choice", test, self.value(first), self.value(second)
        local, middle, end = self.fresh(), Label(), Label()
        self.emit(at, "branch", test, middle)
        self.emit(at, "set", local, self.value(first))
        self.emit(at, "jump", end)
        self.mark(middle)
        self.emit(at, "set", local, self.value(second))
        self.mark(end)
        return "local", local

    def value_input(self, at):
        local = self.fresh()
        self.emit(at, "input", local)
        return "local", local

    def value_add(self, at, address, tree):
        target, value = self.locked(at, address), self.value(tree)
        local = self.fresh()
        self.emit(at, "add", local, target, value)
        return "local", local

    def value_swap(self, at, address, old, new):
        target, old, new = self.locked(at, address), self.value(old), self.value(new)
        local = self.fresh()
        self.emit(at, "swap", local, target, old, new)
        return "local", local

    def value_call(self, at, name, arguments):
        function = self.functions[name]
        locals_, result = [self.fresh() for _ in function.parameters], self.fresh()
        for local, value in zip(locals_, [self.value(tree) for tree in arguments]):
            self.emit(at, "set", local, value)
        self.emit(at, "set", result, number(0))
        self.inline(name, dict(zip(function.parameters, locals_)), result)
        return "local", result

    def inline(self, name, names, result):
        """The body of a function in place of its call."""
        outer = self.names, self.result, self.home, self.behind, self.again
        self.names, self.result, self.home, self.behind, self.again = names, result, Label(), None, None
        self.body(name)
        self.names, self.result, self.home, self.behind, self.again = outer

    def body(self, name):
        for tree in self.functions[name].statements:
            self.do(tree)
        self.mark(self.home)

    def thread(self, name):
        """The code of a thread that runs the function."""
        self.body(name)
        self.emit(self.functions[name].at, "end")

    # ---- statements

    def do(self, tree):
        getattr(self, "do_" + tree.kind)(tree.at, *tree.parts)

    def do_several(self, at, trees):
        for tree in trees:
            self.do(tree)

    def do_declare(self, at, name, tree):
        local = self.fresh()
        value = self.value(tree) if tree else number(0)
        self.names[name] = local
        self.emit(at, "set", local, value)

    def do_assign(self, at, left, tree):
        if left.kind == "local":
            self.emit(at, "set", self.names[left.parts[0]], self.value(tree))
            return
        target = self.target(left, at)
        self.emit(at, "store", target, self.value(tree))

    def do_update(self, at, left, mark, tree):
        target = None if left.kind == "local" else self.target(left, at)
        old = self.loaded(at, target) if target else self.value(left)
        value = self.value(tree)
        self.check_divisor(at, mark, value)
        updated = "two", mark, old, value
        self.emit(at, *(("store", target) if target else ("set", old[1])), updated)

    def do_value(self, at, tree):
        self.value(tree)

    def do_return(self, at, tree):
        value = self.value(tree) if tree else None
        if tree and self.result is not None:
            self.emit(at, "set", self.result, value)
        self.emit(at, "jump", self.home)

    def do_if(self, at, test, first, second):
        other, end = Label(), Label()
        self.emit(at, "branch", self.value(test), other)
        self.do(first)
        if second:
            self.emit(at, "jump", end)
        self.mark(other)
        if second:
            self.do(second)
            self.mark(end)

    def in_loop(self, tree, behind, again):
        outer = self.behind, self.again
        self.behind, self.again = behind, again
        self.do(tree)
        self.behind, self.again = outer

    def do_while(self, at, test, tree):
        top, end = Label(), Label()
        self.mark(top)
        self.emit(at, "branch", self.value(test), end)
        self.in_loop(tree, end, top)
        self.emit(at, "jump", top)
        self.mark(end)

    def do_do(self, at, tree, test):
        top, again, end = Label(), Label(), Label()
        self.mark(top)
        self.in_loop(tree, end, again)
        self.mark(again)
        self.emit(at, "branch", self.value(test), end)
        self.emit(at, "jump", top)
        self.mark(end)

    def do_for(self, at, first, test, last, tree):
        top, again, end = Label(), Label(), Label()
        if first:
            self.do(first)
        self.mark(top)
        self.emit(at, "branch", self.value(test), end)
        self.in_loop(tree, end, again)
        self.mark(again)
        if last:
            self.do(last)
        self.emit(at, "jump", top)
        self.mark(end)

    def do_break(self, at):
        self.emit(at, "jump", self.behind)

    def do_continue(self, at):
        self.emit(at, "jump", self.again)

    def do_assert(self, at, tree, n):
        self.emit(at, "assert", self.value(tree), n)

    def do_assume(self, at, tree):
        self.emit(at, "assume", self.value(tree))

    def do_fence(self, at):
        self.emit(at, "fence")

    def do_lock(self, at, mutex):
        self.emit(at, "lock", mutex)

    def do_unlock(self, at, mutex):
        self.emit(at, "unlock", mutex)

    def do_start(self, at, thread):
        self.emit(at, "start", thread)

    def do_join(self, at, thread):
        self.emit(at, "join", thread)


class Counting(Flattening):
    """Counts instructions and locals alone; `known` has those of each body that was counted."""

    def __init__(self, functions, known):
        super().__init__(functions)
        self.known = known

    def inline(self, name, names, result):
        if name not in self.known:
            inner = Counting(self.functions, self.known)
            inner.names, inner.result = {k: k for k in self.functions[name].parameters}, 0
            inner.body(name)
            self.known[name] = inner.size, inner.fresh_local
        size, locals_ = self.known[name]
        self.size += size
        self.fresh_local += locals_


class Making(Flattening):
    """Makes the instructions."""

    def __init__(self, functions):
        super().__init__(functions)
        self.code, self.places = [], []

    def emit(self, at, *instruction):
        super().emit(at, *instruction)
        self.code.append(instruction)
        self.places.append(at)


# ---- the whole

def threads_of(tree, making):
    """What `making` gives for each thread."""
    found = []
    for name in ["main", *tree.starts]:
        found.append(making())
        found[-1].thread(name)
    return found


def most_nested(tree):
    """How many calls nest, counted up to one more than may."""
    level = {"main", *tree.starts}
    for depth in range(MOST["nested calls"] + 1):
        level = set().union(*(tree.functions[name].calls for name in level))
        if not level:
            return depth
    return MOST["nested calls"] + 1


def counts(tree):
    """What has a limit, in the order of the limits."""
    yield "threads", 1 + len(tree.starts)
    yield "nested calls", most_nested(tree)
    known = {}
    threads = threads_of(tree, lambda: Counting(tree.functions, known))
    yield "instructions", sum(thread.size for thread in threads)
    yield "locals", max(thread.fresh_local for thread in threads)
    yield "mutexes", tree.mutexes
    yield "cells", tree.cells


def check_limits(tree):
    """Refuses a program that passes a limit."""
    for name, count in counts(tree):
        if count > MOST[name]:
            raise Refused("too many " + name, (1, 1))


def goto_program(tree):
    cells = []
    for variable in tree.globals:
        cells += variable.starts + [0] * ((variable.length or 1) - len(variable.starts))
    threads = threads_of(tree, lambda: Making(tree.functions))
    return Program(cells, tree.mutexes, [Thread(t.fresh_local, t.code, t.places) for t in threads])
