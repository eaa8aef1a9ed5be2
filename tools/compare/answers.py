"""The tool's answer to words and an input, as docs/formats.md, docs/machines.md and docs/profile.md have it."""
import re

from flattening import check_limits, goto_program
from machines import Machine
from names import check_names
from reading import Refused, place_after, read_program
from trees import Tree

MOST_ENTRIES = 10_000_000


# ---- small programs

class Program:
    """A small program: its variables and its code, with the number of locals."""

    def __init__(self, variables):
        self.variables, self.code, self.locals = variables, [], 0

    def load(self, name):
        self.code.append(("load", self.locals, self.variables.index(name)))
        self.locals += 1
        return "local", self.locals - 1


class NotSmall(Exception):
    pass


class Cursor:
    def __init__(self, tokens):
        self.tokens, self.k = tokens, 0

    def next(self):
        self.k += 1
        if self.k > len(self.tokens):
            raise NotSmall
        return self.tokens[self.k - 1]

    def takes(self, *texts):
        found = self.k < len(self.tokens) and self.tokens[self.k].text in texts
        self.k += found
        return found

    def wants(self, text):
        if not self.takes(text):
            raise NotSmall

    def name(self):
        token = self.next()
        if token.kind != "word":
            raise NotSmall
        return token.text

    def in_parentheses(self, read):
        if self.takes("("):
            value = self.in_parentheses(read)
            self.wants(")")
            return value
        return read()

    def operand(self):
        token = self.next()
        if token.kind == "number":
            return "number", token.value
        if token.kind == "word":
            return "name", token.text
        raise NotSmall

    def equality(self):
        start = self.k
        try:
            left, _, right = self.in_parentheses(self.operand), self.wants("=="), self.in_parentheses(self.operand)
            return left, right
        except NotSmall:
            self.k = start
            self.wants("(")
            value = self.equality()
            self.wants(")")
            return value


def declared(cursor, grammar):
    """The variables before main, up to the brace of its body."""
    variables = []
    while True:
        qualified = cursor.takes("static", "volatile")
        while qualified and cursor.takes("static", "volatile"):
            pass
        cursor.wants("int")
        name = cursor.name()
        if cursor.takes("("):
            cursor.takes("void")
            cursor.wants(")")
            cursor.wants("{")
            return variables if name == "main" else None
        cursor.wants(";")
        variables.append(name)
        if name in ("main", *grammar.kept, *grammar.outside) or re.match("wm_|nondet_", name):
            raise NotSmall


def statement(cursor, program):
    if cursor.takes("assert"):
        cursor.wants("(")
        left, right = cursor.equality()
        cursor.wants(")")
        if left[0] != "name" or right[0] != "number" or left[1] not in program.variables:
            raise NotSmall
        number = sum(i[0] == "assert" for i in program.code) + 1
        program.code.append(("assert", program.load(left[1])[1], right[1], number))
        return 1
    left = cursor.in_parentheses(cursor.name)
    cursor.wants("=")
    kind, value = cursor.in_parentheses(cursor.operand)
    if left not in program.variables or kind == "name" and value not in program.variables:
        raise NotSmall
    stored = program.load(value) if kind == "name" else (kind, value)
    program.code.append(("store", program.variables.index(left), stored))
    return 2 if kind == "name" else 1


def small_program(tokens, grammar):
    cursor = Cursor(tokens)
    variables = declared(cursor, grammar)
    if variables is None or len(set(variables)) < len(variables) or len(variables) > 256:
        raise NotSmall
    program, accesses = Program(variables), 0
    while not cursor.takes("return"):
        accesses += statement(cursor, program)
        cursor.wants(";")
    if cursor.in_parentheses(cursor.operand) != ("number", 0):
        raise NotSmall
    cursor.wants(";")
    cursor.wants("}")
    if cursor.k < len(tokens) or accesses > 1024:
        raise NotSmall
    program.code += [("jump", len(program.code) + 1), ("end",)]
    return program


def woven_program(tokens, grammar):
    try:
        return small_program(tokens, grammar)
    except NotSmall:
        raise Refused("not built", (1, 1)) from None


# ---- the printed text

def spelled(program, instruction):
    kind, *parts = instruction
    if kind == "load":
        return "wm_r%d = %s;" % (parts[0], program.variables[parts[1]])
    if kind == "store":
        value = "wm_r%d" if parts[1][0] == "local" else "%d"
        return "%s = %s;" % (program.variables[parts[0]], value % parts[1][1])
    if kind == "assert":
        return '__CPROVER_assert(wm_r%d == %d, "assertion %d");' % tuple(parts)
    return "goto wm_%d;" % parts[0] if kind == "jump" else "return 0;"


def woven_text(program, bound):
    lines = ["/* goto-mm 1 tso %d */" % bound, "#include <pthread.h>", "int nondet_wm();"]
    lines += ["int %s = 0;" % name for name in program.variables]
    lines += ["int main(void) {"] + ["  int wm_r%d;" % local for local in range(program.locals)]
    lines += ["  wm_%d: %s" % (k, spelled(program, i)) for k, i in enumerate(program.code)]
    return "".join(line + "\n" for line in lines + ["}"])


# ---- schedules

class BadLine(Exception):
    pass


def number(word, most=2**32 - 1):
    if not re.fullmatch("0|[1-9][0-9]*", word, re.A) or int(word) > most:
        raise ValueError
    return int(word)


def signed(word):
    if word.startswith("-") and word != "-0":
        return -number(word[1:], 2**31)
    return number(word, 2**31 - 1)


def entries_of_line(line):
    """The entry that a line says, and how often; ValueError where it says none."""
    word, *rest = line.split(" ")
    if word == "step" and len(rest) == 1:
        return ("step", number(rest[0])), 1
    if word == "steps" and len(rest) == 2:
        times = number(rest[1])
        if times < 1:
            raise ValueError
        return ("step", number(rest[0])), times
    if word == "in" and len(rest) == 2:
        return ("in", number(rest[0]), signed(rest[1])), 1
    if word == "flush" and len(rest) in (1, 2):
        return ("flush", *map(number, rest)), 1
    raise ValueError


def schedule_of(text):
    lines, entries, count = text.split("\n"), [], 0
    for k, line in enumerate(lines):
        last = k == len(lines) - 1
        if k == 0 and (last or line != "schedule 1"):
            raise BadLine(1)
        if k and line == "end" and not last:
            if lines[k + 1 :] != [""]:
                raise BadLine(k + 2)
            return entries
        if k == 0:
            continue
        try:
            entry, times = entries_of_line(line)
        except ValueError:
            raise BadLine(k + 1) from None
        count += times
        if last or count > MOST_ENTRIES:
            raise BadLine(k + 1)
        entries.append((entry, times))


# ---- a run

def replayed(machine, schedule):
    taken = 0
    for entry, times in schedule:
        for _ in range(times):
            if not machine.take(entry):
                return 6, "stuck: entry %d\n" % (taken + 1)
            taken += 1
    return 0, "no failure\n" if machine.verdict is None else "failed %d\n" % machine.verdict


# ---- the whole

def settings(words):
    """The command, the model and the bound, where the words are a command."""
    if words == ["replay", "--mm", "sc"]:
        return "replay", "sc", 0
    form = re.fullmatch("(instrument|replay) --mm (tso|pso) --bound ([1-8])", " ".join(words))
    if len(words) != 5 or not form or form.group(1, 2) == ("instrument", "pso"):
        return None
    return form.group(1), form.group(2), int(form.group(3))


def accepted(text, grammar):
    """The tokens and the tree of a program that is not refused."""
    tokens = read_program(grammar, text)
    check_names(tokens)
    tree = Tree(tokens)
    check_limits(tree)
    return tokens, tree


def answer_to_text(command, model, bound, text, grammar):
    if command == "instrument":
        return 0, woven_text(woven_program(accepted(text, grammar)[0], grammar), bound)
    parting = re.search(r"^%%\n", text, re.M)
    if not parting:
        raise Refused("missing part", place_after(text))
    program = goto_program(accepted(text[: parting.start()], grammar)[1])
    try:
        return replayed(Machine(program, model, bound), schedule_of(text[parting.end() :]))
    except BadLine as bad:
        return 5, "bad schedule: line %d\n" % bad.args[0]


def answer(words, data, grammar):
    """The status and the output."""
    asked = settings(words)
    if not asked:
        return 1, ""
    try:
        return answer_to_text(*asked, data.decode("utf-8"), grammar)
    except UnicodeDecodeError as fault:
        line, column = place_after(data[: fault.start].decode("utf-8"))
        return 4, "refused: %d:%d not UTF-8\n" % (line, column)
    except Refused as refused:
        return 4, refused.line
