"""The tree of a source that names and types let pass: each part with its place, each name with what it stands for."""
import collections

from names import DECLARES, KINDS, LEVEL, Reader
from reading import UPDATES

CHECKED = ("assert", "__CPROVER_assert")
LOCKS = {"pthread_mutex_lock": "lock", "pthread_mutex_unlock": "unlock"}

# a part of a tree: its kind, its place, and what it is made of
Node = collections.namedtuple("Node", "kind at parts")

# a variable outside all functions: its first cell, its length where it is an array, and the start values that it says
Global = collections.namedtuple("Global", "first length starts")


def node(kind, at, *parts):
    return Node(kind, at, parts)


class Body:
    """A function: the place of its name, its parameters, its statements, and the functions that it calls."""

    def __init__(self, at):
        self.at, self.parameters, self.statements, self.calls = at, [], [], set()
        self.locals = 0

    def local(self):
        self.locals += 1
        return self.locals - 1


class Names(Reader):
    """What the names of a text stand for, and what is counted through the text."""

    def __init__(self, tokens):
        super().__init__(tokens)
        self.scopes, self.body = [{}], None
        self.cells, self.globals, self.mutexes, self.assertions = 0, [], 0, 0
        self.variables, self.started, self.starts = 0, {}, []

    def declare(self, name, what):
        self.scopes[-1][name.text] = what

    def declare_local(self, name):
        number = self.body.local()
        self.declare(name, ("local", number))
        return number

    def declare_thread(self, name):
        self.declare(name, ("thread", self.variables))
        self.variables += 1

    def found(self, name):
        return next(scope[name.text] for scope in reversed(self.scopes) if name.text in scope)

    def number(self, name):
        """The number of the mutex or the thread's variable of a name."""
        return self.found(name)[1]


class Expressions(Names):
    def expression(self):
        test = self.binary(0)
        if not self.takes("?"):
            return test
        first, _, second = self.expression(), self.next(), self.expression()
        return node("choice", test.at, test, first, second)

    def binary(self, level):
        left = self.unary()
        while LEVEL.get(self.text(), -1) >= level:
            mark = self.next().text
            left = node("two", left.at, mark, left, self.binary(LEVEL[mark] + 1))
        return left

    def unary(self):
        token = self.next()
        if token.kind == "number" or token.text == "NULL":
            return node("number", token.at, token.value or 0)
        if token.text == "(":
            inner = self.expression()
            self.next()
            return inner
        if token.text == "&":
            return self.address(token, self.next())
        if token.kind == "word":
            return self.named(token)
        part = self.unary()
        return node("follow", token.at, part) if token.text == "*" else node("one", token.at, token.text, part)

    def address(self, token, name):
        what = self.found(name)
        if self.text() != "[":
            return node("address", token.at, what[1].first)
        return node("address_at", token.at, what[1], self.subscript())

    def named(self, name):
        kind, what = self.found(name)
        if kind == "local":
            return node("local", name.at, what)
        return node("element", name.at, what, self.subscript()) if what.length else node("cell", name.at, what.first)

    def subscript(self):
        self.next()
        index = self.expression()
        self.next()
        return index

    def value(self):
        if self.text(1) != "(" or self.tokens[self.k].kind != "word":
            return self.expression()
        word, arguments = self.next(), self.arguments()
        if word.text == "__sync_fetch_and_add":
            return node("add", word.at, *arguments)
        if word.text == "__sync_bool_compare_and_swap":
            return node("swap", word.at, *arguments)
        if word.text.startswith("nondet_"):
            return node("input", word.at)
        self.body.calls.add(word.text)
        return node("call", word.at, word.text, arguments)

    def arguments(self):
        found = []
        self.next()
        while not self.takes(")"):
            self.takes(",")
            found.append(self.expression())
        return found


class Statements(Expressions):
    def declaration(self):
        """The declared names in order, as statements."""
        self.takes("volatile")
        word, found = self.next().text, []
        while not self.takes(";"):
            self.takes(",")
            self.takes("*")
            name = self.next()
            if word in KINDS:
                self.declare_thread(name)
            else:
                value = self.value() if self.takes("=") else None
                found.append(node("declare", name.at, self.declare_local(name), value))
        return node("several", None, found)

    def inner(self):
        """The statements up to a closing brace, and this."""
        found = []
        while not self.takes("}"):
            found.append(self.declaration() if self.text() in DECLARES else self.statement())
        return found

    def scoped(self, read):
        self.scopes.append({})
        found = read()
        self.scopes.pop()
        return found

    def statement(self):
        token = self.next()
        if token.text == "{":
            return node("several", token.at, self.scoped(self.inner))
        if token.text == "if":
            test, first = self.condition(), self.statement()
            return node("if", token.at, test, first, self.statement() if self.takes("else") else None)
        if token.text == "while":
            return node("while", token.at, self.condition(), self.statement())
        if token.text == "do":
            body, _, test = self.statement(), self.next(), self.condition()
            self.next()
            return node("do", token.at, body, test)
        if token.text == "for":
            return self.scoped(lambda: self.for_loop(token))
        if token.text == ";":
            return node("several", token.at, [])
        self.k -= 1
        found = self.short_statement(token)
        self.next()
        return found

    def condition(self):
        self.next()
        test = self.expression()
        self.next()
        return test

    def unless(self, mark, read):
        """What is read, where the mark does not stand there; the mark is read too."""
        found = read() if self.text() != mark else None
        self.next()
        return found

    def for_loop(self, token):
        self.next()
        first = self.declaration() if self.text() in DECLARES else self.unless(";", self.assignment)
        test, last = self.unless(";", self.expression), self.unless(")", self.assignment)
        return node("for", token.at, first, test or node("number", token.at, 1), last, self.statement())

    def short_statement(self, token):
        if token.text in ("break", "continue"):
            return node(self.next().text, token.at)
        if token.text == "return":
            self.next()
            return node("return", token.at, self.value() if self.text() != ";" else None)
        if token.kind == "word" and self.text(1) == "(":
            return self.call_statement(token)
        return self.assignment()

    def assignment(self):
        one = node("number", None, 1)
        if self.text() in ("++", "--"):
            mark, left = self.next().text, self.unary()
            return node("update", left.at, left, mark[0], one)
        left, mark = self.unary(), self.next().text
        if mark == "=":
            return node("assign", left.at, left, self.value())
        return node("update", left.at, left, mark[:-1], self.expression() if mark in UPDATES else one)

    def call_statement(self, word):
        name = word.text
        if name == "__sync_synchronize":
            self.next(3)
            return node("fence", word.at)
        if name in CHECKED or name == "__CPROVER_assume":
            return self.checked(word)
        if name in LOCKS:
            mutex = self.number(self.next(4))
            self.next()
            return node(LOCKS[name], word.at, mutex)
        if name == "pthread_create":
            return self.create(word)
        if name == "pthread_join":
            thread = self.started[self.number(self.next(3))]
            self.next(3)
            return node("join", word.at, thread)
        return node("value", word.at, self.value())

    def checked(self, word):
        self.next(2)
        test = self.expression()
        self.next(3 if self.text() == "," else 1)
        if word.text not in CHECKED:
            return node("assume", word.at, test)
        self.assertions += 1
        return node("assert", word.at, test, self.assertions)

    def create(self, word):
        variable, function = self.next(4), self.next(4)
        self.next(3)
        self.starts.append(function.text)
        self.started[self.number(variable)] = len(self.starts)
        return node("start", word.at, len(self.starts))


class Tree(Statements):
    """The whole: functions by their names, globals and mutexes in the order of the text, the functions that are started."""

    def __init__(self, tokens):
        super().__init__(tokens)
        self.functions = {}
        while self.k < len(self.tokens):
            self.item()

    def item(self):
        head = self.head()
        if not head:
            self.global_item()
        elif not self.takes(";"):
            self.scoped(lambda: self.function(head))

    def function(self, head):
        self.body = self.functions[head.name.text] = Body(head.name.at)
        if head.gives != "thread":
            self.body.parameters = [self.declare_local(name) for _, name in head.parameters]
        self.next()
        self.body.statements = self.inner()

    def global_item(self):
        while self.takes("static", "volatile"):
            pass
        word = self.next().text
        while not self.takes(";"):
            self.takes(",")
            self.takes("*")
            self.global_name(word, self.next())

    def global_name(self, word, name):
        if word == "pthread_t":
            self.declare_thread(name)
        elif word == "pthread_mutex_t":
            self.declare(name, ("mutex", self.mutexes))
            self.mutexes += 1
            self.next(2 if self.text() == "=" else 0)
        else:
            self.variable(name)

    def variable(self, name):
        length = self.length() if self.takes("[") else None
        what = Global(self.cells, length, [])
        self.cells += length or 1
        self.globals.append(what)
        self.declare(name, ("global", what))
        if self.takes("="):
            what.starts.extend(self.elements() if length else [self.start()])

    def length(self):
        length = self.next().value
        self.next()
        return length

    def elements(self):
        found = []
        while not self.takes("}"):
            self.next()
            found.append(self.start())
        return found

    def start(self):
        """The value of a constant or an address."""
        negative = self.takes("-")
        value = self.unary()
        if value.kind == "address_at":
            what, index = value.parts
            return what.first + index.parts[0] + 1
        number = value.parts[0]
        return number + 1 if value.kind == "address" else -number if negative else number
