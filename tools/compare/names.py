"""Names and types of a source, as docs/profile.md has them: all places at which a rule is broken, and the first of them.

That a function has a label once, and the one of a goto, is not looked at: in a source both words are refused before."""
import collections
import sys

from reading import LEVELS, UPDATES, Refused

sys.setrecursionlimit(20000)
RULES = "reserved name,output only,declared twice,unknown name,wrong type,bad thread,recursion".split(",")
LEVEL = {mark: k for k, marks in enumerate(LEVELS) for mark in marks.split()}
GIVEN = {"int": "int", "int*": "pointer", "void": "void", "void*": "thread"}
KINDS = {"pthread_mutex_t": "mutex", "pthread_t": "thread"}
DECLARES = ("volatile", "int", "pthread_t")
ATOMIC = ("__CPROVER_atomic_begin", "__CPROVER_atomic_end")

# what fits a place: an int, a pointer, what a thread's function or a void function returns
FITS = {"int": ("int", "zero"), "pointer": ("pointer", "null", "zero"), "thread": ("null", "zero"), "void": ()}

# of an expression or a call; the type is None where it or a part of it is refused
Value = collections.namedtuple("Value", "type at")


class Variable:
    def __init__(self, kind, is_global=False, length=0):
        self.kind, self.is_global, self.length = kind, is_global, length


class Function:
    """A function or an input's prototype; parameters are kinds and names."""

    kind, is_global = "function", True

    def __init__(self, name, gives, parameters):
        self.name, self.gives, self.parameters = name, gives, parameters

    def is_main(self):
        return self.name.text == "main" and self.gives == "int" and not self.parameters


class Reader:
    """Reads tokens that are known to be a program."""

    def __init__(self, tokens):
        self.tokens, self.k = tokens, 0

    def text(self, ahead=0):
        k = self.k + ahead
        return self.tokens[k].text if k < len(self.tokens) else ""

    def next(self, count=1):
        self.k += count
        return self.tokens[self.k - 1]

    def takes(self, *texts):
        found = self.text() in texts
        self.k += found
        return found

    def head(self):
        """A function or a prototype up to its parameters; None, and nothing is read, where another item stands."""
        start = self.k
        while self.takes("static", "volatile", "extern"):
            pass
        word, star, name = self.next().text, self.takes("*"), self.next()
        if not self.takes("("):
            self.k = start
            return None
        return Function(name, GIVEN[word + "*" * star], self.parameters())

    def parameters(self):
        found = []
        while not self.takes(")"):
            self.takes(",")
            word, star = self.next().text, self.takes("*")
            if self.text() not in (",", ")"):
                found.append(("argument" if word == "void" else GIVEN[word + "*" * star], self.next()))
        return found

    def functions(self):
        """All functions of the text, in their order."""
        found = []
        while self.k < len(self.tokens):
            head = self.head()
            depth = 0
            if head and self.text() == "{":
                found.append(head)
                while depth or self.text() == "{":
                    text = self.next().text
                    depth += (text == "{") - (text == "}")
            else:
                while not self.takes(";"):
                    self.next()
        return found


class Scopes(Reader):
    """What is declared, the faults so far, and the calls by the names of the two functions."""

    def __init__(self, tokens):
        super().__init__(tokens)
        self.faults, self.scopes, self.calls, self.created, self.joined = [], [{}], [], [], []
        self.function, self.known_functions = None, {}

    def fault(self, rule, token_or_value):
        self.faults.append((token_or_value.at, RULES.index(rule)))

    def reserve(self, name, *kept):
        if name.text.startswith(kept):
            self.fault("reserved name", name)

    def declare(self, name, what):
        if name.text in self.scopes[-1]:
            self.fault("declared twice", name)
        else:
            self.scopes[-1][name.text] = what

    def declare_named(self, name, what):
        self.reserve(name, "wm_", "nondet_")
        self.declare(name, what)

    def found(self, name):
        for scope in reversed(self.scopes):
            if name.text in scope:
                return scope[name.text]
        return self.known_functions.get(name.text)

    def of_kind(self, name, *kinds):
        """What the name stands for, where it is of one of the kinds; else None, and the name is refused."""
        what = self.found(name)
        if what and what.kind in kinds:
            return what
        self.fault("wrong type" if what else "unknown name", name)
        return None

    def pointed(self, name, kind):
        what = self.of_kind(name, kind)
        if what and not what.is_global:
            self.fault("wrong type", name)
        return what if what and what.is_global else None

    def fits(self, value, place):
        if value.type is not None and value.type not in FITS[place]:
            self.fault("wrong type", value)
        return value.type in FITS[place]

    def shared(self, first, second):
        """The type of two operands or arms."""
        for kind in ("int", "pointer"):
            if first.type in FITS[kind] and second.type in FITS[kind]:
                return kind
        self.fault("wrong type", second)
        return None


class Expressions(Scopes):
    def expression(self):
        test = self.binary(0)
        if not self.takes("?"):
            return test
        first, _, second = self.expression(), self.next(), self.expression()
        refused = None in (test.type, first.type, second.type)
        return Value(None if refused else self.shared(first, second), test.at)

    def binary(self, level):
        left = self.unary()
        while LEVEL.get(self.text(), -1) >= level:
            mark = self.next().text
            right = self.binary(LEVEL[mark] + 1)
            left = Value(self.type_of_two(mark, left, right), left.at)
        return left

    def type_of_two(self, mark, left, right):
        if None in (left.type, right.type):
            if mark not in ("==", "!=", "&&", "||"):
                self.fits(left, "int")
            return None
        if mark in ("==", "!="):
            return self.shared(left, right) and "int"
        fit = mark in ("&&", "||") or all([self.fits(left, "int"), self.fits(right, "int")])
        return "int" if fit else None

    def unary(self):
        token = self.next()
        if token.kind == "number":
            return Value("int" if token.value else "zero", token.at)
        if token.text == "NULL":
            return Value("null", token.at)
        if token.text == "(":
            inner = self.expression()
            self.next()
            return inner
        if token.text == "&":
            return Value(self.address(self.next()), token.at)
        if token.kind == "word":
            return Value(self.type_of_name(token), token.at)
        part = self.unary()
        fit = part.type is not None if token.text == "!" else self.fits(part, "pointer" if token.text == "*" else "int")
        return Value("int" if fit else None, token.at)

    def subscript(self):
        index = self.expression()
        self.next()
        return self.fits(index, "int")

    def address(self, name):
        is_element = self.takes("[")
        what = self.pointed(name, "array" if is_element else "int")
        fit = self.subscript() if is_element else True
        return "pointer" if what and fit else None

    def type_of_name(self, name):
        if not self.takes("["):
            what = self.of_kind(name, "int", "pointer")
            return what.kind if what else None
        what, fit = self.of_kind(name, "array"), self.subscript()
        return "int" if what and fit else None

    def value(self):
        if self.text(1) != "(" or self.tokens[self.k].kind != "word":
            return self.expression()
        return self.update() if self.text().startswith("__sync_") else self.call()

    def arguments(self):
        found = []
        self.next()
        while not self.takes(")"):
            self.takes(",")
            found.append(self.expression())
        return found

    def update(self):
        word = self.next()
        fit = [self.fits(value, "int" if k else "pointer") for k, value in enumerate(self.arguments())]
        return Value("int" if all(fit) else None, word.at)

    def call(self):
        name = self.next()
        values = self.arguments()
        is_input = name.text.startswith("nondet_")
        what = Function(name, "int", []) if is_input else self.of_kind(name, "function")
        if what is None:
            return Value(None, name.at)
        self.calls.append((self.function.name, what.name, name))
        if what.gives == "thread" or name.text == "main" or len(what.parameters) != len(values):
            self.fault("wrong type", name)
            return Value(None, name.at)
        fit = [self.fits(value, kind) for value, (kind, _) in zip(values, what.parameters)]
        return Value(what.gives if all(fit) else None, name.at)


class Statements(Expressions):
    def declaration(self):
        self.takes("volatile")
        word = self.next().text
        while not self.takes(";"):
            self.takes(",")
            kind = KINDS.get(word, "pointer" if self.takes("*") else "int")
            name = self.next()
            if self.takes("="):
                self.scopes.append({name.text: None})
                value = self.value()
                self.scopes.pop()
                self.fits(value, kind)
            self.declare_named(name, Variable(kind))

    def inner(self, loop, outermost):
        """What stands behind the opening brace of a block, and its closing one."""
        while not self.takes("}"):
            if self.text() in DECLARES:
                self.declaration()
            else:
                self.statement(loop, outermost)

    def statement(self, loop, outermost):
        token = self.next()
        if token.text == "{":
            self.scopes.append({})
            self.inner(loop, False)
            self.scopes.pop()
        elif token.text in ("if", "while"):
            self.condition()
            self.statement(loop or token.text == "while", False)
            if token.text == "if" and self.takes("else"):
                self.statement(loop, False)
        elif token.text == "do":
            self.statement(True, False)
            self.next()
            self.condition()
            self.next()
        elif token.text == "for":
            self.for_loop()
        elif self.text() == ":":
            self.reserve(token, "wm_", "nondet_")
            self.fault("output only", token)
            self.next()
            self.statement(loop, outermost)
        elif token.text != ";":
            self.k -= 1
            self.short_statement(loop, outermost)
            self.next()

    def condition(self):
        self.next()
        self.expression()
        self.next()

    def for_loop(self):
        self.scopes.append({})
        self.next()
        if self.text() in DECLARES:
            self.declaration()
        else:
            if self.text() != ";":
                self.assignment()
            self.next()
        if self.text() != ";":
            self.expression()
        self.next()
        if self.text() != ")":
            self.assignment()
        self.next()
        self.statement(True, False)
        self.scopes.pop()

    def short_statement(self, loop, outermost):
        token = self.tokens[self.k]
        if token.text in ("break", "continue"):
            self.next()
            if not loop:
                self.fault("wrong type", token)
        elif token.text == "return":
            self.next()
            if self.text() != ";":
                self.fits(self.value(), self.function.gives)
        elif token.text == "goto":
            self.fault("output only", token)
            self.next(2)
        elif token.kind == "word" and self.text(1) == "(":
            self.call_statement(token, outermost)
        else:
            self.assignment()

    def assignment(self):
        if self.takes("++", "--"):
            self.fits(self.unary(), "int")
            return
        left, mark = self.unary(), self.next().text
        if mark == "=":
            value = self.value()
            if left.type is not None:
                self.fits(value, left.type)
            return
        self.fits(left, "int")
        if mark in UPDATES:
            self.fits(self.expression(), "int")

    def call_statement(self, word, outermost):
        name = word.text
        if name == "__sync_synchronize" or name in ATOMIC:
            self.next(3)
            if name in ATOMIC:
                self.fault("output only", word)
        elif name in ("assert", "__CPROVER_assert", "__CPROVER_assume"):
            self.next(2)
            self.expression()
            self.next(3 if self.text() == "," else 1)
        elif name in ("pthread_mutex_lock", "pthread_mutex_unlock"):
            self.of_kind(self.next(4), "mutex")
            self.next()
        elif name == "pthread_create":
            variable, function = self.next(4), self.next(4)
            self.next(3)
            self.create(word, variable, function, outermost)
        elif name == "pthread_join":
            variable = self.next(3)
            self.next(3)
            self.join(word, variable, outermost)
        else:
            self.value()

    def create(self, word, variable, function, outermost):
        thread, started = self.of_kind(variable, "thread"), self.of_kind(function, "function")
        if not outermost or thread in self.created or started and started.gives != "thread":
            self.fault("bad thread", word)
        self.created += [thread] if thread else []

    def join(self, word, variable, outermost):
        thread = self.of_kind(variable, "thread")
        if not outermost or thread and (thread in self.joined or thread not in self.created):
            self.fault("bad thread", word)
        self.joined += [thread] if thread else []


class Items(Statements):
    def item(self):
        head = self.head()
        if not head:
            self.global_item()
        elif self.takes(";"):
            self.reserve(head.name, "wm_")
            self.declare(head.name, head)
            if not head.name.text.startswith("nondet_"):
                self.fault("unknown name", head.name)
        else:
            self.body(head)

    def body(self, head):
        self.function = head
        self.declare_named(head.name, head)
        self.scopes.append({})
        for kind, name in head.parameters:
            self.declare_named(name, Variable(kind))
        self.next()
        self.inner(False, head.is_main())
        self.scopes.pop()

    def global_item(self):
        while self.takes("static", "volatile"):
            pass
        word = self.next().text
        while not self.takes(";"):
            self.takes(",")
            if word == "int":
                self.global_int()
                continue
            self.declare_named(self.next(), Variable(KINDS[word]))
            if self.takes("="):
                self.next()

    def global_int(self):
        kind, name = "pointer" if self.takes("*") else "int", self.next()
        if not self.takes("["):
            self.declare_named(name, Variable(kind, True))
            if self.takes("="):
                self.fits(self.start(), kind)
            return
        length = self.next().value
        self.next()
        self.declare_named(name, Variable("array", True, length))
        if length == 0:
            self.fault("wrong type", name)
        if self.takes("="):
            self.elements(length)

    def elements(self, length):
        count = 0
        while not self.takes("}"):
            self.next()
            constant = self.tokens[self.k]
            self.next(2 if constant.text == "-" else 1)
            count += 1
            if count == length + 1:
                self.fault("wrong type", constant)

    def start(self):
        token = self.next()
        if token.text == "NULL":
            return Value("null", token.at)
        if token.text != "&":
            number = self.next() if token.text == "-" else token
            return Value("int" if number.value else "zero", token.at)
        name, index = self.next(), None
        if self.takes("["):
            index = self.next()
            self.next()
        what = self.pointed(name, "array" if index else "int")
        if what and index and index.value >= what.length:
            self.fault("wrong type", index)
        return Value("pointer" if what else None, token.at)

    def recursions(self):
        reached = {}
        for caller, called, _ in self.calls:
            reached.setdefault(caller, set()).add(called)
        for caller, called, name in self.calls:
            seen, work = {called}, [called]
            while work:
                new = reached.get(work.pop(), set()) - seen
                seen |= new
                work += new
            if caller in seen:
                self.fault("recursion", name)

    def check(self):
        functions = Reader(self.tokens).functions()
        if not any(function.is_main() for function in functions):
            raise Refused("no main", (1, 1))
        for function in functions:
            self.known_functions.setdefault(function.name.text, function)
        while self.k < len(self.tokens):
            self.item()
        self.recursions()
        if self.faults:
            at, rule = min(self.faults)
            raise Refused(RULES[rule], at)


def check_names(tokens):
    """Refuses the tokens of a program that makes no sense."""
    Items(tokens).check()
