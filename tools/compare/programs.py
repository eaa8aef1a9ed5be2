"""Random programs in which most names and types are right, and some are not: texts that the grammar takes."""

POOL = {"int": "x y z", "pointer": "p q", "array": "a b", "mutex": "m", "thread": "t u", "function": "f g h e"}
POOL = {kind: names.split() for kind, names in POOL.items()}
POOL["runs"] = ["w", "v"]
ANY = sum(POOL.values(), []) + ["main", "k", "arg", "wm_x", "nondet_x"]
BETWEEN = "+ - * / % & | ^ << >> < <= > >= == != && ||".split()
UPDATES = "+= -= *= /= %= <<= >>= &= ^= |=".split()
NUMBERS = ["0", "0", "1", "2", "0x0", "3"]
TYPES = {"int": "int ", "pointer": "int * ", "void": "void "}
SWAPS = {"0": ["NULL", "1"], "NULL": ["0", "1"], "==": ["+", "<"], "+": ["==", "&&"]}
CHECKS = ["assert ( %s ) ;", '__CPROVER_assert ( %s , "ok" ) ;', "__CPROVER_assume ( %s ) ;"]
LOCKS = ["pthread_mutex_lock ( & %s ) ;", "pthread_mutex_unlock ( & %s ) ;"]


class Programs:
    """One text for each call of `one`; `slip` is how often a name or a type is another than it should be, `theme` what is so
    more often."""

    # how often a declared name has a value, and how often the address of a local is taken
    valued, odd_addresses = {"int": 0.7, "pointer": 0.7}, 0.03

    def __init__(self, random):
        self.random, self.slip, self.theme = random, 0, ""

    def often(self, chance):
        return self.random.random() < chance

    def slips(self):
        return self.often(self.slip)

    def goes(self, theme):
        return self.often(0.3 if self.theme == theme else self.slip)

    def seen(self, kind, outside=False):
        """The visible names of this kind, those outside all functions alone where that is asked for."""
        seen = {name: (what, depth) for depth, scope in enumerate(self.scopes) for name, what in scope.items()}
        return [name for name, (what, depth) in seen.items() if what == kind and not (outside and depth)]

    def name(self, kind):
        """A visible name of this kind; another name where none is visible or by a slip."""
        names = self.seen(kind)
        return self.random.choice(names if names and not self.slips() else ANY)

    def has(self, kind):
        return self.seen(kind) != []

    def new_name(self, kind):
        """A name that is free in the innermost scope."""
        names = ANY[:-3] if self.often(0.05) else POOL[kind] + POOL[self.random.choice(["int", "pointer"])]
        names = ANY if self.slips() else names
        free = [name for name in names if name not in self.scopes[-1]] if not self.slips() else names
        return self.random.choice(free or ["x%d" % len(self.scopes[-1])])

    # ---- expressions

    def number(self):
        return self.random.choice(NUMBERS)

    def element(self, fuel):
        return "%s [ %s ]" % (self.name("array"), self.int_of(fuel))

    def operand(self, mark, fuel):
        """What stands behind an operator."""
        return self.int_of(fuel)

    def int_or_pointer(self, fuel):
        return self.pointer_of(fuel) if self.often(0.3) else self.int_of(fuel)

    def int_of(self, fuel):
        if self.slips():
            return self.pointer_of(fuel - 1)
        shape = self.random.randrange(12 if fuel > 0 else 4)
        if shape < 2 or shape < 4 and not self.has("int"):
            return self.number()
        if shape < 4:
            return self.name("int")
        if shape == 4 and self.has("array"):
            return self.element(fuel - 1)
        if shape == 5:
            return self.target(fuel)
        if shape == 6:
            return "( %s )" % self.int_of(fuel - 1)
        if shape == 7:
            return "%s ? %s : %s" % (self.cond(fuel - 1), self.int_of(fuel - 1), self.int_of(fuel - 1))
        if shape == 8:
            return self.random.choice("-+~") + " ( %s )" % self.int_of(fuel - 1)
        return self.truth(fuel) if shape == 9 else self.arithmetic(fuel)

    def target(self, fuel):
        if self.has("pointer") and self.often(0.6):
            return "* " + self.name("pointer")
        return "* ( %s )" % self.pointer_of(fuel - 1)

    def arithmetic(self, fuel):
        mark = self.random.choice(BETWEEN)
        parts = [self.int_of(fuel - 2), mark, self.operand(mark, fuel - 2)]
        parts = ["( %s )" % part if "?" in part else part for part in parts]
        return " ".join(parts) if self.often(0.5) else "( %s )" % " ".join(parts)

    def truth(self, fuel):
        return self.cond(fuel)

    def cond(self, fuel):
        """An int or a pointer, most often compared."""
        shape = self.random.randrange(5)
        if shape == 0:
            return "( %s )" % self.int_or_pointer(fuel - 1)
        if shape == 1:
            return "! ( %s )" % self.int_or_pointer(fuel - 1)
        read = self.pointer_of if shape == 2 else self.int_of
        parts = ["( %s )" % read(fuel - 1), self.random.choice(["==", "!="]), "( %s )" % read(fuel - 1)]
        return "( %s )" % " ".join(parts)

    def pointer_of(self, fuel):
        if self.slips():
            return self.int_of(fuel - 1)
        shape = self.random.randrange(8)
        if shape < 2 and self.has("pointer"):
            return self.name("pointer")
        if shape == 2 and self.seen("int", True):
            return "& " + (self.name("int") if self.often(self.odd_addresses) else self.random.choice(self.seen("int", True)))
        if shape == 3 and self.has("array"):
            return "& " + self.element(fuel - 1)
        if shape == 4 and fuel > 0:
            arms = [self.random.choice(["0", self.pointer_of(fuel - 1)]), self.pointer_of(fuel - 1)]
            return "( %s ? %s : %s )" % (self.cond(fuel - 1), *arms)
        return self.random.choice(["NULL", "0", "( NULL )", "( 00 )"]) if shape < 7 else "NULL"

    def of_type(self, kind, fuel=3):
        return self.pointer_of(fuel) if kind == "pointer" else self.int_of(fuel)

    # ---- calls

    def called(self, gives):
        """A call of a function that comes later in the order, so that none comes back."""
        later = self.functions if self.goes("calls") else self.functions[self.current + 1 :]
        choices = [f for f in later if f[0] in self.seen("function") and f[1] in gives]
        if not choices or self.slips() or self.theme == "calls" and self.often(0.05):
            return "%s ( )" % self.random.choice(["main", *ANY] if self.goes("calls") else ["nondet_x"])
        name, _, parameters = self.random.choice(choices)
        given = [self.of_type(kind, 1) for kind in parameters]
        if self.slips():
            given = given[1:] if given and self.often(0.5) else given + ["1"]
        return "%s ( %s )" % (name, " , ".join(given))

    def update(self):
        if self.often(0.5):
            return "__sync_fetch_and_add ( %s , %s )" % (self.pointer_of(2), self.int_of(1))
        return "__sync_bool_compare_and_swap ( %s , %s , %s )" % (self.pointer_of(2), self.int_of(1), self.int_of(1))

    def value(self, kind):
        if self.often(0.2) and (kind == "int" or any(f[1] == kind for f in self.functions[self.current + 1 :])):
            return self.called([kind])
        return self.update() if kind == "int" and self.often(0.1) else self.of_type(kind)

    # ---- statements

    def left(self, kind):
        shape = self.random.randrange(4)
        if kind == "int" and shape == 0 and self.has("array"):
            return self.element(1)
        if kind == "int" and (shape == 1 or not self.has("int")):
            return ("( %s )" if self.often(0.2) else "%s") % self.target(2)
        return ("( %s )" if self.often(0.1) else "%s") % self.name(kind)

    def assignment(self):
        kind = "pointer" if self.has("pointer") and self.often(0.3) else "int"
        shape = self.random.randrange(5)
        if kind == "int" and shape == 0 or self.slips():
            mark = self.random.choice(UPDATES)
            return "%s %s %s" % (self.left(kind), mark, self.operand(mark, 2))
        if kind == "int" and shape == 1:
            word = self.random.choice(["++", "--"])
            return self.random.choice([self.left(kind) + " " + word, word + " " + self.left(kind)])
        return "%s = %s" % (self.left(kind), self.value(kind))

    def declaration(self):
        """One or two names; each is hidden, most often, where its value is made."""
        if self.often(0.1):
            name = self.new_name("thread")
            self.scopes[-1][name] = "thread"
            return "pthread_t %s ;" % name
        items = []
        for _ in range(self.random.choice([1, 1, 2])):
            kind = self.random.choice(["int", "int", "pointer"])
            name = self.new_name(kind)
            self.scopes.append({} if self.slips() else {name: "hidden"})
            value = " = " + self.value(kind) if self.often(self.valued[kind]) else ""
            items.append(("* " if kind == "pointer" else "") + name + value)
            self.scopes.pop()
            self.scopes[-1][name] = kind
        return self.random.choice(["", "volatile "]) + "int %s ;" % " , ".join(items)

    def block(self, fuel, loop):
        self.scopes.append({})
        parts = self.parts(self.random.randrange(4), fuel - 1, loop)
        self.scopes.pop()
        return "{ %s }" % " ".join(parts)

    def parts(self, count, fuel, loop=False):
        return [self.declaration() if self.often(0.35) else self.statement(fuel, loop) for _ in range(count)]

    def statement(self, fuel, loop):
        shape = self.random.randrange(16)
        if shape < 5 and fuel > 0:
            return self.compound(fuel, loop)
        if shape < 8 or shape < 10 and not (loop or self.slips()):
            return self.assignment() + " ;"
        if shape == 8 or shape == 9:
            return self.random.choice(["break ;", "continue ;"])
        if shape == 10 or self.theme == "calls" and self.often(0.2):
            return self.called(["int", "pointer", "void"]) + " ;"
        if shape == 11:
            return self.returned()
        if shape == 12:
            return self.check()
        if shape == 13:
            return self.special()
        return self.update() + " ;" if shape == 14 else ";"

    def check(self):
        return self.random.choice(CHECKS) % self.cond(2)

    def special(self):
        if self.goes("labels"):
            odd = ["goto l ;", "l : ;", "wm_l : ;", "__CPROVER_atomic_begin ( ) ;", "__CPROVER_atomic_end ( ) ;"]
            return self.random.choice(odd + [self.create(), self.join()])
        if not self.has("mutex") and self.theme != "locks":
            return "__sync_synchronize ( ) ;"
        return self.random.choice(LOCKS) % (self.random.choice(ANY) if self.goes("locks") else self.name("mutex"))

    def compound(self, fuel, loop):
        shape = self.random.randrange(5)
        if shape == 0:
            return self.block(fuel, loop)
        if shape == 1:
            tail = " else " + self.statement(fuel - 1, loop) if self.often(0.4) else ""
            return "if ( %s ) { %s }%s" % (self.cond(2), self.statement(fuel - 1, loop), tail)
        if shape == 2:
            return "while ( %s ) %s" % (self.cond(2), self.statement(fuel - 1, True))
        if shape == 3:
            return "do %s while ( %s ) ;" % (self.statement(fuel - 1, True), self.cond(2))
        self.scopes.append({})
        first = self.declaration() if self.often(0.5) else self.assignment() + " ;"
        test, last = self.cond(2), self.assignment()
        head = "for ( %s %s ; %s ) " % (first, self.random.choice(["", test, test]), self.random.choice(["", last, last]))
        text = head + self.statement(fuel - 1, True)
        self.scopes.pop()
        return text

    def returned(self):
        if self.gives == "thread":
            value = self.random.choice(["", "0", "NULL", "( 0 )"]) if not self.slips() else self.int_or_pointer(1)
        else:
            value = "" if self.gives == "void" and not self.slips() or self.often(0.2) else self.value(self.gives)
        return "return %s ;" % value

    # ---- threads

    def create(self):
        null = self.random.choice(["0", "NULL"])
        runs = self.random.choice(self.runs + ["main", "x"] + self.seen("function"))
        return "pthread_create ( & %s , %s , %s , NULL ) ;" % (self.name("thread"), null, runs)

    def join(self):
        return "pthread_join ( %s , %s ) ;" % (self.name("thread"), self.random.choice(["0", "NULL"]))

    def threads(self):
        """Statements that start and join, each variable once."""
        out, seen = [], self.seen("function")
        choices = [name for name in self.runs if name in seen]
        for name in self.seen("thread") if choices else []:
            runs = self.random.choice(choices)
            out += ["pthread_create ( & %s , 0 , %s , 0 ) ;" % (name, runs)]
            out += ["pthread_join ( %s , 0 ) ;" % name] if self.often(0.7) else []
        if out and (self.goes("threads") or self.goes("threads")):
            k = self.random.randrange(len(out))
            wraps = ["{ %s }", "if ( 0 ) %s", "if ( 1 ) ; else %s", "for ( ; ; ) %s", "do %s while ( 0 ) ;", "; %s"]
            out[k] = self.random.choice([self.random.choice(wraps) % out[k], out[-1], self.create(), self.join()])
            out.append(self.random.choice(["", out[k], out[-1]]))
        return out

    # ---- items

    def signatures(self):
        """Functions in an order in which each calls later ones alone, and thread functions."""
        names = self.random.sample(POOL["function"], self.random.choice([0, 1, 2, 3, 4]))
        kinds = lambda: [self.random.choice(["int", "int", "pointer"]) for _ in range(self.random.choice([0, 0, 1, 2]))]
        self.functions = [(name, self.random.choice(["int", "void", "pointer"]), kinds()) for name in names]
        self.runs = self.random.sample(POOL["runs"], self.random.randrange(3))

    def body(self, gives, parameters, current):
        """A parameter list and a block, which are one scope."""
        self.gives, self.current = gives, current
        self.scopes, heads = [self.scopes[0], {}], []
        for kind in parameters:
            name = self.new_name(kind)
            heads.append(TYPES[kind] + name)
            self.scopes[-1][name] = kind
        if gives == "thread":
            heads = self.random.choice([[], ["void"], ["void *"], ["void * arg"]])
            self.scopes[-1]["arg"] = "hidden"
        parts = self.main_parts() if current < 0 else self.function_parts()
        self.scopes = self.scopes[:1]
        return "( %s ) { %s }" % (" , ".join(heads), " ".join(parts))

    def main_parts(self):
        parts = self.parts(self.random.randrange(6), 3)
        parts += ["pthread_t t ;"] if self.often(0.3) and "t" not in self.scopes[-1] else []
        self.scopes[-1].update({"t": "thread"} if parts and parts[-1] == "pthread_t t ;" else {})
        return parts + self.threads() + [self.statement(2, False)] + self.random.choice([[], ["return 0 ;"]])

    def function_parts(self):
        return self.parts(self.random.randrange(6), 3) + ([self.returned()] if self.often(0.6) else [])

    def function(self, which):
        kind, k = which
        if kind == "main":
            return "int main " + self.body("int", [], -1)
        if kind == "runs":
            return "void * %s %s" % (self.runs[k], self.body("thread", [], k + len(self.functions)))
        name, gives, parameters = self.functions[k]
        return self.random.choice(["", "static "]) + TYPES[gives] + name + " " + self.body(gives, parameters, k)

    def start(self, kind):
        if kind == "int":
            return self.random.choice(["0", "1", "- 1", "- 0"]) if not self.slips() else self.random.choice(["NULL", "& x"])
        choices = ["0", "NULL", "- 0", "00"] + ["& " + name for name in self.seen("int", True)]
        choices += ["& %s [ %d ]" % (name, self.random.randrange(length)) for name, length in self.lengths.items()]
        odd = ["1", "- 1", "& " + self.random.choice(ANY), "& %s [ 1 ]" % self.name("array")]
        odd += ["& %s [ %d ]" % item for item in self.lengths.items()]
        return self.random.choice(odd if self.goes("starts") else choices)

    def array(self):
        name, length = self.new_name("array"), self.random.randrange(0 if self.slips() else 1, 4)
        count = self.random.randrange(1, length + 2) if self.slips() else self.random.randrange(1, max(length, 1) + 1)
        self.scopes[0][name], self.lengths[name] = "array", max(length, 1)
        values = " = { %s }" % " , ".join(self.random.choice(["1", "- 2", "0"]) for _ in range(count))
        return "%s [ %d ]%s" % (name, length, values if self.often(0.5) else "")

    def global_name(self, kind):
        name = self.new_name(kind)
        self.scopes[0][name] = kind
        return name

    def variable(self):
        kind = self.random.choice(["int", "int", "pointer"])
        name = self.global_name(kind)
        return ("* " if kind == "pointer" else "") + name + (" = " + self.start(kind) if self.often(0.5) else "")

    def global_item(self):
        shape = self.random.randrange(10)
        if shape < 2:
            kind, word = self.random.choice([("mutex", "pthread_mutex_t"), ("thread", "pthread_t")])
            name = self.new_name(kind)
            self.scopes[0][name] = kind
            value = " = PTHREAD_MUTEX_INITIALIZER" if kind == "mutex" and self.often(0.5) else ""
            return "%s %s%s ;" % (word, name, value)
        if shape == 2:
            name = self.random.choice(["nondet_x", "nondet_y"])
            name = "nondet_%d" % len(self.scopes[0]) if name in self.scopes[0] else name
            name = self.random.choice(["k", "wm_y", *ANY]) if self.slips() else name
            self.scopes[0][name] = "input"
            return "int %s ( %s ) ;" % (name, self.random.choice(["", "void"]))
        items = [self.array() if self.often(0.25) else self.variable() for _ in range(self.random.choice([1, 1, 2, 3]))]
        return self.random.choice(["", "static ", "volatile "]) + "int %s ;" % " , ".join(items)

    def swapped(self, words):
        """The words with one name, number, word or mark more or less at random."""
        places = [k for k, word in enumerate(words) if word in SWAPS or word in ANY]
        for k in self.random.sample(places, min(len(places), self.random.choice([1, 1, 2]))):
            words[k] = self.random.choice(SWAPS.get(words[k], ANY))
        return words

    def first_globals(self):
        return ["int %s , * %s ;" % (self.global_name("int"), self.global_name("pointer"))] if self.often(0.9) else []

    def program(self):
        """The spellings of a program, in which nothing changes places."""
        self.signatures()
        self.scopes, self.lengths = [dict.fromkeys([f[0] for f in self.functions] + self.runs + ["main"], "function")], {}
        items = [("main", 0)] + [("function", k) for k in range(len(self.functions))]
        items += [("runs", k) for k in range(len(self.runs))]
        self.random.shuffle(items)
        texts = self.first_globals() + [self.global_item() for _ in range(self.random.randrange(5))]
        for which in items:
            texts += [self.function(which)] + ([self.global_item()] if self.often(0.2) else [])
        return " ".join(texts).split()

    def one(self):
        """The spellings of a program."""
        self.slip = self.random.choice([0, 0, 0.003, 0.01, 0.01, 0.03, 0.15])
        self.theme = self.random.choice(["", "calls", "threads", "labels", "locks", "starts"])
        words = self.program()
        return self.swapped(words) if self.often(0.25) else words
