"""Random programs that no rule refuses and that most often run to their end, and random runs of machines as schedules."""
from programs import CHECKS, LOCKS, NUMBERS, Programs

LARGE = ["7", "31", "32", "33", "0x7fffffff", "( - 2147483647 - 1 )", "- 1"]
DIVISIONS = ["/", "%", "/=", "%="]


class Running(Programs):
    """Programs in which indices are most often in range, pointers not null, divisors not 0 and assertions true."""

    valued, odd_addresses = {"int": 0.7, "pointer": 0.97}, 0

    # ---- expressions

    def number(self):
        return self.random.choice(LARGE if self.often(0.15) else NUMBERS)

    def element(self, fuel):
        name = self.name("array")
        length = self.lengths[name]
        index = str(self.random.randrange(length))
        if self.often(0.6):
            index = "( %s ) & %d" % (self.int_of(fuel - 1), {1: 0, 2: 1, 3: 1}[length])
        return "%s [ %s ]" % (name, self.int_of(fuel - 1) if self.often(0.05) else index)

    def operand(self, mark, fuel):
        part = self.int_of(fuel)
        if mark in DIVISIONS and self.often(0.95):
            return "( %s | 1 )" % self.random.choice(["2", "- 1", "( %s )" % part])
        return part

    def truth(self, fuel):
        return "! ( %s )" % self.cond(fuel - 1) if self.often(0.5) else "( %s == 1 )" % self.int_of(fuel - 1)

    def pointer_of(self, fuel):
        names = ["& " + name for name in self.seen("int", True)]
        names += ["& " + self.element(fuel - 1)] if self.has("array") and fuel > 0 else []
        names += self.seen("pointer") if self.often(0.5) else []
        return self.random.choice(names) if names and self.often(0.94) else super().pointer_of(fuel)

    # ---- calls and statements

    def value(self, kind):
        later = [f for f in self.functions[self.current + 1 :] if f[0] in self.seen("function") and f[1] == kind]
        if later and self.often(0.4):
            return self.called([kind])
        if kind == "int" and self.often(0.2):
            return self.update() if self.often(0.5) else "nondet_x ( )"
        return self.of_type(kind)

    def check(self):
        shape = self.random.randrange(8)
        if shape == 0:
            return super().check()
        if shape == 1:
            return "assert ( %s ) ;" % self.int_of(3)
        test = "( %s ) != %d" % (self.int_of(2), self.random.randrange(-9, 20))
        return self.random.choice(CHECKS) % (test if shape < 6 else "%s || %s" % (self.cond(2), test))

    def counted(self):
        """A loop that takes so many turns as the low bits of a value say."""
        return "for ( int n = ( %s ) & %d ; n ; n -- ) ;" % (self.int_of(3), self.random.choice([1, 3, 7, 7]))

    def turns(self, fuel):
        """A loop of some turns."""
        self.scopes.append({})
        name = self.new_name("int")
        self.scopes[-1][name] = "int"
        body = self.statement(fuel - 1, True) if self.often(0.4) else self.block(fuel, True)
        self.scopes.pop()
        return "for ( int {0} = 0 ; {0} < {1} ; {0} ++ ) {2}".format(name, self.random.randrange(4), body)

    def special(self):
        free = [name for name in self.seen("mutex") if name not in self.held]
        if not free or self.often(0.3):
            return "__sync_synchronize ( ) ;" if self.often(0.9) else super().special()
        name = self.random.choice(free)
        self.held.append(name)
        within = self.block(1, False)
        self.held.pop()
        return "{ %s %s %s }" % (LOCKS[0] % name, within, LOCKS[1] % name)

    def compound(self, fuel, loop):
        return self.turns(fuel) if self.often(0.4) else super().compound(fuel, loop)

    def statement(self, fuel, loop):
        shape = self.random.randrange(8)
        if shape == 0:
            return self.check() if self.often(0.6) else self.counted()
        text = self.special() if shape == 1 and fuel > 0 else super().statement(fuel, loop)
        is_way = text.startswith(("return", "break", "continue"))
        return "if ( %s ) { %s }" % (self.cond(1), text) if is_way else text

    # ---- items

    def signatures(self):
        super().signatures()
        self.held = []

    def start(self, kind):
        names = ["& " + name for name in self.seen("int", True)]
        return self.random.choice(names) if kind == "pointer" and names and self.often(0.9) else super().start(kind)

    def first_globals(self):
        """Variables of each kind."""
        names = {kind: self.global_name(kind) for kind in ("int", "pointer", "mutex")}
        texts = ["int %s = %s ;" % (names["int"], self.start("int")), "int %s ;" % self.array()]
        return texts + ["int * %s = & %s ;" % (names["pointer"], names["int"]), "pthread_mutex_t %s ;" % names["mutex"]]

    def main_parts(self):
        """Statements between which threads start and are joined, most often."""
        starts = [self.random.choice(self.runs) for _ in range(self.random.randrange(4))] if self.runs else []
        parts, joins = self.parts(self.random.randrange(3), 2), []
        for k, runs in enumerate(starts):
            parts += ["pthread_t t%d ;" % k, "pthread_create ( & t%d , 0 , %s , NULL ) ;" % (k, runs)]
            parts += self.parts(self.random.randrange(2), 2)
            joins += ["pthread_join ( t%d , NULL ) ;" % k] if self.often(0.85) else []
        self.random.shuffle(joins)
        return parts + self.parts(self.random.randrange(3), 3) + joins + self.parts(self.random.randrange(4), 2)

    def function_parts(self):
        return self.parts(self.random.randrange(1, 5), 2) + ([self.returned()] if self.often(0.7) else [])


# ---- runs

def likely(random, machine):
    """An entry that may be enabled."""
    started = [thread for thread in machine.threads if thread.started]
    thread = random.choice(started)
    if thread.pending and random.random() < 0.3:
        cell = [random.choice(thread.pending)[0]] if machine.model == "pso" else []
        return "flush", thread.number, *cell
    if not thread.ended and thread.code[thread.place][0] == "input":
        return "in", thread.number, random.choice([0, 1, 2, 3, -1, random.randrange(-(2**31), 2**31)])
    return "step", thread.number


def taken(machine, entry, times):
    """How often the entry is enabled, up to so many times."""
    done = 0
    while done < times and machine.take(entry):
        done += 1
    return done


def last_line(random, machine):
    """A line that asks for what need not be enabled."""
    thread = random.randrange(len(machine.threads) + 1)
    forms = ["step %d" % thread, "in %d 1" % thread, "flush %d" % thread, "flush %d %d" % (thread, random.randrange(3))]
    return random.choice(forms + ["steps %d %d" % (thread, random.choice([2, 30, 1000]))] * 4)


def run_of(random, machine):
    """The lines of a random run, most often with a last one that is not enabled."""
    lines, most, tries = [], random.choice([5, 30, 100, 300, 300]), 0
    while most > 0 and tries < 20:
        entry = likely(random, machine)
        times = taken(machine, entry, random.choice([1, 1, 2, 5, 20]) if entry[0] == "step" else 1)
        tries = 0 if times else tries + 1
        most -= times
        word = " ".join(map(str, entry))
        lines += ["steps %d %d" % (entry[1], times) if times > 1 or random.random() < 0.1 else word] if times else []
    is_more = random.random() < (0.7 if machine.verdict is None else 0.1)
    return lines + ([last_line(random, machine)] if is_more else [])
