"""Random words and inputs: texts near the grammar, small programs in many spellings, programs in which most
names and types are right, programs that run, programs near the limits, and schedules for them."""
from answers import settings
from flattening import check_limits, goto_program
from large import Large
from machines import Machine
from names import check_names
from programs import Programs
from reading import Refused, tokens_of
from running import Running, run_of
from trees import Tree

NAMES = ["x", "y", "a", "p", "main", "f", "t", "nondet_int", "wm_x", "é", "_", "x1", "int1"]
NUMBERS = ["0", "1", "2147483647", "0x1F", "017", "3", "00", "0X0"]
TEXTS = ['"assertion 1"', '""', '"a b"']
BLANKS = [" ", " ", " ", "\n", "\t", "  ", " // c\n", "\n#include <x>\n", "\r\n"]
GAPS = BLANKS + ["/* c */", "/**/"]
PIECES = ['"', "\\", "#", "@", "$", "\0", "\v", "é", "0", "9", "08", "0x", "99999999999", "/*", "*/", "//", "\n", ".", "->"]
PIECES += ["'", "\u00a0", "\ufeff", "/", "1.5", "_", "# include", "x#include", "ƒ", "٣", "%%\n", "\n%%\n", "%"]
BROKEN = [b"\xff", b"\xc3", b"\xe2\x82", b"\xc0\x80", b"\xed\xa0\x80", b"\x80"]
WORDS = ["instrument", "replay", "--mm", "tso", "pso", "sc", "--bound", "0", "1", "8", "9", "10", "", "-1", "TSO"]


class Inputs:
    def __init__(self, random, grammar):
        self.random, self.grammar, self.programs = random, grammar, Programs(random)
        self.runs, self.large = Running(random), Large(random)
        self.depths = {name: 10**6 for name in grammar.rules}
        while any(self.is_less_deep(name) for name in grammar.rules):
            pass
        self.terminals = ["NAME", "NUMBER", "TEXT"]
        self.terminals += ['"%s"' % word for word in [*grammar.kept, *grammar.outside, ".", "->", "+", "(", ")", ";", "}"]]
        self.terminals += sorted({s for rule in grammar.rules.values() for one in rule for s in one if s[0] == '"'})

    def depth(self, choice):
        return 1 + max([self.depths.get(part, 0) for part in choice], default=0)

    def is_less_deep(self, name):
        least = min(map(self.depth, self.grammar.rules[name]))
        less, self.depths[name] = least < self.depths[name], least
        return less

    def spelling(self, terminal):
        kinds = {"NAME": NAMES, "NUMBER": NUMBERS, "TEXT": TEXTS, "ZERO": ["0", "0x0", "00"]}
        return self.random.choice(kinds[terminal]) if terminal in kinds else terminal[1:-1]

    def derived(self, name, fuel):
        """The spellings of a random derivation."""
        choices = self.grammar.rules[name]
        if fuel <= self.depths[name] + 1:
            choices = [one for one in choices if self.depth(one) == self.depths[name]]
        out = []
        for part in self.random.choice(choices):
            out += self.derived(part, fuel - 1) if part in self.depths else [self.spelling(part)]
        return out

    def changed(self, items, other):
        """The items with up to three changes: one more, one less, another one, or two that change places."""
        items = list(items)
        for _ in range(self.random.choice([0, 1, 1, 2, 3])):
            k, change = self.random.randrange(len(items) + 1), self.random.randrange(4)
            if change == 0 or k >= len(items) - 1:
                items.insert(k, other())
            elif change == 1:
                del items[k]
            elif change == 2:
                items[k] = other()
            else:
                items[k], items[k + 1] = items[k + 1], items[k]
        return items

    def spelled(self, spellings):
        return "".join(spelling + self.random.choice(BLANKS if spelling == "/" else GAPS) for spelling in spellings)

    def near_grammar(self):
        spellings = self.derived("program", self.random.choice([8, 12, 16, 20, 26]))[:250]
        text = self.spelled(self.changed(spellings, lambda: self.spelling(self.random.choice(self.terminals))))
        text += self.random.choice(["", "int main ( ) { }"])
        if self.random.random() < 0.25:
            text = "".join(self.changed(text, lambda: self.random.choice(PIECES)))
        return text

    def deep(self):
        n = self.random.choice([198, 199, 200, 201, 202])
        inner = [("{" * n, "}" * n), ("x = " + "(" * n + "1" + ")" * n, ";"), ("x = " + "- " * n, "1;")]
        inner += [("if (1) ; else " * n, ";"), ("for (;;) " * n, ";"), ("x = " + "1 + " * (n // 2), "1;")]
        return "int x; int main(void) { %s%s }" % self.random.choice(inner)

    def wrapped(self, text):
        while self.random.random() < 0.1:
            text = "( %s )" % text
        return text

    def small(self):
        names = self.random.sample(["x", "y", "z", "é", "_a", "x1"], self.random.randrange(1, 5))
        pick, number = lambda: self.random.choice(names), lambda: self.random.choice(["0", "1", "2", "0x2", "01", "2147483647"])
        out = ["%sint %s ;" % (self.random.choice(["", "", "static ", "volatile static "]), name) for name in names]
        out += [self.random.choice(["int main ( void ) {", "int main ( ) {", "static int main ( void ) {"])]
        for _ in range(self.random.randrange(9)):
            value = self.wrapped(pick() if self.random.random() < 0.4 else number())
            test = self.wrapped("%s == %s" % (self.wrapped(pick()), self.wrapped(number())))
            out += [self.random.choice(["%s = %s ;" % (self.wrapped(pick()), value), "assert ( %s ) ;" % test])]
        spellings = " ".join(out + ["return %s ; }" % self.wrapped(self.random.choice(["0", "0x0", "00"]))]).split()
        if self.random.random() < 0.15:
            spellings = self.changed(spellings, lambda: self.spelling(self.random.choice(self.terminals)))
        return self.spelled(spellings)

    def named(self):
        return self.spelled(self.programs.one())

    def line(self):
        thread = self.random.choice(["0"] * 9 + ["1", "4294967295", "4294967296", "00", "-1"])
        times = self.random.choice(["1", "2", "3", "5", "9", "0"] * 5 + ["10000000", "10000001"])
        value = self.random.choice(["0", "-1", "-0", "2147483647", "-2147483648", "2147483648", "01", "x"])
        forms = ["step " + thread, "step " + thread, "steps %s %s" % (thread, times), "flush " + thread]
        forms += ["flush %s %s" % (thread, self.random.choice("0123")), "in %s %s" % (thread, value)]
        return self.random.choice(forms + (["", "end", "step", " step 0", "step 0 "] if self.random.random() < 0.1 else []))

    def schedule(self, lines, changes):
        """The lines as a schedule, with changes so often."""
        lines = ["schedule 1", *lines, "end"]
        if self.random.random() < changes:
            lines = self.changed(lines, self.line)
        return "\n".join(lines) + ("" if self.random.random() < changes / 4 else "\n")

    def lines(self):
        return [self.line() for _ in range(self.random.randrange(12))]

    def other(self):
        """A text of another kind, and what stands behind it in an input of replay."""
        kinds = [self.near_grammar] * 8 + [self.small] * 8 + [self.named] * 12 + [self.deep]
        parting = self.random.choice(["\n%%\n"] * 9 + ["%%\n", "\n%%"])
        return self.random.choice(kinds)(), parting + self.schedule(self.lines(), 0.2)

    def running(self, model, bound):
        """A program that is not refused, most often, and a schedule that runs."""
        spellings = self.runs.program() if self.random.random() < 0.95 else self.large.one()
        text, lines = self.spelled(spellings), self.lines()
        try:
            tokens = tokens_of(text)
            check_names(tokens)
            tree = Tree(tokens)
            check_limits(tree)
            lines = run_of(self.random, Machine(goto_program(tree), model, bound))
        except Refused:
            pass
        if self.random.random() < 0.1:
            text = self.spelled(self.runs.swapped(spellings))
        return text, "\n%%\n" + self.schedule(lines, 0.05)

    def words(self):
        bound = str(self.random.randrange(1, 9))
        shapes = [["instrument", "--mm", "tso", "--bound", bound], ["replay", "--mm", "sc"]]
        shapes += [["replay", "--mm", model, "--bound", bound] for model in ("tso", "pso")]
        words = self.random.choice(shapes)
        return self.changed(words, lambda: self.random.choice(WORDS)) if self.random.random() < 0.05 else words

    def one(self):
        """Words and an input."""
        words = self.words()
        asked = settings(words)
        runs = asked and self.random.random() < (0.1 if asked[0] == "instrument" else 0.6)
        text, behind = self.running(*asked[1:]) if runs else self.other()
        if words[0] != "instrument" or self.random.random() < 0.05:
            text += behind
        data = text.encode()
        if self.random.random() < 0.02:
            k = self.random.randrange(len(data) + 1)
            data = data[:k] + self.random.choice(BROKEN) + data[k:]
        return words, data.replace(b"\1", b"")
