"""Random programs near the limits of docs/flattening.md."""
from flattening import MOST, counts
from reading import tokens_of
from trees import Tree


def chain(calls, last):
    """Functions of which each calls the next, and the last has these statements."""
    texts = ["void f%d ( ) { %s }" % (k, "f%d ( ) ; " % (k + 1) * times) for k, times in enumerate(calls)]
    return texts + ["void f%d ( ) { %s }" % (len(calls), last)]


class Large:
    """One text for each call of `one`."""

    def __init__(self, random):
        self.random = random

    def near(self, limit):
        return MOST[limit] + self.random.choice([-1, 0, 0, 0, 1, 1, 2])

    def often(self, chance):
        return self.random.random() < chance

    def globals(self):
        """Mutexes and cells, each in a number near its limit or small."""
        mutexes = self.near("mutexes") if self.often(0.3) else 2
        cells = self.near("cells") if self.often(0.3) else 5
        cells = self.random.choice([2 * 2147483647, 2147483648 + 3]) if self.often(0.05) else cells
        first = self.random.randrange(1, min(cells - 1, 2147483647))
        lengths = [first, min(cells - 1 - first, 2147483647)]
        arrays = ["int a%d [ %d ] ;" % item for item in enumerate(lengths) if item[1] > 0]
        return ["pthread_mutex_t m%d ;" % k for k in range(mutexes)] + arrays + ["int x ;"]

    def threads(self):
        """Threads that call a function, and the statements that start them."""
        count = self.near("threads") - 1 if self.often(0.3) else self.random.randrange(3)
        creates = ["pthread_t t%d ; pthread_create ( & t%d , 0 , w , 0 ) ;" % (k, k) for k in range(count)]
        return ["void * w ( ) { f%d ( ) ; }" % self.random.randrange(3)], creates

    def nested(self):
        """A chain of functions that is as long as calls may nest, or that doubles its code."""
        if self.often(0.4):
            length = self.near("nested calls") - 1
            return chain([self.random.choice([1, 1, 1, 2])] * length, "x ++ ;")
        return chain([2] * self.random.randrange(9, 15), "x ++ ;")

    def wide(self):
        """Functions that call the next one many times; the last has declarations or stores."""
        calls = [self.random.randrange(5, 10), self.random.randrange(5, 10)]
        form = self.random.choice(["int v%d ;", "x = %d ;"])
        return chain(calls, " ".join(form % k for k in range(self.random.randrange(10, 30))))

    def filled(self, texts, main):
        """Calls and stores or declarations in main, so that the instructions or locals come near their limit."""
        limit = self.random.choice(["instructions", "locals"])
        form = "x = %d ;" if limit == "instructions" else "int v%d ;"
        wanted, more = self.near(limit), []
        for name in ("f0", "f1", "f2", None):
            with_one = self.count(limit, texts, main + more + ["%s ( ) ;" % name if name else form % 0])
            now = self.count(limit, texts, main + more)
            times = (wanted - now) // (with_one - now) if with_one > now else 0
            more += ["%s ( ) ;" % name if name else form % k for k in range(max(0, min(times, 300)))]
        return more

    @staticmethod
    def count(limit, texts, main):
        return dict(counts(Tree(tokens_of(" ".join(texts + ["int main ( ) { %s }" % " ".join(main)])))))[limit]

    def one(self):
        """The spellings of a program."""
        functions = self.wide() if self.often(0.6) else self.nested()
        runs, main = self.threads()
        texts = self.globals() + functions + runs
        if len(functions) == 3:
            main += self.filled(texts, main)
        elif self.often(0.9):
            main.append("f0 ( ) ;")
        return " ".join(texts + ["int main ( ) { %s }" % " ".join(main)]).split()
