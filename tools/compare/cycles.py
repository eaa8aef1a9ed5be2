"""The sites of a goto program and the delay cycles of its stores, as docs/analysis.md has them."""
import collections

from trees import Tree

ACCESSES = {"load": 1, "store": 0, "add": 1, "swap": 1}
WRITES = ("store", "add", "swap")
MUTEX = ("lock", "unlock")
SITES = (*ACCESSES, *MUTEX, "start", "join")
DRAINS = ("fence", "add", "swap", *MUTEX, "start", "join")

# an instruction that other threads can see: its number, its thread, its place in the code and in the text, and its parts
Site = collections.namedtuple("Site", "number thread place at instruction")


class Cells(Tree):
    """A tree that knows the names of its cells too, and which hold addresses."""

    def __init__(self, tokens):
        self.names, self.pointers = [], set()
        super().__init__(tokens)

    def variable(self, name):
        if self.tokens[self.k - 2].text == "*":
            self.pointers.add(self.cells)
        super().variable(name)
        length = self.globals[-1].length
        self.names += ["%s[%d]" % (name.text, k) for k in range(length)] if length else [name.text]


def sites_of(program):
    found = []
    for t, thread in enumerate(program.threads):
        for k, (instruction, at) in enumerate(zip(thread.code, thread.places)):
            if instruction[0] in SITES:
                found.append(Site(len(found), t, k, at, instruction))
    return found


def element_cells(first, length, index):
    if index[0] == "number" and 0 <= index[1] < length:
        return {first + index[1]}
    return set(range(first, first + length))


class PointsTo:
    """The least sets: of a thread's local, and of a cell."""

    def __init__(self, program, pointers):
        self.program, self.pointers, self.sets = program, pointers, collections.defaultdict(set)
        for cell in pointers:
            start = program.cells[cell]
            self.sets[cell] |= {start - 1} if start else set()
        before = None
        while before != self.size():
            before = self.size()
            for t, thread in enumerate(program.threads):
                for instruction in thread.code:
                    self.pass_on(t, *instruction)

    def size(self):
        return sum(map(len, self.sets.values()))

    def value(self, t, value):
        kind, *parts = value
        if kind == "local":
            return self.sets[t, parts[0]]
        if kind == "address":
            return {parts[0]}
        if kind == "address_at":
            return element_cells(*parts) | self.value(t, parts[2])
        return set().union(*(self.value(t, part) for part in parts if isinstance(part, tuple)))

    def target(self, t, target):
        kind, *parts = target
        if kind == "cell":
            return {parts[0]}
        return element_cells(*parts) if kind == "element" else self.value(t, parts[0])

    def pass_on(self, t, kind, *parts):
        if kind == "set":
            self.sets[t, parts[0]] |= self.value(t, parts[1])
        if kind == "load":
            for cell in self.target(t, parts[1]) & self.pointers:
                self.sets[t, parts[0]] |= self.sets[cell]
        if kind == "store":
            for cell in self.target(t, parts[0]) & self.pointers:
                self.sets[cell] |= self.value(t, parts[1])


class Graph:
    """The event graph of a program under a model."""

    def __init__(self, program, pointers, model):
        self.program, self.model, self.sites = program, model, sites_of(program)
        points = PointsTo(program, pointers)
        self.cells = [self.accessed(points, site) for site in self.sites]
        self.at = {(site.thread, site.place): site.number for site in self.sites}
        self.program_order = [self.reached(site, ()) for site in self.sites]
        self.undrained = [self.reached(site, DRAINS) for site in self.sites]

    def accessed(self, points, site):
        kind, *parts = site.instruction
        return points.target(site.thread, parts[ACCESSES[kind]]) if kind in ACCESSES else set()

    def successors(self, thread, place):
        kind, *parts = self.program.threads[thread].code[place]
        if kind in ("jump", "branch"):
            yield parts[-1].place
        if kind not in ("jump", "end"):
            yield place + 1

    def reached(self, site, stops):
        """The sites that a flow path leads to, on which no such instruction stands between."""
        seen, work = set(), list(self.successors(site.thread, site.place))
        while work:
            place = work.pop()
            if place not in seen:
                seen.add(place)
                kind = self.program.threads[site.thread].code[place][0]
                work += [] if kind in stops else self.successors(site.thread, place)
        return {self.at[site.thread, place] for place in seen if (site.thread, place) in self.at}

    def must_before(self, a, b):
        main = self.program.threads[0].code
        starts = [k for k, i in enumerate(main) if i == ("start", b.thread)]
        joins = [k for k, i in enumerate(main) if i == ("join", a.thread)]
        return (
            a.thread == 0 and any(a.place < k for k in starts)
            or b.thread == 0 and any(k < b.place for k in joins)
            or any(j < k for j in joins for k in starts)
        )

    def communicates(self, a, b):
        writes = any(site.instruction[0] in WRITES for site in (a, b))
        meets = self.cells[a.number] & self.cells[b.number]
        return a.thread != b.thread and bool(meets) and writes and not self.must_before(b, a)

    def orders(self, a, b):
        (first, *x), (second, *y) = a.instruction, b.instruction
        mutex = first in MUTEX and second in MUTEX and x == y and a.thread != b.thread and not self.must_before(b, a)
        return mutex or a.instruction == ("start", b.thread) or b.instruction == ("join", a.thread)

    def kind(self, a, b):
        """What leads from a site to another, or None."""
        a, b = self.sites[a], self.sites[b]
        if b.number in self.program_order[a.number]:
            return "program"
        return "communication" if self.communicates(a, b) else "order" if self.orders(a, b) else None

    def overtaking(self, s):
        """The later accesses that may overtake the store, in order."""
        kinds = ("load",) if self.model == "tso" else ("load", "store")
        for l in sorted(self.undrained[s]):
            same = len(self.cells[s]) == 1 and self.cells[s] == self.cells[l]
            if self.sites[l].instruction[0] in kinds and not same:
                yield l

    def cycle(self, s):
        """The first delay cycle of the store, or None."""
        away = self.distances(s)
        for l in self.overtaking(s):
            for m in range(len(self.sites)):
                if self.communicates(self.sites[l], self.sites[m]) and m in away:
                    return [s, l, *self.way(m, away)]
        return None

    def distances(self, s):
        """How many edges lead from a site to the store, one at least."""
        away, wave, length = {}, {s}, 0
        while wave:
            length += 1
            wave = {a for a in range(len(self.sites)) if a not in away and any(self.kind(a, b) for b in wave)}
            away.update((a, length) for a in wave)
        return away

    def way(self, m, away):
        found = [m]
        while away[found[-1]] > 1:
            last = found[-1]
            found.append(min(a for a in away if away[a] == away[last] - 1 and self.kind(last, a)))
        return found


def report(program, tree, model, bound=1):
    """The report on the buffered stores, as `cycles` gives it."""
    graph, buffered = Graph(program, tree.pointers, model), []
    for site in graph.sites:
        cycle = graph.cycle(site.number) if site.instruction[0] == "store" else None
        if cycle:
            cells = [tree.names[cell] for cell in sorted(graph.cells[site.number])]
            one = {"cells": cells, "column": site.at[1], "cycle": cycle, "line": site.at[0]}
            buffered.append({**one, "site": site.number, "thread": site.thread})
    return {"bound": bound, "buffered": buffered, "model": model, "sites": len(graph.sites)}
