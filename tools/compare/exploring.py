"""All runs of a program on a machine, and the first schedule that fails. Instructions that no other thread sees are done at once
behind the one before them, so a schedule that is found has few changes of thread."""
from machines import Machine

LOCAL = ("set", "jump", "branch", "assert", "assume", "input")


class Unbounded(Exception):
    """There are more states than were asked for."""


def snapshot(machine):
    threads = [(t.started, t.ended, t.place, tuple(t.locals), tuple(t.pending)) for t in machine.threads]
    owners = tuple(None if owner is None else owner.number for owner in machine.owners)
    return tuple(machine.memory), owners, machine.verdict, tuple(threads)


def restore(machine, state):
    memory, owners, machine.verdict, threads = state
    machine.memory = list(memory)
    machine.owners = [None if owner is None else machine.threads[owner] for owner in owners]
    for thread, (thread.started, thread.ended, thread.place, locals_, pending) in zip(machine.threads, threads):
        thread.locals, thread.pending = list(locals_), list(pending)


def run_on(machine, number):
    """The instructions of a thread up to the next that another thread may see; how many they are."""
    thread, times = machine.threads[number], 0
    while thread.started and not thread.ended and thread.code[thread.place][0] in LOCAL and machine.take(("step", number)):
        times += 1
    return times


def moves(machine):
    """The entries that may be next."""
    for thread in machine.threads:
        if thread.started and not thread.ended:
            yield "step", thread.number
        for cell in sorted({c for c, _ in thread.pending}) if machine.model == "pso" else []:
            yield "flush", thread.number, cell
        if thread.pending and machine.model == "tso":
            yield "flush", thread.number


def first_failure(program, model, bound, most=2_000_000):
    """The entries of a shortest run that fails, each with how often it is taken, or None; and how many states were seen."""
    machine = Machine(program, model, bound)
    begun = run_on(machine, 0)
    start = snapshot(machine)
    came, wave = {start: (None, ("step", 0), begun)}, [start]
    while wave:
        new = []
        for state in wave:
            if state[2] is not None:
                return way_to(came, state), len(came)
            restore(machine, state)
            for move in list(moves(machine)):
                restore(machine, state)
                if not machine.take(move):
                    continue
                times = 1 + (run_on(machine, move[1]) if move[0] == "step" else 0)
                after = snapshot(machine)
                if after not in came:
                    came[after] = state, move, times
                    new.append(after)
        if len(came) > most:
            raise Unbounded
        wave = new
    return None, len(came)


def way_to(came, state):
    found = []
    while state is not None:
        state, move, times = came[state]
        found.append((move, times))
    return [(move, times) for move, times in reversed(found) if times]


def schedule_text(entries):
    """The schedule, neighbouring steps of a thread in one line."""
    joined = []
    for move, times in entries:
        if joined and move[0] == "step" and joined[-1][0] == move:
            joined[-1] = move, joined[-1][1] + times
        else:
            joined.append((move, times))
    lines = ["steps %d %d" % (move[1], times) if times > 1 else " ".join(map(str, move)) for move, times in joined]
    return "".join(line + "\n" for line in ["schedule 1", *lines, "end"])
