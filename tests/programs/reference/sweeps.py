"""Compares the sweep with all orders on random small logs of an object.

    sweeps.py PROGRAM [--logs N] [--seed S] [--budgets]

PROGRAM reads a log a line and prints a verdict on each (crates/test_sweeps). Of each object there are N logs. The verdict on a log is right
by the definition alone: an order of some of its operations, in which each that surely took effect stands once and any other at most once,
nothing stands behind an operation that ended before it began, and each operation makes a step of the object. An unlawful log is told as
`unlawful P`: the end of the operation at place P is the first, in the order of moments and places, at which the log so far has no order,
which knows the operations that began by then, and of their ends those up to this one.

With --budgets the logs have small budgets, and beside `lawful` and `unlawful` the answer may be `too many P`: then more configurations than
the budget have to be reached before or behind the end of the operation at place P, which are counted here one after the other. The first
difference ends the run with status 1. The last line says how many logs there were, by their answers.
"""

import argparse
import collections
import random
import subprocess
import sys

NONE = "-"
Operation = collections.namedtuple("Operation", "starts ends maybe kind first second")


class Exchanging:
    """A register with compare-and-set, which holds a number."""

    kinds = ("sets", "gets", "gets", "swaps", "misses", "finds", "tries")

    def __init__(self, held):
        self.opening, self.words = held, f"exchanging {held}"

    def step(self, held, op):
        """The state after the operation, or None where it isn't possible."""
        match op.kind:
            case "sets":
                return op.first
            case "gets":
                return held if held == op.first else None
            case "swaps":
                return op.second if held == op.first else None
            case "misses":
                return held if held != op.first else None
            case "finds":
                return held if held == op.second != op.first else None
            case "tries":
                return op.second if held == op.first else held
            case "refuses":
                return held if held == op.first else None


class LimitedExchanging:
    """One that may refuse a write once so many were done: what it holds, and how many are still due. A compare-and-set that writes is one."""

    kinds = (*Exchanging.kinds, "sets", "refuses", "refuses", "refuses")

    def __init__(self, held, due):
        self.opening, self.words = (held, due), f"limited_exchanging {held} {due}"

    def step(self, state, op):
        held, due = state
        if op.kind == "refuses" and due > 0:
            return None
        after = Exchanging(held).step(held, op)
        writes = op.kind in ("sets", "swaps") or (op.kind == "tries" and held == op.first)
        return None if after is None else (after, max(due - 1, 0) if writes else due)


class Limited:
    """A register that may refuse a write once so many were done: what it holds, and how many are still due."""

    kinds = ("writes", "reads", "reads", "is_refused")

    def __init__(self, held, due):
        self.opening, self.words = (held, due), f"limited {held} {due}"

    def step(self, state, op):
        held, due = state
        match op.kind:
            case "writes":
                return op.first, max(due - 1, 0)
            case "reads":
                return state if held == op.first else None
            case "is_refused":
                return state if held == op.first and due == 0 else None


def is_due(op):
    return op.ends is not None and not op.maybe


def precedes(one, other):
    return one.ends is not None and one.ends < other.starts


def has_order(machine, log):
    """Whether there is a lawful order: each is begun with each operation that may stand first."""

    def goes_on(order, state):
        if all(p in order for p, op in enumerate(log) if is_due(op)):
            return True
        for p, op in enumerate(log):
            if p in order or any(precedes(op, log[q]) for q in order):
                continue
            after = machine.step(state, op)
            if after is not None and goes_on([*order, p], after):
                return True
        return False

    return goes_on([], machine.opening)


def ends_in_order(log):
    return sorted((op.ends, p) for p, op in enumerate(log) if op.ends is not None)


def lost_at(machine, log):
    """The place of the first end at which the log so far has no order; none where the log has one."""
    for end, place in ends_in_order(log):
        so_far = (op if op.ends is None or (op.ends, p) <= (end, place) else op._replace(ends=None) for p, op in enumerate(log))
        if not has_order(machine, [op for op in so_far if op.starts <= end]):
            return place
    return None


def verdict(machine, log):
    if has_order(machine, log):
        return "lawful"
    return f"unlawful {lost_at(machine, log)}"


def reached(machine, log):
    """By each number of ends, in the order of moments and places, the configurations that are reached behind so many: states with the sets
    of places that are placed and haven't ended."""
    ended, front = set(), {(machine.opening, frozenset())}
    found = []
    for end, ending in ends_in_order(log):
        waiting = list(front)
        for state, placed in waiting:
            for p, op in enumerate(log):
                after = machine.step(state, op)
                if op.starts > end or p in ended or p in placed or after is None:
                    continue
                more = after, placed | {p}
                if more not in front:
                    front.add(more)
                    waiting.append(more)
        found.append((ending, front))
        ended.add(ending)
        front = {(state, placed - {ending}) for state, placed in front if ending in placed or log[ending].maybe}
        found.append((ending, front))
    return found


def random_operation(machine, values, moments):
    starts = random.randrange(moments)
    ends = None if random.random() < 0.15 else starts + random.randrange(moments // 2)
    return Operation(starts, ends, random.random() < 0.15, random.choice(machine.kinds), random.randrange(values), random.randrange(values))


def random_log():
    values = random.choice((2, 3))
    machine = random.choice((Exchanging, Limited, LimitedExchanging))
    machine = machine(random.randrange(values), *(() if machine is Exchanging else (random.randrange(3),)))
    moments = random.choice((4, 8, 20))
    return machine, [random_operation(machine, values, moments) for _ in range(random.randrange(1, 7))]


def line_of(machine, log, budget):
    ops = (",".join(str(NONE if it is None else int(it) if isinstance(it, bool) else it) for it in op) for op in log)
    return " ".join([machine.words, str(budget), *ops])


def fault(machine, log, budget, said):
    """Why this isn't the answer, or None."""
    if said.startswith("too many "):
        most = max((len(front) for ending, front in reached(machine, log) if ending == int(said.split()[2])), default=0)
        return None if most > budget else f"{most} configurations are reached there, and the budget is {budget}"
    wanted = verdict(machine, log)
    return None if said == wanted else f"it is {wanted}"


def words():
    parser = argparse.ArgumentParser()
    parser.add_argument("program")
    parser.add_argument("--logs", type=int, default=2000)
    parser.add_argument("--seed", type=int, default=1)
    parser.add_argument("--budgets", action="store_true")
    return parser.parse_args()


def main(asked):
    random.seed(asked.seed)
    logs = [(*random_log(), random.randrange(12) if asked.budgets else 10**6) for _ in range(asked.logs)]
    text = "".join(f"{line_of(*it)}\n" for it in logs)
    said = subprocess.run([asked.program], input=text, stdout=subprocess.PIPE, text=True, check=True).stdout.splitlines()
    if len(said) != len(logs):
        print(f"{len(logs)} logs have {len(said)} answers")
        return 1
    counts = collections.Counter()
    for it, answer in zip(logs, said):
        why = fault(*it, answer)
        if why:
            print(f"{answer}, but {why}: {line_of(*it)}")
            return 1
        counts[answer.rstrip("0123456789 ")] += 1
    print(f"{len(logs)} logs of seed {asked.seed}: {', '.join(f'{number} {answer}' for answer, number in sorted(counts.items()))}")
    return 0 if logs else 1


if __name__ == "__main__":
    sys.exit(main(words()))
