# walk.py: the reference of the walk; answers a script by opening boxes one by one, as the program `bench` does.
#
# Use:  python3 walk.py < script             the answers, one line for each line of the script
#       python3 walk.py --why < script       also, on standard error, the span after each step, the nearby list and the exact verdict
#       python3 walk.py --beside < script    each answer with the exact verdict beside it, as the program `compare` prints them
#
# The lines of a script are those of full_scan.py; here R draws the tree anew, and a question is answered by its fibre, the
# steps made, and S, N or C for the end: settled, nearby or counted.
import sys
from collections import namedtuple

from full_scan import MOST_FIBRE, answers_to, commonest, count_votes, print_answers, rank, refusal_of, weigh
from tree import child_of, side, tree_of

SETTLED, NEARBY, COUNTED = "S", "N", "C"


# A node with the samples at or below it, or a single sample, whose node is None.
Entry = namedtuple("Entry", "near far slots node")


class Walk:
    """The walk of one question over samples by slot and the nodes of a tree."""

    def __init__(self, measure, samples, nodes, k, n, d, reading):
        self.measure, self.samples, self.nodes, self.reading = measure, samples, nodes, reading
        self.k, self.n, self.d = k, n, d
        self.steps = 0
        self.entries = [self.enter_node(0, sorted(samples))]
        self.look()

    def enter_node(self, number, slots):
        kind, depth, corner, *_ = self.nodes[number]
        ends = [(low, low + side(depth, band) - 1) for band, low in enumerate(corner)]
        nearest = [min(max(read, low), high) for (low, high), read in zip(ends, self.reading)]
        farthest = [max(end, key=lambda value: abs(value - read)) for end, read in zip(ends, self.reading)]
        return Entry(self.weigh(nearest), self.weigh(farthest), slots, number)

    def enter_sample(self, slot):
        weight = self.weigh(self.samples[slot][1])
        return Entry(weight, weight, [slot], None)

    def weigh(self, values):
        return weigh(self.measure, values, self.reading)

    def kth(self, values):
        """The k-th smallest of the values of the entries, each counted once for each of its samples."""
        return sorted(value for value, entry in zip(values, self.entries) for _ in entry.slots)[self.k - 1]

    def look(self):
        """Work out the span, drop what lies above it, part the rest and test whether the walk ends here."""
        self.low = self.kth([entry.near for entry in self.entries])
        self.high = self.kth([entry.far for entry in self.entries])
        self.entries = [entry for entry in self.entries if entry.near <= self.high]
        self.inside = [entry for entry in self.entries if entry.far < self.low]
        self.active = [entry for entry in self.entries if entry.far >= self.low]
        self.open_nodes = [entry for entry in self.active if entry.node is not None]
        self.r = self.k - sum(len(entry.slots) for entry in self.inside)
        self.end = None
        fibre = self.settled_fibre()
        if fibre is not None:
            self.end, self.fibre = SETTLED, fibre
        elif self.n > self.d and all(entry.far * self.d <= entry.near * self.n for entry in self.open_nodes):
            self.end, self.fibre = NEARBY, self.listed_fibre()
        elif not self.open_nodes:
            self.end, self.fibre = COUNTED, self.listed_fibre()

    def votes(self, entries):
        return count_votes(self.samples[slot][0] for entry in entries for slot in entry.slots)

    def settled_fibre(self):
        """The fibre that no other can overtake, if there is one."""
        c, a = self.votes(self.inside), self.votes(self.active)
        codes = range(MOST_FIBRE + 1)
        sure = [c[code] + max(0, self.r - (sum(a) - a[code])) for code in codes]
        most = [c[code] + min(self.r, a[code]) for code in codes]
        for fibre in codes:
            if all(sure[fibre] > most[code] for code in codes if code < fibre) and \
               all(sure[fibre] >= most[code] for code in codes if code > fibre):
                return fibre
        return None

    def listed(self):
        """The slots of all inside samples and of the r active ones lowest by near, then slot; in nearest order."""
        lowest = sorted((entry.near, slot) for entry in self.active for slot in entry.slots)[:self.r]
        slots = [slot for entry in self.inside for slot in entry.slots] + [slot for near, slot in lowest]
        return sorted(slots, key=lambda slot: (self.weigh(self.samples[slot][1]), slot))

    def listed_fibre(self):
        return commonest(count_votes(self.samples[slot][0] for slot in self.listed()))

    def step(self):
        """Replace the active node of least depth, lowest number first, by its children or its samples."""
        opened = min(self.open_nodes, key=lambda entry: (self.nodes[entry.node][1], entry.node))
        self.entries.remove(opened)
        kind, depth, corner, first, second, tally = self.nodes[opened.node]
        if kind == "leaf":
            self.entries += [self.enter_sample(slot) for slot in opened.slots]
        else:
            below = {first: [], second: []}
            for slot in opened.slots:
                below[child_of(self.nodes, opened.node, self.samples[slot][1])].append(slot)
            self.entries += [self.enter_node(child, slots) for child, slots in below.items() if slots]
        self.steps += 1
        self.look()

    def run(self, show=lambda walk: None):
        """Step until the end; `show` sees the walk after opening and after each step."""
        show(self)
        while self.end is None:
            self.step()
            show(self)
        return self


def exact_verdict(measure, samples, k, reading):
    return commonest(count_votes(fibre for weight, slot, fibre in rank(measure, samples, reading)[:k]))


def say_nothing(text):
    pass


def say(text):
    print(text, file=sys.stderr)


class Bench:
    """The tree that stands while a script is carried out, and the answers to the questions over it."""

    def __init__(self, say=say_nothing, beside=False):
        self.say, self.beside = say, beside
        self.rebuild({})

    def rebuild(self, samples):
        self.nodes = tree_of([samples[slot] for slot in sorted(samples)])

    def ask(self, measure, samples, numbers, line_number):
        k, n, d, *reading = numbers
        refusal = refusal_of(samples, numbers)
        if refusal:
            return refusal
        self.say(f"line {line_number}: the {k} nearest of {len(samples)}, at {n} to {d}, over {len(self.nodes)} nodes")
        walk = Walk(measure, samples, self.nodes, k, n, d, reading).run(self.say_span)
        if walk.end == NEARBY:
            self.say(f"  list: {' '.join(map(str, walk.listed()))}")
        exact = exact_verdict(measure, samples, k, reading)
        self.say(f"  {walk.end}: fibre {walk.fibre}; exact verdict: fibre {exact}")
        return f"Q {walk.fibre} {walk.steps} {walk.end}" + (f", full scan {exact}" if self.beside else "")

    def say_span(self, walk):
        self.say(f"  step {walk.steps}: span {walk.low} to {walk.high}")

    def answers(self, script):
        return answers_to(script, self.ask, self.rebuild)


if __name__ == "__main__":
    bench = Bench(say if "--why" in sys.argv[1:] else say_nothing, "--beside" in sys.argv[1:])
    print_answers(bench.answers(sys.stdin.buffer.read()))
