# check_walks.py: draws fields and questions at random and holds each walk of walk.py against the full scan.
#
# Use:  python3 check_walks.py [questions]    prints how often each end was reached; fails at the first walk that is not right
import random
import sys
from collections import Counter

from full_scan import DAMPED, commonest, count_votes, rank
from tree import leaf_of, tree_of
from walk import COUNTED, NEARBY, SETTLED, Walk, exact_verdict

SEED = 61129
dice = random.Random(SEED)
QUESTIONS = 5000
RATIOS = [(1, 1), (3, 2), (17, 1), (2, 1), (11, 10), (65535, 65534), (65535, 1), (5, 5)]


def near(values, spread):
    return [min(max(value + dice.randint(-spread, spread), 0), 1023) for value in values]


def anywhere():
    return [dice.randint(0, 1023) for _ in range(8)]


def blend(first, second):
    share = dice.random()
    return [round(share * a + (1 - share) * b) for a, b in zip(first, second)]


# Ways to draw the values of a sample or a reading, from some centres.
WAYS = {
    "clustered": lambda centres: near(dice.choice(centres), 12),
    "tied": lambda centres: near(dice.choice(centres), 1),
    "blended": lambda centres: near(blend(*dice.sample(centres, 2)), 5),
    "duplicated": lambda centres: list(dice.choice(centres)),
    "apart": lambda centres: anywhere(),
    "at the ends": lambda centres: [dice.choice([0, 511, 512, 1023]) for _ in range(8)],
    "in one band": lambda centres: [dice.randint(0, 1023)] + centres[0][1:],
}


def field():
    """Samples by slot and a tree that was drawn over some of them before others came and went."""
    ways = [WAYS[name] for name in dice.sample(sorted(WAYS), dice.randint(1, 3))]
    centres = [anywhere() for _ in range(dice.choice([2, 3, 8]))]
    fibres = dice.choice([1, 2, 3, 8])
    count = dice.choice([1, 2, 5, 12, 40, 40, 90, 256])

    def draw():
        return dice.randrange(fibres), dice.choice(ways)(centres)

    samples = {slot: draw() for slot in dice.sample(range(256), count)}
    nodes = tree_of([samples[slot] for slot in sorted(samples)])
    if dice.random() < 0.5:
        for slot in dice.sample(range(256), dice.choice([1, 8, 60])):
            if slot not in samples:
                samples[slot] = draw() if dice.random() < 0.6 else (dice.randrange(fibres), anywhere())
            elif len(samples) > 1:
                del samples[slot]
    return samples, nodes, ways, centres


def in_rims(samples, nodes):
    """How many samples belong to the rim of a shrink."""
    rims = {second for kind, depth, corner, first, second, tally in nodes if kind == "shrink"}
    return sum(leaf_of(nodes, values) in rims for fibre, values in samples.values())


def check(measure, samples, nodes, k, n, d, reading):
    """The end that a walk reached, once all that is promised of it was found to hold."""
    ranked = rank(measure, samples, reading)
    spans = []
    walk = Walk(measure, samples, nodes, k, n, d, reading).run(lambda walk: spans.append((walk.low, walk.high)))
    assert all(low <= ranked[k - 1][0] <= high for low, high in spans), "the k-th nearest weight is out of the span"
    assert walk.steps == len(spans) - 1 <= len(nodes), "steps"
    if walk.end == NEARBY:
        slots = walk.listed()
        weights = {slot: weight for weight, slot, fibre in ranked}
        assert n > d and len(set(slots)) == len(slots) == k, "the list"
        assert slots == sorted(slots, key=lambda slot: (weights[slot], slot)), "the order of the list"
        assert all(weights[slot] * d <= weight * n for slot, (weight, *_) in zip(slots, ranked)), "the ratio"
        assert walk.fibre == commonest(count_votes(samples[slot][0] for slot in slots)), "the fibre of the list"
    else:
        assert walk.end == SETTLED or (walk.end == COUNTED and n == d), "the end"
        assert walk.fibre == exact_verdict(measure, samples, k, reading), "the fibre"
    return walk.end


def main(questions):
    ends, asked = Counter(), 0
    while asked < questions:
        samples, nodes, ways, centres = field()
        for measure in range(DAMPED + 1):
            for _ in range(4):
                k = dice.randint(1, min(32, len(samples)))
                n, d = dice.choice(RATIOS)
                reading = dice.choice([dice.choice(ways)(centres), list(dice.choice(list(samples.values()))[1]), anywhere()])
                question = (measure, samples, nodes, k, n, d, reading)
                try:
                    end = check(*question)
                except AssertionError as wrong:
                    sys.exit(f"wrong: {wrong}\n{question}")
                ends[end] += 1
                ends["with samples in rims"] += in_rims(samples, nodes) > 0
                asked += 1
    print(f"{asked} walks right:", ", ".join(f"{count} {end}" for end, count in sorted(ends.items())))


if __name__ == "__main__":
    main(int(sys.argv[1]) if len(sys.argv) > 1 else QUESTIONS)
