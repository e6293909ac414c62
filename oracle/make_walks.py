# make_walks.py: prints a script for walk.py: 240 textile samples by one measure, a short script of the same make, or the nine lines.
# Use:  python3 make_walks.py block > walk.in          also: square, peak, damped; nine
#       python3 make_walks.py short block > walk.in    and so on
import sys

from full_scan import BLOCK, weigh
from make_task import BORDERS, PROFILES, dice, expand, mixed, noisy, shuffled
from tree import leaf_of, tree_of

SEED = 50914                    # of the dice, which are those of make_task.py
MEASURES = ["block", "square", "peak", "damped"]
NINE = "M 0; A 0 1 10; A 1 1 12; A 2 2 600; A 3 2 610; A 4 3 14; R; Q 3 1 1 11; Q 6 1 1 11"

SPREAD, BLEND_SPREAD, CLEAR_SPREAD = 13, 5, 3
RATIOS = ["1 1", "3 2", "17 1", "1 1", "65535 65535", "5 4", "65535 1", "2 1"]
ASKED = {False: range(1, 33), True: [1, 2, 4, 7, 11, 16, 22, 32]}       # k, in long scripts and in short ones
RIM_SAMPLES = {False: 10, True: 4}                                      # admitted behind a rebuild

# Three places far from every fibre. A gap in one band alone weighs alike in every band, by every measure; so samples that differ
# from a place in one band are tied. Fibre and gap of each; the bands and signs take turns.
PLACES = {"EVEN": mixed(2, 7, 50), "TWINS": mixed(3, 5, 50), "RING": mixed(0, 6, 50)}
TIED = {
    "EVEN": [(5, 2), (1, 2), (5, 6), (1, 6), (3, 6), (3, 9), (2, 9)],       # the lower code of two, of three
    "TWINS": [(4, 0), (0, 0), (4, 0), (7, 0), (0, 0), (2, 0)],              # more duplicates than a leaf is drawn with
    "RING": [(fibre, 8) for fibre in (7, 6, 5, 4, 3, 2, 1, 0, 6, 5)],       # all tied
}
# Asked of the places, when all are held and drawn.
CLOSE = """Q 1 1 1 EVEN; Q 2 1 1 EVEN; Q 4 1 1 EVEN; Q 5 1 1 EVEN; Q 3 65535 1 EVEN; Q 6 3 2 EVEN
    Q 1 1 1 TWINS; Q 2 1 1 TWINS; Q 3 17 1 TWINS; Q 5 1 1 TWINS; Q 6 1 1 TWINS
    Q 1 1 1 RING; Q 7 1 1 RING; Q 9 1 1 RING; Q 10 1 1 RING; Q 9 2 1 RING"""
# Refused, in a field of 3 samples and in a full one. Slot 240 holds none, and slot 7 holds one.
EARLY = "Q 4 1 1 EVEN; Q 3 1 1 EVEN; Q 33 1 1 EVEN; Q 0 1 1 EVEN"
LATE = """A 7 0 EVEN; A 240 8 EVEN; A 256 0 EVEN; A 240 0 1024; W 240; W 256; Q 3 2 3 EVEN; Q 3 0 0 EVEN; Q 3 1 1 0*7 1024
    !Q 3 1 1 1 2 3 4 5 6 7; !q 3 1 1 1 2 3 4 5 6 7 8; !R 1; !M 0; !; !Q 3 1 65536 1 2 3 4 5 6 7 8"""


def tied_samples():
    """Fibre and values of each sample round the places."""
    for name, group in TIED.items():
        for turn, (fibre, gap) in enumerate(group):
            values = list(PLACES[name])
            values[turn * 3 % 8] += gap if turn % 2 else -gap
            yield fibre, values


def drawn_samples(short):
    """All samples by slot, in the mixed order of their admission: tied ones, blends both ways, and clusters of each fibre."""
    pairs = list(tied_samples())
    for first, second, share in BORDERS[::3] if short else BORDERS:
        pairs.append((first, noisy(mixed(first, second, share), BLEND_SPREAD)))
        pairs.append((second, noisy(mixed(second, first, share), BLEND_SPREAD)))
    size = 44 if short else 240
    pairs += [(turn % 8, noisy(PROFILES[turn % 8], SPREAD)) for turn in range(size - len(pairs))]
    return dict(zip(shuffled(range(size)), shuffled(pairs)))


def in_rims(samples, count):
    """New samples that belong to rims of the tree drawn over the samples: each near one that is held, outside its core."""
    nodes = tree_of([samples[slot] for slot in sorted(samples)])
    rims = {second for kind, depth, corner, first, second, tally in nodes if kind == "shrink"}
    slots = (slot for slot in range(255, 0, -1) if slot not in samples)
    near = shuffled(samples)
    while count:
        fibre, values = samples[near[count]]
        moved = noisy(values, 2 * SPREAD)
        if leaf_of(nodes, moved) in rims:
            yield next(slots), (fibre + count) % 8, moved
            count -= 1


def line(*words):
    return " ".join(str(number) for word in words for number in (word if isinstance(word, list) else [word]))


def readings(samples):
    """Readings without end: clear ones, blends, near a held sample, equal to one, and between all fibres, by turns."""
    held = shuffled(samples)
    turn = 0
    while True:
        first, second, share = BORDERS[turn % len(BORDERS)]
        yield noisy(PROFILES[turn * 3 % 8], CLEAR_SPREAD)
        yield mixed(first, second, 50)
        yield noisy(samples[held[2 * turn]][1], CLEAR_SPREAD)
        yield samples[held[2 * turn + 1]][1]
        yield noisy(mixed(turn % 8, (turn + 3) % 8, share), SPREAD)
        turn += 1


def task(measure, short):
    samples = drawn_samples(short)
    yield f"M {measure}"
    yield from expand("R; W 5; Q 1 1 1 EVEN", PLACES)
    for turn, (slot, (fibre, values)) in enumerate(samples.items()):
        if turn == 3:
            yield from expand(EARLY, PLACES)
        yield line("A", slot, fibre, values)
    yield line("Q", 3, RATIOS[1], PLACES["EVEN"])           # over one leaf that holds all
    yield "R"
    for k, reading, turn in zip(ASKED[short], readings(samples), range(99)):
        yield line("Q", k, RATIOS[turn % 8], reading)
    yield from expand(CLOSE, PLACES)
    yield from expand(LATE, PLACES)
    added = list(in_rims(samples, RIM_SAMPLES[short]))
    for slot, fibre, values in added:
        yield line("A", slot, fibre, values)
    for turn, (slot, fibre, values) in enumerate(added):
        yield line("Q", 1 + 5 * turn % 32, RATIOS[turn % 8], noisy(values, CLEAR_SPREAD))
    ring = [slot for slot, (fibre, values) in samples.items() if weigh(BLOCK, values, PLACES["RING"]) == 8]
    for slot in ring[:5]:
        yield line("W", slot)
    yield from expand("Q 4 1 1 RING; Q 5 1 1 RING; R; Q 4 1 1 RING; Q 32 3 2 RING", PLACES)
    for slot, fibre, values in added[:3]:
        yield line("Q", 3, "1 1", values)


if __name__ == "__main__":
    dice.seed(SEED)
    *short, name = sys.argv[1:]
    script = expand(NINE) if name == "nine" else task(MEASURES.index(name), short == ["short"])
    print("\n".join(script))
