# field_file.py: the reference for field files; prints the file of the tree over the samples of a script, a record to a line.
#
# Use:  python3 field_file.py < script         the samples that the script's A and W lines leave, drawn from nothing
#       python3 field_file.py --check FILE..   what each file says, or the first check that it fails and the lowest record
import struct
import sys

from tree import held_of, leaf_of, side, tree_of

KINDS = {"leaf": 0, "split": 1, "shrink": 2}
NAMES = {number: name for name, number in KINDS.items()}
MARK = b"\x46\x36"


def records_of(held):
    """The sample records, the node records and the trailer of the field over the samples, by slot."""
    nodes = tree_of([held[slot] for slot in sorted(held)])
    for slot in sorted(held):
        fibre, values = held[slot]
        yield struct.pack("<BBH8H", slot, fibre, leaf_of(nodes, values), *values)
    for kind, depth, corner, first, second, tally in nodes:
        yield struct.pack("<BBHH8H8H", KINDS[kind], depth, first, second, *corner, *tally)
    back = 38 * len(nodes)
    yield struct.pack("<HHII", len(held), len(nodes), back, back + 20 * len(held)) + MARK


def lowest(count, fails):
    return next((number for number in range(count) if fails(number)), None)


def covered(inner, outer):
    """Whether a box lies in another that is less deep."""
    return inner[0] > outer[0] and all(
        outer[1][band] <= inner[1][band] and inner[1][band] + side(inner[0], band) <= outer[1][band] + side(outer[0], band)
        for band in range(8))


def fault_of(data):
    """The first check that a file fails with the lowest record, as (check, record); None for a file that keeps the rules."""
    if len(data) < 14 or data[-2:] != MARK:
        return 1, 0
    n, m, to_nodes, to_samples = struct.unpack("<HHII", data[-14:-2])
    if n > 256 or not 1 <= m <= 1021 or to_nodes != 38 * m or to_samples != 38 * m + 20 * n or len(data) != 20 * n + 38 * m + 14:
        return 2, 0
    samples = list(struct.iter_unpack("<BBH8H", data[:20 * n]))
    nodes = [(record[0], record[1], record[2:4], record[4:12], record[12:]) for record in struct.iter_unpack("<BBHH8H8H", data[20 * n:-14])]

    def bad_sample(i):
        slot, fibre, _, *values = samples[i]
        return fibre > 7 or max(values) > 1023 or (i > 0 and slot <= samples[i - 1][0])

    def bad_node(x):
        kind, depth, children, corner, _ = nodes[x]
        return (kind > 2 or depth > 80 or any(corner[band] > 1023 or corner[band] % side(depth, band) for band in range(8))
                or (kind == 0 and children != (0, 0)) or (x == 0 and (depth, corner) != (0, (0,) * 8)))

    named = [child for kind, _, children, _, _ in nodes if kind != 0 for child in children]

    def bad_link(x):
        kind, _, children, _, _ = nodes[x]
        wrong = kind != 0 and (not all(x < child < m for child in children) or children[0] == children[1])
        return wrong or (x > 0 and named.count(x) != 1)

    def bad_boxes(x):
        kind, depth, (first, second), corner, _ = nodes[x]
        if kind == 0:
            return False
        boxes = [(nodes[child][1], nodes[child][3]) for child in (first, second)]
        if kind == 1:
            band = depth % 8
            upper = tuple(value + (side(depth + 1, band) if at == band else 0) for at, value in enumerate(corner))
            return depth == 80 or boxes != [(depth + 1, corner), (depth + 1, upper)]
        return not covered(boxes[0], (depth, corner)) or boxes[1] != (depth, corner) or nodes[second][0] != 0

    def tree():
        return [(NAMES[kind], depth, corner, *children, tally) for kind, depth, children, corner, tally in nodes]

    def bad_leaf(i):
        return samples[i][2] != leaf_of(tree(), samples[i][3:])

    def bad_counts(x):
        below = {x}
        for at in range(x, m):
            if at in below and nodes[at][0] != 0:
                below.update(nodes[at][2])
        there = [fibre for _, fibre, leaf, *_ in samples if leaf in below]
        return nodes[x][4] != tuple(there.count(fibre) for fibre in range(8))

    checks = [(3, n, bad_sample), (4, m, bad_node), (5, m, bad_link), (6, m, bad_boxes), (7, n, bad_leaf), (8, m, bad_counts)]
    for check, count, fails in checks:
        record = lowest(count, fails)
        if record is not None:
            return check, record
    return None


def line_of(name, data):
    fault = fault_of(data)
    if fault:
        return f"{name}: check {fault[0]} fails at record {fault[1]}"
    n, m = struct.unpack("<HH", data[-14:-10])
    return f"{name}: {n} samples, {m} nodes, written back as the same bytes"


if __name__ == "__main__":
    if sys.argv[1:2] == ["--check"]:
        for name in sys.argv[2:]:
            with open(name, "rb") as file:
                print(line_of(name, file.read()))
    else:
        for record in records_of(held_of(sys.stdin.buffer.read())):
            print(", ".join(str(byte) for byte in record) + ",")
