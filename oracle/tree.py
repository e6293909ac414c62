# tree.py: the reference for drawn trees; prints the tree over the samples of a script, a node to a line.
#
# Use:  python3 tree.py < script    the samples that the script's A and W lines leave, drawn from nothing
#
# A node's line: number, kind, depth, corner (8), children (2), counts (8).
import sys

from full_scan import MOST_FIBRE, admit, lines_of, read_line, withdraw

DEEPEST = 80
LEAF_SAMPLES = 4


def side(depth, band):
    return 1024 >> ((depth + 7 - band) // 8)


def prefix(values, depth):
    """The box of this depth round the values: the corner in each band."""
    return tuple(value - value % side(depth, band) for band, value in enumerate(values))


def deepest_common(samples):
    """The greatest depth at which all samples lie in one box."""
    depth = 0
    while depth < DEEPEST and len({prefix(values, depth + 1) for _, values in samples}) == 1:
        depth += 1
    return depth


def counts(samples):
    return [sum(1 for fibre, _ in samples if fibre == code) for code in range(MOST_FIBRE + 1)]


def draw(samples, depth, corner, nodes):
    """Append the nodes over the samples in the box, in the order of their numbers."""
    at = len(nodes)
    if len(samples) <= LEAF_SAMPLES or depth == DEEPEST:
        nodes.append(("leaf", depth, corner, 0, 0, counts(samples)))
        return
    nodes.append(None)
    common = deepest_common(samples)
    if common == depth:
        band = depth % 8
        middle = corner[band] + side(depth + 1, band)
        upper = corner[:band] + (middle,) + corner[band + 1:]
        draw([s for s in samples if s[1][band] < middle], depth + 1, corner, nodes)
        second = len(nodes)
        draw([s for s in samples if s[1][band] >= middle], depth + 1, upper, nodes)
        nodes[at] = ("split", depth, corner, at + 1, second, counts(samples))
    else:
        draw(samples, common, prefix(samples[0][1], common), nodes)
        rim = len(nodes)
        nodes.append(("leaf", depth, corner, 0, 0, counts([])))
        nodes[at] = ("shrink", depth, corner, at + 1, rim, counts(samples))


def child_of(nodes, at, values):
    """The number of the child of a split or a shrink in which values belong."""
    kind, depth, corner, first, second, tally = nodes[at]
    inside = prefix(values, nodes[first][1]) == nodes[first][2]
    return first if inside else second


def leaf_of(nodes, values):
    """The number of the leaf in which values belong."""
    at = 0
    while nodes[at][0] != "leaf":
        at = child_of(nodes, at, values)
    return at


def held_of(script):
    """The samples that a script leaves, by slot."""
    held = {}
    for line in lines_of(script)[1:]:
        letter, numbers = read_line(line)
        if letter == b"A":
            admit(held, numbers)
        elif letter == b"W":
            withdraw(held, numbers)
    return held


def samples_of(script):
    held = held_of(script)
    return [held[slot] for slot in sorted(held)]


def tree_of(samples):
    nodes = []
    draw(samples, 0, (0,) * 8, nodes)
    return nodes


if __name__ == "__main__":
    for number, (kind, depth, corner, first, second, tally) in enumerate(tree_of(samples_of(sys.stdin.buffer.read()))):
        print(number, kind, depth, *corner, first, second, *tally)
