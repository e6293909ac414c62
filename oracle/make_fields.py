# make_fields.py: makes the field files that the program fieldcheck is run on, their names and what it must print.
#
# Use:  python3 make_fields.py FOLDER    the crate's folder; writes data/, args and stdout in it
import os
import random
import sys

from field_file import line_of, records_of

# The largest file has 256 samples and 1,021 nodes; a file behind it has one byte more.
SLOTS = 256


def spread(count, seed, values):
    """Samples in as many slots, by slot."""
    draw = random.Random(seed)
    slots = sorted(draw.sample(range(SLOTS), count))
    return {slot: (draw.randrange(8), tuple(draw.randrange(values) for _ in range(8))) for slot in slots}


def clustered(seed):
    """Five samples close together in each of fifty-one places, which takes many nodes."""
    draw = random.Random(seed)
    held = {}
    for place in range(SLOTS // 5):
        corner = [draw.randrange(1000) for _ in range(8)]
        for i in range(5):
            held[5 * place + i] = (draw.randrange(8), (corner[0] + i, *corner[1:]))
    return held


def bytes_of(held):
    return b"".join(records_of(held))


def with_bytes(data, edits):
    out = bytearray(data)
    for at, byte in edits:
        out[at] = byte
    return bytes(out)


def files():
    corner = {slot: (fibre, (640 + i, 700 + i, 3, 0, 0, 0, 0, 1023)) for i, (slot, fibre) in enumerate([(2, 0), (5, 1), (9, 2), (17, 7), (80, 2), (200, 3)])}
    five = {0: (1, (10,) + (0,) * 7), 1: (1, (12,) + (0,) * 7), 2: (2, (600,) + (0,) * 7), 3: (2, (610,) + (0,) * 7), 4: (3, (14,) + (0,) * 7)}
    base = bytes_of(corner)
    yield "empty.field", bytes_of({})
    yield "five.field", bytes_of(five)
    yield "corner.field", base
    yield "spread.field", bytes_of(spread(SLOTS, 1, 1024))
    yield "crowded.field", bytes_of(spread(SLOTS, 2, 4))
    yield "clustered.field", bytes_of(clustered(3))
    yield "no_mark.field", with_bytes(base, [(323, 0x46)])
    yield "longer.field", b"\0" + base
    yield "slot_twice.field", with_bytes(base, [(20, 2)])
    yield "value_1024.field", with_bytes(base, [(4, 0), (5, 4)])
    yield "depth_81.field", with_bytes(base, [(120 + 38 * 4 + 1, 81)])
    yield "off_grid.field", with_bytes(base, [(120 + 38 * 2 + 6, 65)])
    yield "child_twice.field", with_bytes(base, [(120 + 38 + 4, 2)])
    yield "halves_swapped.field", with_bytes(base, [(120 + 38 + 2, 3), (120 + 38 + 4, 2)])
    yield "wrong_leaf.field", with_bytes(base, [(102, 2)])
    yield "wrong_count.field", with_bytes(base, [(120 + 38 * 4 + 36, 1)])


if __name__ == "__main__":
    folder = sys.argv[1]
    os.makedirs(os.path.join(folder, "data"), exist_ok=True)
    made = list(files())
    for name, data in made:
        with open(os.path.join(folder, "data", name), "wb") as file:
            file.write(data)
    with open(os.path.join(folder, "args"), "w") as file:
        file.write("".join(name + "\n" for name, _ in made))
    with open(os.path.join(folder, "stdout"), "w") as file:
        file.write("".join(line_of(name, data) + "\n" for name, data in made))
