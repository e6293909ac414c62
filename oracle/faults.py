# faults.py: what the reference says of a field file with bytes changed; prints the tables and sums of the tests of loading.
#
# Use:  python3 faults.py < script    the file of the samples that the script leaves
import struct
import sys

from field_file import fault_of, records_of
from tree import held_of


def number_of(data):
    """100 times the check and the record, or 0 for a file that is taken."""
    check, record = fault_of(data) or (0, 0)
    return 100 * check + record


def changed(data, edits):
    out = bytearray(data)
    for at, byte in edits:
        out[at] = byte
    return bytes(out)


def sum_of(data, flips):
    """All bytes changed one after the other by each flip, as one sum of the answers."""
    total = 0
    for at, byte in enumerate(data):
        for flip in flips:
            total = (31 * total + number_of(changed(data, [(at, byte ^ flip)]))) % 2 ** 32
    return total


def table(data, n, m):
    """For each check a fault at the first, a middle and the last record."""
    sample = lambda i: 20 * i
    node = lambda x: 20 * n + 38 * x
    wanted = {3: set(), 4: set(), 5: set(), 6: set(), 7: set(), 8: set()}
    places = [(sample(i) + k) for i in range(n) for k in range(20)] + [(node(x) + k) for x in range(m) for k in range(38)]
    for at in places:
        for byte in (0, 1, 2, 3, 4, 5, 9, 81, 255):
            if data[at] == byte:
                continue
            check, record = fault_of(changed(data, [(at, byte)])) or (0, 0)
            if check > 2 and record not in wanted[check]:
                wanted[check].add(record)
                yield at, byte, check, record


if __name__ == "__main__":
    data = b"".join(records_of(held_of(sys.stdin.buffer.read())))
    n, m = struct.unpack("<HH", data[-14:-10])
    print(f"{len(data)} bytes, {n} samples, {m} nodes, {fault_of(data)}")
    for fault in sorted(table(data, n, m), key=lambda row: (row[2], row[3])):
        print(f"    ({', '.join(map(str, fault))}),")
    print("sum of flips 1, 2, 128, 255:", sum_of(data, (1, 2, 128, 255)))
