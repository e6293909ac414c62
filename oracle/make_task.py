# make_task.py: prints a script: a sorting task of 240 textile samples, or one of three small scripts.
# Use:  python3 make_task.py task > task.in      also: small_block, small_peak, small_damped
import random
import sys

SEED = 20408
dice = random.Random(SEED)      # only dice.random() is used: its sequence is the same everywhere
PROFILES = [
    [612, 655, 540, 388, 470, 702, 356, 498],   # 0 cotton: near viscose and linen
    [440, 512, 603, 566, 338, 421, 610, 377],   # 1 wool: near silk, less near nylon
    [731, 388, 297, 640, 815, 254, 520, 690],   # 2 polyester: apart, acrylic next
    [487, 468, 628, 602, 301, 398, 643, 338],   # 3 nylon
    [598, 637, 561, 404, 452, 686, 374, 479],   # 4 viscose
    [690, 430, 352, 588, 760, 310, 471, 742],   # 5 acrylic
    [462, 533, 586, 541, 356, 447, 584, 401],   # 6 silk
    [585, 671, 520, 369, 494, 681, 338, 517],   # 7 linen
]
SAMPLES, PURE_OF_EACH, PURE_SPREAD, BLEND_SPREAD, CLEAR_SPREAD = 240, 25, 13, 5, 3
SIZES = [1, 3, 5, 7, 15, 32]
RATIOS = ["1 1", "3 2", "65535 1", "2 1", "65535 65535"]

def mixed(first, second, share):
    """The profile of a blend with so many hundredths of the first fibre."""
    return [(share * a + (100 - share) * b) // 100 for a, b in zip(PROFILES[first], PROFILES[second])]

# Blends among the samples, near a border: first fibre, second, share of the one it counts as; both ways.
BORDERS = [(0, 4, 55), (0, 7, 55), (4, 7, 55), (1, 6, 55), (1, 3, 55), (6, 3, 55), (2, 5, 55),
           (0, 2, 70), (1, 2, 75), (3, 5, 70)]
# Blended readings: first fibre, second, share of the first, k.
BLENDS = [(0, 4, 65, 15), (7, 4, 60, 32), (7, 6, 85, 32),       # votes tied 7 7, 14 14, 13 13
          (0, 7, 55, 7), (3, 6, 60, 7), (3, 5, 65, 5),          # votes tied 3 3, 3 3, 2 2
          (1, 7, 95, 32), (2, 6, 80, 32),                       # votes tied 16 16
          (3, 6, 50, 1), (1, 7, 95, 3), (4, 7, 70, 15),         # equal weights at the edge of the k
          (0, 2, 85, 7), (5, 7, 85, 3), (2, 5, 50, 5), (2, 5, 50, 15), (1, 6, 50, 1)]
# Four places far from every fibre, with samples at known squared distances: slot, fibre, steps.
PLACES = {"TIE": mixed(0, 2, 50), "VOTES": mixed(1, 5, 50), "EDGE": mixed(2, 6, 50), "TWINS": mixed(7, 3, 50)}
PLACED = {
    "TIE": [(17, 2, [3, 4]), (203, 0, [-5])],                                                   # 25 25
    "VOTES": [(88, 5, [1]), (140, 5, [0, 2]), (9, 1, [0, 0, 3]), (231, 1, [0, 0, 0, -3]),       # 1 4 9 9
              (60, 3, [4])],                                                                    # 16
    "EDGE": [(30, 6, [1]), (210, 2, [-1]), (33, 2, [0, 2]), (99, 6, [1, -1, 1, -1]),            # 1 1 4 4
             (121, 6, [2, 2, 1]), (177, 2, [0, 0, 3]),                                          # 9 9
             (44, 6, [5]), (150, 2, [0, 0, 3, 4]), (151, 2, [0, 0, 0, 4, -3])],                 # 25 25 25
    "TWINS": [(70, 7, []), (199, 0, []), (12, 4, [0, 2]), (190, 3, [2])],                       # 0 0 4 4
}
# Steps of the task, taken when so many samples have been admitted; expand tells how to read them.
STEPS = {
    0: "R; W 5; Q 1 1 1 P0; Q 33 1 1 P0",       # none held: empty, too few; out of range comes first
    3: "Q 5 1 1 P0; Q 3 1 1 P0",                # too few; then all three, one vote each
    31: "Q 32 1 1 P4",                          # one too few
    32: "Q 32 1 1 P4; R",                       # just enough
    120: """Q 1 1 1 P6; Q 7 3 2 P3; Q 15 65535 1 P7; Q 00005 01 1 00731 388 297 0640 815 254 520 690
        !a 250 1 1 2 3 4 5 6 7 8; !A 250  1 1 2 3 4 5 6 7 8; !A 250 1 000001 2 3 4 5 6 7 8; !M 1
        !A 250 1 65536 2 3 4 5 6 7 8; !A 250 1 -1 2 3 4 5 6 7 8; !A 250 1 1 2 3 4 5 6 7; !W 17 17
        !; ! R; !W; R; W 250                    # nothing readable before this R; slot 250 is empty""",
    240: """Q 1 1 1 @161; Q 1 65535 1 @37; Q 3 3 2 @220         # readings equal to a sample
        Q 1 1 1 TIE; W 17; Q 1 1 1 TIE; A 17 2 @17              # 25 and 25: slot 17; slot 203
        A 17 0 TIE; A 17 8 TIE; A 256 0 TIE; A 240 8 TIE; A 240 0 1023*7 1024; W 256; W 240      # refused
        Q 1 1 1 TIE; Q 2 1 1 TIE; R                             # slot 17 again; votes 1 1
        Q 1 1 1 VOTES; Q 3 3 2 VOTES; Q 5 1 1 VOTES             # 5; 5; votes 2 2 1, the lower code
        W 9; Q 5 1 1 VOTES; A 9 1 @9; Q 5 65535 1 VOTES         # without slot 9 fibre 5 has more
        Q 0 1 1 VOTES; Q 33 1 1 VOTES; Q 3 2 3 VOTES; Q 3 1 0 VOTES; Q 3 0 0 VOTES; Q 3 1 1 0*7 1024
        Q 1 1 1 EDGE; Q 3 1 1 EDGE; Q 5 1 1 EDGE; Q 7 1 1 EDGE  # equal weights at every edge
        W 44; Q 7 3 2 EDGE; A 44 2 @44; Q 7 2 1 EDGE            # slot 150 comes in; 44 as fibre 2
        W 44; W 44; R; A 44 6 @44; Q 7 65535 1 EDGE             # withdrawn twice; as at first
        Q 1 1 1 TWINS; Q 3 1 1 TWINS; W 199; Q 3 1 1 TWINS; A 199 0 TWINS   # equal; 0 4 7; 3 4 7
        A 255 6 1023*8; Q 1 1 1 1000*8; W 255; Q 1 1 1 1000*8; W 255; Q 32 65535 65535 TIE  # the last slot""",
}
SMALL = {
    "small_block": """M 0; A 0 1 10; A 1 1 12; A 2 2 600; A 3 2 610; A 4 3 14
        Q 1 1 1 13; Q 2 1 1 13; Q 5 1 1 13      # slots 1 and 4 tie: the lower; votes 1 1; votes 2 2 1
        Q 3 1 1 11; Q 6 1 1 13                  # slots 0 and 1 tie and both count; too few
        A 10 2 103 103; A 11 5 106 100; Q 1 3 2 100 100         # 3 + 3 and 6 tie
        A 5 4 208 200*7; A 6 0 201*8; A 7 7 204 196 200*6       # 8 once, 1 eight times, 4 up and 4 down
        Q 1 1 1 200*8; Q 2 1 1 200*8; W 5; Q 1 1 1 200*8        # all tie: slot 5; votes 1 1; slot 6
        A 5 4 208 200*7; R; A 30 6 0*6 701 700; A 31 6 0*6 699 700; A 28 3 0*6 700 702; A 29 3 0*6 700 698
        Q 3 2 1 0*6 700*2; Q 4 1 1 0*6 700*2                    # 28 and 29 tie at the edge; votes 2 2
        W 31; Q 3 1 1 0*6 700*2; A 31 6 0*6 699 700; Q 3 1 1 0*6 700*2      # 29 comes in; goes
        A 255 2 0*8; A 254 3 1023*8; Q 15 1 1 511 512 511 512 511 512 511 512   # both tie last: 254 decides""",
    "small_peak": """M 2; A 0 2 103 103; A 1 5 106 100
        Q 1 1 1 100 100; Q 2 1 1 100 100; Q 1 1 1 103 97        # 3 and 6; votes 1 1; 6 and 3
        A 12 6 205 200*7; A 11 3 205*8; A 13 6 200*7 195        # 5 in one band weighs as 5 in all
        Q 1 1 1 200*8; Q 2 3 2 200*8; Q 3 1 1 200*8; W 11; Q 1 1 1 200*8    # slot 11; votes 1 1; 1 2; slot 12
        A 11 3 205*8; R; A 40 1 501*7 510; A 41 0 508*8; Q 1 1 1 500*8      # the last band decides: 10 and 8
        A 90 7 0*8; A 80 3 1023*8; Q 8 1 1 511 512 511 512 511 512 511 512  # 0, 1, 80, 90 tie; votes 2 2
        A 50 4 0*6 700 710; A 51 4 0*6 690 700; A 52 2 0*6 710 690; A 53 2 0*6 705 700; A 54 2 0*6 700 711
        Q 3 1 1 0*6 700*2; Q 4 1 1 0*6 700*2                    # 50, 51, 52 tie: 52 out; votes 2 2
        W 50; Q 3 1 1 0*6 700*2; A 50 4 0*6 700 710; Q 3 65535 1 0*6 700*2  # 52 comes in; goes""",
    "small_damped": """M 3; A 0 2 103 103; A 1 5 106 100
        Q 1 1 1 100 100; Q 2 1 1 100 100        # 55 + 55 and 78: the one gap is nearer; votes 1 1
        A 11 1 204 200*7; A 10 6 201 199 200*6                  # gap 4 once and gap 1 twice: 64
        Q 1 1 1 200*8; Q 2 1 1 200*8; W 10; Q 1 1 1 200*8       # slot 10; votes 1 1; slot 11
        A 10 6 201 199 200*6; A 20 4 432 400*7; A 21 0 402*4 400*4; Q 1 1 1 400*8  # 181; 4 x 45: cut, then sum
        A 30 7 608 600*7; A 31 3 602 598 600*6; Q 1 3 2 600*8; Q 2 1 1 600*8  # 90, 45 + 45 tie; votes 1 1
        A 40 6 0*7 557; A 41 2 0*7 556; Q 1 1 1 0*7 300; R      # gaps 257 and 256 both weigh 512
        A 60 4 801 800*7; A 61 4 800 801 800*6; A 62 2 800*4 799 800*3      # 32 32 32
        A 63 2 804 800*7; A 64 7 801*2 800*6; A 65 2 800*7 796              # 64 64 64
        Q 3 1 1 800*8; Q 5 1 1 800*8            # votes 2 1; 63, 64, 65 tie: 65 out, votes 2 2 1
        W 60; Q 3 1 1 800*8; A 60 4 801 800*7; Q 3 2 1 800*8    # 63 comes in; goes""",
}

def expand(text, named={}):
    """The lines of a text: ';' parts them, '#' starts a comment, 'v*n' is n times v, a name stands for
    eight values, values left out at the end are 0; what follows a '!' is kept as it is."""
    for piece in (piece.strip() for row in text.split("\n") for piece in row.split("#")[0].split(";")):
        words = []
        for word in piece.split():
            value, _, times = word.partition("*")
            words += named.get(word) or [value] * int(times or 1)
        if piece.startswith("!"):
            yield piece[1:]
        elif words:
            yield " ".join(map(str, words + [0] * ({"A": 11, "Q": 12}.get(words[0], 0) - len(words))))

def noisy(values, spread):
    """Each value moved by three even steps, each within the spread."""
    return [value + sum(int(dice.random() * (2 * spread + 1)) - spread for _ in range(3)) for value in values]

def shuffled(things):
    return sorted(things, key=lambda _: dice.random())

def samples_of_the_task():
    """All samples as (slot, fibre, values), in the mixed order of their admission."""
    placed = [(slot, fibre, [value + step for value, step in zip(PLACES[name], steps + [0] * 8)])
              for name, group in PLACED.items() for slot, fibre, steps in group]
    taken = [slot for slot, fibre, values in placed]
    free = shuffled([slot for slot in range(SAMPLES) if slot not in taken])
    labelled = [(fibre, noisy(profile, PURE_SPREAD))
                for fibre, profile in enumerate(PROFILES) for _ in range(PURE_OF_EACH)]
    for first, second, share in BORDERS:
        labelled.append((first, noisy(mixed(first, second, share), BLEND_SPREAD)))
        labelled.append((second, noisy(mixed(second, first, share), BLEND_SPREAD)))
    return shuffled(placed + [(slot, fibre, values) for slot, (fibre, values) in zip(free, labelled)])

def task():
    samples = samples_of_the_task()
    named = {**PLACES, **{f"P{fibre}": profile for fibre, profile in enumerate(PROFILES)},
             **{f"@{slot}": values for slot, fibre, values in samples}}
    yield "M 1"
    for admitted, (slot, fibre, values) in enumerate(samples):
        yield from expand(STEPS.get(admitted, ""), named)
        yield " ".join(map(str, ["A", slot, fibre] + values))
    yield "R"
    clear = [(noisy(PROFILES[turn % 8], CLEAR_SPREAD), SIZES[turn % 6]) for turn in range(16)]
    blended = [(mixed(first, second, share), k) for first, second, share, k in BLENDS]
    for turn, (reading, k) in enumerate(clear + blended):
        yield " ".join(map(str, ["Q", k, RATIOS[turn % 5]] + reading))
    yield from expand(STEPS[SAMPLES], named)

if __name__ == "__main__":
    name = sys.argv[1] if len(sys.argv) > 1 else "task"
    script = "\n".join(task() if name == "task" else expand(SMALL[name]))
    sys.stdout.write(script + ("" if name == "small_damped" else "\n"))     # one lacks its last line feed
