# full_scan.py: the reference; answers a script by weighing every sample held and sorting.
#
# Use:  python3 full_scan.py < script          the answers, one line for each line of the script
#       python3 full_scan.py --why < script    also, on standard error, how each verdict came about
#
# Lines of a script:   M measure                 the measure, on line 1 only
#                      A slot fibre v0 .. v7     admit a sample
#                      W slot                    withdraw a sample
#                      R                         no effect on the answers
#                      Q k N D v0 .. v7          ask for a fibre; N and D are checked, no more
import sys
from math import isqrt

MOST_BYTES = 65535      # in a script
MOST_NUMBER = 65535     # in a word
MOST_DIGITS = 5
MOST_SLOT = 255
MOST_FIBRE = 7
MOST_VALUE = 1023
MOST_NEAREST = 32
MOST_WEIGHT = 4294967295

BLOCK, SQUARE, PEAK, DAMPED = 0, 1, 2, 3

OUT_OF_RANGE, SLOT_FULL, SLOT_EMPTY, TOO_FEW, UNREADABLE = "E 9", "E 10", "E 11", "E 12", "E 15"

NUMBERS_AFTER = {b"M": 1, b"A": 2 + 8, b"W": 1, b"R": 0, b"Q": 3 + 8}


def lines_of(script):
    """The lines, without their line feeds; the last line may lack its own."""
    lines = script.split(b"\n")
    if lines[-1] == b"":
        lines.pop()
    return lines


def read_line(line):
    """The letter and the list of numbers of a line, or (None, None) if it is unreadable."""
    letter, *words = line.split(b" ")
    if len(words) != NUMBERS_AFTER.get(letter):
        return None, None
    for word in words:
        if not word.isdigit() or len(word) > MOST_DIGITS or int(word) > MOST_NUMBER:
            return None, None
    return letter, [int(word) for word in words]


def weigh_gap(measure, gap):
    if measure == SQUARE:
        return gap * gap
    if measure == DAMPED:
        return isqrt(1024 * min(gap, 1023))
    return gap


def join(measure, u, v):
    if measure == PEAK:
        return max(u, v)
    return min(u + v, MOST_WEIGHT)


def weigh(measure, values, reading):
    """The weight of a sample against a reading, joined from band 0 upward."""
    gaps = [abs(value - read) for value, read in zip(values, reading)]
    weight = weigh_gap(measure, gaps[0])
    for gap in gaps[1:]:
        weight = join(measure, weight, weigh_gap(measure, gap))
    return weight


def admit(samples, numbers):
    slot, fibre, *values = numbers
    if slot > MOST_SLOT or fibre > MOST_FIBRE or max(values) > MOST_VALUE:
        return OUT_OF_RANGE
    if slot in samples:
        return SLOT_FULL
    samples[slot] = (fibre, values)
    return "A"


def withdraw(samples, numbers):
    slot = numbers[0]
    if slot > MOST_SLOT:
        return OUT_OF_RANGE
    if slot not in samples:
        return SLOT_EMPTY
    del samples[slot]
    return "W"


def refusal_of(samples, numbers):
    """Why a question is refused, or None."""
    k, n, d, *reading = numbers
    if not 1 <= k <= MOST_NEAREST or n == 0 or d == 0 or n < d or max(reading) > MOST_VALUE:
        return OUT_OF_RANGE
    if k > len(samples):
        return TOO_FEW
    return None


def rank(measure, samples, reading):
    """The samples as (weight, slot, fibre), the nearest first."""
    return sorted((weigh(measure, values, reading), slot, fibre)
                  for slot, (fibre, values) in samples.items())


def count_votes(fibres):
    votes = [0] * (MOST_FIBRE + 1)
    for fibre in fibres:
        votes[fibre] += 1
    return votes


def commonest(votes):
    return votes.index(max(votes))          # the first of the greatest: the lowest code


def ask(measure, samples, numbers, explain):
    k, n, d, *reading = numbers
    refusal = refusal_of(samples, numbers)
    if refusal:
        return refusal
    ranked = rank(measure, samples, reading)
    votes = count_votes(fibre for weight, slot, fibre in ranked[:k])
    verdict = commonest(votes)
    explain(k, ranked, votes, verdict)
    return f"Q {verdict}"


def say_nothing(k, ranked, votes, verdict):
    pass


def say_why(line_number, k, ranked, votes, verdict):
    """Show the k nearest, the one just left out, the votes and the verdict."""
    print(f"line {line_number}: the {k} nearest of {len(ranked)}", file=sys.stderr)
    for weight, slot, fibre in ranked[:k]:
        print(f"    slot {slot} fibre {fibre} weight {weight}", file=sys.stderr)
    for weight, slot, fibre in ranked[k:k + 1]:
        print(f"  left out: slot {slot} fibre {fibre} weight {weight}", file=sys.stderr)
    shown = ", ".join(f"fibre {code}: {count}" for code, count in enumerate(votes) if count)
    print(f"  votes: {shown}\n  verdict: fibre {verdict}", file=sys.stderr)


def answers_to(script, answer_question, rebuild=lambda samples: None):
    """Yield the answer to each line in turn; a question's is that of `answer_question`."""
    lines = lines_of(script)
    letter, numbers = read_line(lines[0]) if lines else (None, None)
    if len(script) > MOST_BYTES or letter != b"M" or numbers[0] > DAMPED:
        yield UNREADABLE
        return
    yield "M"
    measure, samples = numbers[0], {}
    for line_number, line in enumerate(lines[1:], start=2):
        letter, numbers = read_line(line)
        if letter == b"A":
            yield admit(samples, numbers)
        elif letter == b"W":
            yield withdraw(samples, numbers)
        elif letter == b"R":
            rebuild(samples)
            yield "R"
        elif letter == b"Q":
            yield answer_question(measure, samples, numbers, line_number)
        else:
            yield UNREADABLE


def print_answers(answers):
    for answer in answers:
        sys.stdout.buffer.write(answer.encode() + b"\n")


if __name__ == "__main__":
    def answer_question(measure, samples, numbers, line_number):
        explain = (lambda *told: say_why(line_number, *told)) if "--why" in sys.argv[1:] else say_nothing
        return ask(measure, samples, numbers, explain)

    print_answers(answers_to(sys.stdin.buffer.read(), answer_question))
