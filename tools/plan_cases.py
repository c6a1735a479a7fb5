"""Writes the cases of the program plan_cases and the lines that it must print for them.

    python3 tools/plan_cases.py

Each case is a quarter and a job. The plans are found here by laying out every placement, and the rides by making
walks longer leg by leg, so nothing of the proved search is done again. Nothing is random: the same cases come out
each time.
"""

from itertools import product
from pathlib import Path

TOP = 4294967295
CELLS = 912
FOLDER = Path(__file__).resolve().parent.parent / "crates" / "plan_cases"


# ---- the three measures ----

class Time:
    zero = 0

    def leg(climb, seconds):
        return seconds

    def join(a, b):
        return min(a + b, TOP)

    def show(v):
        return str(v)


class Longest:
    zero = 0

    def leg(climb, seconds):
        return seconds

    def join(a, b):
        return max(a, b)

    def show(v):
        return str(v)


class Climb:
    zero = (0, 0)

    def leg(climb, seconds):
        return (climb, seconds)

    def join(a, b):
        if a == (0, 0):
            return b
        if b == (0, 0):
            return a
        if a[0] + b[0] >= TOP:
            return (TOP, TOP)
        return (a[0] + b[0], min(a[1] + b[1], TOP))

    def show(v):
        return f"{v[0]}:{v[1]}"


MEASURES = {"t": Time, "l": Longest, "c": Climb}


# ---- a quarter ----

def kind_of(width, kinds, place):
    y, x = divmod(place, width)
    return 1 + (x + y) % kinds


def legs_of(measure, width, height, seconds, climb):
    """The value of the leg of each pair of places that has one."""
    legs = {}
    for y in range(height):
        for x in range(width):
            for dx, dy in ((-1, 0), (1, 0), (0, -1), (0, 1)):
                if 0 <= x + dx < width and 0 <= y + dy < height:
                    to = (y + dy) * width + x + dx
                    legs[y * width + x, to] = measure.leg(climb if dy == 1 else 0, seconds)
    return legs


def rides_of(measure, legs, places):
    """The least value of the walks of each pair: walks of one leg, of two, and so on.

    Zero is the least value, so a walk that comes twice to a place is never better than the shorter one, and walks of
    as many legs as there are places are long enough; twice as many are made.
    """
    best = dict(legs)
    walks = dict(legs)
    for _ in range(2 * places):
        longer = {}
        for (a, b), first in legs.items():
            for (c, d), rest in walks.items():
                if b == c:
                    value = measure.join(first, rest)
                    if (a, d) not in longer or value < longer[a, d]:
                        longer[a, d] = value
        walks = longer
        for pair, value in walks.items():
            if pair not in best or value < best[pair]:
                best[pair] = value
    return best


# ---- the plans of a job ----

def plans_of(case):
    """All plans in order, each a score and its places."""
    measure = MEASURES[case["measure"]]
    width, height, kinds, seconds, climb = case["quarter"]
    places = width * height
    legs = legs_of(measure, width, height, seconds, climb)
    rides = rides_of(measure, legs, places)
    found = []
    for placement in product(range(places), repeat=len(case["stops"])):
        score = measure.zero
        for (kind, parent, link), place in zip(case["stops"], placement):
            if kind != 0 and kind != kind_of(width, kinds, place):
                break
            if parent is not None:
                values = rides if link == "r" else legs
                value = values.get((placement[parent], place))
                if value is None:
                    break
                score = measure.join(score, value)
        else:
            found.append((score, placement))
    return sorted(found)


def plan_line(case, number, plan):
    score, placement = plan
    shown = MEASURES[case["measure"]].show(score)
    return f"{number} score {shown} at " + " ".join(map(str, placement))


def given_lines(case, plans, most):
    given = plans[:most]
    lines = [plan_line(case, i + 1, plan) for i, plan in enumerate(given)]
    left = "more left" if len(plans) > most else "none left"
    return lines + [f"{len(given)} given, {left}"]


# ---- what the program prints ----

def in_range(quarter):
    width, height, kinds, seconds, climb = quarter
    return (1 <= width <= 64 and 1 <= height <= 64 and width * height <= 64 and 1 <= kinds <= 255
            and seconds <= 65535 and climb <= 65535)


def is_tree(stops):
    return (1 <= len(stops) <= 12 and stops[0][1] is None
            and all(parent is not None and parent < s for s, (_, parent, _) in enumerate(stops) if s > 0))


def has_room(case):
    n = case["quarter"][0] * case["quarter"][1]
    m, k = len(case["stops"]), case["wanted"]
    return n <= 64 and 1 <= k <= 256 and n * n + m * n + k * m <= CELLS


def answer(case):
    if not in_range(case["quarter"]):
        return ["no quarter"]
    if not is_tree(case["stops"]):
        return ["no job"]
    if not has_room(case):
        return ["no room"]
    plans = plans_of(case)
    return given_lines(case, plans, case["wanted"]) + given_lines(case, plans, 1)


def case_line(case):
    words = [case["measure"], *map(str, case["quarter"]), str(case["wanted"])]
    for kind, parent, link in case["stops"]:
        words += [str(kind), "-" if parent is None else str(parent), link]
    return " ".join(words)


# ---- the cases ----

class Numbers:
    """A small generator, the same in every version of Python."""

    def __init__(self, seed):
        self.state = seed

    def below(self, n):
        self.state = (self.state * 6364136223846793005 + 1442695040888963407) % 2 ** 64
        return (self.state >> 33) % n

    def pick(self, xs):
        return xs[self.below(len(xs))]


def make(measure, quarter, wanted, stops):
    return {"measure": measure, "quarter": quarter, "wanted": wanted, "stops": stops}


ROOT = (0, None, "-")


def random_stops(numbers, kinds, count):
    """A chain, a fork or any tree; most stops of a kind that the quarter has or of any kind, few of one it has not."""
    shape = numbers.pick(("chain", "fork", "any"))
    stops = []
    for s in range(count):
        kind = numbers.pick((0, 0, 1 + numbers.below(kinds))) if numbers.below(16) else kinds + 1
        if s == 0:
            stops.append((kind, None, "-"))
        else:
            parent = {"chain": s - 1, "fork": 0, "any": numbers.below(s)}[shape]
            stops.append((kind, parent, numbers.pick("dr")))
    return stops


def random_case(numbers, measure):
    width, height = numbers.pick(((1, 1), (2, 1), (1, 2), (2, 2), (3, 1), (1, 3), (3, 2), (2, 3), (3, 2), (2, 3)))
    kinds = 1 + numbers.below(3)
    seconds = numbers.pick((0, 1, 60, 65535))
    climb = numbers.pick((0, 5, 65535))
    stops = random_stops(numbers, kinds, 1 + numbers.below(4))
    return make(measure, (width, height, kinds, seconds, climb), 1 + numbers.below(40), stops)


def exact(case):
    """The case with as many plans wanted as there are, where that is a number that may be wanted."""
    count = len(plans_of(case))
    return dict(case, wanted=count) if 1 <= count <= 60 else case


def long_jobs():
    """Jobs of twelve stops over two places, and three stops over a larger quarter."""
    chain = [ROOT] + [(0, s - 1, "r") for s in range(1, 12)]
    star = [ROOT] + [(0, 0, "r" if s % 3 else "d") for s in range(1, 12)]
    mixed = [ROOT] + [(s % 3, s // 2, "r") for s in range(1, 12)]
    three = [(1, None, "-"), (2, 0, "r"), (0, 1, "r")]
    for measure in "tlc":
        yield make(measure, (1, 2, 1, 30, 7), 20, chain)
        yield make(measure, (2, 1, 2, 30, 7), 20, star)
        yield make(measure, (1, 2, 2, 30, 7), 20, mixed)
        yield make(measure, (4, 3, 3, 45, 9), 30, three)


def edges():
    """As many plans wanted as the cells have room for, one more, and the most that may be wanted."""
    three = [ROOT, (0, 0, "r"), (0, 1, "r")]
    four = [ROOT, (0, 0, "r"), (0, 1, "d"), (0, 0, "r")]
    for measure in "tlc":
        yield make(measure, (1, 2, 1, 30, 7), 225, four)
        yield make(measure, (1, 2, 1, 30, 7), 226, four)
        yield make(measure, (1, 29, 3, 30, 7), 42, [(2, None, "-")])
        yield make(measure, (1, 29, 3, 30, 7), 43, [(2, None, "-")])
        yield make(measure, (2, 2, 1, 30, 7), 256, three)


def refused():
    """Cases that are refused: no quarter, no job, no room."""
    one, two = [ROOT], [ROOT, (0, 0, "r")]
    for quarter in ((0, 1, 1, 1, 1), (9, 8, 1, 1, 1), (1, 1, 0, 1, 1), (1, 1, 1, 65536, 1), (1, 1, 1, 1, 65536)):
        yield make("t", quarter, 1, one)
    yield make("t", (2, 2, 1, 1, 1), 1, [ROOT, (0, 1, "d")])
    yield make("l", (2, 2, 1, 1, 1), 1, [ROOT, ROOT])
    yield make("c", (2, 2, 1, 1, 1), 1, [(0, 0, "d")])
    yield make("t", (1, 2, 1, 1, 1), 1, [ROOT] + 12 * [(0, 0, "r")])
    yield make("t", (2, 2, 1, 1, 1), 0, two)
    yield make("l", (2, 2, 1, 1, 1), 257, two)
    yield make("c", (8, 8, 1, 1, 1), 1, one)
    yield make("t", (6, 5, 1, 1, 1), 1, one)
    yield make("t", (1, 1, 1, 1, 1), 76, [ROOT] + 11 * [(0, 0, "r")])


def sections():
    numbers = Numbers(20260)
    yield "small quarters", [random_case(numbers, measure) for _ in range(18) for measure in "tlc"]
    yield "as many plans wanted as there are", [exact(random_case(numbers, measure)) for _ in range(8) for measure in "tlc"]
    yield "twelve stops, and a larger quarter", list(long_jobs())
    yield "as many cells as are needed, one fewer, and the most plans that may be wanted", list(edges())
    yield "refused", list(refused())


def main():
    cases, lines = [], []
    for title, section in sections():
        cases.append(f"# {title}")
        lines.append(f"# {title}")
        for case in section:
            cases.append(case_line(case))
            lines.append(case_line(case))
            lines += answer(case)
    (FOLDER / "stdin").write_text("\n".join(cases) + "\n")
    (FOLDER / "stdout").write_text("\n".join(lines) + "\n")


if __name__ == "__main__":
    main()
