"""Seeded cases for the witness: each is the bytes that a program gets as its standard input.

`case(seed, index)` makes the case of this index, from nothing but the two numbers. Run as a program with a seed and an
index, this writes the bytes of that case to standard output.
"""

import random
import sys
from math import lcm, prod

import reference
from reference import CORE, END, HANDLER, JOIN, LONGEST_ROUND, MOST_CORES, MOST_HANDLERS, ROWS

TOP = 65_535  # the greatest number of two bytes
READ_AT_MOST = 8_192  # verdict.md: the program reads no more bytes
LONGEST_FILE = 6_713  # planfile.md

# Rounds stay small with periods out of one of these.
PERIOD_SETS = (
    (1,), (2,), (3,), (4,), (5,), (6,), (8,), (10,), (1, 2), (2, 4), (2, 3), (3, 6), (4, 8), (4, 6), (2, 4, 8),
    (2, 3, 6), (3, 4, 6), (3, 4, 12), (5, 10), (4, 6, 12), (6, 9), (5, 7), (3, 5), (8, 12), (10, 15), (2, 5, 10),
)

# What a reference run may cost: units of time, times states, times handlers. A few cases may cost more.
USUAL_COST = 150_000
RARE_COST = 1_000_000
RARELY = 0.01


class Draft:
    """A plan to be: handlers as lists of five numbers, joins as pairs of numbers, and a code for each core."""

    def __init__(self, rng):
        self.handlers = []
        self.joins = set()
        if rng.random() < 0.5:
            self.codes = [rng.choice(reference.CODES) for _ in range(MOST_CORES)]
        else:
            self.codes = [rng.choice(reference.CODES)] * MOST_CORES

    def add(self, period, offset, shortest, longest, core):
        """Adds a handler and answers its number."""
        self.handlers.append([period, offset, shortest, longest, core])
        return len(self.handlers)

    def shuffle(self, rng):
        """Gives the handlers other numbers; the joins go with them."""
        old_places = list(range(len(self.handlers)))
        rng.shuffle(old_places)
        new_number = {old + 1: new + 1 for new, old in enumerate(old_places)}
        self.handlers = [self.handlers[old] for old in old_places]
        self.joins = {(new_number[first], new_number[second]) for first, second in self.joins}

    def records(self):
        rows = [handler_record(*handler) for handler in self.handlers]
        rows += [bytes((JOIN, first, second)) for first, second in sorted(self.joins)]
        rows += [bytes((CORE, core, code)) for core, code in enumerate(self.codes, 1)]
        return rows + [bytes((END,))]


def handler_record(period, offset, shortest, longest, core):
    row = bytes((HANDLER,))
    for number in (period, offset, shortest, longest):
        row += number.to_bytes(2, "big")
    return row + bytes((core,))


def kept_small(rng, handlers, most_choices):
    """Narrows ranges until there are no more ways to choose one time for each handler than so many."""
    while prod(longest - shortest + 1 for _, _, shortest, longest, _ in handlers) > most_choices:
        wide = rng.choice([handler for handler in handlers if handler[2] < handler[3]])
        wide[2] = rng.randint(wide[2] + 1, wide[3])


def join_some(rng, draft, share):
    """Joins this share of the pairs with equal periods and offsets, along a random row of the numbers: no circle."""
    row = list(range(1, len(draft.handlers) + 1))
    rng.shuffle(row)
    for at, first in enumerate(row):
        for second in row[at + 1 :]:
            same = draft.handlers[first - 1][:2] == draft.handlers[second - 1][:2]
            if same and rng.random() < share:
                draft.joins.add((first, second))


def set_times(rng, draft, load):
    """Gives the handlers of each core times that ask for about this share of the core."""
    for core in range(1, MOST_CORES + 1):
        here = [handler for handler in draft.handlers if handler[4] == core]
        weights = [rng.random() + 0.1 for _ in here]
        for handler, weight in zip(here, weights):
            longest = round(load * handler[0] * weight / sum(weights))
            handler[3] = max(1, min(longest, TOP))
            handler[2] = rng.choice((handler[3], rng.randint(1, handler[3]), 1))


# ---- Plans that are files ----


def small_plan(rng):
    draft = Draft(rng)
    periods = rng.choice(PERIOD_SETS)
    cores = rng.sample(range(1, MOST_CORES + 1), rng.choice((1, 1, 1, 2, 2, 3, 4)))
    reach = rng.choice((0, 0, 1, max(periods) // 2, max(periods) - 1, 2 * max(periods)))
    for _ in range(rng.choice((1, 2, 2, 3, 3, 3, 4, 4, 5, 6, 7, 8))):
        period, offset = rng.choice(periods), rng.randint(0, reach)
        if draft.handlers and rng.random() < 0.4:
            period, offset = rng.choice(draft.handlers)[:2]
        draft.add(period, offset, 1, 1, rng.choice(cores))
    set_times(rng, draft, rng.uniform(0.4, 1.15))
    kept_small(rng, draft.handlers, rng.choice((1, 4, 16, 64, 160)))
    join_some(rng, draft, rng.choice((0, 0, 0.3, 0.7, 1)))
    return draft


def no_handler(rng):
    return Draft(rng)


def chained_plan(rng):
    """Joins in chains, diamonds, fans and all pairs, over several cores, with a few others between them."""
    draft = Draft(rng)
    period = rng.choice((3, 4, 5, 6, 8, 9, 12))
    offset = rng.choice((0, 0, 1, 2, period - 1, period + 1))
    count = rng.randint(3, 8)
    for _ in range(count):
        draft.add(period, offset, 1, 1, rng.randint(1, rng.choice((1, 2, 3, MOST_CORES))))
    shape = rng.choice(("chain", "diamond", "fan out", "fan in", "all"))
    last = count
    if shape == "chain":
        draft.joins = {(number, number + 1) for number in range(1, last)}
    if shape in ("diamond", "fan out"):
        draft.joins |= {(1, number) for number in range(2, last)}
    if shape in ("diamond", "fan in"):
        draft.joins |= {(number, last) for number in range(2, last)}
    if shape == "all":
        draft.joins = {(first, second) for first in range(1, last) for second in range(first + 1, last + 1)}
    for _ in range(rng.randint(0, 3)):
        draft.add(rng.choice((period, 2 * period)), rng.randint(0, period), 1, 1, rng.randint(1, 3))
    set_times(rng, draft, rng.uniform(0.3, 1))
    kept_small(rng, draft.handlers, rng.choice((1, 8, 32)))
    draft.shuffle(rng)
    return draft


def factors(rng, number):
    """Numbers above 1 with this product."""
    found = []
    divisor = 2
    while number > 1:
        while number % divisor == 0:
            found.append(divisor)
            number //= divisor
        divisor += 1
    rng.shuffle(found)
    while len(found) > MOST_CORES or (len(found) > 1 and rng.random() < 0.4):
        found.append(found.pop() * found.pop(0))
    return found


def many_states(rng):
    """All start together, and the ways to choose their times are about as many as there are rows."""
    draft = Draft(rng)
    choices = rng.choice((ROWS - 1, ROWS, ROWS, ROWS + 1, ROWS + 2, rng.randint(ROWS - 20, ROWS + 20)))
    ranges = factors(rng, choices)
    spare = rng.randint(0, 2)
    period = max(ranges) + spare + rng.choice((0, 0, 1, 3))
    offset = rng.choice((0, 0, 1, 5))
    cores = rng.sample(range(1, MOST_CORES + 1), MOST_CORES)
    for width in ranges:
        shortest = rng.randint(1, 1 + spare)
        draft.add(period, offset, shortest, shortest + width - 1, cores.pop() if rng.random() < 0.9 else cores[0])
    if rng.random() < 0.4:
        draft.add(period, offset + rng.randint(0, 3), 1, 1, rng.randint(1, MOST_CORES))
    join_some(rng, draft, rng.choice((0, 0, 0, 0.2)))
    draft.shuffle(rng)
    return draft


def straddled_marks(rng):
    """Periods go on over the mark times on several cores, so that the marks are many; they may be as many as rows."""
    draft = Draft(rng)
    period = rng.choice((5, 6, 8, 10, 12))
    settling = rng.randint(1, period - 1)
    cores = rng.sample(range(1, MOST_CORES + 1), rng.randint(2, 6))
    for core in cores:
        offset = rng.choice((0, 0, rng.randint(0, settling)))
        longest = rng.randint(min(period - 1, settling - offset + 1), period - rng.choice((0, 1, 1, 1)))
        shortest = max(1, longest - rng.randint(0, 4))
        draft.add(rng.choice((period, period, period, 2 * period)), offset, shortest, longest, core)
    for _ in range(rng.choice((0, 0, 1, 1, 2))):
        draft.add(period, rng.choice((settling, settling, 0)), 1, rng.choice((1, 1, 2)), rng.randint(1, MOST_CORES))
    others = [core for core in range(1, MOST_CORES + 1) if core not in cores]
    draft.add(rng.choice((period, 1, 2)), settling, 1, 1, rng.choice(others))
    kept_small(rng, draft.handlers, rng.choice((20, ROWS, ROWS, 160, 250, 400)))
    join_some(rng, draft, rng.choice((0, 0, 0.2)))
    draft.shuffle(rng)
    return draft


def shifted_marks(rng):
    """The second mark time brings other states than the first, and the marks of both are about as many as rows.

    On each of some cores a wide handler starts at 0, at first undisturbed. A short one that goes before it waits for
    one on another core, and so it holds the wide one up from the second start on.
    """
    spread = rng.choice((0, 1, 1, 12))
    while True:
        widths = [rng.randint(1, 6) for _ in range(rng.randint(2, 7))]
        delays = [rng.choice((0, 1, 1, 1, 2, 3)) for _ in widths]
        one_time = prod(widths)
        both_times = 2 * one_time - prod(max(0, width - delay) for width, delay in zip(widths, delays))
        if one_time <= ROWS and ROWS - spread <= both_times <= ROWS + 1 + spread:
            break
    draft = Draft(rng)
    free = rng.randint(2, 5)  # the settling time; so long goes the first start of a wide one undisturbed
    period = free + max(widths) + max(delays) + rng.randint(0, 2)
    held = period - free  # what the short ones wait for is done just as the wide ones start again
    holder = draft.add(period, free, held, held, MOST_CORES)
    for core, (width, delay) in enumerate(zip(widths, delays), 1):
        wide = (period, 0, free, free + width - 1, core)
        if delay == 0:
            draft.add(*wide)
            continue
        short = draft.add(period, free, delay, delay, core)
        draft.joins.add((holder, short))
        draft.add(*wide)
    if rng.random() < 0.3:
        draft.shuffle(rng)
        draft.codes = [reference.EARLIEST_DEADLINE] * MOST_CORES
    elif rng.random() < 0.5:
        draft.codes = [rng.choice((1, 1, 3)) for _ in range(MOST_CORES)]
    else:
        draft.codes = [reference.FIXED_PRIORITY] * MOST_CORES
    return draft


def slow_marks(rng):
    """A delay goes from core to core, and needs a round for each step, so that marks come in over several rounds.

    Each step is a pair: one handler, and on the next core one that waits for it and holds up the pair there. The
    offsets fall from pair to pair, so in the first round each pair starts before it can be held up.
    """
    draft = Draft(rng)
    steps = rng.randint(1, MOST_CORES - 1)
    period = rng.randint(4, 12)
    gap = rng.randint(1, period - 1)
    for step in range(steps):
        offset = (steps - 1 - step) * gap
        longest = rng.randint(1, period - 1)
        shortest = longest if step and rng.random() < 0.8 else max(1, longest - rng.randint(0, 2))
        first = draft.add(period, offset, shortest, longest, step + 1)
        short = rng.randint(1, max(1, (period - longest) // 2 + rng.randint(0, 1)))
        second = draft.add(period, offset, short, short, step + 2)
        draft.joins.add((first, second))
    if rng.random() < 0.4:
        draft.add(period, rng.randint(0, steps * gap), 1, rng.randint(1, 3), rng.randint(1, steps + 1))
    kept_small(rng, draft.handlers, rng.choice((4, 16, 64)))
    set_who_goes_first(rng, draft)
    return draft


def set_who_goes_first(rng, draft):
    """Mostly so that of two pairs on a core, the waiting one of the first pair goes before the other of the second."""
    choice = rng.random()
    if choice < 0.5:
        # All periods are equal, and that one has the smaller number and the earlier deadline: it goes first anyway.
        draft.codes = [rng.choice(reference.CODES) for _ in range(MOST_CORES)]
    elif choice < 0.8:
        draft.codes = [reference.EARLIEST_DEADLINE] * MOST_CORES
        draft.shuffle(rng)
    else:
        draft.shuffle(rng)


def relay_plan(rng):
    """As slow_marks, but each delay is passed on whole: without one, a pair is done just before it holds up the next.

    Where the first of all takes now longer and now less, the pairs remember that for a round each, and the states
    double with each round. Where it always takes long, each mark time brings others than those before. Handlers on
    further cores multiply the states, so that they and the marks come near to the rows at any mark time.
    """
    draft = Draft(rng)
    steps = rng.randint(2, MOST_CORES - 1)
    gap = rng.choice((1, 1, 1, 2))
    period = rng.randint(2 * gap + 3, 2 * gap + 8)
    settling = (steps - 1) * gap
    delay = rng.randint(1, gap)
    always = rng.random() < 0.5
    for step in range(steps):
        offset = settling - step * gap
        short = rng.randint(delay, max(delay, min(2, period - gap - 1)))
        time = period - gap - short
        longest = time + delay if step == 0 else time
        shortest = time if step == 0 and not always else longest
        if step == 0 and rng.random() < 0.2:
            shortest = max(1, shortest - 1)
        if step == steps - 1:
            # The last of all has nobody to hold up. It may be late where the delay has come to it.
            short += rng.choice((0, 0, gap - delay, gap - delay, gap))
        first = draft.add(period, offset, shortest, longest, step + 1)
        second = draft.add(period, offset, short, short, step + 2)
        draft.joins.add((first, second))
    if rng.random() < 0.7:
        already = steps if always else 2**steps
        free_cores = range(steps + 2, MOST_CORES + 1)
        add_wide(rng, draft, period, settling, ROWS // already + rng.randint(-1, 2), free_cores)
    set_who_goes_first(rng, draft)
    return draft


def add_wide(rng, draft, period, settling, wanted, cores):
    """Adds handlers alone on their cores that straddle the mark times, with about so many states at these."""
    widest = max(1, period - 1)
    tries = [[rng.randint(1, widest) for _ in cores] for _ in range(40)]
    for core, width in zip(cores, min(tries, key=lambda widths: abs(prod(widths) - wanted))):
        # So long it has worked by the mark time, whatever it takes in all.
        worked = min(settling, rng.randint(1, period - width))
        draft.add(period, settling - worked, worked + 1, worked + width, core)


def swinging_marks(rng):
    """Delays go round in a ring of pairs, and turn there into none and back: so the marks come again, but not at once.

    Each pair is one handler, and on the next core one of a unit that waits for it and goes before the next pair there.
    Mostly that one is done just as the next pair starts, and so passes a delay on. In an odd number of places it starts
    just with the next pair, whose first handler takes one unit: it delays that where it comes in time, and else not.
    """
    unit = 1
    while True:
        pairs = rng.randint(2, 6)
        turns = [rng.random() < 0.3 for _ in range(pairs)]
        times = [unit if turns[at - 1] else rng.randint(1, 5) for at in range(pairs)]
        once_round = sum(times) + unit * turns.count(False)
        periods = [period for period in range(max(times) + 2 * unit, once_round + 1) if once_round % period == 0]
        if turns.count(True) % 2 == 1 and periods:
            break
    period = rng.choice(periods)
    draft = Draft(rng)
    starts = [0]
    for time, turn in zip(times, turns):
        starts.append(starts[-1] + time + (0 if turn else unit))
    offsets = [start % period for start in starts[:pairs]]
    # By their numbers those that wait go before the others.
    seconds = [draft.add(period, offset, unit, unit, (at + 1) % pairs + 1) for at, offset in enumerate(offsets)]
    firsts = [draft.add(period, offset, time, time, at + 1) for at, (offset, time) in enumerate(zip(offsets, times))]
    draft.joins = set(zip(firsts, seconds))
    if rng.random() < 0.3:
        longer = rng.choice(draft.handlers)
        longer[3] += unit
    if rng.random() < 0.6:
        wanted = ROWS // (2 * once_round // period) + rng.randint(-1, 2)
        add_wide(rng, draft, period, max(offsets), wanted, range(pairs + 1, MOST_CORES + 1))
    set_who_goes_first(rng, draft)
    return draft


def overloaded_plan(rng):
    """Somebody must be late, often several at one time, and by more or by less depending on the times chosen."""
    draft = Draft(rng)
    periods = rng.choice(PERIOD_SETS)
    for _ in range(rng.randint(1, 6)):
        period = rng.choice(periods)
        longest = rng.randint(1, 2 * period)
        shortest = max(1, longest - rng.choice((0, 1, 2, 5)))
        draft.add(period, rng.choice((0, 0, rng.randint(0, 6))), shortest, longest, rng.randint(1, MOST_CORES))
    kept_small(rng, draft.handlers, 100)
    join_some(rng, draft, rng.choice((0, 0.4)))
    return draft


def late_and_many(rng):
    """Somebody is late at the very time at which the states may be too many."""
    draft = Draft(rng)
    period = rng.choice((1, 1, 2, 3))
    ranges = factors(rng, rng.choice((ROWS - 1, ROWS, ROWS + 1, ROWS + 2, 126, 132, 500, TOP - 1)))
    cores = rng.sample(range(1, MOST_CORES + 1), MOST_CORES)
    for width in ranges:
        draft.add(period, 0, 1, width, cores.pop())
    draft.shuffle(rng)
    return draft


def many_handlers(rng):
    """Up to the most handlers that a plan can have; nearly all of them take a known time."""
    draft = Draft(rng)
    count = rng.choice((rng.randint(9, 40), rng.randint(41, MOST_HANDLERS), MOST_HANDLERS))
    periods = rng.choice(((8, 16), (12, 24), (16,), (20, 40), (64,), (10, 30), (32, 64)))
    offsets = rng.choice(((0,), (0, 1), (0, 3, 7), (0, 2, 5, 9, 11)))
    for _ in range(count):
        period = rng.choice(periods)
        time = rng.choice((1, 1, 1, 2)) if max(periods) < 32 else rng.randint(1, 4)
        draft.add(period, rng.choice(offsets), time, time, rng.randint(1, MOST_CORES))
    for handler in rng.sample(draft.handlers, rng.randint(0, 3)):
        handler[3] += 1
    join_some(rng, draft, rng.choice((0, 0.02, 0.1, 0.5, 1)))
    return draft


def big_numbers(rng):
    """Periods, offsets and times that need both of their bytes."""
    draft = Draft(rng)
    period = rng.choice((255, 256, 257, 300, 511, 512, 600, rng.randint(256, 1000)))
    for _ in range(rng.randint(1, 3)):
        offset = rng.choice((0, 0, 1, 255, 256, rng.randint(0, 2000)))
        longest = rng.choice((1, 255, 256, 257, period // 2, period - 1, period, period + 1, TOP - 1, TOP))
        shortest = max(1, longest - rng.choice((0, 0, 0, 1, 2)))
        draft.add(period, offset, shortest, longest, rng.randint(1, MOST_CORES))
    join_some(rng, draft, rng.choice((0, 0.5)))
    return draft


def greatest_numbers(rng):
    """The greatest numbers there are. One handler has a short period and asks for more, so the check ends early."""
    draft = Draft(rng)
    soon = rng.randint(1, 30)
    draft.add(soon, rng.choice((0, 3)), soon + 1, soon + rng.choice((1, 2)), rng.randint(1, 2))
    for _ in range(rng.randint(1, 4)):
        period = rng.choice((TOP, TOP - 1, 32_768, 4_096, 255))
        longest = rng.choice((1, 256, TOP - 1, TOP))
        offset = rng.choice((0, 1, 255, 256, TOP - 1, TOP))
        if round_with(draft, period) <= LONGEST_ROUND:
            draft.add(period, offset, longest, longest, rng.randint(1, MOST_CORES))
    join_some(rng, draft, 0.5)
    draft.shuffle(rng)
    return draft


def round_with(draft, period):
    return lcm(period, *(handler[0] for handler in draft.handlers))


def late_start(rng):
    """A far settling time; until then there is little to do."""
    draft = Draft(rng)
    period = rng.choice((1, 2, 3, 10, 255, 256, 1000))
    offset = rng.choice((255, 256, 1000, rng.randint(100, 4000), TOP, TOP - 1))
    draft.add(period, offset, 1, min(period, rng.choice((1, 1, 2, 3))), 1)
    if rng.random() < 0.5:
        draft.add(period, rng.choice((0, offset, offset - 1)), 1, min(period, 2), rng.choice((1, 2)))
    return draft


PLANS = (
    (34, small_plan), (2, no_handler), (10, chained_plan), (6, many_states), (8, straddled_marks), (6, shifted_marks),
    (5, slow_marks), (9, relay_plan), (4, swinging_marks), (5, overloaded_plan), (3, late_and_many), (3, many_handlers),
    (2, big_numbers), (3, greatest_numbers), (1, late_start),
)


def pick(rng, weighed):
    """One of some things, each with a weight that says how often it comes."""
    weights = [weight for weight, _ in weighed]
    return rng.choices([thing for _, thing in weighed], weights)[0]


def good_file(rng):
    return b"".join(pick(rng, PLANS)(rng).records())


# ---- Damage that knows nothing of what the bytes say ----


def cheap_records(rng):
    """The records of a plan to be damaged. The damage is seldom in the plan, so most are small."""
    return pick(rng, ((6, small_plan), (4, chained_plan), (1, no_handler), (1, many_handlers)))(rng).records()


def cut_short(rng):
    data = b"".join(cheap_records(rng))
    return data[: rng.randrange(len(data))]


def one_byte_changed(rng):
    data = bytearray(b"".join(cheap_records(rng)))
    at = rng.randrange(len(data))
    data[at] = rng.choice((rng.randrange(256), rng.randrange(10), data[at] ^ (1 << rng.randrange(8)), 0, 255))
    return bytes(data)


def some_bytes_changed(rng):
    data = bytearray(b"".join(cheap_records(rng)))
    for _ in range(rng.randint(2, 5)):
        data[rng.randrange(len(data))] = rng.choice((rng.randrange(256), rng.randrange(6)))
    return bytes(data)


def byte_more_or_less(rng):
    data = bytearray(b"".join(cheap_records(rng)))
    at = rng.randrange(len(data))
    if rng.random() < 0.5:
        del data[at]
    else:
        data.insert(at, rng.choice((rng.randrange(256), rng.randrange(6))))
    return bytes(data)


def records_swapped(rng):
    rows = cheap_records(rng)
    one, other = rng.randrange(len(rows)), rng.randrange(len(rows))
    if rng.random() < 0.5 and len(rows) > 1:
        one = rng.randrange(len(rows) - 1)
        other = one + 1
    rows[one], rows[other] = rows[other], rows[one]
    return b"".join(rows)


def record_repeated(rng):
    rows = cheap_records(rng)
    at = rng.randrange(len(rows))
    rows.insert(rng.choice((at, at, rng.randint(0, len(rows)))), rows[at])
    return b"".join(rows)


def record_dropped(rng):
    rows = cheap_records(rng)
    del rows[rng.randrange(len(rows))]
    return b"".join(rows)


def other_kind(rng):
    rows = cheap_records(rng)
    at = rng.randrange(len(rows))
    kind = rng.choice((0, 1, 2, 3, 4, 5, 6, 127, 128, 255, rng.randrange(256)))
    rows[at] = bytes((kind,)) + rows[at][1:]
    data = b"".join(rows)
    return data if rng.random() < 0.7 else data[: rng.randint(len(data) // 2, len(data))]


def bytes_after_the_end(rng):
    data = b"".join(cheap_records(rng))
    more = rng.choice((bytes((END,)), bytes(rng.randint(1, 5)), rng.randbytes(rng.randint(1, 9)), data))
    return data + more


# ---- Damage that goes for one test, or for two at once ----


def bad_handler(rng):
    """A handler on whose fields one test or several hold, before, between or after those of a plan."""
    draft = small_plan(rng)
    fields = [rng.choice((1, 2, 4)), rng.choice((0, 1)), 1, rng.choice((1, 2)), rng.randint(1, MOST_CORES)]
    for _ in range(rng.choice((1, 1, 2, 3))):
        spoil = rng.choice(("period", "no shortest", "no times", "times", "core"))
        if spoil == "period":
            fields[0] = 0
        elif spoil == "no shortest":
            fields[2] = 0
        elif spoil == "no times":
            fields[2] = fields[3] = 0
        elif spoil == "times":
            fields[2] = rng.choice((fields[3] + 1, 256, 257, TOP))
            fields[3] = min(fields[3], fields[2] - 1)
        else:
            fields[4] = rng.choice((0, 9, 9, 10, 128, 255))
    rows = draft.records()
    place = rng.randint(0, len(draft.handlers))
    rows.insert(place, handler_record(*fields))
    return b"".join(rows)


def handler_too_many(rng):
    draft = Draft(rng)
    for _ in range(MOST_HANDLERS + rng.choice((1, 1, 1, 2))):
        draft.add(rng.choice((8, 16)), rng.choice((0, 1)), 1, 1, rng.randint(1, MOST_CORES))
    if rng.random() < 0.4:
        # Another test holds as well, and comes after.
        draft.handlers[MOST_HANDLERS] = rng.choice(([0, 0, 1, 1, 1], [8, 0, 0, 1, 1], [8, 0, 1, 1, 9], [0] * 5))
    data = b"".join(draft.records())
    one = len(handler_record(*draft.handlers[0]))
    return data if rng.random() < 0.8 else data[: (MOST_HANDLERS + 1) * one - rng.randint(0, one)]


def round_too_long(rng):
    """Periods whose round is above the bound, by little or by much, at the second handler or at a later one."""
    draft = Draft(rng)
    if rng.random() < 0.4:
        # The first two make a round one above the bound; the others come just below or above.
        just_above = (257, 65_281)
        others = ((4_096, 4_097), (4_095, 4_097), (4_095, 4_096), (256, TOP))
        periods = list(rng.choice((just_above, just_above, *others)))
        rng.shuffle(periods)
    else:
        periods = [rng.randint(2, TOP)]
    while lcm(*periods) <= LONGEST_ROUND:
        periods.append(rng.choice((rng.randint(2, 50), rng.randint(2, 3000), rng.randint(3000, TOP), TOP)))
    if rng.random() < 0.15:
        periods = wrapping_periods(rng)
    for period in periods:
        draft.add(period, rng.choice((0, 0, 1, TOP)), 1, 1, rng.randint(1, MOST_CORES))
    if rng.random() < 0.2:
        rng.choice(draft.handlers)[4] = 9
    return b"".join(draft.records())


def wrapping_periods(rng):
    """Periods whose round is far above the bound, though in 32 bits it would come out below."""
    while True:
        low = [rng.choice((256, 4_096, 32_768)), rng.randint(2, TOP)]
        if lcm(*low) > LONGEST_ROUND:
            continue
        for _ in range(2000):
            last = rng.randint(2, TOP)
            whole = lcm(*low, last)
            if whole > LONGEST_ROUND and whole % 2**32 <= LONGEST_ROUND:
                return low + [last]


def bad_join(rng):
    """A join that the file or the plan does not take, mostly where it has to stand in the row of joins."""
    draft = chained_plan(rng)
    if rng.random() < 0.5:
        draft.joins = {pair for pair in sorted(draft.joins) if rng.random() < 0.5}
    count = len(draft.handlers)
    pairs = sorted(draft.joins)
    some = rng.randint(1, count)
    flavour = rng.choice(("nobody", "itself", "back", "other times", "again", "unsorted", "any"))
    if flavour == "nobody":
        nobody = rng.choice((0, count + 1, MOST_HANDLERS, MOST_HANDLERS + 1, 128, 255))
        pair = rng.choice(((nobody, some), (some, nobody), (nobody, nobody)))
    elif flavour == "itself":
        pair = (some, some)
    elif flavour in ("back", "again") and pairs:
        pair = rng.choice(pairs)
        if flavour == "back":
            pair = (pair[1], pair[0])
    elif flavour == "other times":
        changed = rng.choice(draft.handlers)
        changed[rng.randint(0, 1)] += rng.choice((1, 256))
        pair = (draft.handlers.index(changed) + 1, some)
    else:
        pair = (rng.randint(0, count + 1), rng.randint(0, count + 1))
    pairs.append(pair)
    if flavour != "unsorted" and rng.random() < 0.8:
        pairs.sort()
    elif rng.random() < 0.5:
        rng.shuffle(pairs)
    rows = [row for row in draft.records() if row[0] != JOIN]
    rows[count:count] = [bytes((JOIN, *pair)) for pair in pairs]
    return b"".join(rows)


def joins_in_a_circle(rng):
    """One circle of any length, among joins that are in none; the numbers go round in any order."""
    draft = Draft(rng)
    count = rng.choice((2, 3, 4, 6, 10, MOST_HANDLERS))
    for _ in range(count):
        draft.add(64, 0, 1, 1, rng.randint(1, MOST_CORES))
    row = list(range(1, count + 1))
    if rng.random() < 0.7:
        rng.shuffle(row)
    length = rng.choice((count, rng.randint(2, count)))
    draft.joins = {(row[at], row[(at + 1) % length]) for at in range(length)}
    draft.joins |= {(row[at], row[at + 1]) for at in range(length, count - 1)}
    return b"".join(draft.records())


def bad_core(rng):
    rows = small_plan(rng).records()
    at = len(rows) - 1 - rng.randint(1, MOST_CORES)
    flavour = rng.choice(("code", "code", "core", "both", "ninth", "early end", "missing"))
    core, code = rows[at][1:]
    bad_code = rng.choice((0, 4, 5, 128, 255))
    if flavour in ("core", "both"):
        core = rng.choice((0, core + 1, core - 1, 9, 255))
    if flavour in ("code", "both"):
        code = bad_code
    rows[at] = bytes((CORE, core, code))
    if flavour == "ninth":
        rows.insert(len(rows) - 1, bytes((CORE, rng.choice((9, 1, 0)), rng.choice((1, 0, 4)))))
    if flavour == "early end":
        rows[at:] = [bytes((END,))]
    if flavour == "missing":
        del rows[at]
    data = b"".join(rows)
    return data if rng.random() < 0.8 else data[: len(data) - rng.randint(1, 4)]


def soup(rng):
    """Records in no good order, of fields that are seldom far off."""
    data = b""
    kinds = sorted(rng.choices((1, 2, 3, 4), (4, 3, 3, 1), k=rng.randint(1, 12)))
    if rng.random() < 0.3:
        rng.shuffle(kinds)
    next_core = 1
    for kind in kinds:
        if kind == HANDLER:
            fields = [rng.choice((0, 1, 2, 2, 2, 4)), 0, rng.choice((0, 1, 1, 1, 2)), rng.choice((1, 2)), 1]
            fields[4] = rng.choice((0, 1, 1, 2, 3, 8, 9))
            data += handler_record(*fields)
        elif kind == JOIN:
            data += bytes((JOIN, rng.randint(0, 4), rng.randint(0, 5)))
        elif kind == CORE:
            core = next_core if rng.random() < 0.9 else rng.randint(0, 9)
            data += bytes((CORE, core, rng.choice((1, 2, 3, 3, 0, 4))))
            next_core += 1
        else:
            data += bytes((END,))
    return data[: rng.choice((len(data), rng.randint(0, len(data))))]


def garbage(rng):
    length = rng.choice((0, 1, 2, rng.randint(0, 60), rng.randint(0, 400)))
    if rng.random() < 0.5:
        return rng.randbytes(length)
    return bytes(rng.choices((0, 1, 2, 3, 4, 5, 255), (3, 6, 2, 2, 1, 1, 1), k=length))


DAMAGED = (
    (6, cut_short), (6, one_byte_changed), (3, some_bytes_changed), (3, byte_more_or_less), (4, records_swapped),
    (4, record_repeated), (4, record_dropped), (4, other_kind), (3, bytes_after_the_end), (8, bad_handler),
    (3, handler_too_many), (5, round_too_long), (9, bad_join), (5, joins_in_a_circle), (6, bad_core), (5, soup),
    (3, garbage),
)


def damaged_file(rng):
    return pick(rng, DAMAGED)(rng)


# ---- Long inputs ----


def longest_file(rng):
    """All handlers that a plan can have, and all joins that run in no circle."""
    draft = Draft(rng)
    for _ in range(MOST_HANDLERS):
        draft.add(MOST_HANDLERS, 0, 1, 1, rng.randint(1, MOST_CORES))
    row = list(range(1, MOST_HANDLERS + 1))
    if rng.random() < 0.5:
        rng.shuffle(row)
    draft.joins = {(first, second) for at, first in enumerate(row) for second in row[at + 1 :]}
    data = b"".join(draft.records())
    assert len(data) == LONGEST_FILE
    return data


def to_length(rng, data, more):
    """The bytes, and behind them more of these, up to about what the program reads, or far more."""
    exact = READ_AT_MOST + rng.randint(-1, 1)
    length = rng.choice((exact, exact, READ_AT_MOST + rng.randint(2, 40), rng.randint(6_000, 30_000)))
    length = max(length, len(data) + 1)
    return (data + more * (length // len(more) + 1))[:length]


def long_input(rng):
    flavour = rng.choice(("file", "file", "longest", "joins", "all joins", "handlers", "cores", "garbage", "kinds"))
    small = small_plan(rng)
    if flavour == "file":
        return to_length(rng, b"".join(small.records()), rng.choice((bytes(1), bytes((END,)), rng.randbytes(50))))
    if flavour == "longest":
        data = longest_file(rng)
        changed = bytearray(data)
        changed[rng.randrange(len(data))] = rng.choice((0, 1, 2, 64, 65))
        cut = data[: rng.randint(len(data) // 2, len(data) - 1)]
        return bytes(rng.choice((data, data + b"\0", cut, changed, changed, to_length(rng, data, rng.randbytes(9)))))
    if flavour == "joins":
        pairs = b"".join(bytes((JOIN, rng.randint(1, 4), rng.randint(1, 4))) for _ in range(9))
        rows = b"".join(handler_record(*handler) for handler in small.handlers)
        return to_length(rng, rows, rng.choice((pairs, bytes((JOIN, 1, 2)))))
    if flavour == "all joins":
        # Every pair in turn, whether the plan takes it or not.
        rows = longest_file(rng)[: len(handler_record(1, 0, 1, 1, 1)) * MOST_HANDLERS]
        low = rng.choice((0, 1))
        pairs = [bytes((JOIN, one, two)) for one in range(low, 256) for two in range(one + low, 256)]
        return to_length(rng, rows, b"".join(pairs))
    if flavour == "handlers":
        return to_length(rng, b"", handler_record(8, 0, 1, 1, rng.randint(1, MOST_CORES)))
    if flavour == "cores":
        return to_length(rng, b"".join(small.records()[:-1]), rng.choice((bytes((CORE, 9, 1)), bytes((CORE, 1, 1)))))
    if flavour == "kinds":
        return to_length(rng, b"", bytes((rng.randint(0, 5),)))
    return rng.randbytes(rng.choice((READ_AT_MOST - 1, READ_AT_MOST, READ_AT_MOST + 1, 12_000)))


# ---- Cases ----


def cost(data):
    """About what the reference has to do for these bytes: nothing much where they are refused."""
    try:
        plan, _ = reference.read(data)
    except reference.Refused:
        return 0
    units = plan.settling() + 2 * plan.round()
    for handler in plan.handlers:
        if handler.shortest > handler.period:
            # This one is late at the end of its first period, if the check goes on so long.
            units = min(units, handler.offset + handler.period)
    states = min(ROWS, prod(handler.longest - handler.shortest + 1 for handler in plan.handlers))
    return units * states * (2 + len(plan.handlers))


CASES = ((58, good_file), (39, damaged_file), (3, long_input))


def case(seed, index):
    """The bytes of the case of this index."""
    rng = random.Random(f"{seed} {index}")
    most = RARE_COST if rng.random() < RARELY else USUAL_COST
    while True:
        data = pick(rng, CASES)(rng)
        if cost(data) <= most:
            return data


if __name__ == "__main__":
    sys.stdout.buffer.write(case(int(sys.argv[1]), int(sys.argv[2])))
