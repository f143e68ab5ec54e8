"""The line that the program `verdict` prints for some bytes, worked out in the plainest way.

Everything here follows the pages planfile.md, plans.md, disciplines.md, model.md, checks.md and verdict.md, in their
words and in their order. It is meant to be read beside them, so it does what they say and saves no work.
"""

from math import lcm
from typing import NamedTuple

# verdict.md: the plan is checked with so many rows in each table.
ROWS = 128

# plans.md: the limits of a plan.
MOST_HANDLERS = 64
MOST_CORES = 8
LONGEST_ROUND = 16_777_216

# plans.md: the refusals of a plan.
PLAN_FULL = 1
NO_PERIOD = 2
NO_TIMES = 3
NO_SUCH_CORE = 4
LONG_ROUND = 5
NO_SUCH_HANDLER = 6
OTHER_TIMES = 7
CIRCLE = 8

# planfile.md: the refusals of a file.
NO_BYTE_LEFT = 10
NO_SUCH_KIND = 11
OUT_OF_TURN = 12
NO_SUCH_CODE = 13

# planfile.md: the kinds of records, and how many bytes follow the byte of the kind.
HANDLER, JOIN, CORE, END = 1, 2, 3, 4
BYTES_AFTER = {HANDLER: 9, JOIN: 2, CORE: 2, END: 0}

# disciplines.md: the codes of the criteria.
FIXED_PRIORITY, RATE_MONOTONIC, EARLIEST_DEADLINE = 1, 2, 3
CODES = (FIXED_PRIORITY, RATE_MONOTONIC, EARLIEST_DEADLINE)


class Refused(Exception):
    """The test of this number fails first, at the record that begins at this place."""

    def __init__(self, number, place):
        super().__init__(number, place)
        self.number = number
        self.place = place


class Handler(NamedTuple):
    period: int
    offset: int
    shortest: int
    longest: int
    core: int


class Plan:
    """Handlers in the order of their numbers, and for each number those that it is joined before."""

    def __init__(self):
        self.handlers = []
        self.joined_before = {}

    def numbers(self):
        return range(1, len(self.handlers) + 1)

    def handler(self, number):
        return self.handlers[number - 1]

    def round(self):
        # The least common multiple of no numbers is 1.
        return lcm(*(handler.period for handler in self.handlers))

    def settling(self):
        return max((handler.offset for handler in self.handlers), default=0)


# ---- Plans (plans.md) ----


def register(plan, handler):
    """Adds the handler and answers None, or answers the first test that holds."""
    if len(plan.handlers) == MOST_HANDLERS:
        return PLAN_FULL
    if handler.period == 0:
        return NO_PERIOD
    if handler.shortest == 0 or handler.shortest > handler.longest:
        return NO_TIMES
    if handler.core == 0 or handler.core > MOST_CORES:
        return NO_SUCH_CORE
    if lcm(plan.round(), handler.period) > LONGEST_ROUND:
        return LONG_ROUND
    plan.handlers.append(handler)
    plan.joined_before[len(plan.handlers)] = set()
    return None


def join(plan, first, second):
    """Joins the two numbers and answers None, or answers the first test that holds."""
    if first not in plan.numbers() or second not in plan.numbers():
        return NO_SUCH_HANDLER
    one, other = plan.handler(first), plan.handler(second)
    if one.period != other.period or one.offset != other.offset:
        return OTHER_TIMES
    if first == second or first in led_to_from(plan, second):
        return CIRCLE
    plan.joined_before[first].add(second)
    return None


def led_to_from(plan, number):
    """All numbers to which a chain of one or more joins leads from this one."""
    found = set()
    level = {number}
    while level:
        level = {after for before in level for after in plan.joined_before[before]} - found
        found |= level
    return found


# ---- Files (planfile.md) ----


def read(data):
    """The plan and the eight codes of a file. Raises Refused for bytes that are no file."""
    plan = Plan()
    codes = []
    kind_before = None
    join_before = None
    place = 0
    while True:
        # The first two tests; where both pass after the end record, the bytes are a file.
        ended = kind_before == END
        if place == len(data):
            if ended:
                return plan, codes
            raise Refused(NO_BYTE_LEFT, place)
        if ended:
            raise Refused(OUT_OF_TURN, place)

        kind = data[place]
        if kind not in BYTES_AFTER:
            raise Refused(NO_SUCH_KIND, place)
        if not may_stand_here(kind, kind_before, len(codes)):
            raise Refused(OUT_OF_TURN, place)

        said = data[place + 1 : place + 1 + BYTES_AFTER[kind]]
        if len(said) < BYTES_AFTER[kind]:
            raise Refused(NO_BYTE_LEFT, place)

        refusal = None
        if kind == HANDLER:
            refusal = register(plan, handler_said(said))
        elif kind == JOIN:
            pair = (said[0], said[1])
            # By the first number, and among equal first numbers by the second; so no pair comes twice.
            if join_before is not None and pair <= join_before:
                raise Refused(OUT_OF_TURN, place)
            refusal = join(plan, *pair)
            join_before = pair
        elif kind == CORE:
            core, code = said
            if core != len(codes) + 1:
                raise Refused(OUT_OF_TURN, place)
            if code not in CODES:
                refusal = NO_SUCH_CODE
            codes.append(code)
        if refusal is not None:
            raise Refused(refusal, place)

        kind_before = kind
        place += 1 + BYTES_AFTER[kind]


def may_stand_here(kind, kind_before, cores_so_far):
    """Whether a record of this kind can stand here at all, whatever it says."""
    if kind_before is not None and kind < kind_before:
        return False
    if kind == CORE and cores_so_far == MOST_CORES:
        return False
    if kind == END and cores_so_far < MOST_CORES:
        return False
    return True


def handler_said(said):
    """The handler of nine bytes: four numbers with the high byte first, and the core."""
    period, offset, shortest, longest = (256 * said[at] + said[at + 1] for at in (0, 2, 4, 6))
    return Handler(period, offset, shortest, longest, said[8])


# ---- Who goes first on a core (disciplines.md) ----


def distance(handler, time):
    """The least deadline after this time, less the time. Deadlines are the offset and one or more whole periods."""
    deadline = handler.offset + handler.period
    if deadline <= time:
        # Whole periods on to the first deadline that is after the time. One that falls on the time has passed.
        deadline += ((time - deadline) // handler.period + 1) * handler.period
    return deadline - time


def rank(handler, number, code, time):
    """Of two handlers on a core with this code, the one with the smaller rank goes first."""
    if code == FIXED_PRIORITY:
        return (number,)
    if code == RATE_MONOTONIC:
        return (handler.period, number)
    return (distance(handler, time), number)


def orders_at(plan, codes, time):
    """For each core that has handlers, their numbers in the order in which they go at this time."""
    orders = []
    for core in range(1, MOST_CORES + 1):
        here = [number for number in plan.numbers() if plan.handler(number).core == core]
        here.sort(key=lambda number: rank(plan.handler(number), number, codes[core - 1], time))
        if here:
            orders.append(here)
    return orders


# ---- One unit of time (model.md); a state is a tuple of times left, that of number 1 first ----


def starts(handler, time):
    """A handler is released at its offset, and then once in each period."""
    return time >= handler.offset and (time - handler.offset) % handler.period == 0


def ends_period(handler, time):
    """Whether the time is the offset and one or more whole periods after it."""
    return time > handler.offset and (time - handler.offset) % handler.period == 0


def choices(ranges):
    """Every way to take one number of each range."""
    if not ranges:
        yield ()
        return
    for first in ranges[0]:
        for others in choices(ranges[1:]):
            yield (first, *others)


def waits_for(plan):
    """For each handler, in the order of the numbers, the places of those that are joined before it."""
    return [
        [before - 1 for before in plan.numbers() if number in plan.joined_before[before]] for number in plan.numbers()
    ]


def served(left, orders, waiting):
    """The times left after every core has served the first ready handler of its order, all by the same times left."""
    after = list(left)
    for order in orders:
        for number in order:
            place = number - 1
            if left[place] > 0 and all(left[before] == 0 for before in waiting[place]):
                after[place] -= 1
                break
    return tuple(after)


def states_after(plan, codes, waiting, states, time, rows):
    """The states one unit after these. With more than so many there is no need to go on, and then some are missing."""
    starting = [number - 1 for number in plan.numbers() if starts(plan.handler(number), time)]
    ranges = [range(plan.handlers[place].shortest, plan.handlers[place].longest + 1) for place in starting]
    orders = orders_at(plan, codes, time)
    found = set()
    for state in states:
        for times in choices(ranges):
            left = list(state)
            for place, new_time in zip(starting, times):
                left[place] = new_time
            found.add(served(left, orders, waiting))
            if len(found) > rows:
                return found
    return found


# ---- The verdict (model.md, checks.md) ----


def late_at(plan, states, time):
    """The numbers of all handlers that are late at this time in one of the states."""
    return {
        number
        for number in plan.numbers()
        if ends_period(plan.handler(number), time) and any(state[number - 1] > 0 for state in states)
    }


def verdict(plan, codes, working_rows, mark_rows):
    """The words of the one verdict: the times from 0 on, and at each the four tests in their order."""
    the_round = plan.round()
    settling = plan.settling()
    waiting = waits_for(plan)
    states = {(0,) * len(plan.handlers)}
    marks = set()
    time = 0
    while True:
        if len(states) > working_rows:
            return f"working {time} {working_rows}"
        late = late_at(plan, states, time)
        if late:
            return f"missed {time} {min(late)}"
        if time >= settling and (time - settling) % the_round == 0:
            k = (time - settling) // the_round
            # Here the marks are those up to k - 1.
            if k >= 1 and states <= marks:
                return f"kept {k} {len(marks)}"
            marks |= states
            if len(marks) > mark_rows:
                return f"marks {time} {mark_rows}"
        states = states_after(plan, codes, waiting, states, time, working_rows)
        time += 1


def answer(data):
    """The line for these bytes."""
    try:
        plan, codes = read(data)
    except Refused as refused:
        return f"refused {refused.number} {refused.place}\n"
    return verdict(plan, codes, ROWS, ROWS) + "\n"
