"""The plans that are measured: their shapes, and the bytes of their files (docs/planfile.md)."""

from dataclasses import dataclass, field, replace
from math import lcm, prod
from typing import NamedTuple

MOST_ROWS = 65_535
ALL = range(1, 9)
FIXED, MONOTONIC, DEADLINE = 1, 2, 3
CRITERIA = {FIXED: "fixed", MONOTONIC: "monotonic", DEADLINE: "deadline"}
MIXED = (1, 2, 3, 1, 2, 3, 1, 2)


class Handler(NamedTuple):
    period: int
    offset: int
    shortest: int
    longest: int
    core: int


@dataclass
class Plan:
    """A plan under a name. `small` plans take no peer more than some milliseconds."""

    group: str
    name: str
    handlers: list
    joins: list = field(default_factory=list)
    codes: tuple = (FIXED,) * 8
    rows: int = MOST_ROWS
    small: bool = False

    def file(self):
        """The bytes of its file."""
        two = lambda number: number.to_bytes(2, "big")
        records = [
            b"\1" + two(h.period) + two(h.offset) + two(h.shortest) + two(h.longest) + bytes([h.core])
            for h in self.handlers
        ]
        records += [bytes((2, first, then)) for first, then in sorted(self.joins)]
        records += [bytes((3, core, code)) for core, code in zip(ALL, self.codes)]
        return b"".join(records) + b"\4"

    def with_rows(self, rows):
        """The same plan for tables of so many rows."""
        return replace(self, rows=rows)

    @property
    def round(self):
        return lcm(*(h.period for h in self.handlers))

    @property
    def settling(self):
        return max((h.offset for h in self.handlers), default=0)

    @property
    def combinations(self):
        """Of the times that the handlers may take."""
        return prod(h.longest - h.shortest + 1 for h in self.handlers)


def read(group, name, data):
    """The plan of a file that is not refused."""
    handlers, joins, codes, place = [], [], [], 0
    number = lambda at: data[place + at] * 256 + data[place + at + 1]
    while data[place] != 4:
        if data[place] == 1:
            handlers.append(Handler(number(1), number(3), number(5), number(7), data[place + 9]))
            place += 10
        else:
            (joins if data[place] == 2 else codes).append((data[place + 1], data[place + 2]))
            place += 3
    return Plan(group, name, handlers, joins, tuple(code for _, code in codes), small=True)


def apart(longest, offsets=False, period=None):
    """A handler on each core, with times from 1 to the longest: the times of all combine."""
    period = period or max(longest) * 5 // 4 + 4
    return [Handler(period, i % 3 if offsets else 0, 1, most, i + 1) for i, most in enumerate(longest)]


def independent_cores():
    """From 100 states at once to all that the greatest tables hold."""
    sizes = [(10,) * 2, (22,) * 2, (255,) * 2, (8,) * 3, (17,) * 3, (40,) * 3, (5,) * 4, (8,) * 4, (15,) * 4]
    sizes += [(8,) * 5, (6,) * 6, (3,) * 8, (3, 5, 17, 257)]
    for longest in sizes:
        times = f"1..{longest[0]}" if len(set(longest)) == 1 else "mixed"
        for offsets in (False, True):
            name = f"{len(longest)} cores, times {times}" + ", offsets" * offsets
            plan = Plan("independent cores", name, apart(longest, offsets))
            yield replace(plan, small=plan.combinations <= 7000)


def on_one_core():
    """Many states on one core, under each criterion."""
    shapes = {
        "3 handlers, times 1..8": [Handler(40, 0, 1, 8, 1)] * 3,
        "3 handlers, times 1..40": [Handler(160, 0, 1, 40, 1)] * 3,
        "4 handlers, times 1..9": [Handler(60, 0, 1, 9, 1)] * 4,
        "4 handlers, times 1..15": [Handler(90, 0, 1, 15, 1)] * 4,
        "12 handlers, times 1..2": [Handler(48, 0, 1, 2, 1)] * 12,
        "16 handlers, equal periods": [Handler(64, 0, 1, 2, 1)] * 15 + [Handler(64, 0, 1, 1, 1)],
        "5 handlers, other periods and offsets": [
            Handler(40, 0, 1, 5, 1),
            Handler(60, 0, 1, 6, 1),
            Handler(80, 3, 1, 7, 1),
            Handler(120, 5, 1, 8, 1),
            Handler(120, 7, 1, 7, 1),
        ],
        "8 handlers, other periods and offsets": [
            Handler((60, 80, 90, 120)[i % 4], 2 * i, 1, 2 + i % 4, 1) for i in range(8)
        ],
        "8 handlers with offsets, and one apart": [Handler(100, i, 1, 3, 1) for i in range(8)]
        + [Handler(50, 0, 1, 4, 2)],
    }
    for name, handlers in shapes.items():
        for code, criterion in CRITERIA.items():
            plan = Plan("one core", f"{name}, {criterion}", handlers, codes=(code,) * 8)
            yield replace(plan, small="offsets" in name or plan.combinations <= 7000)


def of_joins():
    """Chains and forks."""
    for code, criterion in CRITERIA.items():
        handlers = [Handler(64, 0, 1, 4, 1 + i % 4) for i in range(6)]
        chain = [(i, i + 1) for i in range(1, 6)]
        yield Plan("joins", f"a chain of 6, {criterion}", handlers, chain, (code,) * 8, small=True)
        handlers = [Handler(120, 0, 1, 6, 1 + i % 3) for i in range(6)]
        fork = [(1, 2), (1, 3), (2, 4), (3, 5), (4, 6), (5, 6)]
        yield Plan("joins", f"a fork of 6, {criterion}", handlers, fork, (code,) * 8)
    handlers = [Handler(200, 0, 2, 3, 1 + i % 8) for i in range(14)]
    yield Plan("joins", "a chain of 14", handlers, [(i, i + 1) for i in range(1, 14)])
    handlers = [Handler(300, 0, 1, 2, 1 + i % 8) for i in range(64)]
    fans = [(i, i + 8) for i in range(1, 57)]
    handlers = [h._replace(shortest=h.longest) if i >= 12 else h for i, h in enumerate(handlers)]
    yield Plan("joins", "8 chains of 8", handlers, fans, MIXED)


def of_64_handlers():
    """One state at a time, or few, with many handlers."""
    on = lambda i: 1 + i % 8
    for code, criterion in CRITERIA.items():
        handlers = [Handler(200 + 8 * (i % 4), i, 1, 1, on(i)) for i in range(64)]
        yield Plan("64 handlers", f"8 cores, round 1965600, {criterion}", handlers, codes=(code,) * 8)
        handlers = [Handler((128, 160, 192, 256)[i % 4], i % 5, 1, 1, 1) for i in range(64)]
        yield Plan("64 handlers", f"one core, {criterion}", handlers, codes=(code,) * 8, small=True)
    handlers = [Handler((1000, 1024, 1100, 1375, 625)[i % 5], 7 * i, 3, 3, on(i)) for i in range(64)]
    yield Plan("64 handlers", "8 cores, round 7040000, mixed", handlers, codes=MIXED)
    handlers = [Handler((210, 300, 420, 600)[i % 4], 3 * i, 2, 2, on(i)) for i in range(64)]
    handlers = [h._replace(period=420, offset=0) if i < 16 else h for i, h in enumerate(handlers)]
    joins = [(i, i + 8) for i in range(1, 9)]
    yield Plan("64 handlers", "8 cores, joins, mixed", handlers, joins, MIXED, small=True)
    handlers = [Handler((64, 72, 96, 128)[i % 4], i, 1 + i % 2, 1 + i % 2, on(i)) for i in range(64)]
    yield Plan("64 handlers", "8 cores, short periods, mixed", handlers, codes=MIXED, small=True)
    handlers = [Handler(128, i, 1, 1, on(i)) for i in range(60)] + [Handler(128, 0, 1, 6, i) for i in range(1, 5)]
    yield Plan("64 handlers", "8 cores, 1296 states, deadline", handlers, codes=(DEADLINE,) * 8, small=True)
    # With long periods a core works 16 of some thousand units.
    handlers = [Handler((32768, 16384)[i % 2], 11 * i, 2, 2, on(i)) for i in range(64)]
    yield Plan("64 handlers", "8 cores, idle, round 32768, mixed", handlers, codes=MIXED, small=True)
    handlers = [Handler((4096, 4095)[i // 8 % 2], 5 * i, 2, 2, on(i)) for i in range(64)]
    yield Plan("64 handlers", "8 cores, idle, round 16773120, fixed", handlers)
    yield Plan("64 handlers", "8 cores, idle, round 16773120, mixed", handlers, codes=MIXED)


def of_other_verdicts():
    """Plans that are missed, and plans for which the rows do not suffice."""
    group = "other verdicts"
    yield Plan(group, "missed at once", [Handler(2, 0, 3, 3, 1)], small=True)
    handlers = [Handler(10, 0, 1, 4, 1), Handler(14, 0, 1, 5, 1), Handler(35, 0, 2, 9, 1)]
    for code, criterion in CRITERIA.items():
        yield Plan(group, f"missed, one core, {criterion}", handlers, codes=(code,) * 8, small=True)
    handlers = apart((12,) * 4, period=20) + [Handler(20, 19, 21, 21, 5)]
    yield Plan(group, "missed, 20736 states", handlers)
    yield Plan(group, "missed, 64 handlers", [Handler(600, i, 10, 10, 1) for i in range(64)], small=True)
    yield Plan(group, "working rows, 4 cores, at once", apart((16,) * 4))
    yield Plan(group, "working rows, 8 cores, at once", apart((4,) * 8))
    handlers = [Handler(40, i, 1, 9, i + 1) for i in range(8)]
    yield Plan(group, "working rows, 8 cores, later", handlers)
    yield Plan(group, "working rows, few rows", apart((12,) * 3), rows=500, small=True)
    # What a join delays works on past the end of its round: so the states at the second mark time are more.
    handlers = [(0, 8, 16, 3), (0, 8, 24, 1), (8, 4, 4, 2), (8, 32, 32, 8), (0, 8, 24, 2), (8, 8, 8, 3)]
    handlers = [Handler(40, *numbers) for numbers in handlers]
    joins = [(4, 3), (4, 6)]
    plan = Plan(group, "kept, 4981 marks", handlers, joins, (DEADLINE,) * 8)
    yield plan
    yield replace(plan, name="marks, few rows", rows=3000)


def measured(examples):
    """All plans; `examples` are the names and the bytes of stored files."""
    for shape in (independent_cores, on_one_core, of_joins, of_64_handlers, of_other_verdicts):
        yield from shape()
    for name, data in examples:
        yield read("figure 5", name, data)


def scaling():
    """The same shape twice: with about 500 states at once, and with about 65,000."""
    few_many = [
        ("2 cores", apart((22,) * 2), apart((255,) * 2)),
        ("3 cores", apart((8,) * 3), apart((40,) * 3)),
        ("3 cores, offsets", apart((8,) * 3, True), apart((40,) * 3, True)),
    ]
    for code, criterion in CRITERIA.items():
        three = [[Handler(4 * most, 0, 1, most, 1)] * 3 for most in (8, 40)]
        few_many.append((f"one core, 3 handlers, {criterion}", *three, code))
    for shape, few, many, *code in few_many:
        codes = tuple(code or [FIXED]) * 8
        yield shape, *[Plan("scaling", shape, handlers, codes=codes) for handlers in (few, many)]
