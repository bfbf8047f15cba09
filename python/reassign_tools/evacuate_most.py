"""`evacuate --most`: as many machines as it can, the dearest first."""
import time
from collections.abc import Sequence
from dataclasses import asdict, dataclass
from fractions import Fraction

from .closing import given_list, with_fleet
from .emptying import Emptying
from .files import InRoom, list_text, read_list, target, write_whole
from .fleets.amounts import NoAmount, amount
from .fleets.fleet import MACHINES, PRICE
from .fleets.tables import rows_of
from .models import Model, closed_flags, same_sizes
from .names import Names
from .problems import Problem
from .program import Program, closed_words
from .running import no_more_stops, say
from .texts import counted, percent


@dataclass(frozen=True)
class MostOptions:
    """What `evacuate --most` is asked: the names of its files, and for how many seconds it looks."""

    model: str
    initial: str
    closed: str | None
    out: str
    names: str | None
    seconds: int
    closed_out: str | None
    only: bool
    program: str | None


def prices_of(names: Names) -> list[Fraction | None]:
    """What the machines cost, by the column `price` of the fleet's table; None of those of which it doesn't say that."""
    header, *rows = [row.cells for row in rows_of(names.tables.get(MACHINES, ""))] or [[]]
    if PRICE not in header or "machine" not in header or PRICE in names.resources:
        return [None] * len(names.machines)
    prices: dict[str, Fraction] = {}
    at, price_at = header.index("machine"), header.index(PRICE)
    for row in rows:
        try:
            prices[row[at]] = amount(row[price_at])
        except (NoAmount, IndexError):
            pass
    return [prices.get(name) for name in names.machines]


def empty_most(options: MostOptions, room: InRoom, names: Names | None) -> None:
    """Does what the options ask for, and tells it."""
    program = Program(options.program)
    inputs = program.name, options.model, options.initial, options.closed, options.names
    out = target(options.out, *inputs)
    closed_out = target(options.closed_out or f"{options.out}.closed", options.out, *inputs)
    given = given_list(options, names, room)
    program.costs(options.model, options.initial, options.initial, *closed_words(given))
    model, start = Model.read(options.model), read_list(options.initial)
    same_sizes(model, options.model, start)
    names = names or Names.numbers(model)
    closed = closed_flags(model, with_fleet(options, given, names, room))
    prices = prices_of(names)
    emptying = Emptying(model, start, closed, [one or Fraction(0) for one in prices])
    order = sorted(range(model.machines), key=lambda m: (prices[m] is None, -(prices[m] or 0), emptying.part_in_use(m), m))
    try:
        emptying.go_on(order, time.monotonic() + options.seconds)
    except KeyboardInterrupt:
        no_more_stops()
        emptying.take_back()
        say(f"stopped; {options.out} has the list so far")
    emptied = sorted(emptying.emptied)
    shut = sorted({*emptied, *(machine for machine, is_closed in enumerate(closed) if is_closed)})
    write_whole(room("closed_now"), [list_text(shut)])
    write_whole(room("found"), [list_text(emptying.now)])
    costs = program.costs(options.model, options.initial, room("found"), "--closed", room("closed_now"))
    for name, file in ((out, "found"), (closed_out, "closed_now")):
        with open(room(file), "rb") as text:
            write_whole(name, text)
    tell(emptying, emptied, prices, names)
    print("".join(f"{name} {value}\n" for name, value in asdict(costs).items()), end="")


def tell(emptying: Emptying, emptied: Sequence[int], prices: Sequence[Fraction | None], names: Names) -> None:
    """Tells which machines are empty, what they cost or have together, and who moves for that."""
    model, start, now = emptying.model, emptying.start, emptying.now
    there = set(start)
    count = sum(machine in there for machine in emptied)
    print(f"empty {len(emptied):,} of {counted(model.machines, 'machine')}, of which {len(emptied) - count:,} were before: "
          f"{', '.join(names.machines[m] for m in emptied) or 'none'}")
    if any(price is not None for price in prices):
        paid, price = (sum((prices[m] or Fraction(0) for m in some), Fraction(0)) for some in (emptied, range(model.machines)))
        print(f"price {float(paid):,.10g} of {float(price):,.10g} together ({percent(float(paid / price) if price else 0.0)})")
    for r in names.shown():
        own, all_of_them = (sum(model.capacity[m][r] for m in some) for some in (emptied, range(model.machines)))
        print(f"{names.resources[r]} {names.amount(r, own)} of {names.amount(r, all_of_them)} together "
              f"({percent(float(own / all_of_them) if all_of_them else 0.0)})")
    print(f"moved {sum(a != b for a, b in zip(start, now)):,} of {counted(model.processes, 'process', 'processes')}")
