"""A rank test between two solvers over the same seeds: Wilcoxon's signed ranks, two-sided."""
import math
from collections import Counter
from collections.abc import Callable, Iterable, Sequence
from dataclasses import dataclass
from itertools import combinations

from .race_rows import Group, Row, Table, budget_head, groups_of, has_slacks, place_of

MOST_EXACT = 50  # differences other than 0 of which the p is exact
ALL = "all"


@dataclass(frozen=True)
class Ranks:
    """What the test says of some differences: how many are below 0, above it and 0, the lesser sum of ranks, and p: how often a
    sum as small as that comes by chance, if either sign is as likely as the other."""
    below: int
    above: int
    equal: int
    sum: float
    p: float


def signed_ranks(differences: Iterable[float]) -> Ranks:
    """The test of some differences. Those that are 0 are left out. Equal ones share the middle of their ranks, and p is that of
    these ranks: by all ways to give signs to up to MOST_EXACT of them, and by the normal distribution for more."""
    given = list(differences)
    left = [one for one in given if one]
    ranks = doubled_ranks([abs(one) for one in left])
    below = sum(rank for one, rank in zip(left, ranks) if one < 0)
    least = min(below, sum(ranks) - below)
    p = exact_p(ranks, least) if len(left) <= MOST_EXACT else normal_p(ranks, least)
    return Ranks(sum(one < 0 for one in left), sum(one > 0 for one in left), len(given) - len(left), least / 2, p)


def doubled_ranks(sizes: Sequence[float]) -> list[int]:
    """Twice the rank of each size, the least of which has rank 1."""
    counts, ranks, before = Counter(sizes), {}, 0
    for size in sorted(counts):
        ranks[size] = 2 * before + counts[size] + 1
        before += counts[size]
    return [ranks[size] for size in sizes]


def exact_p(ranks: Sequence[int], least: int) -> float:
    """The share of all ways to give signs to the ranks in which one of the two sums is at most `least`."""
    ways = [1] + [0] * least  # by the sum of those with a minus
    for rank in ranks:
        for total in range(least, rank - 1, -1):
            ways[total] += ways[total - rank]
    return min(1.0, 2 * sum(ways) / (1 << len(ranks)))


def normal_p(ranks: Sequence[int], least: int) -> float:
    """About the same, by the normal distribution with the same middle and spread, and half a rank towards the middle."""
    spread = math.sqrt(sum(rank * rank for rank in ranks)) / 4
    away = max(0.0, sum(ranks) / 4 - least / 2 - 0.5)
    return math.erfc(away / spread / math.sqrt(2))


# The solvers of a race


def difference_of(value: Callable[[Row], float | None], one: Row, other: Row) -> float:
    """How much dearer a run is than another. One without a feasible list is dearer than any with one, and as dear as another
    without."""
    first, second = value(one), value(other)
    if first is None or second is None:
        return 0.0 if first is second else math.inf if first is None else -math.inf
    return first - second


def compared(value: Callable[[Row], float | None], pairs: Iterable[tuple[Row, Row]]) -> list[str]:
    found = signed_ranks(difference_of(value, one, other) for one, other in pairs)
    counts = (found.below + found.above + found.equal, found.below, found.above, found.equal)
    return [*map(str, counts), f"{found.sum:g}", f"{found.p:.4f}" if found.p >= 0.0001 else f"{found.p:.1e}"]


def pairs_of(one: Group, other: Group) -> list[tuple[Row, Row]]:
    """The runs of two solvers that have the same seed."""
    by_seed = {row.seed: row for row in other}
    return [(row, by_seed[row.seed]) for row in one if row.seed in by_seed]


def rank_table(rows: Sequence[Row]) -> Table:
    """A line for each instance, budget and two solvers; then, if there are several instances, one for all of them, by the share
    of the way that is left."""

    def named(group: Group) -> str:
        return group[0].solver + (f", slack {group[0].slack}" if group[0].slack and has_slacks(rows) else "")
    by_race: dict[tuple[str, str], list[Group]] = {}
    pooled: dict[tuple[str, str, str], list[list[tuple[Row, Row]]]] = {}
    for group in sorted(groups_of(rows).values(), key=place_of(rows)):
        by_race.setdefault((group[0].instance, group[0].budget()), []).append(group)
    lines = []
    for (instance, budget), groups in by_race.items():
        for one, other in combinations(groups, 2):
            names, pairs = (named(one), named(other)), pairs_of(one, other)
            pooled.setdefault((budget, *names), []).append(pairs)
            lines.append([instance, budget, *names, *compared(lambda row: row.cost, pairs)])
    for key, some in pooled.items():
        if len(some) > 1:
            lines.append([ALL, *key, *compared(lambda row: row.left, (pair for pairs in some for pair in pairs))])
    return Table(["instance", budget_head(rows), "one", "other", "pairs", "one is cheaper", "other is cheaper", "equal", "rank sum",
                  "p"], lines)
