"""The schedule of `improve`: calls of `anneal` that go on, each with its part of the cooling."""
from collections.abc import Callable
from dataclasses import dataclass
from typing import Protocol

from .words import MOST_PROPOSALS

Heat = tuple[int, int]  # from which and to which a piece cools down

PIECES, FIRST = 10, 1 / 16  # pieces of a search, and the share of the first one, which chooses the heat
LONGEST = 10.0  # seconds of a piece, if that is long beside what it takes besides its tries:
AROUND, FAR_BY = 10, 2  # so many times a call without tries, and a descent from the start
LEAST_PIECE = 2_000_000  # tries of a piece, if their number is given
ENOUGH = 200_000  # tries for each machine from which on the heat doesn't depend on them
GOING_ON = 1 / 16  # of the heat: where a search begins that goes on from a list that one has already
PILOT, PILOT_SHARE, GROWTH = 100_000, 0.02, 8  # tries of the first pilot; how much of the time it takes, else one of more comes
SURE = 0.75  # the part of the time that is left for which a last piece is planned, since times swing
PAIR = 5e-9  # seconds for each process and machine in which a descent finds nothing
FAR, ENTERED = 12, 0.4  # as many times that takes a descent from the start; of it, the time for which a search is tried
LEAST_TRIED = 0.2  # the least part of the time for the first tries on a large instance
MOST_FIRST = 0.9  # and the most for the piece that makes them
PROPOSALS, BY_PROPOSAL = 1, 8  # of `solve` for each process; tries in the time of a proposal, about


@dataclass
class Piece:
    """What a piece came to: its tries, and how many it had in a second; the heats from which and to which it cooled down."""
    tries: int
    rate: float
    heat: Heat


class Search(Protocol):
    """What makes the calls. Those of `anneal` and of `solve` answer None if their time was over before they were."""

    processes: int

    def left(self) -> float: ...
    def descend(self) -> None: ...
    def call(self, tries: int, heat: Heat | None, *, limit: float | None = None) -> Piece | None: ...
    def solve(self, proposals: int, has_limit: bool = True) -> float | None: ...


class Cooling:
    """The heat of a search, which falls with the fourth power of what is left."""

    def __init__(self, machines: int, is_going_on: bool) -> None:
        self.machines, self.is_going_on, self.heat = machines, is_going_on, 0.0

    def share(self, tries: int) -> float:
        """How much of a full search one of so many tries is."""
        return min(1.0, tries / (ENOUGH * self.machines))

    def begin(self, chosen: float, tries: int, left: int) -> None:
        """The first piece has chosen a heat for its tries, and so many are left: a longer search is begun at a greater heat."""
        whole = tries + left
        self.heat = chosen * self.share(whole) / max(self.share(tries), 1e-9) * (left / max(whole, 1)) ** 4
        if self.is_going_on:
            self.heat = min(self.heat, chosen * GOING_ON)

    def cut(self, share: float) -> Heat:
        """The heats of a piece that has such a share of what is left."""
        return round(self.heat), round(self.heat * (1 - share) ** 4)

    def passed(self, share: float) -> None:
        self.heat *= (1 - share) ** 4


def pieces_of_tries(call: Callable[[int, Heat | None], Piece | None], cooling: Cooling, tries: int) -> None:
    """A search of so many tries, whose pieces are a function of their number alone. `call` makes a piece."""
    count = max(1, min(PIECES, tries // LEAST_PIECE))
    first = tries if count == 1 and not cooling.is_going_on else max(1, int(tries * FIRST))
    piece, left = call(first, None), tries - first
    assert piece
    cooling.begin(piece.heat[0], first, left)
    for part in range(count, 0, -1):
        some = left // part
        if some:
            call(some, cooling.cut(1 / part))
        cooling.passed(1 / part)
        left -= some


class Timed:
    """A search that ends on time. `search` makes the calls; `left` says how many seconds there are."""

    def __init__(self, search: Search, cooling: Cooling, reading: float) -> None:
        self.search, self.cooling, self.left = search, cooling, search.left
        pairs = PAIR * search.processes * cooling.machines
        self.around, self.far = reading + pairs, FAR * pairs  # seconds of a call besides its tries, at its least and from the start
        self.rate, self.whole = 0.0, self.left()

    def go(self) -> None:
        if self.far < max(0.25 * self.whole, 0.5):
            self.begin()
            piece = self.anneal(FIRST * self.whole)
        else:
            piece = self.begin_large()
        if piece:
            self.cool(piece)

    def learn(self, tries: int, seconds: float) -> None:
        self.rate = tries / max(seconds - self.around, 0.3 * seconds, 1e-3)

    def begin(self) -> None:
        """A descent comes first, and then short pilots tell the rate of tries, until one takes long enough."""
        before = self.left()
        self.search.descend()
        self.far, tries = before - self.left(), PILOT
        while self.left() > 0:
            before = self.left()
            piece = self.search.call(tries, (0, 0))
            seconds = before - self.left()
            if tries == PILOT:
                self.around = seconds
            if piece:
                self.learn(tries, seconds)
            if not piece or seconds > self.around + PILOT_SHARE * self.whole:
                return
            tries *= GROWTH

    def begin_large(self) -> Piece | None:
        """On a large instance a descent takes too long before a search. Proposals of `solve` come first, whose rate tells about that
        of tries. If the first piece isn't over in its part of the time, there are more of these. Answers that piece, or None."""
        least = PROPOSALS * self.search.processes
        each = self.search.solve(least, has_limit=False)
        assert each
        self.rate, left = BY_PROPOSAL / each, self.left()
        piece: Piece | None = None
        if left > ENTERED * self.far:
            tried = max(SURE * left - self.far, LEAST_TRIED * left)
            piece = self.anneal(tried, MOST_FIRST * left, is_known=False)
            self.far = min(self.far, left - self.left())
        if piece is None and (proposals := int(SURE * (self.left() - self.around) / each)) > least:
            self.search.solve(min(MOST_PROPOSALS, proposals))
        if piece is None and self.left() > 0:
            self.search.call(0, (0, 0))
        return piece

    def anneal(self, seconds: float, limit: float | None = None, is_known: bool = True) -> Piece | None:
        """The first piece, which chooses the heat. Its tries take so many seconds. It tells their rate, if it is known what else
        takes its time."""
        if not self.rate or self.left() < 2 * self.around:
            return None
        before = self.left()
        piece = self.search.call(max(1, int(seconds * self.rate)), None, limit=limit)
        if piece:
            if is_known:
                self.learn(piece.tries, before - self.left())
            self.cooling.begin(piece.heat[0], piece.tries, int(self.rate * max(self.left(), 0)))
        return piece

    def cool(self, first: Piece) -> None:
        """The other pieces: the last ones are short, and one that isn't over at the end is lost."""
        piece: Piece | None = first
        whole = self.left()
        if whole < 2 * self.far:
            self.cooling.heat = 0.0  # after a piece at some heat a descent takes about as long as one from the start
        longest = min(max(min(whole / PIECES, LONGEST), self.around * AROUND, self.far * FAR_BY), SURE * whole)
        while piece and (left := self.left()) > 0:
            share = longest / left if left > 1.5 * longest else 1.0
            seconds = (longest if share < 1 else SURE * left) - self.around
            piece = self.search.call(max(1, int(seconds * self.rate)), self.cooling.cut(share))
            if piece:
                self.learn(piece.tries, left - self.left())
                self.cooling.passed(share)
