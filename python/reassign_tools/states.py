"""An assignment, and what a shift of one process would break in it."""
from .models import Model

Cause = tuple[str | int, ...]  # a broken rule as the program tells it: its word and its numbers


class State:
    """An assignment with what it uses, and what a shift of one process would break."""

    def __init__(self, model: Model, start: list[int], now: list[int], closed: list[bool]) -> None:
        self.model, self.start, self.now, self.closed = model, start, list(now), closed
        self.use = model.use(now)
        self.held = model.left_behind(start, now)
        self.members = model.members()
        self.needed_by: list[list[int]] = [[] for _ in range(model.services)]
        for service, needs in enumerate(model.needs):
            for needed in set(needs):
                self.needed_by[needed].append(service)
        self.known_lonely: dict[tuple[int, int], tuple[int, int, int] | None] = {}  # by process and neighbourhood

    def shift(self, process: int, machine: int) -> None:
        """Takes a process to a machine, whatever that breaks."""
        here, home, required = self.now[process], self.start[process], self.model.required[process]
        self.use[here] = [used - less for used, less in zip(self.use[here], required)]
        self.use[machine] = [used + more for used, more in zip(self.use[machine], required)]
        if here == home != machine:
            self.held[home] = [held + more for held, more in zip(self.held[home], required)]
        elif machine == home != here:
            self.held[home] = [held - less for held, less in zip(self.held[home], required)]
        self.now[process] = machine
        self.known_lonely.clear()

    def hoods_of(self, service: int, without: int | None = None) -> set[int]:
        hoods = self.model.hoods
        return {hoods[self.now[p]] for p in self.members[service] if p != without}

    def room_lacks(self, process: int, machine: int) -> Cause | None:
        """The first capacity, else the first transient capacity, that a process would break on a machine which it isn't
        on, as the program's cause: (word, machine, resource, used, capacity), or None."""
        model, used = self.model, self.use[machine]
        required, capacity = model.required[process], model.capacity[machine]
        for resource, more in enumerate(required):
            if used[resource] + more > capacity[resource]:
                return "capacity", machine, resource, used[resource] + more, capacity[resource]
        held, home = self.held[machine], self.start[process] == machine
        for resource, more in enumerate(required):
            if model.transient[resource]:
                want = used[resource] + held[resource] + (0 if home else more)
                if want > capacity[resource]:
                    return "transient", machine, resource, want, capacity[resource]
        return None

    def breaks(self, process: int, machine: int) -> Cause | None:
        """What a shift of a process to a machine would break first, in the program's words, or None."""
        model, service = self.model, self.model.service[process]
        lacks = self.room_lacks(process, machine)
        if lacks:
            return lacks
        others = [self.now[p] for p in self.members[service] if p != process]
        if machine in others:
            return "conflict", service, machine
        has = len({model.locations[m] for m in others} | {model.locations[machine]})
        if has < model.spreads[service]:
            return "spread", service, has, model.spreads[service]
        lonely = self.lonely(process, model.hoods[machine])
        if lonely:
            return "dependency", *lonely
        if self.closed[machine] and self.start[process] != machine:
            return "closed", process, machine
        return None

    def lonely(self, process: int, hood: int) -> tuple[int, int, int] | None:
        """The first service, with one that it needs and the neighbourhood in which that would be missing, if a process went
        to a neighbourhood; or None."""
        if (process, hood) not in self.known_lonely:
            self.known_lonely[process, hood] = self.first_lonely(process, hood)
        return self.known_lonely[process, hood]

    def first_lonely(self, process: int, hood: int) -> tuple[int, int, int] | None:
        model, service = self.model, self.model.service[process]
        own = self.hoods_of(service, process) | {hood}
        for asking in sorted({service, *self.needed_by[service]}):
            places = own if asking == service else self.hoods_of(asking)
            for needed in model.needs[asking]:
                if asking != service and needed != service:
                    continue
                near = own if needed == service else self.hoods_of(needed)
                lonely = sorted(places - near)
                if lonely:
                    return asking, needed, lonely[0]
        return None
