"""Services that depend on each other in rings."""
from collections import deque
from collections.abc import Iterator, Sequence


def rings(needs: Sequence[Sequence[int]]) -> Iterator[tuple[list[int], int]]:
    """The rings among things that need others, by their numbers: for each group of several that all need each other, directly
    or not, a shortest ring from its first one, and how many are in the group.

    >>> list(rings([[1], [0], [3], [], [4]]))
    [([0, 1], 2)]
    """
    for members in groups(needs):
        if len(members) > 1:
            yield shortest_ring(min(members), set(members), needs), len(members)


def groups(needs: Sequence[Sequence[int]]) -> list[list[int]]:
    """The groups of things of which each needs each other one, in the order of their first ones."""
    order, seen = [], set()
    for root in range(len(needs)):
        if root in seen:
            continue
        seen.add(root)
        path = [(root, iter(needs[root]))]
        while path:
            at, left = path[-1]
            following = next((one for one in left if one not in seen), None)
            if following is None:
                order.append(path.pop()[0])
            else:
                seen.add(following)
                path.append((following, iter(needs[following])))
    needed_by: list[list[int]] = [[] for _ in needs]
    for at, some in enumerate(needs):
        for one in some:
            needed_by[one].append(at)
    group: set[int] = set()
    found = []
    for root in reversed(order):
        if root not in group:
            found.append(reached(root, needed_by, group))
    return sorted(found, key=min)


def reached(root: int, following: list[list[int]], taken: set[int]) -> list[int]:
    """What is reached from a root and isn't taken yet. It is taken then."""
    taken.add(root)
    members = [root]
    for at in members:  # which grows meanwhile
        for one in following[at]:
            if one not in taken:
                taken.add(one)
                members.append(one)
    return members


def shortest_ring(start: int, members: set[int], needs: Sequence[Sequence[int]]) -> list[int]:
    """The numbers of a shortest ring of several members, from the start on."""
    before: dict[int, int] = {}
    queue = deque([start])
    while True:
        at = queue.popleft()
        for one in needs[at]:
            if one == start != at:
                path = [at]
                while path[-1] != start:
                    path.append(before[path[-1]])
                return path[::-1]
            if one in members and one != start and one not in before:
                before[one] = at
                queue.append(one)
