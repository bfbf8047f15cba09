"""Words of proposals."""
from collections.abc import Iterable, Sequence

MOST_BYTES = 131_071  # of one word of a command, on Linux


def lot_of(proposals: Iterable[Sequence[int]]) -> tuple[str, int]:
    """One lot of written proposals, each of up to eight numbers, and how many of them fit into it."""
    text, size = [], 2
    for proposal in proposals:
        word = ",".join(map(str, proposal)) + ",0" * (8 - len(proposal))
        size += len(word) + 1
        if size > MOST_BYTES:
            break
        text.append(word)
    return "w:" + ",".join(text), len(text)
