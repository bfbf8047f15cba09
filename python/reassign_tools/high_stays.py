"""A model in which staying on a closed machine costs more than anything else."""
import copy
from collections.abc import Iterable, Sequence

from .files import LARGEST
from .models import Model


def with_high_stays(model: Model, start: Sequence[int], flags: Sequence[bool]) -> Model:
    """The model in which nobody who begins at the list `start` stays on a machine that has a flag, if it can be helped: the way
    from such a machine to itself, which a model may give any cost, is the dearest. All other lists cost what they cost."""
    changed = copy.copy(model)
    changed.ways, changed.rows = list(model.ways), {}
    staying = [process for process, machine in enumerate(start) if flags[machine]]
    most = max((most_rise(model, process, model.way_costs(start[process])) for process in staying), default=0)
    if model.weights[2] * LARGEST <= most:
        changed.ways = [b" ".join([b"0"] * model.machines)] * model.machines
        changed.weights = [*model.weights[:2], LARGEST]
    for machine, is_closed in enumerate(flags):
        if is_closed:
            row = changed.ways[machine].split()
            row[machine] = b"%d" % LARGEST
            changed.ways[machine] = b" ".join(row)
    return changed


def most_rise(model: Model, process: int, ways: Iterable[int]) -> int:
    """No less than what the cost rises by if a process leaves its machine."""
    required, weights = model.required[process], model.weights
    load = sum(weight * more for weight, more in zip(model.load_weights, required))
    balance = sum(weight * (goal * required[one] + required[two]) for one, two, goal, weight in model.balances)
    return load + balance + weights[0] * model.move_cost[process] + weights[1] + weights[2] * max(ways)


def pinned(changed: Model, start: Sequence[int], flags: Sequence[bool]) -> Model:
    """Such a model in which moving anybody else costs more than it can bring."""
    model = copy.copy(changed)
    model.move_cost = [0 if flags[machine] else LARGEST for machine in start]
    model.weights = [LARGEST, *changed.weights[1:]]
    return model
