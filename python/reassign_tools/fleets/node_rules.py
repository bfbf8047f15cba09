"""To which nodes of a Kubernetes cluster a pod is kept: by node selectors, node affinity, and taints."""
from __future__ import annotations

from collections.abc import Callable, Iterable, Iterator, Mapping, Sequence
from dataclasses import dataclass, field
from typing import TYPE_CHECKING, Any

if TYPE_CHECKING:
    from .kubernetes import Node, Pod

ZONES = ("topology.kubernetes.io/zone", "failure-domain.beta.kubernetes.io/zone")
CORDON = "node.kubernetes.io/unschedulable"  # the taint of a node that is closed anyway
KEEPING = ("NoSchedule", "NoExecute")
FIXED = "fixed"
Json = dict[str, Any]  # an object as kubectl writes it


@dataclass
class Kept:
    """Pods that are kept to some nodes by one rule."""

    name: str
    nodes: frozenset[int]  # those where they may be
    pods: list[int] = field(default_factory=list)


def matches(expression: Json, values: Mapping[str, Any]) -> bool:
    """Whether one expression of a node selector term holds for labels or fields."""
    key, operator, wanted = expression.get("key", ""), expression.get("operator"), expression.get("values") or []
    value = values.get(key)
    if operator == "In":
        return value in wanted
    if operator == "NotIn":
        return value not in wanted
    if operator == "Exists":
        return value is not None
    if operator == "DoesNotExist":
        return value is None
    if operator in ("Gt", "Lt") and value is not None and len(wanted) == 1:
        try:
            return int(value) > int(wanted[0]) if operator == "Gt" else int(value) < int(wanted[0])
        except ValueError:
            return False
    return False


def term_holds(term: Json, node: Node) -> bool:
    """Whether a term of node affinity holds for a node. One without expressions holds for none."""
    labels, fields = term.get("matchExpressions") or [], term.get("matchFields") or []
    return bool(labels or fields) and (all(matches(one, node.labels) for one in labels)
                                       and all(matches(one, {"metadata.name": node.name}) for one in fields))


def term_told(term: Json) -> str:
    told = [f"{one.get('key')} {one.get('operator')} {' '.join(one.get('values') or [])}".strip()
            for one in [*(term.get("matchExpressions") or []), *(term.get("matchFields") or [])]]
    return " and ".join(told)


def tolerates(tolerations: Iterable[Json], taint: Json) -> bool:
    """Whether one of the tolerations lets a pod onto a node with this taint."""
    for one in tolerations:
        is_same = one.get("operator") == "Exists" or (one.get("value") or "") == (taint.get("value") or "")
        if one.get("effect") in (None, "", taint.get("effect")) and (
                one.get("key") == taint.get("key") and is_same or not one.get("key") and one.get("operator") == "Exists"):
            return True
    return False


def rules_of(spec: Json, nodes: Sequence[Node]) -> Iterator[tuple[str, frozenset[int]]]:
    """The rules that keep a pod to nodes: the name of each, and the numbers of those nodes where it lets the pod be."""
    def those(holds: Callable[[Node], bool]) -> frozenset[int]:
        return frozenset(at for at, node in enumerate(nodes) if holds(node))
    for key, value in (spec.get("nodeSelector") or {}).items():
        yield f"{key}={value}", those(lambda node: bool(node.labels.get(key) == value))
    affinity = (spec.get("affinity") or {}).get("nodeAffinity") or {}
    required = affinity.get("requiredDuringSchedulingIgnoredDuringExecution")
    if required:
        terms = required.get("nodeSelectorTerms") or []
        yield " or ".join(map(term_told, terms)), those(lambda node: any(term_holds(term, node) for term in terms))
    taints: dict[tuple[object, ...], tuple[Json, set[int]]] = {}
    for at, node in enumerate(nodes):
        for taint in node.taints:
            if taint.get("effect") in KEEPING and taint.get("key") != CORDON:
                key = taint.get("key"), taint.get("value"), taint.get("effect")
                taints.setdefault(key, (taint, set()))[1].add(at)
    for taint, tainted in taints.values():
        if not tolerates(spec.get("tolerations") or [], taint):
            value = f"={taint['value']}" if taint.get("value") else ""
            yield f"no taint {taint.get('key')}{value}", frozenset(range(len(nodes))) - tainted


def keepings(pods: list[Pod], nodes: list[Node]) -> tuple[list[Kept], list[int]]:
    """The rules that keep pods to nodes, each once, and the pods that can be on no other node than their own or are fixed to
    one. Of rules that let a pod be on the same nodes only the first is kept, and of two of which one says more only that."""
    by_nodes: dict[frozenset[int], Kept] = {}
    fixed = []
    everywhere = frozenset(range(len(nodes)))
    known: dict[str, list[tuple[str, frozenset[int]]]] = {}
    for at, pod in enumerate(pods):
        key = repr([pod.spec.get(word) for word in ("nodeSelector", "affinity", "tolerations")])
        if key not in known:
            known[key] = list(rules_of(pod.spec, nodes))
        rules = [(name, some) for name, some in known[key] if some != everywhere]
        if pod.is_static or rules and len(frozenset.intersection(*(some for _, some in rules))) <= 1:
            fixed.append(at)
            continue
        for name, some in rules:
            if not any(other < some for _, other in rules):
                kept = by_nodes.setdefault(some, Kept(name, some))
                if at not in kept.pods[-1:]:
                    kept.pods.append(at)
    found = list(by_nodes.values())
    names: set[str] = set()
    for kept in found:
        while kept.name in names:
            kept.name += "'"
        names.add(kept.name)
    return found, fixed
