"""What becomes of the topology spread constraints of a cluster's pods."""
from __future__ import annotations

from collections.abc import Iterable
from typing import TYPE_CHECKING

from ..texts import counted, some
from .node_rules import ZONES, Json, matches

if TYPE_CHECKING:
    from .kubernetes import Cluster, Pod

HOSTS = "kubernetes.io/hostname"
MUST = "DoNotSchedule"
MOST_NAMED = 3  # services that are named in a line


class Constraints:
    """The constraints of each service, with what became of them: `lines` tells it, and `left_out` counts what isn't held."""

    def __init__(self, cluster: Cluster) -> None:
        self.cluster = cluster
        self.members: dict[str, list[Pod]] = {}
        for pod, service in zip(cluster.pods, cluster.services):
            self.members.setdefault(service, []).append(pod)
        self.zones = {node.zone for node in cluster.nodes}
        self.spreads: dict[str, int] = {}
        self.skews: dict[str, int] = {}
        fates: dict[tuple[str, int, str, str], list[str]] = {}
        skews: set[str] = set()
        others: dict[str, int] = {}
        for service, pods in self.members.items():
            for key, skew, when, fits in sorted({constraint_of(one, pod) for pod in pods for one in constraints_of(pod)}):
                fate = self.fate(service, pods, key, skew, when, fits)
                fates.setdefault((key, skew, when, fate), []).append(service)
                if fate.endswith("isn't"):
                    skews.add(service)
                elif fate.startswith("not held"):
                    others.setdefault(service, 0)
                    others[service] += 1
        self.lines = [f"topology constraint {key}, maxSkew {skew}, {when}, of {counted(len(names), 'service')} "
                      f"({some(names, MOST_NAMED)}): {fate}" for (key, skew, when, fate), names in fates.items()]
        def pods_of(services: Iterable[str]) -> str:
            return counted(sum(len(self.members[one]) for one in services), "pod")
        self.left_out = [f"skews of topology constraints of {pods_of(skews)} of {counted(len(skews), 'service')}"] * bool(skews)
        if others:
            self.left_out.append(f"{counted(sum(others.values()), 'topology constraint')} of {pods_of(others)} of "
                                 f"{counted(len(others), 'service')}")

    def fate(self, service: str, pods: list[Pod], key: str, skew: int, when: str, fits: bool) -> str:
        """What becomes of one constraint of a service."""
        if when != MUST:
            return "not held: it is a wish"
        if not fits:
            return "not held: it counts other pods"
        if pods[0].owner[1] != "Pod" and service in (pods[0].name, f"{pods[0].name} (Pod)"):
            return "not held: the pod is a service of its own"
        if key == HOSTS:
            return "held: a node has at most one pod of a service"
        if key not in ZONES:
            return "not held: it isn't over zones or nodes"
        self.skews[service] = min(skew, self.skews.get(service, skew))
        today = len({self.cluster.nodes[self.cluster.numbers[pod.node]].zone for pod in pods})
        needed = min(len(self.zones), -(-len(pods) // skew))
        self.spreads[service] = max(self.spreads.get(service, 1), min(today, needed))
        less = f" (it needs {needed})" if today < needed else ""
        return f"{counted(self.spreads[service], 'zone')} {'is' if self.spreads[service] == 1 else 'are'} held{less}, the skew isn't"

    def spread(self, service: str) -> int:
        """In how many zones the pods of a service have to be."""
        return self.spreads.get(service, 1)

    def skew(self, service: str) -> int | str:
        """By how much the pods of a service in two zones may differ, or nothing."""
        return self.skews.get(service, "")


def constraints_of(pod: Pod) -> list[Json]:
    return pod.spec.get("topologySpreadConstraints") or []


def constraint_of(one: Json, pod: Pod) -> tuple[str, int, str, bool]:
    """A constraint: its topology key, its skew, what has to be met, and whether it counts the pod itself."""
    skew = one.get("maxSkew") or 1
    if type(skew) is not int or skew < 1:
        raise ValueError("maxSkew")
    return str(one.get("topologyKey")), skew, str(one.get("whenUnsatisfiable") or MUST), counts(one.get("labelSelector"), pod)


def counts(selector: Json | None, pod: Pod) -> bool:
    """Whether a selector of labels counts a pod. One that isn't written, or a pod whose labels aren't known, is taken as if."""
    if not selector or not pod.labels:
        return True
    return all(pod.labels.get(key) == value for key, value in (selector.get("matchLabels") or {}).items()) \
        and all(matches(one, pod.labels) for one in selector.get("matchExpressions") or [])
