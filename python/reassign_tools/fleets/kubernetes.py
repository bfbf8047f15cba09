"""Makes the tables of a fleet from what kubectl tells of a cluster:

    $ kubectl get nodes -o json > nodes.json
    $ kubectl get pods --all-namespaces -o json > pods.json
    $ tools/named from-kubectl nodes.json pods.json FLEET

Nodes become machines, with their zone and what is allocatable; those that are unschedulable are closed. Pods become
processes, with what they request, and their owners become services (of a ReplicaSet the Deployment). FLEET must not be there
yet.

Left out, and listed, are pods that are on no node yet, that have ended, or that a DaemonSet owns; what those of a DaemonSet
request is taken from their nodes' capacities.

Each node selector, required node affinity, and taint that pods don't tolerate becomes a resource, of which such a pod requires
1: a node where they may be has enough for all, another one just enough for those that are there already, and as it is
transient no other comes. Pods that can be on one node alone, and static pods, require 1 of the resource `fixed`, and stay.

Of a topology spread constraint over zones that must be met the model holds the spread: the service is in as many zones as the
constraint needs, but in no more than today. It doesn't hold the skew, which goes into the column `skew` of services.csv, so that
`named check` tells which skews a list breaks that today's placement doesn't. One over nodes holds, since a node has at most one
pod of a service. It is told of each constraint what became of it. Not in the model are affinities between pods, volumes, host
ports and pod disruption budgets; the pods and services that have them are counted. Budgets may stand in the file of the pods
(`kubectl get pods,pdb`).

Two pods of one owner on a node break a rule of this problem. They are listed, and nothing is written (status 6). With
--split each pod of such an owner becomes a service of its own, which may share a node with any other pod."""
import json
import os
import re
from collections import Counter
from collections.abc import Callable, Iterator, Sequence
from dataclasses import dataclass
from fractions import Fraction
from typing import Any, TypeVar

from ..files import MOST_JSON, read_whole, write_whole
from ..models import MOST_RESOURCES
from ..problems import Problem, ProblemWithLines
from ..texts import counted, some
from .amounts import NoAmount, amount, amount_text
from .fleet import MACHINES, PROCESSES, SERVICES
from .mistakes import Mistakes, Place
from .node_rules import FIXED, ZONES, Json, keepings
from .packing import whole_folder
from .settings import FILE as SETTINGS, quoted
from .tables import table_text
from .topology import Constraints

MAIN = ("cpu", "memory", "pods")
UNITS = {"cpu": "1m", "memory": "1Mi", "ephemeral-storage": "1Mi"}
NO_ZONE = "none"
T = TypeVar("T")
HASH = "pod-template-hash"
BUDGETS = ("PodDisruptionBudget",)


@dataclass
class Node:
    name: str
    labels: Json
    taints: list[Json]
    is_closed: bool
    room: dict[str, Fraction]  # amounts by resource

    @property
    def zone(self) -> str:
        return next((self.labels[label] for label in ZONES if label in self.labels), NO_ZONE)


@dataclass
class Pod:
    name: str  # with its namespace
    owner: tuple[str, str, str]  # namespace, kind, name
    node: str
    spec: Json
    requests: dict[str, Fraction]
    has_ended: bool
    labels: Json

    @property
    def is_static(self) -> bool:
        return self.owner[1] == "Node"


class Reader:
    """Reads what kubectl wrote, and collects what is wrong there."""

    def __init__(self, file: str) -> None:
        self.file, self.mistakes = file, Mistakes()

    def items(self, kind: str, also: tuple[str, ...] = ()) -> tuple[list[Json], list[Json]]:
        """The objects of a kind, and, as a second list, those of others that may stand there."""
        text = read_whole(self.file, MOST_JSON, 4, begins_json)
        if not begins_json(text):
            yaml = re.match(rb"\s*(---\s|apiVersion:|kind:|items:)", text[:4096])
            what = "is YAML; write it with -o json" if yaml else "no JSON, as kubectl writes it with -o json"
            raise Problem(f"{self.file}: {what}", 4)
        try:
            found = json.loads(text.decode("utf-8-sig"))
        except json.JSONDecodeError as fault:
            raise Problem(f"{self.file}:{fault.lineno}: no JSON: {fault.msg}; column {fault.colno}", 4) from None
        except (ValueError, RecursionError):
            raise Problem(f"{self.file}: no JSON that kubectl writes", 4) from None
        items = found.get("items") if isinstance(found, dict) else None
        if not isinstance(items, list) or any(not isinstance(one, dict) for one in items):
            raise Problem(f"{self.file}: no list of objects, as `kubectl get .. -o json` writes it", 4)
        others = [one.get("kind") for one in items if one.get("kind", kind) not in (kind, *also)]
        if others:
            raise Problem(f"{self.file}: has a {others[0]}, and should have {kind}s alone", 4)
        own = [one for one in items if one.get("kind", kind) == kind]
        if not own:
            raise Problem(f"{self.file}: has no {kind}", 4)
        return own, [one for one in items if one.get("kind", kind) != kind]

    def read_each(self, kind: str, read: Callable[[Json], T], also: tuple[str, ...] = ()) -> tuple[list[T], list[Json]]:
        """Each object of a kind, read, and the others that may stand there; what is wrong is told at once."""
        made: list[T] = []
        own, others = self.items(kind, also)
        for at, item in enumerate(own):
            name = f"{kind} {at}"
            try:
                name = f"{kind} {item['metadata']['name']!r}"
                made.append(read(item))
            except NoAmount as fault:
                self.mistakes.add(Place(self.file), f"{name}: {fault}")
            except (KeyError, TypeError, AttributeError, ValueError) as fault:
                what = f"has no {fault}" if isinstance(fault, KeyError) else "isn't what kubectl writes"
                self.mistakes.add(Place(self.file), f"{name} {what}")
        self.mistakes.close()
        return made, others


def begins_json(text: bytes) -> bool:
    """Whether a text may be JSON, by its first letter."""
    return text.removeprefix(b"\xef\xbb\xbf").lstrip()[:1] in (b"{", b"[")


def amounts(words: dict[str, str] | None) -> dict[str, Fraction]:
    return {name: amount(str(text)) for name, text in (words or {}).items()}


def node_of(item: Json) -> Node:
    meta, spec = item["metadata"], item.get("spec") or {}
    return Node(meta["name"], meta.get("labels") or {}, spec.get("taints") or [], bool(spec.get("unschedulable")),
                amounts(item["status"]["allocatable"]))


def pod_of(item: Json) -> Pod:
    meta, spec, namespace = item["metadata"], item["spec"], item["metadata"].get("namespace", "default")
    owners = meta.get("ownerReferences") or []
    owner = next((one for one in owners if one.get("controller")), owners[0] if owners else None)
    kind, name = (owner["kind"], owner["name"]) if owner else ("Pod", meta["name"])
    template = (meta.get("labels") or {}).get(HASH)
    if kind == "ReplicaSet" and template and name.endswith(f"-{template}"):
        kind, name = "Deployment", name.removesuffix(f"-{template}")
    if kind == "Node":
        name = meta["name"]
    phase = (item.get("status") or {}).get("phase")
    return Pod(f"{namespace}/{meta['name']}", (namespace, kind, name), spec.get("nodeName") or "", spec, requests_of(spec),
               phase in ("Succeeded", "Failed"), meta.get("labels") or {})


def requests_of(spec: Json) -> dict[str, Fraction]:
    """What a pod requests: its containers together, or the greatest of those that run before them, and its overhead."""
    total: Counter[str] = Counter()  # of fractions
    most: Counter[str] = Counter()

    def asked(one: Json) -> Any:
        return amounts((one.get("resources") or {}).get("requests"))
    for one in spec.get("initContainers") or []:
        if one.get("restartPolicy") == "Always":
            total.update(asked(one))
            most |= total
        else:
            most |= total + Counter(asked(one))
    for one in spec["containers"]:
        total.update(asked(one))
    asked_together: Any = {**(most | total), **asked(spec)}  # what stands at the pod itself goes before
    overhead: Any = amounts(spec.get("overhead"))
    return {**{name: Fraction(value) for name, value in (Counter(asked_together) + Counter(overhead)).items()}, "pods": Fraction(1)}


def make_fleet(nodes_file: str, pods_file: str, folder: str, split: bool) -> list[str]:
    """Writes the tables of a cluster into a new folder. Answers what is to be told, line by line."""
    if os.path.lexists(folder):
        raise Problem(f"{folder} is there already; name a folder that isn't", 2)
    nodes, _ = Reader(nodes_file).read_each("Node", node_of)
    pods, budgets = Reader(pods_file).read_each("Pod", pod_of, BUDGETS)
    try:
        cluster = Cluster(nodes, pods, split, budgets)
        texts = {file: text.encode() for file, text in cluster.texts().items()}
    except (AttributeError, KeyError, IndexError, TypeError, ValueError) as fault:
        raise Problem(f"{nodes_file} or {pods_file} isn't what kubectl writes ({type(fault).__name__})", 4) from None
    with whole_folder(folder) as beside:
        for file, text in texts.items():
            write_whole(os.path.join(beside, file), [text])
    return cluster.told


class Cluster:
    """Nodes and pods, as a fleet."""

    def __init__(self, nodes: list[Node], pods: list[Pod], split: bool,
                 budgets: Sequence[Json] = ()) -> None:
        self.nodes, self.budgets = nodes, budgets
        self.told: list[str] = []
        self.numbers = {node.name: at for at, node in enumerate(nodes)}
        self.pods = self.kept_pods(pods)
        if not self.pods:
            raise Problem("no pod is left for the model", 4)
        self.services = self.named_services(split)
        self.resources = [*MAIN, *sorted({name for pod in self.pods for name, value in pod.requests.items()
                                          if value and name not in MAIN})]
        self.kept, self.fixed = keepings(self.pods, nodes)
        if len(self.resources) + len(self.kept) + bool(self.fixed) > MOST_RESOURCES:
            raise Problem(f"{len(self.resources)} resources and {len(self.kept)} rules that keep pods to nodes are more than "
                          f"the {MOST_RESOURCES} resources that a model may have: {', '.join(one.name for one in self.kept)}", 4)
        self.tell_rules()

    def kept_pods(self, pods: list[Pod]) -> list[Pod]:
        """The pods that the model has. The others are told, and those of a DaemonSet take their room from their nodes."""
        kept = []
        daemons: Counter[str] = Counter()
        left: dict[str, list[str]] = {"ended": [], "pending": [], "on nodes that aren't there": []}
        for pod in pods:
            if pod.has_ended:
                left["ended"].append(pod.name)
            elif not pod.node:
                left["pending"].append(pod.name)
            elif pod.node not in self.numbers:
                left["on nodes that aren't there"].append(pod.name)
            elif pod.owner[1] == "DaemonSet":
                daemons[f"{pod.owner[0]}/{pod.owner[2]}"] += 1
                room = self.nodes[self.numbers[pod.node]].room
                for name, value in pod.requests.items():
                    room[name] = max(Fraction(0), room.get(name, Fraction(0)) - value)
            else:
                kept.append(pod)
        lines = [f"{len(names):,} {what} ({some(names, 3)})" for what, names in left.items() if names]
        self.told += [f"left out: {counted(sum(map(len, left.values())), 'pod')}: {'; '.join(lines)}"] * bool(lines)
        self.told += [f"left out: {counted(count, 'pod')} of DaemonSet {name}, whose room is taken from {'its' if count == 1 else 'their'} "
                      f"node{'' if count == 1 else 's'}" for name, count in daemons.items()]
        return kept

    def named_services(self, split: bool) -> list[str]:
        """The service of each pod, by name."""
        together: dict[tuple[tuple[str, str, str], str], list[str]] = {}
        for pod in self.pods:
            together.setdefault((pod.owner, pod.node), []).append(pod.name)
        pairs = {key: names for key, names in together.items() if len(names) > 1}
        lines = [f"on {node} are {counted(len(names), 'pod')} of {owner[1]} {owner[0]}/{owner[2]}: {', '.join(names)}"
                 for (owner, node), names in pairs.items()]
        if pairs and not split:
            raise ProblemWithLines(lines, f"on {counted(len(pairs), 'node')} pods of one owner are together, which this problem "
                                   "forbids, so nothing is written; --split makes each pod of such an owner a service of its "
                                   "own", 6)
        apart = {owner for owner, _ in pairs}
        self.told += lines + [f"split: each pod of {owner[1]} {owner[0]}/{owner[2]} is a service of its own" for owner in sorted(apart)]
        kinds: dict[tuple[str, str], set[str]] = {}
        for pod in self.pods:
            kinds.setdefault((pod.owner[0], pod.owner[2]), set()).add(pod.owner[1])
        def name(pod: Pod) -> str:
            namespace, kind, own = pod.owner
            several = len(kinds[namespace, own]) > 1
            return f"{namespace}/{own} ({kind})" if several else f"{namespace}/{own}"
        taken = {name(pod) for pod in self.pods if pod.owner not in apart}
        return [name(pod) if pod.owner not in apart else pod.name if pod.name not in taken else f"{pod.name} (Pod)"
                for pod in self.pods]

    def tell_rules(self) -> None:
        self.told += [f"closed: {node.name} is unschedulable" for node in self.nodes if node.is_closed]
        self.told += [f"no zone: {node.name}" for node in self.nodes if node.zone == NO_ZONE]
        for one in self.kept:
            self.told.append(f"resource '{one.name}' keeps {counted(len(one.pods), 'pod')} to {counted(len(one.nodes), 'node')}")
            self.told += [f"  {self.pods[at].name} is on {self.pods[at].node} all the same, and may stay" for at in one.pods
                          if self.numbers[self.pods[at].node] not in one.nodes]
        self.told += [f"resource '{FIXED}' keeps {self.pods[at].name} on {self.pods[at].node}" for at in self.fixed]
        self.constraints = Constraints(self)
        self.told += self.constraints.lines
        self.told += [f"not in the model: {line}" for line in (*self.constraints.left_out, *self.left_out())]
        self.told.append(f"{counted(len(self.nodes), 'node')}, {counted(len(set(self.services)), 'service')}, "
                         f"{counted(len(self.pods), 'pod')}, {counted(len(self.resources), 'resource')}")

    def left_out(self) -> Iterator[str]:
        """What the model leaves out, by kinds."""
        for what, has in (("affinities between pods", self.has_affinity), ("volumes", self.has_volume), ("host ports", self.has_port)):
            services = [service for pod, service in zip(self.pods, self.services) if has(pod)]
            if services:
                yield f"{what} of {counted(len(services), 'pod')} of {counted(len(set(services)), 'service')}"
        if self.budgets:
            yield (f"{counted(len(self.budgets), 'pod disruption budget')}: "
                   f"{some([one['metadata']['name'] for one in self.budgets], 3)} (see `moves --per-service`)")
        else:
            yield "pod disruption budgets, if there are some: `kubectl get pods,pdb` tells them"

    @staticmethod
    def has_affinity(pod: Pod) -> bool:
        return any(((pod.spec.get("affinity") or {}).get(word) or {}).get("requiredDuringSchedulingIgnoredDuringExecution")
                   for word in ("podAffinity", "podAntiAffinity"))

    @staticmethod
    def has_volume(pod: Pod) -> bool:
        return any("persistentVolumeClaim" in one for one in pod.spec.get("volumes") or [])

    @staticmethod
    def has_port(pod: Pod) -> bool:
        return any(port.get("hostPort") for one in pod.spec["containers"] for port in one.get("ports") or [])

    # Tables

    def texts(self) -> dict[str, str]:
        """The texts of the tables and the settings, by their files."""
        return {MACHINES: self.machines_text(), SERVICES: self.services_text(), PROCESSES: self.processes_text(),
                SETTINGS: self.settings_text()}

    def rule_columns(self) -> list[str]:
        return [one.name for one in self.kept] + [FIXED] * bool(self.fixed)

    def machines_text(self) -> str:
        there = [Counter(self.numbers[self.pods[at].node] for at in one.pods) for one in self.kept]
        fixed = Counter(self.numbers[self.pods[at].node] for at in self.fixed)
        rows = []
        for at, node in enumerate(self.nodes):
            rules = [len(one.pods) if at in one.nodes else here[at] for one, here in zip(self.kept, there)]
            rows.append([node.name, node.zone, "closed" if node.is_closed else "open",
                         *(amount_text(node.room.get(name, Fraction(0))) for name in self.resources), *rules,
                         *[fixed[at]] * bool(self.fixed)])
        return table_text(["machine", "zone", "state", *self.resources, *self.rule_columns()], rows)

    def services_text(self) -> str:
        spreads = self.constraints
        return table_text(["service", "spread", "skew", "depends_on"],
                          [[service, spreads.spread(service), spreads.skew(service), ""] for service in dict.fromkeys(self.services)])

    def processes_text(self) -> str:
        kept, fixed = [set(one.pods) for one in self.kept], set(self.fixed)
        rows = []
        for at, (pod, service) in enumerate(zip(self.pods, self.services)):
            rows.append([pod.name, service, pod.node,
                         *(amount_text(pod.requests.get(name, Fraction(0))) for name in self.resources),
                         *(int(at in some) for some in kept), *[int(at in fixed)] * bool(self.fixed)])
        return table_text(["process", "service", "machine", *self.resources, *self.rule_columns()], rows)

    def settings_text(self) -> str:
        lines = ['neighbourhood = "zone"', 'location = "zone"']
        for name in self.resources:
            unit = UNITS.get(name, "1Mi" if name.startswith("hugepages-") else "1")
            lines += ["", "[[resource]]", f"name = {quoted(name)}", f"unit = {quoted(unit)}"]
            if name == "pods":
                lines += ["load_weight = 0", "safety = 1"]
        for name in self.rule_columns():
            lines += ["", "[[resource]]", f"name = {quoted(name)}", 'unit = "1"', "transient = true", "load_weight = 0", "safety = 1",
                      "rule = true"]
        return "\n".join(lines) + "\n"
