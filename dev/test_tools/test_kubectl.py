"""Tables that are made of what kubectl tells, on the dumps in examples/kubectl."""
import csv
import json
import os

from common import ROOT, program, put, run, text_of, tool_path
from fleet_cases import FleetCase
from reassign_tools.files import read_list
from reassign_tools.fleets.skews import broken_skews
from reassign_tools.models import Model
from reassign_tools.names import Names

NODES, PODS = (os.path.join(ROOT, "examples", "kubectl", f"{name}.json") for name in ("nodes", "pods"))
TOGETHER = "on worker-1 are 2 pods of Deployment shop/img: shop/img-5f6d8c9b7-p0, shop/img-5f6d8c9b7-q1"


def rows(name):
    with open(name, encoding="utf-8", newline="") as table:
        return {next(iter(row.values())): row for row in csv.DictReader(table)}


class Dumps(FleetCase):
    def make(self):
        return self.named("from-kubectl", NODES, PODS, "made", "--split")[0].splitlines()

    def test_two_pods_of_one_owner(self):
        printed, lines = self.named("from-kubectl", NODES, PODS, "made", status=6)
        self.assertEqual((printed, lines, os.path.exists("made")), ("", [TOGETHER], False))
        told = self.make()
        self.assertIn(TOGETHER, told)
        self.assertIn("split: each pod of Deployment shop/img is a service of its own", told)
        services = rows("made/services.csv")
        self.assertIn("shop/img-5f6d8c9b7-p0", services)
        self.assertNotIn("shop/img", services)

    def test_left_out(self):
        told = self.make()
        for line in ("left out: 3 pods: 1 ended (shop/report-29400-xyz); 2 pending (shop/web-7d9c5b6f4d-fx5, shop/report-29401-abc)",
                     "left out: 8 pods of DaemonSet monitoring/node-exporter, whose room is taken from their nodes"):
            self.assertIn(line, told)
        self.assertEqual(len(rows("made/processes.csv")), 20)

    def test_machines(self):
        told = self.make()
        machines = rows("made/machines.csv")
        self.assertEqual([machines[name]["zone"] for name in ("worker-1", "worker-3", "worker-7")], ["eu-a", "eu-b", "eu-c"])
        self.assertEqual({name for name, row in machines.items() if row["state"] == "closed"}, {"worker-6"})
        self.assertIn("closed: worker-6 is unschedulable", told)
        row = machines["worker-1"]
        self.assertEqual((row["cpu"], row["memory"], row["pods"]), ("7810m", "31136Mi", "109"))

    def test_rules_as_resources(self):
        told = self.make()
        machines, processes = rows("made/machines.csv"), rows("made/processes.csv")
        self.assertEqual({name for name, row in machines.items() if row["disk=ssd"] != "0"}, {"worker-2", "worker-4", "worker-5"})
        self.assertEqual({name for name, row in processes.items() if row["disk=ssd"] == "1"}, {"shop/db-0", "shop/db-1", "shop/db-2"})
        self.assertEqual({name for name, row in processes.items() if row["fixed"] == "1"},
                         {"tools/backup", "tools/licence-0", "kube-system/kube-apiserver-control-1"})
        taint = "no taint dedicated=db"
        self.assertEqual(machines["worker-5"][taint], "1")
        self.assertEqual((processes["shop/db-0"][taint], processes["shop/web-7d9c5b6f4d-ax0"][taint]), ("0", "1"))
        self.assertIn("  shop/cache-6c4b5d7f8-t1 is on worker-5 all the same, and may stay", told)

    def test_nobody_goes_where_a_rule_forbids_it(self):
        """Each pod is tried on each node: the rules that are broken are those of its selectors, taints and fixed nodes."""
        self.make()
        self.pack("made")
        names = Names.read("packed/names.json", "packed/model")
        initial = read_list("packed/initial")
        self.assertEqual(program("check", "packed/model", "packed/initial", "packed/initial")[0], 0)
        for pod, allowed in (("shop/db-0", {"worker-2"}), ("tools/backup", {"worker-3"}),
                             ("shop/search-0", {"worker-1", "worker-2", "worker-4"}),
                             ("kube-system/kube-apiserver-control-1", {"control-1"}),
                             ("shop/cache-6c4b5d7f8-t1", {"worker-2", "worker-3", "worker-4", "worker-5", "worker-7"})):
            process, found = names.processes.index(pod), set()
            for machine, name in enumerate(names.machines):
                put("tried", " ".join(map(str, [*initial[:process], machine, *initial[process + 1:]])))
                if program("check", "packed/model", "packed/initial", "tried", "--closed", "packed/closed")[0] == 0:
                    found.add(name)
            self.assertEqual(found, allowed, pod)

    def test_spread_and_owners(self):
        self.make()
        services = rows("made/services.csv")
        self.assertEqual((services["shop/web"]["spread"], services["shop/db"]["spread"]), ("3", "1"))
        processes = rows("made/processes.csv")
        self.assertEqual(processes["shop/web-7d9c5b6f4d-ax0"]["service"], "shop/web")
        self.assertEqual(processes["tools/debug"]["cpu"], "0")

    def change(self, name, change):
        """Writes a dump with its objects changed."""
        with open(PODS if name == "pods" else NODES, encoding="utf-8") as file:
            dump = json.load(file)
        change(dump["items"])
        put(name, json.dumps(dump))

    def test_constraints(self):
        """What becomes of each topology constraint is told: what holds, and what doesn't."""
        def change(items):
            for one in items:
                name = one["metadata"]["name"]
                own = {"matchLabels": dict((one["metadata"].get("labels") or {}))}
                kinds = {"db-": ("kubernetes.io/hostname", "DoNotSchedule", own), "search-": ("topology.kubernetes.io/zone", "ScheduleAnyway", own),
                         "cache-": ("rack", "DoNotSchedule", own), "img-": ("topology.kubernetes.io/zone", "DoNotSchedule", own),
                         "licence-": ("topology.kubernetes.io/zone", "DoNotSchedule", {"matchLabels": {"app": "other"}})}
                for begin, (key, when, selector) in kinds.items():
                    if name.startswith(begin):
                        one["spec"]["topologySpreadConstraints"] = [{"maxSkew": 2, "topologyKey": key, "whenUnsatisfiable": when,
                                                                     "labelSelector": selector}]
                        one["metadata"].setdefault("labels", {"app": "own"})
        self.change("pods", change)
        told = self.named("from-kubectl", NODES, "pods", "made", "--split")[0]
        for line in ("maxSkew 1, DoNotSchedule, of 1 service (shop/web): 3 zones are held, the skew isn't\n",
                     "constraint kubernetes.io/hostname, maxSkew 2, DoNotSchedule, of 1 service (shop/db): held: a node has at most one pod of a "
                     "service\n", "maxSkew 2, ScheduleAnyway, of 1 service (shop/search): not held: it is a wish\n",
                     "constraint rack, maxSkew 2, DoNotSchedule, of 1 service (shop/cache): not held: it isn't over zones or nodes\n",
                     ": not held: the pod is a service of its own\n", ": not held: it counts other pods\n",
                     "not in the model: skews of topology constraints of 5 pods of 1 service\n"):
            self.assertIn(line, told)
        self.assertRegex(told, r"not in the model: \d+ topology constraints of \d+ pods of \d+ services\n")
        services = rows("made/services.csv")
        self.assertEqual([(row["spread"], row["skew"]) for name, row in services.items() if name in ("shop/web", "shop/db")],
                         [("3", "1"), ("1", "")])

    def test_skews(self):
        """`named check` tells which skews a list breaks beside today's, and breaks no rule by that."""
        self.make()
        self.pack("made")
        names = Names.read("packed/names.json", "packed/model")
        web = [at for at, name in enumerate(names.processes) if name.startswith("shop/web-")]
        model, today = Model.read("packed/model"), read_list("packed/initial")
        self.assertEqual(list(broken_skews(model, names, today, today)), [])
        crowded = list(today)
        for process in web:
            crowded[process] = today[web[0]]
        skew, = broken_skews(model, names, today, crowded)
        self.assertEqual((skew.service, skew.most, skew.least, skew.allowed), ("shop/web", 5, 0, 1))
        self.assertEqual(list(broken_skews(model, names, crowded, crowded)), [])
        put("list", " ".join(map(str, crowded)))
        ran = run(tool_path("named"), "check", "packed", "list")
        self.assertEqual((ran.returncode, f"{skew.told()}\n" in ran.stdout, skew.told()[:27]), (6, True, "note: shop/web has 5 in eu-"))
        told = json.loads(run(tool_path("named"), "check", "packed", "list", "--json").stdout)
        self.assertEqual((told["feasible"], told["skews"][0]["service"], told["rules_today"]), (False, "shop/web", []))
        self.assertIn("conflict", {rule["rule"] for rule in told["rules"]})
        told = json.loads(self.named("check", "packed", "--json")[0])
        self.assertEqual((told["feasible"], told["rules"], told["skews"], set(told["costs"])),
                         (True, [], [], {"cost", "load", "balance", "process", "service", "machine"}))

    def test_counts_of_what_is_left_out(self):
        told = self.make()
        self.assertIn("not in the model: volumes of 3 pods of 1 service", told)
        self.assertTrue(any(line.startswith("not in the model: pod disruption budgets, if there are some") for line in told))
        self.change("pods", lambda items: items.append({"kind": "PodDisruptionBudget", "metadata": {"name": "web-budget"}, "spec": {}}))
        printed = self.named("from-kubectl", NODES, "pods", "made2", "--split")[0]
        self.assertIn("not in the model: 1 pod disruption budget: web-budget (see `moves --per-service`)\n", printed)

    def test_rules_are_no_columns(self):
        """A resource that stands for a rule is no column of moves and summary, unless it is asked for."""
        self.make()
        self.pack("made")
        now = read_list("packed/initial")
        names = Names.read("packed/names.json", "packed/model")
        process = names.processes.index("shop/search-0")
        now[process] = next(m for m, name in enumerate(names.machines) if name in ("worker-1", "worker-2", "worker-4") and m != now[process])
        put("list", " ".join(map(str, now)))
        words = ["packed/model", "packed/initial", "list", "--names", "packed/names.json", "--csv"]
        self.assertEqual(self.expect(0, "moves", *words).splitlines()[0], "process,service,from,to,cpu,memory,pods")
        self.assertIn("no taint dedicated=db", self.expect(0, "moves", *words, "--rules").splitlines()[0])
        words = ["list", "packed/model", "packed/initial", "--names", "packed/names.json"]
        self.assertNotIn("no taint", self.expect(0, "summary", *words))
        self.assertIn("no taint", self.expect(0, "summary", *words, "--rules"))

    def test_wrong_dumps(self):
        put("text", "NAME STATUS\n")
        put("yaml", "apiVersion: v1\nitems:\n- kind: Node\n")
        self.expect_line(4, "named: yaml: is YAML; write it with -o json", tool_path("named"), "from-kubectl", "yaml", PODS, "made")
        put("digits", '{"items": [' + "1" * 5000 + "]}")
        self.named("from-kubectl", "digits", PODS, "made", status=4)
        self.change("pods", lambda items: items[0]["spec"].update(topologySpreadConstraints=[{"maxSkew": "x"}]))
        self.named("from-kubectl", NODES, "pods", "made", "--split", status=4)
        put("object", "{}")
        put("amounts", json.dumps({"items": [{"kind": "Node", "metadata": {"name": "one"}, "status": {"allocatable": {"cpu": "much"}}},
                                             {"kind": "Node", "metadata": {"name": "two"}, "status": {}}]}))
        for nodes, pods, status, told in (("nowhere", PODS, 3, []), ("text", PODS, 4, []), ("empty", PODS, 4, []), ("object", PODS, 4, []),
                                          (PODS, NODES, 4, []), (NODES, NODES, 4, []),
                                          ("amounts", PODS, 4, ["amounts: Node 'one': 'much' is no amount (write it as 16, 0.5, 500m, 64Gi "
                                                                "or 1.5G)", "amounts: Node 'two' has no 'allocatable'"])):
            printed, lines = self.named("from-kubectl", nodes, pods, "made", "--split", status=status)
            self.assertEqual((printed, lines, os.path.exists("made")), ("", told, False))

    def test_folder_that_is_there(self):
        self.make()
        before = text_of("made/machines.csv")
        self.named("from-kubectl", NODES, PODS, "made", "--split", status=2)
        self.assertEqual(text_of("made/machines.csv"), before)
