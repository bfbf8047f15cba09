"""What measures and judges `anneal`: the shapes, the judge of a list, and bench/search over programs that stand in for it."""
import os
import random
import sys

from common import ROOT, ToolCase, put, run, text_of

BENCH = os.path.join(ROOT, "bench")
sys.path.append(BENCH)
import compare
import compare_anneal
import make_shapes
from judge_list import Summed, read_instance, read_list

STAND_IN = '''#!/usr/bin/env python3
"""Stands in for `anneal`: it prints the list from which it begins."""
import sys
sys.path.insert(0, {bench!r})
sys.dont_write_bytecode = True
from compare import cost_lines, joined
from judge_list import read_instance, read_list
model, initial, *options, lot = sys.argv[1:]
with open("calls", "a") as file:
    print(*options, lot, file=file)
start = read_list(initial)
machines = read_list(options[options.index("--from") + 1]) if "--from" in options else start
parts = read_instance(model).parts(start, machines)
told = {told}
print(cost_lines(parts) + "bound 7\\nheat 1000\\ntries 9\\ndone 0\\nassignment " + joined(machines) + "\\nlast " + joined(machines))
'''
ONE = '#!/usr/bin/env python3\nimport sys\nprint("0 0 0", file=open(sys.argv[1], "w"))\n'


def put_program(name, text):
    put(name, text)
    os.chmod(name, 0o755)


def search(*words):
    return run(os.path.join(BENCH, "search"), *words)


class Shapes(ToolCase):
    """The maker of tight instances."""

    def make(self, folder, *words):
        ran = run(os.path.join(BENCH, "make_shapes.py"), folder, *words)
        self.assertEqual((ran.returncode, ran.stdout, ran.stderr), (0, "", ""))
        return [text_of(os.path.join(folder, name)) for name in ("model", "initial")]

    def test_counts(self):
        """An instance has the counts of its shape, and its start breaks nothing; of the scarcest resource nine tenths are in use."""
        for name in ("50x1000x3", "50x1000x12", "100x1000x12"):
            for seed in ("1", "77"):
                self.make("made", name, seed)
                inst, start = read_instance("made/model"), read_list("made/initial")
                self.assertEqual(make_shapes.SHAPES[name],
                                 (len(inst.locations), len(start), len(inst.transient), sum(inst.transient), len(inst.spreads),
                                  len(set(inst.neighbourhoods)), len(set(inst.locations)), sum(map(len, inst.dependencies)),
                                  len(inst.balances)))
                self.assertIsNone(inst.broken(start, start))
                used = [sum(column) for column in zip(*inst.requirements)]
                shares = [use / sum(column) for use, column in zip(used, zip(*inst.capacities))]
                self.assertTrue(0.85 <= max(shares) <= 0.92, shares)
                self.assertEqual((min(map(min, inst.way_costs)), max(map(max, inst.way_costs))), (0, 10))
                self.assertTrue(all(safe <= most for rows in zip(inst.safeties, inst.capacities) for safe, most in zip(*rows)))

    def test_seeds(self):
        """The same words make the same files, and another seed others."""
        one, same, other = (self.make(*words) for words in (("first", "50x1000x3", "5"), ("again", "50x1000x3", "5"), ("third", "50x1000x3", "6")))
        self.assertEqual(one, same)
        self.assertNotEqual(one[0], other[0])


class Lists(ToolCase):
    """The judge of a list, and that of what `anneal` prints."""

    def test_sums(self):
        """Sums that are kept say what sums that are made anew say."""
        chance, causes = random.Random(3), set()
        for _ in range(400):
            plain = compare.random_instance(chance)
            plain.closed = [chance.random() < 0.2 for _ in plain.locations]
            summed = Summed(**vars(plain))
            start = compare.random_start(chance, plain)
            for _ in range(4):
                new = [chance.choice([m, m, chance.randrange(len(plain.locations))]) for m in start]
                cause = plain.broken(start, new)
                self.assertEqual((summed.broken(start, new), summed.parts(start, new)), (cause, plain.parts(start, new)))
                causes.add(cause and cause.split()[0])
        self.assertEqual(causes, {None, "capacity", "transient", "conflict", "spread", "dependency", "closed"})

    def test_files(self):
        """The judge of files says what the program says."""
        words = [os.path.join(BENCH, "judge_list.py"), "model", "initial"]
        self.assertEqual(run(*words, "new").stdout, run(os.environ["REASSIGN"], "check", "model", "initial", "new").stdout)
        ran = run(*words, "crowded")
        self.assertEqual((ran.returncode, ran.stdout), (6, "infeasible: conflict 0 0\n"))

    def test_judge(self):
        """What `anneal` may print is accepted, and what is wrong with it is refused."""
        chance, seen = random.Random(8), {}
        while len(seen) < 10 or min(seen.values()) < 5:
            inst, start = compare_anneal.drawn(chance)
            if inst.broken(start, start):
                continue
            begun = compare_anneal.random_list(chance, inst, start)
            if inst.broken(start, begun):
                continue
            best = self.descended(inst, start, begun)
            bound = inst.bound(start)[0]
            compare_anneal.judge(inst, start, begun, told(inst, start, best, begun, bound), compare.Counter())
            for what, printed in wrong_outputs(chance, inst, start, begun, best, bound):
                with self.assertRaises(compare_anneal.Difference, msg=f"{what}: {inst}\n{start}\n{begun}\n{printed}"):
                    compare_anneal.judge(inst, start, begun, printed, compare.Counter())
                seen[what] = seen.get(what, 0) + 1

    def descended(self, inst, start, machines):
        while shift := compare_anneal.cheaper_shift(inst, start, machines):
            p, m = shift
            machines = [*machines[:p], m, *machines[p + 1:]]
        return machines

    def test_thrice(self):
        """Outputs that differ from call to call, or by the number of processors, are refused."""
        put_program("same", "#!/bin/sh\necho 1\n")
        put_program("race", "#!/bin/sh\necho $$\n")
        put_program("counts", "#!/bin/sh\nnproc\n")
        self.assertEqual(compare_anneal.run_thrice([os.path.abspath("same")]), (0, "1\n", ""))
        for name in ("race", *["counts"] * (len(os.sched_getaffinity(0)) > 1)):
            with self.assertRaises(compare_anneal.Difference):
                compare_anneal.run_thrice([os.path.abspath(name)])


def told(inst, start, best, last, bound):
    parts = compare.cost_lines(inst.parts(start, best))
    return f"{parts}bound {bound}\nheat 5\ntries 7\ndone 0\nassignment {compare.joined(best)}\nlast {compare.joined(last)}\n"


def wrong_outputs(chance, inst, start, begun, best, bound):
    """Outputs that aren't right, and what is wrong with each."""
    right = told(inst, start, best, begun, bound)
    yield "a bound too large", told(inst, start, best, begun, bound + 1)
    yield "a space too many", right[:-1] + " \n"
    yield "no last list", right[:right.index("last")]
    yield "a zero in front", right.replace("tries 7", "tries 07")
    if inst.parts(start, best) != inst.parts(start, begun):
        lines = told(inst, start, begun, begun, bound).splitlines(True)[:6]
        yield "the parts of another list", "".join(lines + right.splitlines(True)[6:])
        yield "no descent", told(inst, start, begun, begun, bound)
    if inst.parts(begun, best) != inst.parts(start, best):
        yield "the parts from the list before", compare.cost_lines(inst.parts(begun, best)) + right[right.index("bound"):]
    if inst.bound(begun) != inst.bound(start):
        yield "the bound of the list before", told(inst, start, best, begun, inst.bound(begun)[0])
    for _ in range(20):
        any_list = [chance.randrange(len(inst.locations)) for _ in start]
        cost = inst.parts(start, any_list)[0]
        if inst.broken(start, any_list):
            yield "a list that breaks a rule", told(inst, start, any_list, begun, bound)
            yield "a last list that breaks a rule", told(inst, start, best, any_list, bound)
        elif cost > inst.parts(start, begun)[0]:
            yield "a dearer list", told(inst, start, any_list, begun, bound)
        elif cost < inst.parts(start, best)[0]:
            yield "a cheaper last list", told(inst, start, best, any_list, bound)


class Search(ToolCase):
    """bench/search."""

    def setUp(self):
        put_program("stand_in", STAND_IN.format(bench=BENCH, told="parts"))
        put_program("liar", STAND_IN.format(bench=BENCH, told="parts.__setitem__(1, parts[1] + 1)"))
        put_program("other", f"#!/bin/sh\necho >>others\ncp {os.path.abspath('made/50x1000x3.1/initial')} $1\n")
        put_program("breaks", ONE)
        put("calls", "")
        put("others", "")

    def words(self, *more, own="stand_in"):
        return ["50x1000x3.1", "--seconds", "0.001", "--program", os.path.abspath(own), "--instances", "made", *more]

    def test_tables(self):
        """Each table has its row; the other program's results are kept."""
        words = self.words("--other", f"{os.path.abspath('other')} {{out}}", "--kept", "kept", "--calls", "2", "--workers", "1,2", "--rounds", "2")
        for _ in range(2):
            ran = search(*words)
            self.assertEqual((ran.returncode, ran.stderr), (0, ""), ran.stdout)
            rows = [line.split(" | ") for line in ran.stdout.splitlines() if line.startswith("| 50x1000x3.1 ")]
            self.assertEqual([len(row) for row in rows], [10, 7, 8])
            self.assertEqual((rows[0][5], rows[0][-1], rows[1][1], rows[1][-1]), ("100.000 %", "1.000 |", "1,000", "1.000 |"))
            self.assertIn("gap by the other's: 1.000 by the geometric mean, at worst 1.000 (50x1000x3.1)", ran.stdout)
        self.assertEqual(len(text_of("others")), 1)
        calls = text_of("calls").splitlines()
        self.assertEqual([call.split()[-3:-1] for call in calls if "--heat" in call][:2], [["--heat", "1000:62"], ["--heat", "62:0"]])
        self.assertEqual(sum("--workers 2" in call for call in calls), 4)

    def test_refusals(self):
        """A wrong line, a list that breaks a rule and wrong words end it."""
        for status, words in ((9, self.words(own="liar")), (5, self.words("--other", f"{os.path.abspath('breaks')} {{out}}")),
                              (3, self.words("--other", "false")), (3, self.words(own="none")), (2, ["60x60x60"]), (2, ["--x"]),
                              (2, ["s100.x"]), (2, ["--workers", "0"])):
            ran = search(*words)
            self.assertEqual((ran.returncode, len(ran.stderr.splitlines())), (status, 1), ran.stderr)
            self.assertTrue(ran.stderr.startswith("search: "), ran.stderr)
