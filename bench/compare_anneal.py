#!/usr/bin/env python3
"""Judges what `anneal` prints, by the second implementation of the rules in compare.py.

Makes small random instances, with closed lists and lists to begin from, and calls `anneal` with seeds, tries, heats and
workers of all sizes. Of each output it judges every line: the cost and the parts of the list, every rule for both lists,
and the bound. The list may cost no more than the one from which the search began, and no more than the last one; and of
all shifts of its processes none may be cheaper and break no rule. The three numbers are told, and can be any. Each call
runs three times, the third time on one processor, and prints the same. A list that breaks a rule is refused with its
cause, and so are wrong words. It stops at the first difference, says what it was, and leaves the files there.

usage: compare_anneal.py PROGRAM FIRST_SEED INSTANCES
"""
import os
import random
import re
import shutil
import subprocess
import sys
import tempfile
from collections import Counter
from itertools import product

from compare import LARGEST_WORD, cost_lines, joined, random_instance, random_start, write

MOST_TRIES = 10**12
LONGEST = 120  # seconds
NUMBER = "(0|[1-9][0-9]*)"
NUMBERS = f"{NUMBER}(?: {NUMBER})*"
TAIL = re.compile(f"heat {NUMBER}\ntries {NUMBER}\ndone {NUMBER}\nassignment ({NUMBERS})\nlast ({NUMBERS})\n")


class Difference(Exception):
    """What the program printed isn't what it has to be."""


def run(words, processors=None):
    """The status of a call and both outputs. Processors are those on which it may run."""
    limit = processors and (lambda: os.sched_setaffinity(0, processors))
    ran = subprocess.run(words, capture_output=True, text=True, timeout=LONGEST, check=False, preexec_fn=limit)
    return ran.returncode, ran.stdout, ran.stderr


def run_thrice(words):
    """The status and both outputs, which have to be the same each time."""
    one = [min(os.sched_getaffinity(0))]
    first, *others = run(words), run(words), run(words, one)
    for number, other in enumerate(others):
        if other != first:
            raise Difference(f"call {number + 2} gave {other}, and call 1 {first}")
    return first


def read_lists(inst, start, printed):
    """The best list and the last one, from an output that has the twelve lines."""
    told = TAIL.search(printed)
    if not told:
        raise Difference(f"these aren't the twelve lines: {printed!r}")
    best, last = ([int(word) for word in line.split()[1:]] for line in told[0].splitlines()[3:])
    for machines in (best, last):
        if len(machines) != len(start) or max(machines) >= len(inst.locations):
            raise Difference(f"{machines} is no list of machines")
    head = cost_lines(inst.parts(start, best)) + f"bound {inst.bound(start)[0]}\n"
    if printed != head + told[0]:
        raise Difference(f"{printed!r} should begin with {head!r}, and end with its fifth line of words")
    return best, last


def cheaper_shift(inst, start, machines):
    """A shift of one process that breaks nothing and makes a list cheaper, or None."""
    cost = inst.parts(start, machines)[0]
    for p, m in product(range(len(machines)), range(len(inst.locations))):
        shifted = [*machines[:p], m, *machines[p + 1:]]
        if inst.parts(start, shifted)[0] < cost and inst.broken(start, shifted) is None:
            return p, m
    return None


def judge(inst, start, begun, printed, kinds):
    """Judges the output of a call that ended well, which began at a list."""
    best, last = read_lists(inst, start, printed)
    for name, machines in (("assignment", best), ("last", last)):
        cause = inst.broken(start, machines)
        if cause:
            raise Difference(f"{name} breaks a rule: {cause}")
    cost, before, at_last, bound = *(inst.parts(start, a)[0] for a in (best, begun, last)), inst.bound(start)[0]
    if cost > min(before, at_last) or cost < bound:
        raise Difference(f"the list costs {cost}, the one before {before}, the last {at_last}, and the bound is {bound}")
    shift = cheaper_shift(inst, start, best)
    if shift:
        raise Difference("process {} on machine {} would be cheaper".format(*shift))
    kinds["cheaper than before" if cost < before else "as before"] += 1
    kinds["last is best" if best == last else "last is another"] += 1


def random_word(chance, most):
    """A number up to a greatest one, as the words have it: leading zeros are accepted up to 20 digits."""
    number = chance.choice([0, 1, 7, chance.randrange(1000), most, chance.randint(0, most)])
    return f"{number:0{chance.choice([1, 1, 3, 20])}}"


def random_tries(chance):
    return chance.choice([0, 1, 2, chance.randrange(100), chance.randrange(5_000), chance.randrange(50_000), 200_000])


def random_list(chance, inst, start):
    """A list to begin from: mostly one that some moves reach, cheaper ones alone or any, and that breaks nothing; at times any."""
    at, only_cheaper = list(start), chance.random() < 0.5
    if chance.random() < 0.15:
        return [chance.choice([m, m, chance.randrange(len(inst.locations))]) for m in at]
    for _ in range(chance.choice([0, 5, 40, 100])):
        new = list(at)
        if chance.random() < 0.7:
            new[chance.randrange(len(at))] = chance.randrange(len(inst.locations))
        else:
            p, q = (chance.randrange(len(at)) for _ in range(2))
            new[p], new[q] = at[q], at[p]
        if inst.broken(start, new) is None and not (only_cheaper and inst.parts(start, new)[0] > inst.parts(start, at)[0]):
            at = new
    return at


def random_words(chance, has_list, has_closed):
    """The options of a call, each a list of words, and its last word."""
    options = [["--from", "f"]] if has_list else []
    options += [["--closed", "c"]] if has_closed else []
    if chance.random() < 0.6:
        high, low = (random_word(chance, LARGEST_WORD) for _ in range(2))
        options.append(["--heat", f"{high}:{low}"])
    if chance.random() < 0.7:
        options.append(["--workers", str(chance.choice([1, 2, 3, 4, chance.randint(1, 16), 16]))])
    return options, f"{random_word(chance, LARGEST_WORD)}:{random_tries(chance):0{chance.choice([1, 1, 13])}}"


def wrong_words(chance, options, lot):
    """Words that are no call, made from those of one."""
    seed, tries = lot.split(":")
    wrong_lots = [seed, f"{seed}:", f":{tries}", f"{seed}:{tries}:0", f"{LARGEST_WORD + 1}:{tries}", f"{seed}:{MOST_TRIES + 1}",
                  f"{'0' * 21}:{tries}", f"{seed}:+1", f"-1:{tries}", f"{seed},{tries}", "w:0,1,2,3,4,5,6,7"]
    wrong_options = [["--heat", "5"], ["--heat", f"{LARGEST_WORD + 1}:0"], ["--heat", f"0:{LARGEST_WORD + 1}"], ["--heat", ":"],
                     ["--heat", "-1:0"], ["--workers", "0"], ["--workers", "17"], ["--workers", "x"], ["--workers", ""], ["--workers"],
                     ["--workers=2"], ["--slack", "0"], ["--draws", "2"], ["--from", ""], ["--from", "-f"], ["-w", "2"], ["x"]]
    flat = [word for option in options for word in option]
    ways = [["m", *flat, lot], ["m", "i", *flat], ["m", "i", *flat, lot, lot], ["m", "i", *flat, chance.choice(wrong_lots)],
            ["m", "i", *chance.choice(wrong_options), lot], ["m", "i", *flat, "--", lot], ["", "i", *flat, lot], ["m", "-i", *flat, lot],
            ["solve", "m", "i", *flat, lot], []]
    if options:
        ways.append(["m", "i", *flat, *chance.choice(options), lot])
        ways.append(["m", "i", lot, *flat])
    if len(options) > 1:
        ways.append(["m", "i", *(word for option in reversed(options) for word in option), lot])
    return chance.choice(ways)


def compare_call(program, chance, inst, start, has_closed, kinds):
    """One call over the files of an instance, and one with wrong words."""
    has_list = chance.random() < 0.6
    begun = random_list(chance, inst, start) if has_list else start
    write("f", joined(begun))
    options, lot = random_words(chance, has_list, has_closed)
    words = [program, "m", "i", *(word for option in options for word in option), lot]
    try:
        status, printed, error = run_thrice(words)
        causes = [f"infeasible: {name}: {cause}\n" for name, a in (("i", start), ("f", begun)) if (cause := inst.broken(start, a))]
        if causes and (status, printed, error) != (6, "", causes[0]):
            raise Difference(f"wanted {causes[0]!r}, got {(status, printed, error)}")
        if not causes:
            if (status, error) != (0, ""):
                raise Difference(f"status {status}, {error!r}")
            judge(inst, start, begun, printed, kinds)
        kinds.update(option[0].removeprefix("--") for option in options if not causes)
        kinds["infeasible"] += bool(causes)
        words = [program, *wrong_words(chance, options, lot)]
        status, printed, error = run(words)
        if (status, printed) != (2, "") or not re.fullmatch("usage: anneal [^\n]*\n", error):
            raise Difference(f"wanted status 2 and a line of usage, got {(status, printed, error)}")
    except (Difference, subprocess.TimeoutExpired) as fault:
        sys.exit(f"{joined(words)} in {os.getcwd()}\n  {fault}")


def drawn(chance):
    """An instance with a start, which breaks nothing as a rule."""
    while True:
        inst = random_instance(chance)
        start = random_start(chance, inst)
        if inst.broken(start, start) is None or chance.random() < 0.03:
            return inst, start


def compare_instance(program, chance, kinds):
    inst, start = drawn(chance)
    write("m", inst.text())
    write("i", joined(start))
    has_closed = chance.random() < 0.4
    if has_closed:
        closed = [chance.randrange(len(inst.closed)) for _ in range(chance.randint(0, 3))]
        inst.closed = [m in closed for m in range(len(inst.closed))]
        write("c", joined(closed, "\n"))
    for _ in range(3):
        compare_call(program, chance, inst, start, has_closed, kinds)


def main():
    if sys.argv[1:] in (["-h"], ["--help"]):
        sys.exit(print(__doc__.strip()))
    if len(sys.argv) != 4 or not all(word.isdigit() for word in sys.argv[2:]):
        print("usage: compare_anneal.py PROGRAM FIRST_SEED INSTANCES", file=sys.stderr)
        sys.exit(2)
    if not os.access(sys.argv[1], os.X_OK):
        sys.exit(f"compare_anneal.py: {sys.argv[1]} is no program")
    program, seed, instances = os.path.abspath(sys.argv[1]), int(sys.argv[2]), int(sys.argv[3])
    for word in ("--help", "--version"):
        status, printed, error = run([program, word])
        if (status, error) != (0, "") or not printed:
            sys.exit(f"{program} {word}: {(status, printed, error)}")
    kinds = Counter()
    folder = tempfile.mkdtemp()
    os.chdir(folder)
    for number in range(seed, seed + instances):
        compare_instance(program, random.Random(number), kinds)
    shutil.rmtree(folder)
    told = ", ".join(f"{kind} {count}" for kind, count in sorted(kinds.items()))
    print(f"{instances} instances, no difference; of the calls: {told}")


if __name__ == "__main__":
    main()
