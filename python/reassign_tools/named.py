"""Makes a model from tables with names, and answers with names.

A fleet is a folder with three tables and, if you like, settings. The first line of a table names its columns; their order is
free. Columns in brackets may be left out.

    machines.csv     machine,zone,rack,cpu,memory[,state][,price]       state: open (or nothing), or closed
    services.csv     service,spread,depends_on[,skew][,cpu,memory]      depends_on: a;b
    processes.csv    process,service,machine[,move_cost][,cpu,memory]
    settings.toml

What a process requires stands in its row, or else in that of its service. Amounts are written as 16, 0.5, 500m, 64Gi or
1.5G. Capacities are rounded down to whole units, requirements up. `evacuate --most` empties machines with a high price first;
a skew is by how much the processes of a service in two locations may differ, which is no rule, and which `check` tells.

`named COMMAND --help` tells more about each command. For example

    $ tools/named pack examples/fleet /tmp/packed
    $ tools/named check /tmp/packed"""
import argparse
import csv
import json
import os
import sys
from argparse import Namespace
from collections.abc import Callable, Iterable
from typing import Any, NoReturn

from .broken_rules import Broken
from .files import is_same, target, write_whole
from .fleets import kubernetes
from .fleets.changes import MOST_EDITS, changes, edits_text, obstacles, read_both
from .fleets.fleet import Fleet
from .fleets.packed import Judgement, Packed, judge, unpack
from .fleets.packing import FILES, pack
from .problems import Problem, ProblemWithLines
from .program import Program
from .running import run_tool
from .telling_rules import fullest, told
from .texts import counted
from .words import Words, file_name

PACK = """Makes a model from the tables of FLEET: OUT/model, OUT/initial (today's placement), OUT/closed (the closed machines)
and OUT/names.json (all names, the tables, and which model they belong to).

All mistakes of the tables are told at once, each with its file, line and column (of more than 20 of a kind the first 20, and
how many more there are), and nothing is written then (status 4, or 3 if a file can't be read). OUT is another folder than
FLEET. The settings that were used are printed, each word of them, as settings.toml has them; what is not
set has these defaults:

    neighbourhood = "zone"       the column that says in which neighbourhood a machine is: a service that depends on another
                                 needs one of its processes in each of its neighbourhoods; or a list of columns
    location = "rack"            the column for its location: a service stands in as many as its spread says; or a list
    move_cost = 1                of a process whose row has none
    spread = 1                   of a service whose cell is empty
    ignored = []                 columns that are passed over
    [[resource]]                 one for each resource; without any, each other column of machines.csv is one
    name                         the column
    unit                         what one of the model's numbers is: "1Mi" if an amount in the tables has the suffix Ki, Mi, Gi
                                 .., else "1M" if one has M, G .., else "1m" if one has a part of 1, else "1"
    transient = false            whether a process that moves needs it on both machines for a while
    load_weight                  what a unit above the safety capacity costs: by default so much that a per cent of what the
                                 fleet has costs as much as one of any other resource
    safety = 0.8                 the safety capacity: a share of the capacity, or the name of a column
    rule = false                 whether it stands for a rule that keeps processes to machines: `moves` and `summary` don't show it
    [[balance]]                  for each unit of the first that is free, as many of the second should be free as the target
    first, second                says; or, if it is an amount such as "4Gi", so much for each 1 of the first
    target = 1, weight = 1
    [ways]                       what a move costs by the way, if the file has no better
    same_location = 1, same_neighbourhood = 2, elsewhere = 5
    file                         a table with the columns from, to and cost, of two machines, locations or neighbourhoods
    [weights]                    of the costs of processes moved, of the most moved service, and of the ways
    process = 1, service = 10, machine = 1

Services may depend on each other in a ring, and a service may have no process: they are packed as they are, and told. Columns
at the end that have neither a name nor a cell, as spreadsheets add them, are passed over."""
CHECK = """Tells every rule that LIST breaks, by names: today's placement if there is no LIST. LIST may be a report of
`reassign solve` too.

Rules come in the order capacity, transient, conflict, spread, dependency, closed, and of each kind the one that is broken
furthest first. Amounts are in units of the model. Which skews LIST breaks and today's placement doesn't is told too, as a note.
It ends with what `reassign check` says, and with its status; that has to agree."""
LIST = """Prints on which machine each process is in LIST, or in a report of `reassign solve`, as a table: process,machine."""
UNPACK = """Writes the tables of the packed fleet OUT into the new folder FLEET2, with the machines of LIST (or of a report of
`reassign solve`)."""
DIFF = """Writes the file of edits (for `reassign edit`) that make the model of the fleet OLD that of NEW: processes that are
added, retired, or require something else. Nothing else can be an edit: no new, lost or closed machine, no other capacity, no
other service, no process that moves or gets another service, no other cost or weight. All of that is told, and nothing is
written then (status 12). What is the same for many rows is one line. The edits count processes as `named pack OLD` does.

Who requires less comes first, then who is retired, then who is added, then who requires more. With --out the edits are
printed by names."""
KUBECTL = kubernetes.__doc__


class Command(Words):
    """The words of one of the commands."""

    def __init__(self, **how: Any) -> None:
        argparse.ArgumentParser.__init__(self, formatter_class=argparse.RawDescriptionHelpFormatter, allow_abbrev=False, **how)


def parser() -> Words:
    words = Words("named", __doc__)
    commands = words.add_subparsers(dest="command", metavar="COMMAND", required=True, parser_class=Command)

    def command(name: str, work: Callable[[Namespace], None], text: str, help: str, *operands: str) -> Command:
        one = commands.add_parser(name, description=text, help=help)
        one.set_defaults(work=work)
        for operand in operands:
            one.add_argument(operand.lower(), metavar=operand, type=file_name)
        return one
    command("pack", pack_fleet, PACK, "make a model from tables", "FLEET", "OUT")
    one = command("check", check, CHECK, "tell every broken rule", "OUT")
    one.add_argument("list", metavar="LIST", type=file_name, nargs="?")
    one.add_argument("--json", action="store_true", help="print one JSON object")
    one.add_program()
    command("list", print_list, LIST, "print a list by names", "OUT", "LIST")
    command("unpack", unpack_list, UNPACK, "write the tables with the machines of a list", "OUT", "LIST", "FLEET2")
    one = command("diff", diff, DIFF, "write the edits between two fleets", "OLD", "NEW")
    one.add_argument("--out", metavar="EDITS", type=file_name, help="the file of edits (else standard output)")
    one = command("from-kubectl", from_kubectl, KUBECTL, "make tables from a Kubernetes cluster", "NODES", "PODS", "FLEET")
    one.add_argument("--split", action="store_true", help="make each pod of an owner with two pods on a node a service")
    return words


def pack_fleet(words: Namespace) -> None:
    if is_same(words.out, words.fleet):
        raise Problem(f"{words.out} and {words.fleet} are one folder; name another for the model", 2)
    fleet = Fleet.read(words.fleet)
    for name in FILES:
        refuse_over(os.path.join(words.out, name), words.fleet, fleet.texts)
    pack(fleet, words.out)
    print("\n".join(fleet.settings.lines()))
    print()
    for note in fleet.notes:
        print(f"note: {note}")
    print(f"packed {counted(len(fleet.machines), 'machine')} ({len(fleet.closed)} closed), {counted(len(fleet.services), 'service')}, "
          f"{counted(len(fleet.processes), 'process', 'processes')} into {words.out}")


def refuse_over(output: str, folder: str, files: Iterable[str]) -> None:
    """Refuses an output that is one of the files of a folder."""
    for file in files:
        if is_same(output, os.path.join(folder, file)):
            raise Problem(f"{output} and {os.path.join(folder, file)} are one file, which would be lost", 2)


def check(words: Namespace) -> None:
    packed, program = Packed.read(words.out), Program(words.program)
    name = words.list or packed.file("initial")
    found = judge(packed, program, name)
    if words.json:
        json.dump(checked(packed, found, name), sys.stdout, ensure_ascii=False)
        print()
        return end_check(packed, found) if found.status else None
    parts = [("today's placement", found.initial_rules)] if words.list and found.initial_rules else []
    for whose, rules in [*parts, (name if words.list else "today's placement", found.rules)]:
        for rule in rules:
            print(told(rule, packed.names, found.model))
        print(f"{whose} breaks {counted(len(rules), 'rule') if rules else 'no rule'}")
    if not found.status:
        print("fullest: " + ", ".join(fullest(packed.names, found.model, packed.placement(name))))
    for skew in found.skews:
        print(skew.told())
    print("".join(f"{line}\n" for line in found.lines), end="")
    if found.status:
        end_check(packed, found)


def end_check(packed: Packed, found: Judgement) -> NoReturn:
    """Ends with the status and the line of `reassign check`, by names."""
    sys.stdout.flush()
    raise Problem(packed.names.line(found.error), found.status or 0)


def checked(packed: Packed, found: Judgement, name: str) -> dict[str, object]:
    """All that is told of a list, for scripts."""
    def rules(some: list[Broken]) -> list[dict[str, object]]:
        return [{"rule": one.cause[0], "numbers": one.cause[1:], "by_name": packed.names.cause(*one.cause),
                 "processes": [packed.names.processes[p] for p in one.processes]} for one in some]
    words: dict[str, object] = {"list": name, "feasible": not found.status, "rules": rules(found.rules), "rules_today": rules(found.initial_rules),
             "skews": [one.as_words() for one in found.skews]}
    if not found.status:
        words["fullest"] = list(fullest(packed.names, found.model, packed.placement(name)))
        words["costs"] = {word: int(value) for word, value in map(str.split, found.lines)}
    return words


def print_list(words: Namespace) -> None:
    packed = Packed.read(words.out)
    now = packed.placement(words.list)
    writer = csv.writer(sys.stdout, lineterminator="\n")
    writer.writerow(("process", "machine"))
    writer.writerows(zip(packed.names.processes, (packed.names.machines[machine] for machine in now)))


def unpack_list(words: Namespace) -> None:
    packed = Packed.read(words.out)
    unpack(packed, packed.placement(words.list), words.fleet2)


def diff(words: Namespace) -> None:
    old, new = read_both(Fleet.read, (words.old, words.new))
    count, lines = obstacles(old, new)
    if count:
        raise ProblemWithLines(lines, f"{counted(count, 'difference')} can't be an edit (edits add, retire and resize processes), so "
                               f"nothing is written; `named pack {words.new}` makes a model of its own", 12)
    found = changes(old, new)
    if len(found) > MOST_EDITS:
        raise Problem(f"{len(found):,} edits; at most {MOST_EDITS:,} are possible", 12)
    if not words.out:
        print(edits_text(found), end="")
        return
    for folder, fleet in ((words.old, old), (words.new, new)):
        refuse_over(words.out, folder, fleet.texts)
    write_whole(target(words.out), [edits_text(found).encode()])
    for at, one in enumerate(found):
        print(f"edit {at} {one.told}")


def from_kubectl(words: Namespace) -> None:
    for line in kubernetes.make_fleet(words.nodes, words.pods, words.fleet, words.split):
        print(line)


def work(words: Namespace) -> None:
    try:
        words.work(words)
    except ProblemWithLines as problem:
        for line in problem.lines:
            print(line, file=sys.stderr)
        raise


def main(words: list[str] | None = None) -> NoReturn:
    run_tool(parser(), work, words)
