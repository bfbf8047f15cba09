"""Draws a run of `reassign solve`, or the machines before and after, as a picture (SVG, to standard output).

LOG .. draws searches by `improve`: what is left of the gap over the seconds.

REPORT alone draws the run; --run REPORT MODEL INITIAL draws it with the cost of its start; REPORT MODEL INITIAL, or any list,
LIST MODEL INITIAL, draws the machines, before and after.

The run: over the places of the report's journal the cost, the least so far and the printed bound; below them how far these are
above the bound, on a logarithmic axis, which shows the end; and for each worker which part of its entries was done and which
refused, and, if there are several workers, which part was planned at an earlier state than the one in which it stands. If
most of the fall comes early, places stand on a logarithmic axis, unless that leaves much of a worker's strip empty. A report
alone doesn't always tell what the start costs; MODEL and INITIAL do.

The machines: for each resource the use of each machine as a part of its capacity, before and after, in the order of their use
before. Up to 600 machines are drawn one by one, and more in groups of at least 20. With --names resources and machines have
their names, as `named pack` writes them; if there is no room for those of all machines, the fullest are named.

A report that is cut off, or isn't one, is refused with its wrong line; so is one that costs something else than it says, from
this start in this model. One that is cut between two entries, after its best state, can't be told. Whether a list is feasible
`summary` says.

A name with the ending .png or .pdf gets such a picture, if rsvg-convert or cairosvg is there. The colours can be told apart by
readers who are colour blind. For example

    $ tools/plot --out /tmp/picture.svg examples/sample/new examples/sample/model examples/sample/initial"""
import argparse
import shlex
import sys
from collections.abc import Callable, Sequence
from dataclasses import dataclass

from .files import read_list, target
from .improve_pictures import draw_logs, is_log
from .machine_pictures import draw_machines, title_of
from .machine_uses import uses_of
from .models import Model, same_sizes
from .names import Names
from .pictures import form_of, write_picture
from .problems import Problem
from .run_pictures import draw_run
from .reports import is_list
from .run_reports import RunReport
from .running import run_tool
from .words import Words, any_file_name, filled, shown


@dataclass(frozen=True)
class PlotOptions:
    """What `plot` is asked: the names of its files, and what is drawn."""

    report: str
    model: str | None = None
    initial: str | None = None
    more: Sequence[str] = ()
    run: bool = False
    names: str | None = None
    title: str | None = None


def parser() -> Words:
    words = Words("plot", __doc__)
    words.add_argument("report", metavar="REPORT|LIST|LOG", type=any_file_name)
    words.add_argument("model", metavar="MODEL", type=any_file_name, nargs="?")
    words.add_argument("initial", metavar="INITIAL", type=any_file_name, nargs="?")
    words.add_argument("more", metavar="LOG", type=any_file_name, nargs="*", help="further logs, from the second on")
    words.add_argument("--out", metavar="FILE", type=any_file_name,
                       help="where the picture goes (standard output): .svg, .png or .pdf")
    words.add_argument("--run", action="store_true", help="draw the run, though there are a model and a start")
    words.add_argument("--names", metavar="FILE", type=any_file_name, help="the names of the model, as `named pack` writes them")
    words.add_argument("--title", metavar="TITLE", help="the title of the picture")
    return words


class Instance:
    """A model and a start, from which a report's list costs what the report says."""

    def __init__(self, model_name: str, start_name: str) -> None:
        self.start_name, self.start = start_name, read_list(start_name)
        self.model = Model.read(model_name)
        same_sizes(self.model, start_name, self.start)
        self.start_cost = self.model.cost(self.start, self.start)

    def has(self, report: RunReport) -> None:
        """Raises Problem with status 9 if a report isn't of this model and start."""
        end = report.assignment
        if len(end) != len(self.start) or max(end) >= self.model.machines:
            raise Problem(f"{report.name}: not of this model: it has {len(end)} processes, on machines up to {max(end)}", 9)
        cost = self.model.cost(self.start, end)
        if cost != report.least:
            raise Problem(f"{report.name}: not of this model and this start: its assignment costs {cost} there, and it says "
                          f"{report.least}", 9)
        if report.start not in (None, self.start_cost):
            raise Problem(f"{report.name}: not of this model and this start: its start costs {report.start}, and "
                          f"{self.start_name} costs {self.start_cost}", 9)


def machines(options: PlotOptions, instance: Instance, end: list[int], title: str | None, command: str) -> str:
    """The picture of the machines."""
    model = instance.model
    names = Names.read(options.names, options.model) if options.names and options.model else Names.numbers(model)
    uses = uses_of(model, names, instance.start, end)
    return draw_machines(uses, names.machines, title or title_of(options.report, model.machines), command,
                         tells_fullest=bool(options.names))


def picture_of(options: PlotOptions, tidy: Callable[[str], str] = str) -> str:
    """The picture, as the text of an SVG. What it says of the call goes through `tidy`."""
    files = list(filter(None, (options.report, options.model, options.initial, *options.more)))
    flags = ["--run"] * options.run + (["--names", options.names] if options.names else [])
    command, title = "tools/plot " + tidy(shown(shlex.join([*flags, *files]))), shown(options.title) if options.title else None
    if is_log(options.report):
        return draw_logs(files, title, command)
    instance = Instance(options.model, options.initial) if options.model and options.initial else None
    if is_list(options.report):
        if options.run or not instance:
            raise Problem(f"{options.report} is a list, of which the machines are drawn, with MODEL and INITIAL", 2)
        end = read_list(options.report)
        same_sizes(instance.model, options.report, end)
        return machines(options, instance, end, title, command)
    report = RunReport(options.report)
    if instance:
        instance.has(report)
        if not options.run:
            return machines(options, instance, report.assignment, title, command)
    return draw_run(report, instance.start_cost if instance else None, command, title)


def work(words: argparse.Namespace) -> None:
    options, is_drawn_log = filled(PlotOptions, words), is_log(words.report)
    if words.more and not is_drawn_log or is_drawn_log and words.run:
        raise Problem(f"{words.report} is {'a' if is_drawn_log else 'no'} log of `improve`; plot --help shows how to call it", 2)
    if words.model and not words.initial and not is_drawn_log:
        raise Problem("MODEL stands alone, without INITIAL; plot --help shows how to call it", 2)
    if words.run and not words.model:
        raise Problem("--run wants MODEL and INITIAL; plot --help shows how to call it", 2)
    if words.names and not words.model:
        raise Problem("--names is for a model and its machines; plot --help shows how to call it", 2)
    out = words.out and target(words.out, words.report, words.model, words.initial, *words.more, words.names)
    if out:
        form_of(words.out)
    picture = picture_of(options).encode()
    if out:
        write_picture(out, picture)
    else:
        sys.stdout.buffer.write(picture)
        sys.stdout.buffer.flush()


def main(words: list[str] | None = None) -> None:
    run_tool(parser(), work, words)
