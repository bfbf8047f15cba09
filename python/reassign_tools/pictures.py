"""Pictures as SVG, and as PNG and PDF if a program is there that makes them. The colours can be told apart by readers who are
colour blind."""
import math
import os
import shutil
import subprocess
from collections.abc import Iterator, Sequence
from html import escape

from .children import begin, end, forget
from .files import Room, write_whole
from .problems import Problem

BLUE, ORANGE, GREEN, SKY, PURPLE = "#0072B2", "#D55E00", "#009E73", "#56B4E9", "#CC79A7"
GREY, BLACK, PALE, MIDDLE, PALE_GREEN = "#BBBBBB", "#222222", "#D6E9F5", "#9CCBE8", "#B8E0D2"
GRID, FAINT = "#E6E6E6", "#666666"
ACROSS = 640
PLAIN = ("", ".svg")  # endings of the names of pictures as SVG
# The words of programs that make a picture of another form. {svg} and {new} are the files, and a PNG has twice as many dots.
MAKERS = {".png": (("rsvg-convert", "--zoom", "2", "--format", "png", "--output", "{new}", "{svg}"),
                   ("cairosvg", "--scale", "2", "--format", "png", "--output", "{new}", "{svg}")),
          ".pdf": (("rsvg-convert", "--format", "pdf", "--output", "{new}", "{svg}"),
                   ("cairosvg", "--format", "pdf", "--output", "{new}", "{svg}"))}
Points = list[tuple[float, float]]


def grouped(number: float) -> str:
    return f"{number:,}" if number < 10**15 else f"{float(number):.4g}"


def wide(words: str, size: float) -> float:
    """How wide a text is, at most, in the fonts that are asked for."""
    return size * sum(0.36 if letter in ".,:; il|'" else 0.68 for letter in words)


def cut(words: str, size: float, room: float) -> str:
    """A text, of which the front is left out if there is no room for it."""
    if wide(words, size) <= room:
        return words
    while words and wide("…" + words, size) > room:
        words = words[1:]
    return "…" + words


class Picture:
    """Shapes in the order in which they are drawn, and how far to the right they go."""

    def __init__(self, left: float) -> None:
        self.shapes: list[str] = []
        self.left, self.right = left, float(left + ACROSS + 20)

    def line(self, x1: float, y1: float, x2: float, y2: float, colour: str = BLACK, width: float = 1, dash: str = "") -> None:
        dashed = f' stroke-dasharray="{dash}"' if dash else ""
        self.shapes.append(f'<line x1="{x1:.1f}" y1="{y1:.1f}" x2="{x2:.1f}" y2="{y2:.1f}" '
                           f'stroke="{colour}" stroke-width="{width}"{dashed}/>')

    def path(self, points: Points, colour: str, width: float, dash: str = "") -> None:
        steps = " ".join(f"{x:.1f},{y:.1f}" for x, y in points)
        dashed = f' stroke-dasharray="{dash}"' if dash else ""
        self.shapes.append(f'<polyline points="{steps}" fill="none" stroke="{colour}" stroke-width="{width}"'
                           f' stroke-linejoin="round"{dashed}/>')

    def band(self, low: Points, high: Points, colour: str, opacity: float = 1) -> None:
        steps = " ".join(f"{x:.1f},{y:.1f}" for x, y in low + high[::-1])
        thin = f' fill-opacity="{opacity}"' if opacity < 1 else ""
        self.shapes.append(f'<polygon points="{steps}" fill="{colour}"{thin}/>')

    def bar(self, x: float, y: float, width: float, height: float, colour: str) -> None:
        if width > 0 and height > 0:
            self.shapes.append(f'<rect x="{x:.1f}" y="{y:.1f}" width="{width:.1f}" height="{height:.1f}" fill="{colour}"/>')

    def dot(self, x: float, y: float, radius: float, fill: str, edge: str) -> None:
        self.shapes.append(f'<circle cx="{x:.1f}" cy="{y:.1f}" r="{radius}" fill="{fill}" stroke="{edge}"/>')

    def text(self, x: float, y: float, words: str, anchor: str = "start", size: float = 13, colour: str = BLACK,
             weight: str = "normal", upright: bool = False) -> None:
        if anchor == "start":
            self.right = max(self.right, x + wide(words, size) * (1.08 if weight == "bold" else 1) + 8)
        turned = f' transform="rotate(-90 {x:.1f} {y:.1f})"' if upright else ""
        self.shapes.append(f'<text x="{x:.1f}" y="{y:.1f}" text-anchor="{anchor}" font-size="{size}" '
                           f'font-weight="{weight}" fill="{colour}"{turned}>{escape(words)}</text>')

    def heading(self, y: float, words: str) -> None:
        self.text(self.left, y, words, size=15, weight="bold")

    def written(self, height: float, title: str, command: str) -> str:
        """The picture's text, with its title and the command that makes it at the top."""
        right = math.ceil(self.right)
        room = right - 36
        self.text(16, 26, cut(title, 16, room / 1.08), size=16, weight="bold")
        self.text(16, 45, cut(command, 12, room), size=12, colour=FAINT)
        top = (f'<svg xmlns="http://www.w3.org/2000/svg" width="{right}" height="{height}" role="img" '
               f'viewBox="0 0 {right} {height}" font-family="DejaVu Sans, Helvetica, Arial, sans-serif">\n'
               f'<title>{escape(title)}</title>\n<rect width="100%" height="100%" fill="white"/>\n')
        return top + "\n".join(self.shapes) + "\n</svg>\n"


def ticks(low: int, high: int, wanted: int = 5) -> range:
    """Round numbers from low to high."""
    step = 1
    while (high - low) / step > wanted:
        step = step * 2 if str(step)[0] in "15" else step // 2 * 5
    first = -(-low // step) * step
    return range(first, high + 1, step)


def log_ticks(low: float, high: float) -> list[float]:
    """Numbers for a logarithmic axis from low to high: 1, 2 and 5 of each decade, or more if these are few."""
    few = list(decades(low, high, (1, 2, 5)))
    return few if len(few) >= 3 else list(decades(low, high, (1, 1.2, 1.5, 2, 2.5, 3, 4, 5, 6, 7, 8, 9)))


def decades(low: float, high: float, steps: Sequence[float]) -> Iterator[float]:
    for exponent in range(math.floor(math.log10(low)), math.ceil(math.log10(high)) + 1):
        for step in steps:
            mark = float(f"{step * 10.0 ** exponent:.6g}")
            if low <= mark <= high:
                yield mark


# Files


def form_of(name: str) -> str:
    """The ending of a picture's name, which says what its form is. Raises Problem with status 2 if there is no such form, and 3
    if no program is there that makes it."""
    ending = os.path.splitext(name)[1].lower()
    if ending in PLAIN:
        return ending
    if ending not in MAKERS:
        raise Problem(f"{name}: a picture's name ends in .svg, .png or .pdf", 2)
    if not any(shutil.which(words[0]) for words in MAKERS[ending]):
        raise Problem(f"{name}: neither rsvg-convert nor cairosvg is there, which make such a picture; .svg needs none of them", 3)
    return ending


def write_picture(name: str, picture: bytes) -> None:
    """Writes a picture, which is SVG, in the form that the ending of its name says."""
    ending = form_of(name)
    write_whole(name, [picture if ending in PLAIN else made(ending, picture)])


def made(ending: str, picture: bytes) -> bytes:
    """A picture in another form."""
    words = next(words for words in MAKERS[ending] if shutil.which(words[0]))
    with Room() as room:
        svg, new, errors = room("picture.svg"), room("picture.new"), room("errors")
        write_whole(svg, [picture])
        with open(errors, "wb") as told:
            run = begin([word.format(svg=svg, new=new) for word in words], stdout=subprocess.DEVNULL, stderr=told)
            try:
                status = run.wait()
            except BaseException:
                end(run)
                raise
            forget(run)
        if status or not os.path.isfile(new):
            with open(errors, encoding="utf-8", errors="replace") as lines:
                line = lines.read(1000).strip().split("\n")[0]
            raise Problem(f"write fault: {words[0]} made no picture{': ' * bool(line)}{line}", 7)
        with open(new, "rb") as file:
            return file.read()
