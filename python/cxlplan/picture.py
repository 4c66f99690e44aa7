"""Draws regions that cxlplan prints: their windows, the machine, its memory, and
which device gets which chunk.

  cxl-picture CEDT TOPO REPLY NAME
        makes NAME.svg, and NAME.html with the same picture in a page

CEDT and TOPO are the files that cxlplan read, and REPLY is its output, or - for
standard input: that of `check`, of `plan`, or of a script with a `show` of each
region. Neither file may be there yet. Bad input gives one line on standard error
and status 1.
"""

import html
import os
import sys
from typing import Optional

from .desk.output import size_words
from .errors import BadFile
from .facts import Node, Window
from .files import write_new
from .host import Host
from .reply import Reply
from .tools import Words, carried_out, host_of

# Sizes in pixels. A letter of the font, which is of one width, is at most 0.62 of its size.
LETTER, TEXT, SMALL, LINE = 0.62, 12, 10, 16
MARGIN, LEAST_WIDTH, NODE, GAP, BAR = 20, 1000, 130, 34, 340
FONT = "DejaVu Sans Mono, Liberation Mono, Menlo, Consolas, monospace"

# A region's fill: a colour, and a pattern that tells it from others in black and white; its letter stands on both.
COLOURS = ("#56b4e9", "#e69f00", "#009e73", "#f0e442", "#cc79a7", "#d55e00", "#0072b2", "#b0b0b0")
PATTERNS = ("M0 8 8 0", "M0 0 8 8", "M0 4H8", "M4 0V8", "M0 4H8M4 0V8", "M0 8 8 0M0 0 8 8", "M2 2h1M6 6h1", "")


def letter_of(number: int) -> str:
    return (letter_of(number // 26 - 1) if number >= 26 else "") + chr(65 + number % 26)


class Picture:
    """The parts of an SVG picture, from the top down; `y` is where the next one begins."""

    def __init__(self, host: Host, regions: list):
        self.nodes, self.windows, self.regions = host.nodes, host.windows, regions
        self.numbers = {node.name: number for number, node in enumerate(self.nodes)}
        above: dict = {None: -1}  # by a node's name: how many bridges and switches are above it
        for node in self.nodes:
            above[node.name] = above[node.parent] + 1
        last = max(above.values())
        self.depths = [last if node.kind == "endpoint" else above[node.name] for node in self.nodes]  # endpoints are in one column
        self.tree = max(self.depths, default=0) * (NODE + GAP) + NODE  # the width of the tree
        self.width = max(LEAST_WIDTH, 2 * MARGIN + self.tree + 2 * GAP + BAR + 190)
        self.parts: list = []
        self.y = MARGIN
        self.draw_windows()
        self.draw_machine()
        for number in range(len(regions)):
            self.draw_turn(number)

    # ---- Shapes.

    def text(self, x: float, y: float, words: str, size: int = TEXT, more: str = "") -> None:
        self.parts.append(f'<text x="{x:g}" y="{y:g}" font-size="{size}"{more}>{html.escape(words)}</text>')

    def box(self, x: float, y: float, width: float, height: float, fill: str = "#fff", more: str = "") -> None:
        self.parts.append(f'<rect x="{x:g}" y="{y:g}" width="{width:g}" height="{height:g}" fill="{fill}" '
                          f'stroke="#000"{more}/>')

    def labelled(self, x: float, y: float, width: float, height: float, lines: list, fill: str = "#fff",
                 more: str = "") -> None:
        """A box with lines of text in its middle."""
        self.parts.append('<g class="box">')
        self.box(x, y, width, height, fill, more)
        top = y + (height - LINE * len(lines)) / 2
        for number, line in enumerate(lines):
            size = min(TEXT, (width - 6) / max(1, len(line)) / LETTER)
            self.text(x + width / 2, top + LINE * number + 12, line, size=f"{size:.3g}", more=' text-anchor="middle"')
        self.parts.append("</g>")

    def marked(self, x: float, y: float, width: float, height: float, number: int) -> bool:
        """A piece of a region, to scale, with the region's letter where there is room; else whether it is still due."""
        letter = letter_of(number)
        room = len(letter) * TEXT * LETTER + 4
        self.parts.append('<g class="box">')
        self.box(x, y, width, height, COLOURS[number % 8])
        if PATTERNS[number % 8]:
            self.box(x, y, width, height, f"url(#p{number % 8})")
        if width >= room + 2:
            self.box(x + (width - room) / 2, y + (height - 14) / 2, room, 14, "#fff", ' stroke-width="0.5"')
            self.text(x + width / 2, y + height / 2 + 4, letter, more=' text-anchor="middle" font-weight="bold"')
        self.parts.append("</g>")
        return width < room + 2

    def lane(self, due: list, y: float, left: float, right: float) -> None:
        """The letters of pieces that were too narrow for them, beside each other above the bar."""
        steps, x = [], left
        for at, number in due:
            room = (len(letter_of(number)) + 0.6) * SMALL * LETTER
            x = max(x, at - room / 2)
            steps.append([x, room, at, number])
            x += room
        for step in reversed(steps):
            step[0] = min(step[0], right - step[1])
            right = step[0]
        for x, room, at, number in steps if right >= left else []:
            self.text(x + room / 2, y - 5, letter_of(number), SMALL, ' text-anchor="middle"')
            self.parts.append(f'<path d="M{x + room / 2:.1f} {y - 4}L{at:.1f} {y}" stroke="#000" stroke-width="0.6"/>')

    def heading(self, words: str) -> None:
        self.y += LINE
        self.text(MARGIN, self.y, words, 14, ' font-weight="bold"')
        self.y += 10

    # ---- The windows.

    def draw_windows(self) -> None:
        self.heading("Host address windows, each to its own scale, and the regions in them")
        for number, window in enumerate(self.windows):
            scale = (self.width - 2 * MARGIN) / max(window.size, 1)
            ways = f"{window.ways} ways of {window.gran} B" if window.ways > 1 else "one way"
            self.y += LINE
            self.text(MARGIN, self.y, f"window {number}: {window.base:#x} to {window.base + window.size:#x}, "
                      f"{size_words(window.size)}, {ways}{', XOR' if window.arithmetic == 'xor' and window.ways > 1 else ''}")
            self.y += LINE
            self.targets(window)
            self.y += 18
            self.box(MARGIN, self.y, self.width - 2 * MARGIN, 24, "#f4f4f4")
            inside = [(region.base, mark) for mark, region in enumerate(self.regions) if region.window == number]
            due = []
            for base, mark in sorted(inside):
                x, width = MARGIN + (base - window.base) * scale, self.regions[mark].size * scale
                if self.marked(x, self.y, max(width, 1), 24, mark):
                    due.append((x + width / 2, mark))
            self.lane(due, self.y, MARGIN, self.width - MARGIN)
            self.y += 24
            for _, mark in sorted(inside):
                region = self.regions[mark]
                self.y += LINE
                self.text(MARGIN + GAP, self.y, f"{letter_of(mark)}  {region.name}: {region.base:#x} to "
                          f"{region.base + region.size:#x}, {size_words(region.size)} of {region.kind}, " + (
                              f"{region.ways} ways of {region.gran} B" if region.ways > 1 else "one way"))
            self.y += 8
        self.y += LINE

    def targets(self, window: Window) -> None:
        names = {node.uid: node.name for node in self.nodes if node.kind == "bridge"}
        words, left = "over ", int((self.width - 2 * MARGIN - GAP) / TEXT / LETTER)
        for number, uid in enumerate(window.targets):
            word = names.get(uid, f"UID {uid}") + (", " if number + 1 < window.ways else "")
            if len(words + word) > left:
                self.text(MARGIN + GAP, self.y, words)
                words, self.y = "", self.y + LINE
            words += word
        self.text(MARGIN + GAP, self.y, words)

    # ---- The machine.

    def draw_machine(self) -> None:
        self.heading("Bridges, switches and endpoints, and their memory")
        self.y += LINE
        self.text(MARGIN, self.y, "Numbers are those of ports. Memory is white where it is ram, grey where it is pmem, "
                  "and a region's where it has its letter.")
        if any(node.passthrough for node in self.nodes):
            self.y += LINE
            self.text(MARGIN, self.y, "A node with a broken line has no decoders, and hands each address on.")
        self.y += 6
        spans: dict = {}
        for mark, region in enumerate(self.regions):
            for slot in region.slots:
                spans.setdefault(slot.endpoint, []).append((slot.start, region.share, mark))
        middles: dict = {}
        for number in self.leaves_first():
            node = self.nodes[number]
            below = [middles[child] for child, other in enumerate(self.nodes) if other.parent == node.name]
            if below:
                middles[number] = (min(below) + max(below)) / 2
            else:
                middles[number] = self.y + 26
                if node.kind == "endpoint":
                    self.memory(node, sorted(spans.get(node.name, [])), middles[number])
                self.y += 44
        for number, node in enumerate(self.nodes):
            self.node(number, middles)
        self.y += LINE

    def leaves_first(self) -> list:
        """Each node after all that is below it, so that a parent stands at the middle of its children."""
        below: dict = {}
        for number in sorted(range(len(self.nodes)), key=lambda number: (
                self.nodes[number].kind != "bridge" and self.nodes[number].port, number)):
            below.setdefault(self.nodes[number].parent, []).append(number)

        def walk(number):
            order = []
            for child in below.get(None if number is None else self.nodes[number].name, []):
                order += walk(child)
            return order + ([number] if number is not None else [])
        return walk(None)

    def node(self, number: int, middles: dict) -> None:
        node, y = self.nodes[number], middles[number]
        x = MARGIN + self.depths[number] * (NODE + GAP)
        if node.parent is not None:
            parent = self.numbers[node.parent]
            start = MARGIN + self.depths[parent] * (NODE + GAP) + NODE
            bend = start + 8
            self.parts.append(f'<path d="M{start} {middles[parent]:g}H{bend}V{y:g}H{x}" fill="none" '
                              'stroke="#000"/>')
            self.text(x - 3, y - 4, str(node.port), SMALL, ' text-anchor="end"')
        fill = {"bridge": "#e8e8e8", "switch": "#f4f4f4", "endpoint": "#fff"}[node.kind]
        self.labelled(x, y - 12, NODE, 24, [node.name], fill, ' stroke-dasharray="6 4"' if node.passthrough else "")

    def memory(self, node: Node, spans: list, y: float) -> None:
        """A bar of the endpoint's memory: ram plain and pmem grey, with the shares of regions. The largest memory has
        the whole width, and none less than a quarter of it."""
        left, whole = MARGIN + self.tree + GAP, node.ram + node.pmem
        largest = max(other.ram + other.pmem for other in self.nodes)
        scale, due = BAR * max(whole / max(largest, 1), 0.25) / max(whole, 1), []
        if node.ram:
            self.box(left, y - 9, node.ram * scale, 18)
        if node.pmem:
            self.box(left + node.ram * scale, y - 9, node.pmem * scale, 18, "#d8d8d8")
        if node.ram and node.pmem:
            x = left + node.ram * scale
            self.parts.append(f'<path d="M{x:g} {y - 14:g}V{y + 14:g}" stroke="#000" stroke-width="2.5"/>')
        for start, length, mark in spans:
            if self.marked(left + start * scale, y - 9, max(1, length * scale), 18, mark):
                due.append((left + (start + length / 2) * scale, mark))
        self.lane(due, y - 9, left, left + BAR)
        sizes = [f"ram {size_words(node.ram)}"] * (node.ram > 0) + [f"pmem {size_words(node.pmem)}"] * (node.pmem > 0)
        self.text(left + BAR + 12, y + 4, ", ".join(sizes) if whole else "no memory")

    # ---- The first turn.

    def draw_turn(self, mark: int) -> None:
        region = self.regions[mark]
        said = f"chunks of {size_words(region.gran)}, to each device in turn" if region.ways > 1 else "all on one device"
        self.heading(f"{letter_of(mark)}  {region.name}: {said}")
        cell = (self.width - 2 * MARGIN) / 8
        for chunk, turn in enumerate(region.turns):
            row, column = divmod(chunk, 8)
            self.labelled(MARGIN + column * cell, self.y + row * 42, cell, 42,
                          [f"{region.base + chunk * region.gran:#x}", region.slots[turn.slot].endpoint])
        self.y += (region.ways + 7) // 8 * 42 + 8

    def svg(self) -> str:
        title = html.escape(", ".join(region.name for region in self.regions))
        patterns = "".join(f'<pattern id="p{number}" width="8" height="8" patternUnits="userSpaceOnUse">'
                           f'<path d="{path}" stroke="#000" stroke-width="0.8" fill="none"/></pattern>'
                           for number, path in enumerate(PATTERNS) if path)
        height = self.y + MARGIN
        return (f'<svg xmlns="http://www.w3.org/2000/svg" viewBox="0 0 {self.width} {height:g}" width="{self.width}" '
                f'height="{height:g}" font-family="{FONT}" fill="#000" role="img"><title>CXL regions: {title}</title>\n'
                f'<defs>{patterns}</defs>\n<rect width="100%" height="100%" fill="#fff"/>\n'
                + "\n".join(self.parts) + "\n</svg>\n")


PAGE = """<!DOCTYPE html>
<html lang="en">
<head>
<meta charset="utf-8">
<meta name="viewport" content="width=device-width">
<title>CXL regions</title>
<style>body {{ margin: 0 }} svg {{ display: block; max-width: 100%; height: auto; margin: 0 auto }}</style>
</head>
<body>
{picture}</body>
</html>
"""


def main(words: Optional[list] = None) -> int:
    return carried_out("cxl-picture", __doc__, work, sys.argv[1:] if words is None else words)


def work(words: list) -> int:
    table, topology, file, name = Words("cxl-picture", "CEDT TOPO REPLY NAME").read(words).names
    host = host_of(table, topology)
    picture = Picture(host, list(Reply(file, host).regions.values())).svg()
    for end in (".svg", ".html"):
        if os.path.lexists(name + end):
            raise BadFile(f"{name}{end}: there already", 1, "there already", name + end)
    write_new(name + ".svg", picture.encode())
    write_new(name + ".html", PAGE.format(picture=picture).encode())
    return 0


if __name__ == "__main__":
    sys.exit(main())
