"""The pictures of a report: bars of windows with their ranges, and the tree with the memory of each endpoint."""

import html

from ..desk.output import size_words
from ..explain import verdict_words
from .style import fill_of

LETTER = 12  # pixels that a letter needs, where a bar has some 700
FOLD = 3  # idle endpoints in a row from which they are folded


def piece(left: float, width: float, it, title: str) -> str:
    """A part of a bar, with its letter where there is room; the browser tells the title where the mouse stands."""
    letter = f"<b>{it.letter}</b>" if width * 7 > LETTER * len(it.letter) + 10 else ""
    odd = " odd" if it.odd else ""
    return (f'<i class="{fill_of(it.number)}{odd}" style="left:{left:.3f}%;width:{min(width, 100 - left):.3f}%" '
            f'title="{html.escape(title)}">{letter}</i>')


def key(it) -> str:
    return f'<span class="key {fill_of(it.number)}"><b>{it.letter}</b></span>'


def title_of(it) -> str:
    ways = f"{it.ways} ways of {it.gran} B" if it.ways and it.ways > 1 else "one way"
    return f"{it.letter} {it.name}: {it.base:#x} to {it.end:#x}, {size_words(it.size)}, {ways}"


# ---- Windows.

def windows_part(host, ranges: list) -> str:
    names = {node.uid: node.name for node in host.nodes if node.kind == "bridge"}
    parts = [window_part(host, window, [it for it in ranges if is_in(it, window)], names) for window in host.windows]
    outside = [it for it in ranges if not any(is_in(it, window) for window in host.windows)]
    if outside:
        parts.append("<p class=bad>In no window: " + ", ".join(f"{key(it)} {html.escape(title_of(it))}" for it in outside) + "</p>")
    return "".join(parts) or "<p>The table has no window.</p>"


def is_in(it, window) -> bool:
    """Whether a range is drawn in a window: in its own, or, where it has none, in each that holds its base."""
    return it.window == window.number if it.window is not None else window.base <= it.base < window.end


def window_part(host, window, inside: list, names: dict) -> str:
    scale = 100 / max(window.size, 1)
    targets = ", ".join(names.get(uid, f"UID {uid}") for uid in window.targets)
    ways = f"{window.ways} ways of {window.gran} B" + (", XOR" if window.arithmetic == "xor" else "") if window.ways > 1 else "one way"
    kinds = " and ".join(kind for kind in ("ram", "pmem") if window.takes(kind)) or "no memory"
    why = "" if window.is_usable else (f' <span class=bad>Not usable: '
                                       f'{html.escape(verdict_words(window))}.</span>')
    pieces = "".join(piece((it.base - window.base) * scale, it.size * scale, it, title_of(it)) for it in inside)
    listed = "".join(f"<li>{key(it)} {html.escape(title_of(it)[len(it.letter) + 1:])}</li>" for it in inside)
    return (f'<div class=window><h3>window {window.number}: <code>{window.base:#x}</code> to <code>{window.end:#x}</code></h3>'
            f'<p class=soft>{size_words(window.size)}, {ways}, over {html.escape(targets)}; for {kinds}.{why}</p>'
            f'<div class="bar{"" if window.is_usable else " off"}" title="{window.base:#x} to {window.end:#x}">{pieces}</div>'
            f'<ul class=list>{listed}</ul></div>')


# ---- The tree.

class Tree:
    """The nodes below each other, with memory bars; idle endpoints in a row are folded."""

    def __init__(self, host, ranges: list) -> None:
        self.below: dict = {}
        for node in sorted(host.nodes, key=lambda it: (it.port if it.port is not None else it.number)):
            self.below.setdefault(node.parent, []).append(node)
        self.shares: dict = {}
        for it in ranges:
            for share in it.shares:
                self.shares.setdefault(share.endpoint, []).append((it, share))
        self.busy = {decoder.node for decoder in host.decoders if decoder.committed or decoder.error}
        self.largest = max((node.ram + node.pmem for node in host.endpoints), default=0)
        self.odd = {place.node for place in host.places()}

    def part(self, parent=None) -> str:
        nodes, parts, idle = self.below.get(parent, []), [], []
        for node in nodes:
            if self.is_idle(node):
                idle.append(node)
                continue
            parts += self.folded(idle) + [self.node(node)]
            idle = []
        return "".join(parts + self.folded(idle))

    def is_idle(self, node) -> bool:
        """Whether nothing is committed in or below a node, and nothing is wrong there."""
        return node.name not in self.busy and node.name not in self.odd and all(map(self.is_idle, self.below.get(node.name, [])))

    def folded(self, nodes: list) -> list:
        if len(nodes) < FOLD:
            return [self.node(node) for node in nodes]
        words = f"{len(nodes)} idle: {html.escape(nodes[0].name)} to {html.escape(nodes[-1].name)}"
        return [f"<li><details><summary>{words}</summary><ul>{''.join(map(self.node, nodes))}</ul></details></li>"]

    def node(self, node) -> str:
        at = f"UID {node.uid}" if node.kind == "bridge" else f"port {node.port}"
        odd = " <span class=bad>broken here</span>" if node.name in self.odd else ""
        words = f'<span class=name>{html.escape(node.name)}</span> <span class=soft>{node.kind}, {at}{self.more(node)}</span>{odd}'
        children = self.part(node.name)
        return (f'<li{" class=passes" if node.passthrough else ""}>{words}{self.memory(node) if node.kind == "endpoint" else ""}'
                f'{f"<ul>{children}</ul>" if children else ""}</li>')

    @staticmethod
    def more(node) -> str:
        if node.passthrough:
            return ", passes all on"
        sizes = [f"{size_words(size)} of {kind}" for kind, size in (("ram", node.ram), ("pmem", node.pmem)) if size]
        return ", " + (" and ".join(sizes) or "no memory") if node.kind == "endpoint" else ""

    def memory(self, node) -> str:
        """The endpoint's memory to scale beside the largest one, no shorter than a quarter."""
        whole = node.ram + node.pmem
        if not whole:
            return ""
        width, scale = 100 * max(whole / self.largest, 0.25), 100 / whole
        kinds = "".join(f'<u class={kind} style="left:{start * scale:.3f}%;width:{size * scale:.3f}%" title="{kind}"></u>'
                        for kind, start, size in (("ram", 0, node.ram), ("pmem", node.ram, node.pmem)) if size)
        shares = "".join(piece(share.start * scale, share.size * scale, it, (
            f"{it.letter} {it.name}: device bytes {share.start:#x} to {share.start + share.size:#x} of {node.name}, {size_words(share.size)}"))
            for it, share in self.shares.get(node.name, []) if share.start < whole)
        return f'<div class="bar memory" style="width:{width:.1f}%">{kinds}{shares}</div>'
