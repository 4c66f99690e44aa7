"""cxl-picture: its pictures, measured in Chromium, from one endpoint to sixty-four.

Where there is no Chromium (Debian: apt-get install chromium), what it would measure is skipped."""

import contextlib
import html
import io
import json
import os
import re
import shutil
import subprocess
import tempfile
import unittest
import xml.dom.minidom

import machines
import peer
import worked
from program import asks_the_program

PICTURE = machines.load("cxl-picture")
CHROMIUM = shutil.which("chromium") or shutil.which("chromium-browser") or shutil.which("google-chrome")
LONG = "name_of_15_char"  # the longest names that a topology may have

# What the browser is asked of a page: texts by their measured boxes, which texts lie outside of their box or of the
# picture, which two texts cross, which shapes leave the picture, and whether the page is wider than its window.
MEASURE = """
<script>
function inside(a, b) {
  return a.left >= b.left - .5 && a.right <= b.right + .5 && a.top >= b.top - .5 && a.bottom <= b.bottom + .5;
}
function cross(a, b) { return a.left < b.right && b.left < a.right && a.top < b.bottom && b.top < a.bottom; }
function measure() {
  const box = element => element.getBoundingClientRect(), all = text => [...document.querySelectorAll(text)];
  const texts = all("text"), picture = box(document.querySelector("svg")), faults = [];
  for (const group of all("g.box"))
    for (const text of group.querySelectorAll("text"))
      if (!inside(box(text), box(group.querySelector("rect")))) faults.push("out of its box: " + text.textContent);
  for (const element of all("text, rect, path"))
    if (!element.closest("defs") && !inside(box(element), picture))
      faults.push("out of the picture: " + element.outerHTML);
  const core = texts.map(text => { const b = box(text), cut = b.height / 6;
    return {left: b.left, right: b.right, top: b.top + cut, bottom: b.bottom - cut}; });
  for (let i = 0; i < texts.length; i++)
    for (let k = 0; k < i; k++)
      if (cross(core[i], core[k])) faults.push("cross: " + texts[k].textContent + " and " + texts[i].textContent);
  if (document.documentElement.scrollWidth > innerWidth) faults.push("the page is too wide");
  const report = document.createElement("pre");
  report.id = "report";
  report.textContent = JSON.stringify({texts: texts.length, faults: faults});
  document.body.replaceChildren(report);
}
measure();
</script>
"""


def topology_of(names, text):
    """A topology as worked.topology_of has it, with other names."""
    for number in sorted(range(len(names)), reverse=True):
        text = re.sub(rf'"n{number}"', f'"{names[number]}"', text)
    return text


def checked(regions, names):
    """What `check` would say of regions: base, size, window, granularity, kind, endpoints, and where shares start."""
    text = ""
    for base, size, window, gran, kind, ends, start in regions:
        text += f"region {base:#x} size {size:#x} window {window} gran {gran} ways {len(ends)} {kind}\n"
        text += "".join(f"slot {slot} {names[end]} {start:#x}\n" for slot, end in enumerate(ends))
    return text


# ---- Hosts: nodes and windows as worked.py has them, and regions. A grain is 256 MiB.

GRAIN = 1 << 28
ONE = [[[0x382], [0x1b02, 0, 0, 4 * GRAIN, 0]], [[0x100000000, 4 * GRAIN, 0, 0, 0xe, 0]],
       [(0x100000000, 4 * GRAIN, 0, 256, "ram", [1], 0)]]
NONE_OF_ITS_MEMORY = [ONE[0] + [[0x1b02, 0, 255, 0, 0]], ONE[1], ONE[2]]
# A bridge, four levels of switches with two ports each, and sixteen endpoints.
DEEP = [[[0x382], [0x382, 0, 0]] + [[0x382, parent, port] for parent in range(1, 8) for port in (0, 1)]
        + [[0x1b02, parent, port, GRAIN, GRAIN] for parent in range(8, 16) for port in (0, 1)],
        [[0x100000000, 64 * GRAIN, 0, 0, 0xe, 0]],
        [(0x100000000, 16 * GRAIN, 0, 256, "ram", [16 + int(f"{slot:04b}"[::-1], 2) for slot in range(16)], 0),
         (0x200000000, 4 * GRAIN, 0, 4096, "pmem", [16, 20, 18, 22], GRAIN)]]
DEEP_NAMES = ["hb0"] + [f"sw{i}" for i in range(15)] + [f"e{i}" for i in range(16)]
# What Linux programmed under QEMU, with two windows of which the second leads to the first bridge alone.
EIGHT = [[[0x382], [0x382]] + [[0x1b02, bridge, port, 0, 2 * GRAIN] for bridge in (0, 1) for port in range(4)],
         [[0x110000000, 16 * GRAIN, 4, 0, 0xf, 1, 0], [0x210000000, 8 * GRAIN, 0, 0, 0xf, 0]],
         [(0x110000000, 8 * GRAIN, 0, 4096, "pmem", [6, 2, 7, 3, 8, 4, 9, 5], 0),
          (0x210000000, 4 * GRAIN, 1, 8192, "pmem", [5, 4, 3, 2], GRAIN)]]
EIGHT_NAMES = ["hb16", "hb32", "d1a", "d1b", "d1c", "d1d", "d2a", "d2b", "d2c", "d2d"]
# What `check` says of the machine x4-pass-switch.
SWITCHED = """\
region 0x110000000 size 0x40000000 window 0 gran 2048 ways 4 pmem
slot 0 mem3 0x0
slot 1 mem0 0x0
slot 2 mem1 0x0
slot 3 mem2 0x0
"""
# Four bridges, four switches below each and four endpoints below each of these; a window over all, where each quarter
# of the machine has ten regions of sixteen ways, and one that is full of the least regions there are.
WIDE_NODES = [[0x382] for _ in range(4)] + [[0x382, bridge, port] for bridge in range(4) for port in range(4)]
WIDE_NODES += [[0x1b05, switch, port, 8 * GRAIN, 4 * GRAIN] for switch in range(4, 20) for port in range(4)]
WIDE = [WIDE_NODES, [[0x1000000000, 1024 * GRAIN, 2, 0, 0xe, 0, 1, 2, 3], [0x8000000000, 24 * GRAIN, 0, 0, 0xe, 0]],
        [(0x1000000000 + 16 * GRAIN * (4 * i + part), 16 * GRAIN, 0, 1024, "ram" if i < 8 else "pmem",
          [20 + 16 * (s % 4) + 4 * part + s // 4 for s in range(16)], GRAIN * i) for i in range(9) for part in range(4)]
        + [(0x8000000000 + GRAIN * i, GRAIN, 1, 256, "pmem", [20 + i % 8], GRAIN * (9 + i // 8)) for i in range(24)]]


@asks_the_program
class Pictures(unittest.TestCase):
    def setUp(self):
        place = tempfile.TemporaryDirectory()
        self.addCleanup(place.cleanup)
        self.place = place.name

    def draw(self, host, names=None):
        """The names of the two files."""
        nodes, windows, regions = host
        names = names or [f"n{number}" for number in range(len(nodes))]
        topology = topology_of(names, worked.topology_of(nodes).decode())
        data = {"table": worked.table_of(nodes, windows), "nodes": topology.encode(),
                "reply": checked(regions, names).encode()}
        words = [machines.save(data[name], os.path.join(self.place, name)) for name in data]
        out = os.path.join(self.place, "out")
        for end in (".svg", ".html"):
            if os.path.exists(out + end):
                os.remove(out + end)
        self.assertEqual(PICTURE.main(words + [out]), 0)
        return out + ".svg", out + ".html"

    def test_content(self):
        """The picture is XML, is the same in both files, and names each node, window, region and chunk."""
        for host in (ONE, NONE_OF_ITS_MEMORY, EIGHT, DEEP, WIDE):
            svg, page = self.draw(host)
            with open(svg, encoding="utf-8") as opened:
                text = opened.read()
            with open(page, encoding="utf-8") as opened:
                self.assertIn(text, opened.read())
            texts = [node.firstChild.data for node in xml.dom.minidom.parseString(text).getElementsByTagName("text")]
            chunks = sum(len(region[5]) for region in host[2])
            self.assertEqual(len(set(texts) & {f"n{i}" for i in range(len(host[0]))}), len(host[0]))
            self.assertEqual(sum(line.startswith("window ") for line in texts), len(host[1]))
            self.assertEqual(sum(bool(re.fullmatch("0x[0-9a-f]+", line)) for line in texts), chunks)

    def test_docs(self):
        """The pictures of docs/pictures are as they are drawn now; with PICTURES_ANEW set they are made anew."""
        copy = machines.save(machines.pack(machines.tree_of("x4-pass-switch")), os.path.join(self.place, "copy"))
        host, reply = os.path.join(self.place, "host"), os.path.join(self.place, "checked")
        machines.save(SWITCHED.encode(), reply)
        self.assertEqual(machines.load("cxl-capture").main(["--from", copy, host]), 3)
        self.assertEqual(PICTURE.main([os.path.join(host, "table.cedt"), os.path.join(host, "topo.toml"), reply,
                                       os.path.join(self.place, "x4")]), 0)
        for name, draw in (("x4-pass-switch", lambda: os.path.join(self.place, "x4.svg")),
                           ("x8-two-windows", lambda: self.draw(EIGHT, EIGHT_NAMES)[0]),
                           ("five-levels", lambda: self.draw(DEEP, DEEP_NAMES)[0])):
            with open(draw(), "rb") as opened:
                picture = opened.read()
            file = os.path.join(machines.TOP, "docs", "pictures", name + ".svg")
            if "PICTURES_ANEW" in os.environ:
                machines.save(picture, file)
            with open(file, "rb") as opened:
                self.assertEqual(opened.read(), picture, name)

    def test_turns(self):
        """Under XOR the first turn follows the parities, from a base where they are not the chunk's bits; and the peer's does."""
        window = peer.Window(0x100000000, GRAIN, True, 256, [0, 1], [0x404100])
        chunks = [0x100000000, 0x100000100, 0x100004000, 0x100004100]
        self.assertEqual([peer.slot_of(window, 2, at >> 8 & 1, at) for at in chunks], [0, 1, 1, 0])
        nodes = [[0x382], [0x382], [0x1b02, 0, 0, 4 * GRAIN, 0], [0x1b02, 1, 0, 4 * GRAIN, 0]]
        table = bytearray(worked.table_of(nodes, [[0x100000000, 8 * GRAIN, 0, 1, 0xe, 0, 1]]))
        table[-8:], table[9] = (0x10000100).to_bytes(8, "little"), 0
        table[9] = -sum(table) % 256
        files = [machines.save(data, os.path.join(self.place, name)) for name, data in (
            ("table", bytes(table)), ("nodes", worked.topology_of(nodes)), ("reply", checked(
                [(0x110000000, 2 * GRAIN, 0, 256, "ram", [2, 3], 0)], ["n0", "n1", "n2", "n3"]).encode()))]
        self.assertEqual(PICTURE.main([*files, os.path.join(self.place, "out")]), 0)
        with open(os.path.join(self.place, "out.svg"), encoding="utf-8") as opened:
            turn = re.findall(">0x110000[01]00</text>\\n<text[^>]*>(n[0-9])", opened.read())
        self.assertEqual(turn, ["n3", "n2"])
        _, windows, regions = peer.read_host(files)
        self.assertEqual(peer.first_turn(regions[0], windows), [1, 0])

    def test_bad_input(self):
        """One line, status 1 and no file."""
        svg, page = self.draw(ONE)
        words = [os.path.join(self.place, name) for name in ("table", "nodes", "reply", "out")]
        os.remove(svg)
        other = os.path.join(self.place, "other")
        for case, wanted in ((words, "out.html: there already"), (words[:2] + [words[0], other], "no region in it"),
                             (words[:2] + [other, other], "No such file"),
                             (words[:3] + [other + "/in"], f"{other}/in.svg: No such file or directory"),
                             (words[:2], "2 names are given, and wanted are CEDT, TOPO, REPLY, NAME; see cxl-picture"),
                             (["--widht", *words], "unknown option --widht; see cxl-picture --help")):
            line = io.StringIO()
            with contextlib.redirect_stderr(line):
                self.assertEqual(PICTURE.main(case), 1)
            self.assertIn(wanted, line.getvalue())
            self.assertEqual(line.getvalue().count("\n"), 1)
        self.assertEqual(sorted(os.listdir(self.place)), ["nodes", "out.html", "reply", "table"])

    @unittest.skipUnless(CHROMIUM, "no chromium")
    def test_measured(self):
        """Texts lie in their boxes and do not cross, all lies in the picture, and no page is wider than its window."""
        for number, host in enumerate((ONE, NONE_OF_ITS_MEMORY, EIGHT, DEEP, WIDE)):
            short = [f"n{i}" for i in range(len(host[0]))]
            long = [f"{LONG[:15 - len(name)]}{name}" for name in short]
            for names, width in ((short, 1280), (long, 700)):
                _, page = self.draw(host, names)
                with self.subTest(host=number, width=width):
                    self.assertEqual(self.measured(page, width)["faults"], [])

    def measured(self, page, width):
        with open(page, encoding="utf-8") as opened:
            text = opened.read().replace("</body>", MEASURE + "</body>")
        file = machines.save(text.encode(), os.path.join(self.place, "measured.html"))
        profile = os.path.join(self.place, "profile")
        ran = subprocess.run([CHROMIUM, "--headless", "--no-sandbox", "--disable-gpu", f"--user-data-dir={profile}",
                              f"--window-size={width},900", "--dump-dom", f"file://{file}"],
                             stdout=subprocess.PIPE, stderr=subprocess.DEVNULL, timeout=120, check=False)
        report = re.search('<pre id="report">(.*?)</pre>', ran.stdout.decode(), re.S)
        self.assertIsNotNone(report, "Chromium said nothing")
        return json.loads(html.unescape(report.group(1)))


if __name__ == "__main__":
    unittest.main()
