"""`report`: its pages, measured in Chromium in light, in dark, on paper and 400 pixels wide.

Where there is no Chromium (Debian: apt-get install chromium), what it would measure is skipped."""

import html
import json
import os
import re
import shutil
import subprocess
import unittest

from here import FOUR, LOST, Case, asks_the_engine, machines, said, worked, worked_hosts, written_hosts
from cxlplan import Host
from cxlplan.editing import image_of
from cxlplan.report import page_of
from cxlplan.report.ranges import letter_of

CHROMIUM = shutil.which("chromium") or shutil.which("chromium-browser") or shutil.which("google-chrome")
MODES = {"light": 1100, "dark": 1100, "print": 718, "phone": 400}  # pixels; A4 less its margins is 190 mm
MOST = 2_000_000  # bytes of a page

# What the browser is asked of a page: what is wider than the page, which letters leave their piece of a bar, which pieces are too small to
# be seen, which texts leave their box, and where a text has too little contrast.
MEASURE = """
<script>
function rgb(text) { const n = text.match(/[\\d.]+/g).map(Number); return n.length < 4 || n[3] > 0 ? n.slice(0, 3) : null; }
function behind(element) {
  for (let e = element; e; e = e.parentElement) { const c = rgb(getComputedStyle(e).backgroundColor); if (c) return c; }
  return [255, 255, 255];
}
function light(c) { const l = c.map(v => v / 255).map(v => v <= .03928 ? v / 12.92 : ((v + .055) / 1.055) ** 2.4);
  return .2126 * l[0] + .7152 * l[1] + .0722 * l[2]; }
function contrast(a, b) { const x = light(a), y = light(b); return (Math.max(x, y) + .05) / (Math.min(x, y) + .05); }
function measure(width, mode) {
  for (const it of document.querySelectorAll("details")) it.open = true;
  const faults = [], box = e => e.getBoundingClientRect();
  for (const e of document.body.querySelectorAll("*")) {
    if (e.tagName == "SCRIPT") continue;
    const own = [...e.childNodes].some(n => n.nodeType == 3 && n.textContent.trim()), r = box(e), scrolls = mode != "print" && e.closest(".scroll");
    if (!scrolls && r.right > width + .5 || r.left < -.5) faults.push("out of the page: " + e.outerHTML.slice(0, 120));
    if (e.matches(".bar i > b") && (r.left < box(e.parentElement).left - .5 || r.right > box(e.parentElement).right + .5))
      faults.push("a letter leaves its piece: " + e.parentElement.outerHTML.slice(0, 120));
    if (e.matches(".bar i") && r.width < 2.9) faults.push("too small to be seen: " + e.outerHTML.slice(0, 120));
    if (e.matches(".bar i") && (r.right > box(e.parentElement).right + 3.5)) faults.push("a piece leaves its bar: " + e.outerHTML.slice(0, 120));
    if (own && e.scrollWidth > e.clientWidth + 1 && e.clientWidth && getComputedStyle(e).display != "inline")
      faults.push("text leaves its box: " + e.outerHTML.slice(0, 120));
    if (own && !e.closest("i:not(:has(b))") && contrast(rgb(getComputedStyle(e).color), behind(e)) < 4.5)
      faults.push("too little contrast: " + e.outerHTML.slice(0, 120));
  }
  if (innerWidth != width || document.documentElement.scrollWidth > width) faults.push("the page is too wide");
  const pre = document.createElement("pre");
  pre.id = "measured";
  pre.textContent = JSON.stringify({elements: document.body.querySelectorAll("*").length, faults: faults});
  document.body.replaceChildren(pre);
}
measure(WIDTH, "MODE");
</script>
"""

# Gathers what each frame has measured, once all are there.
COLLECT = """
<script>
addEventListener("load", () => {
  const pre = document.createElement("pre");
  pre.id = "all";
  pre.textContent = "[" + [...document.querySelectorAll("iframe")].map(f => f.contentDocument.getElementById("measured").textContent) + "]";
  document.body.replaceChildren(pre);
});
</script>
"""


def as_mode(page, mode):
    """The page as it looks in a mode, whatever the browser's own is."""
    page = page.replace("@media (prefers-color-scheme:dark)", "@media " + ("all" if mode == "dark" else "not all"))
    return page.replace("@media print", "@media " + ("all" if mode == "print" else "not all"))


def browsed(place, *words):
    """What Chromium says, on standard output and standard error."""
    ran = subprocess.run([CHROMIUM, "--headless", "--no-sandbox", "--disable-gpu", "--enable-logging=stderr", f"--user-data-dir={place}/chrome",
                          *words], capture_output=True, timeout=120, check=False)
    return ran.stdout.decode(), ran.stderr.decode()


# 1,024 nodes: four bridges, a switch at each of 8 ports, and 31 or 30 endpoints below each; two busy endpoints.
MANY_NODES = [[0x382] for _ in range(4)] + [[0x382, bridge, port] for bridge in range(4) for port in range(8)]
MANY_NODES += [[0x1b05, 4 + i % 32, i // 32, 1 << 30, 1 << 30] for i in range(1024 - len(MANY_NODES))]
# Regions of the least size in one window, and windows that cannot be used.
NARROW = [[[0x385]] + [[0x1b05, 0, port, 3 << 28, 3 << 28] for port in range(8)],
          [[0x8000000000, 24 << 30, 0, 0, 0xe, 0], [0x10000000, 0x18000000, 0, 0, 0xe, 0], [0x8000000000, 1 << 30, 0, 0, 0xe, 0], [1 << 40, 1 << 28, 0, 0, 0xe, 9]]]


def made(nodes, windows):
    """A host of these numbers, after reset."""
    files = worked.table_of(nodes, windows), worked.topology_of(nodes)
    return Host(*files, image_of(Host(*files), ""), "made")


def narrow():
    """A host with a session's regions in it, each of them small."""
    from cxlplan.planning import image_with
    host = made(*NARROW)
    for number in range(10):
        line = f"create r{number} {'ram' if number < 5 else 'pmem'} 0x10000000 ways=1"
        host = Host(host.table.data, host.topology.data, image_with(host, line), "narrow")
    return host


TITLES = {"sound": "<b>Sound.</b>", "told": "<b>Sound as Linux tells it.</b>", "unknown": "<b>Not known.</b>"}


@asks_the_engine
class Pages(Case):
    def hosts(self):
        yield Host.from_files(*FOUR)
        yield Host.from_files(*LOST)
        yield Host.from_files(*FOUR[:2])
        for machine in ("x4-pass-switch", "x6", "ram-and-pmem", "odd-ids", "uncommitted-below"):
            yield Host.from_folder(self.captured(machine))
        yield from list(worked_hosts())[:12:3]
        yield narrow()

    def test_every_host(self):
        """Each captured machine and worked host has a page, which fetches nothing and has no script."""
        hosts = [Host.from_folder(self.captured(machine)) for machine in machines.MACHINES + machines.HOLES + machines.NEWER]
        for host in [*hosts, *worked_hosts(), *written_hosts()]:
            with self.subTest(host.name):
                page = page_of(host)
                self.assertNotRegex(page, r"<script|\son[a-z]+=|https?:|src=|@import|url\((?!data)")
                self.assertIn(html.escape(host.breach.text) if host.breach else TITLES[host.verdict], page)

    def test_command(self):
        """The capture's own report stands in the page; a file that is there is left alone."""
        folder, out = self.captured("x4-pass-switch"), self.path("out.html")
        self.assertEqual(said("report", folder, out), (0, "", ""))
        with open(out, encoding="utf-8") as file:
            page = file.read()
        self.assertIn("hb16 was taken as passthrough", page)
        self.assertIn("0x110000800 <b>mem0</b>", page)
        self.assertEqual(said("report", folder, out), (1, "", f"cxldesk: {out}: there already\n"))
        self.assertEqual(said("report", folder), (1, "", "cxldesk: wanted are HOST and OUT.html, the page to make; see cxldesk report --help\n"))

    def test_names(self):
        """What a host is called is no markup."""
        host = Host.from_files(*FOUR)
        host.name = "<script>&"
        self.assertIn("CXL memory of &lt;script&gt;&amp;", page_of(host, "<script>"))
        self.assertNotIn("<script>", page_of(host, "<script>"))

    def test_letters(self):
        self.assertEqual([letter_of(number) for number in (0, 25, 26, 51, 52, 255)], ["A", "Z", "AA", "AZ", "BA", "IV"])
        page = page_of(narrow())
        letters = re.findall(r"class=\"f\d\" style=[^>]*title=\"([A-Z]+) auto(\d+): 0x", page)
        self.assertEqual(letters[:10], [(letter_of(number), str(number)) for number in range(10)])

    def test_many_nodes(self):
        """1,024 nodes: idle parts are folded, and the page stays small."""
        page = page_of(made(MANY_NODES, [[1 << 40, 1 << 40, 2, 0, 0xe, 0, 1, 2, 3]]))
        self.assertLess(len(page.encode()), MOST)
        self.assertIn("idle", page)

    @unittest.skipUnless(CHROMIUM, "there is no Chromium")
    def test_measured(self):
        """In each mode texts stand in their boxes, nothing overflows, and contrast is enough. All pages are frames of one."""
        names, frames = [], ""
        for host in self.hosts():
            page = page_of(host, "What was put in place: " + "a long line " * 30)
            for mode, width in MODES.items():
                measured = as_mode(page, mode).replace("</body>", MEASURE.replace("WIDTH", str(width)).replace("MODE", mode) + "</body>")
                frames += f'<iframe style="width:{width}px;height:2000px;border:0" srcdoc="{html.escape(measured)}"></iframe>\n'
                names.append((host.name, mode))
        file = self.file("all.html", f"<!DOCTYPE html><body>{frames}{COLLECT}</body>")
        dom, log = browsed(self.place, "--window-size=1200,2000", "--dump-dom", f"file://{file}")
        found = json.loads(html.unescape(re.search('<pre id="all">(.*?)</pre>', dom, re.S)[1]))
        self.assertEqual(len(found), len(names))
        for name, it in zip(names, found):
            with self.subTest(name):
                self.assertEqual(it["faults"][:5], [])
                self.assertGreater(it["elements"], 30)
        self.assertNotIn("CONSOLE", log)

    @unittest.skipUnless(CHROMIUM, "there is no Chromium")
    def test_paper(self):
        """It can be printed."""
        file, out = self.file("page.html", page_of(Host.from_files(*LOST))), self.path("out.pdf")
        browsed(self.place, f"--print-to-pdf={out}", f"file://{file}")
        self.assertGreater(os.path.getsize(out), 5000)


if __name__ == "__main__":
    unittest.main()
