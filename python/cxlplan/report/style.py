"""The look of a report: light and dark, on a phone and on paper."""

# The eight fills of regions, light enough for black letters, and a pattern for each that tells it in black and white.
FILLS = ("#56b4e9", "#e69f00", "#3fbf95", "#f0e442", "#d992b8", "#f08a4b", "#7fa8e0", "#c0c0c0")
PATTERNS = ("45deg, #0004 0 1px, #0000 1px 7px", "135deg, #0004 0 1px, #0000 1px 7px", "0deg, #0004 0 1px, #0000 1px 6px",
            "90deg, #0004 0 1px, #0000 1px 6px", "45deg, #0004 0 2px, #0000 2px 5px", "135deg, #0004 0 2px, #0000 2px 5px",
            "0deg, #0004 0 2px, #0000 2px 5px", "90deg, #0000 0 1px, #0000 1px 2px")

STYLE = """
:root{--page:#fff;--ink:#1a1a1a;--soft:#595959;--line:#8c8c8c;--box:#f2f2f2;--ram:#fff;--pmem:#dcdcdc;--bad:#a40000;--bad-box:#fdeaea;
--good:#0b5d1e;--good-box:#e8f5ec;--doubt:#704500;--doubt-box:#fff4de}
@media (prefers-color-scheme:dark){:root{--page:#15171a;--ink:#ececec;--soft:#b0b0b0;--line:#7d7d7d;--box:#24272c;--ram:#15171a;
--pmem:#3a3e45;--bad:#ff9d94;--bad-box:#3b1d1d;--good:#8ddba2;--good-box:#16301e;
--doubt:#ffc870;--doubt-box:#362a12}}
@media print{:root{--page:#fff;--ink:#000;--soft:#444;--line:#666;--box:#f2f2f2;--ram:#fff;--pmem:#dcdcdc;--bad:#900;--bad-box:#fff;
--good:#053;--good-box:#fff;--doubt:#530;--doubt-box:#fff}body{font-size:9pt}*{print-color-adjust:exact;-webkit-print-color-adjust:exact}
.scroll{overflow:visible!important}section,.window,.region{break-inside:avoid-page}}
*{box-sizing:border-box}
body{margin:0 auto;padding:1rem;max-width:72rem;background:var(--page);color:var(--ink);font:15px/1.45 system-ui,sans-serif;
overflow-wrap:anywhere}
h1{font-size:1.5rem;line-height:1.2}h2{font-size:1.15rem;margin:2rem 0 .5rem;border-bottom:1px solid var(--line)}
h3{font-size:1rem;margin:1rem 0 .3rem}p{margin:.4rem 0}
code,.bar,.mono,table,pre,.tree{font-family:ui-monospace,"DejaVu Sans Mono",Menlo,Consolas,monospace;font-size:.86em}
.soft{color:var(--soft)}.bad{color:var(--bad)}
.verdict{padding:.6rem 1rem;border:2px solid var(--good);background:var(--good-box);border-radius:6px}
.verdict.broken{border-color:var(--bad);background:var(--bad-box)}
.verdict.doubt{border-color:var(--doubt);border-style:dashed;background:var(--doubt-box)}
.verdict b{color:var(--good)}.verdict.broken b{color:var(--bad)}.verdict.doubt b{color:var(--doubt)}
.bar{position:relative;height:28px;border:1px solid var(--line);background:var(--box);margin:.2rem 0}
.bar.off{border-style:dashed;background:repeating-linear-gradient(45deg,var(--box) 0 6px,var(--line) 6px 7px)}
.bar i{position:absolute;top:0;bottom:0;min-width:3px;border:1px solid #000;font-style:normal;overflow:hidden;text-align:center;
color:#000;line-height:26px}
.bar i b{background:#fff;color:#000;padding:0 .25em}
.bar i.odd{outline:3px solid var(--bad);outline-offset:-3px}
.memory{height:20px;max-width:100%;margin:.1rem 0}.memory i{line-height:18px}.memory u{position:absolute;top:0;bottom:0}
.ram{background:var(--ram)}.pmem{background:var(--pmem)}
.key{display:inline-block;min-width:1.8em;text-align:center;border:1px solid #000;color:#000;padding:0 .2em}.key b{background:#fff;
padding:0 .15em}
.list{margin:.2rem 0 .8rem;padding:0;list-style:none}.list li{margin:.15rem 0}
.scroll{overflow-x:auto}
table{border-collapse:collapse;margin:.4rem 0}td,th{border:1px solid var(--line);padding:.1rem .4rem;text-align:left;white-space:nowrap}
th{background:var(--box)}tr.odd td{background:var(--bad-box);color:var(--bad);font-weight:bold}
.tree,.tree ul{list-style:none;margin:0;padding:0}.tree ul{margin-left:.55rem;padding-left:.9rem;border-left:1px solid var(--line)}
.tree li{margin:.25rem 0}.name{border:1px solid var(--line);padding:.05rem .4rem;background:var(--box)}
.passes>.name{border-style:dashed}
.chunks{display:grid;grid-template-columns:repeat(auto-fill,minmax(9.5rem,1fr));gap:0;margin:.3rem 0}
.chunks span{border:1px solid var(--line);padding:.1rem .3rem;margin:0 -1px -1px 0}
pre{white-space:pre-wrap;background:var(--box);padding:.6rem;border:1px solid var(--line)}
details{margin:.3rem 0}summary{cursor:pointer;color:var(--soft)}
"""


def fill_of(number: int) -> str:
    """The class of a region's fill."""
    return f"f{number % 8}"


def fills() -> str:
    return "".join(f".f{number}{{background:repeating-linear-gradient({pattern}),{fill}}}"
                   for number, (fill, pattern) in enumerate(zip(FILLS, PATTERNS)))
