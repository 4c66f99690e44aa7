#!/usr/bin/env bash
# Measures where addresses lead in a region of sixteen ways below five levels of ports: the time of a `down`, an `up`
# and a `Kept::route`, each over addresses anywhere in the region.
#
# bench/walk.sh [CALLS]    of each of them, 1000000 unless another number (1000 to 10000000) is given
#
# It proves and builds a program of its own in a folder that it makes and takes away again. Each answer is compared with
# one that the program works out by a division of the whole offset. README.md says what the columns mean.
set -euo pipefail
source "$(dirname "${BASH_SOURCE[0]}")/common.sh"
calls="${1:-1000000}"
if [[ ! "$calls" =~ ^[1-9][0-9]{3,7}$ ]] || ((calls > 10000000)); then
    echo "walk.sh: $calls is no number of calls from 1000 to 10000000" >&2
    exit 2
fi
begin_program walk_bench "cxl_check cxl_walk cxl_model cxl_image cxl_window cxl_cedt cxl_table cxl_topo cxl_enc" \
    cxl_enc cxl_num cxl_table cxl_cedt cxl_window cxl_deal cxl_topo cxl_regs cxl_span cxl_image cxl_model cxl_walk cxl_check
mkdir -p "$program/specs" "$program/proofs/commit" "$program/proofs/commit_all" "$program/proofs/kept_of"

cat >"$program/src/main.rt" <<'END'
//! Times `down`, `up` and `Kept::route` over a region of sixteen ways below five levels of ports, as many calls of
//! each as the first word says.
#![tactic(auto)]

ghost use Rattle.std.specs.Prelude.{◌+◌, ◌<◌, ◌≤◌, List, IfSome, IfOk};
ghost use Rattle.cxl_topo.specs.declared.node.Node.{Node};
ghost use Rattle.cxl_window.specs.Windows.{AreMadeWith};
ghost use Rattle.cxl_image.specs.Images.{HasCapsOf};
ghost use Rattle.cxl_model.specs.System.{system_of, bridge_uids};
ghost use Rattle.cxl_model.specs.Regions.{IsRegion};
ghost use Rattle.walk_bench.specs.Held.{HoldsFrom};

use cxl_cedt::{CedtFault, read};
use cxl_check::check;
use cxl_enc::{Memory, Name};
use cxl_image::Image;
use cxl_model::Found;
use cxl_topo::{Capacity, Node, NodeKind, Parent, Topo, TreeFault};
use cxl_walk::{Kept, down, up};
use cxl_window::{Window, windows};
use std::alloc::{AllocFailed, Global};
use std::rt::Env;
use std::time::{CpuClock, Duration};
use std::{env, io};

/// One bridge, of UID 0, and a window of 4 GiB from 4 GiB on over it alone.
const TABLE: [u8; 108] = [
    0x43, 0x45, 0x44, 0x54, 0x6c, 0, 0, 0, 1, 0x98, 0, 0, 0, 0, 0, 0, 0, 0, 0, 0, 0, 0, 0, 0, 0, 0,
    0, 0, 0, 0, 0, 0, 0, 0, 0, 0, 0, 0, 0x20, 0, 0, 0, 0, 0, 1, 0, 0, 0, 0, 0, 0, 0, 0, 0, 0, 0x80,
    0, 0, 0, 0, 0, 0, 1, 0, 0, 0, 0, 0, 1, 0, 0x28, 0, 0, 0, 0, 0, 0, 0, 0, 0, 1, 0, 0, 0,
    0, 0, 0, 0, 1, 0, 0, 0, 0, 0, 0, 0, 0, 0, 0, 0, 0x0e, 0, 0, 0, 0, 0, 0, 0,
];

const BASE: u64 = 0x1_0000_0000;

const SIZE: u64 = 0x1_0000_0000;

/// The nodes up to `end`, which begin where those above end: their decoder's codes of ways and granularity, as they
/// stand in the control word, and its low targets.
const LEVELS: [(u32, u32, u32); 6] = [
    (1, 0, 0),
    (2, 0x10, 0x0100),
    (4, 0x11, 0x0100),
    (8, 0x12, 0x0100),
    (16, 0x13, 0x0100),
    (32, 0x40, 0),
];

/// The host: its tree of nodes, its windows, and an image of its registers.
#[derive(Drop)]
struct Host {
    topo: Topo,
    windows: Vec<Window>,
    image: Image,
}

/// No host was made, most likely for want of memory.
#[derive(Debug, Drop)]
struct NoHost;

impl From<AllocFailed<Node>> for NoHost {
    fn from(_fault: AllocFailed<Node>) -> NoHost {
        NoHost
    }
}

impl From<Memory> for NoHost {
    fn from(_fault: Memory) -> NoHost {
        NoHost
    }
}

impl From<TreeFault> for NoHost {
    fn from(_fault: TreeFault) -> NoHost {
        NoHost
    }
}

impl From<CedtFault> for NoHost {
    fn from(_fault: CedtFault) -> NoHost {
        NoHost
    }
}

/// A bridge, four levels of switches with two ports each, and sixteen endpoints.
fn nodes_of(alloc: Global) -> Result<Vec<Node>, NoHost> {
    let mut nodes = Vec::new(alloc);
    for i in 0..32_u8 {
        let kind = match i {
            0 => NodeKind::Bridge(0),
            1..=15 => NodeKind::Switch,
            _ => NodeKind::Endpoint(Capacity { ram: 0x1000_0000, pmem: 0 }),
        };
        let parent = match i {
            0 => None,
            1 => Some(Parent { node: 0, port: 0 }),
            _ => Some(Parent { node: u32::from(i / 2), port: i % 2 }),
        };
        nodes.push(Node {
            name: Name::read(&[b'n', b'a' + i / 8, b'a' + i % 8]).ok_or(NoHost)?,
            kind,
            parent,
            cap: if i < 16 { 0x382 } else { 0x1b02 },
            forwards: false,
        })?;
    }
    Ok(nodes)
}

/// Commits decoder 0 of a node with all of the window.
fn commit(image: &mut Image, node: u32, codes: u32, targets: u32)
    ensures { (nodes : List Node) → HasCapsOf image.old nodes → HasCapsOf image.new nodes }
{
    let words = [
        (0x04, 2),
        (0x10, 0),
        (0x14, 1),
        (0x18, 0),
        (0x1c, 1),
        (0x24, targets),
        (0x20, 0x1200 | codes),
    ];
    for (off, value) in words {
        if node < image.count() {
            image.write32(node, off, value);
        }
    }
}

fn commit_all(image: &mut Image)
    ensures { (nodes : List Node) → HasCapsOf image.old nodes → HasCapsOf image.new nodes }
{
    for node in 0..32 {
        let (_, codes, targets) = level_of(node);
        commit(image, node, codes, targets);
    }
}

fn level_of(node: u32) -> (u32, u32, u32) {
    for level in LEVELS {
        if node < level.0 {
            return level;
        }
    }
    (0, 0, 0)
}

fn host_of(alloc: Global) -> Result<Host, NoHost>
    ensures caps { IfOk result (λ host. HasCapsOf host.image host.topo.nodes) }
    ensures made { IfOk result (λ host. AreMadeWith host.windows.items (bridge_uids host.topo.nodes)) }
{
    let nodes = nodes_of(alloc)?;
    let topo = Topo::new(alloc, nodes, 65_536)?;
    let table = read(alloc, &TABLE)?;
    let windows = windows(alloc, &table, Some(topo.uids()))?;
    let mut image = Image::new(alloc, &topo)?;
    commit_all(&mut image);
    Ok(Host { topo, windows, image })
}

/// The kept routes of the region that fills the window.
fn kept_of(alloc: Global, host: &Host) -> Option<Kept>
    requires caps { HasCapsOf host.now.image host.now.topo.nodes }
    requires made { AreMadeWith host.now.windows.items (bridge_uids host.now.topo.nodes) }
    ensures { IfSome result (HoldsFrom BASE SIZE) }
{
    let regions = match check(alloc, &host.image, &host.topo, &host.windows) {
        Ok(regions) => regions,
        Err(_) => return None,
    };
    for region in &regions {
        if region.base == BASE && region.size == SIZE {
            return kept_in(alloc, host, region);
        }
    }
    None
}

fn kept_in(alloc: Global, host: &Host, region: &Found) -> Option<Kept>
    requires caps { HasCapsOf host.now.image host.now.topo.nodes }
    requires made { AreMadeWith host.now.windows.items (bridge_uids host.now.topo.nodes) }
    requires region { IsRegion (system_of host.now.image host.now.topo host.now.windows.items) region.now }
    ensures { IfSome result (HoldsFrom region.now.base region.now.size) }
{
    let _nodes = host.topo.count();
    let _blocks = host.image.count();
    Kept::new(alloc, &host.image, &host.topo, &host.windows, region).ok()
}

/// A number without a pattern, from its place in a row.
fn scattered(n: u64) -> u64 {
    let a = n.wrapping_add(1).wrapping_mul(0x9E37_79B9_7F4A_7C15);
    let b = (a ^ (a >> 30)).wrapping_mul(0xBF58_476D_1CE4_E5B9);
    b ^ (b >> 27)
}

/// A byte of the region: its address, and the endpoint and device address of its place.
#[derive(Clone, Copy)]
struct Byte {
    h: u64,
    node: u32,
    dpa: u64,
}

/// The endpoints by slot: each level of switches goes by one bit of the slot, from the lowest on.
const ENDPOINTS: [u32; 16] = [16, 24, 20, 28, 18, 26, 22, 30, 17, 25, 21, 29, 19, 27, 23, 31];

/// The n-th byte that is asked for. Each turn of 4,096 bytes gives 256 to each of the sixteen slots.
fn byte_at(n: u32) -> Byte
    ensures from { BASE ≤ result.h }
    ensures below { result.h < BASE + SIZE }
{
    let offset = scattered(u64::from(n)) % SIZE;
    Byte {
        h: BASE + offset,
        node: ENDPOINTS[(offset / 256 % 16) as usize],
        dpa: offset / 4_096 * 256 + offset % 256,
    }
}

/// How many of so many calls answered otherwise than was worked out.
fn walk_down(host: &Host, calls: u32) -> u32
    requires caps { HasCapsOf host.now.image host.now.topo.nodes }
    requires made { AreMadeWith host.now.windows.items (bridge_uids host.now.topo.nodes) }
{
    let mut wrong = 0_u32;
    for n in 0..calls {
        let byte = byte_at(n);
        match down(&host.image, &host.topo, &host.windows, byte.h) {
            Ok(route) if route.endpoint == byte.node && route.dpa == byte.dpa => {}
            _ => wrong = wrong.wrapping_add(1),
        }
    }
    wrong
}

fn walk_up(host: &Host, calls: u32) -> u32
    requires caps { HasCapsOf host.now.image host.now.topo.nodes }
    requires made { AreMadeWith host.now.windows.items (bridge_uids host.now.topo.nodes) }
{
    let mut wrong = 0_u32;
    for n in 0..calls {
        let byte = byte_at(n);
        let node = byte.node;
        if node < host.topo.count() && host.topo.is_endpoint(node) {
            match up(&host.image, &host.topo, &host.windows, node, byte.dpa) {
                Some(back) if back.h == byte.h && back.base == BASE => {}
                _ => wrong = wrong.wrapping_add(1),
            }
        }
    }
    wrong
}

fn walk_kept(kept: &Kept, calls: u32) -> u32
    requires { HoldsFrom BASE SIZE kept.now }
{
    let mut wrong = 0_u32;
    for n in 0..calls {
        let byte = byte_at(n);
        let route = kept.route(byte.h);
        if route.endpoint != byte.node || route.dpa != byte.dpa || route.len != 5 {
            wrong = wrong.wrapping_add(1);
        }
    }
    wrong
}

/// The working out alone, which is part of each of the others.
fn work_out(calls: u32) -> u32 {
    let mut wrong = 0_u32;
    for n in 0..calls {
        let byte = byte_at(n);
        if byte.dpa > SIZE || byte.h < BASE || byte.node > 31 {
            wrong = wrong.wrapping_add(1);
        }
    }
    wrong
}

/// Nanoseconds a call.
fn each(took: Duration, calls: u32) -> f64 {
    took.as_secs_f64() * 1e9 / f64::from(calls.max(1))
}

fn time_all<R: CpuClock + Print>(rt: &R, host: &Host, kept: &Kept, calls: u32) -> io::Result<()>
    requires caps { HasCapsOf host.now.image host.now.topo.nodes }
    requires made { AreMadeWith host.now.windows.items (bridge_uids host.now.topo.nodes) }
    requires kept { HoldsFrom BASE SIZE kept.now }
{
    let start = rt.thread_cpu_time()?;
    let a = work_out(calls);
    let plain = rt.thread_cpu_time()?;
    let b = walk_down(host, calls);
    let downs = rt.thread_cpu_time()?;
    let c = walk_up(host, calls);
    let ups = rt.thread_cpu_time()?;
    let d = walk_kept(kept, calls);
    let end = rt.thread_cpu_time()?;
    let plain_ns = each(plain.saturating_sub(start), calls);
    let down_ns = each(downs.saturating_sub(plain), calls);
    let up_ns = each(ups.saturating_sub(downs), calls);
    let kept_ns = each(end.saturating_sub(ups), calls);
    println!(rt; "{calls} {plain_ns:.1} {down_ns:.1} {up_ns:.1} {kept_ns:.1} {a} {b} {c} {d}")
}

/// The number that the first word of the command line is.
fn calls_of(rt: &(impl Env + AllocGlobal)) -> io::Result<u32> {
    let mut words = env::args(rt)?.skip(1);
    let word = words.next();
    Ok(word.and_then(|w| w.parse().ok()).unwrap_or(0))
}

fn main(rt: HostRuntime) -> io::Result<()> {
    let calls = calls_of(&rt)?;
    if calls == 0 {
        return println!(rt; "give a number of calls");
    }
    let Ok(host) = host_of(rt.alloc()) else {
        return println!(rt; "no host");
    };
    match kept_of(rt.alloc(), &host) {
        Some(kept) => time_all(&rt, &host, &kept, calls),
        None => println!(rt; "no region"),
    }
}
END

cat >"$program/specs/Lib.antt" <<'END'
pub mod Held
END
cat >"$program/specs/Held.antt" <<'END'
-- Which addresses routes are kept of.
use Rattle.std.specs.Prelude.{ℕ, ◌+◌, ◌<◌, ◌≤◌}
use Rattle.cxl_walk.specs.Keeping.{KeptFields, IsKeptOf}

-- each of so many from the base on
abbrev pub HoldsFrom : ℕ → ℕ → KeptFields → Type 0
HoldsFrom base size kept = (h : ℕ) → base ≤ h → h < base + size → IsKeptOf kept h
END
for loop in commit:off commit_all:node; do
    cat >"$program/proofs/${loop%:*}/Invariants.antt" <<END
use Rattle.std.proofs.Common.{List}
use Rattle.cxl_topo.specs.declared.node.Node.{Node}
use Rattle.cxl_image.specs.Images.{HasCapsOf}
use Rattle.walk_bench.proofs.${loop%:*}.Given as goal

abbrev pub invariant-loop-${loop#*:} : goal.invariant-loop-${loop#*:}
invariant-loop-${loop#*:} l = (nodes : List Node) → HasCapsOf l.initial.image nodes → HasCapsOf l.image nodes
END
done

cat >"$program/proofs/kept_of/Answers.antt" <<'END'
use Rattle.std.proofs.Common.{List, All, sym, subst}
use Rattle.std.proofs.lemmas.List.Elements.{All-get_or}
use Rattle.cxl_window.specs.Fields.{WindowFields}
use Rattle.cxl_model.specs.declared.found.Found.{Found}
use Rattle.cxl_model.specs.System.{System, system_of}
use Rattle.cxl_model.specs.Regions.{IsRegion}
use Rattle.walk_bench.proofs.kept_of.Goals as goal

pub kept_in-requires-clause-region : goal.kept_in-requires-clause-region
kept_in-requires-clause-region c =
    let s : System = system_of c.args.host.now.image c.args.host.now.topo c.deref.result.now in
    subst (λ (ws : List WindowFields). IsRegion (system_of c.args.host.now.image c.args.host.now.topo ws) c.region-item.result) c.deref.ensures.value
    (subst (IsRegion s) (sym c.region-item.is)
    (All-get_or (IsRegion s) c.deref-region-items.result.now c.loop-region.region-index c.region-item.result c.loop-region-test.true
    (subst (λ (xs : List Found). All (IsRegion s) xs) (sym c.deref-region-items.ensures.value) c.in-Ok.ensures.regions.listed.each)))
END

build_program 0
printf '%12s %12s %12s %12s %12s\n' calls "plain ns" "down ns" "up ns" "kept ns"
"$program/out/walk_bench" "$calls" | while read -r calls plain down up kept wrong; do
    if [[ "$wrong" != "0 0 0 0" ]]; then
        echo "walk.sh: answers that differ from those worked out: $wrong" >&2
        exit 1
    fi
    printf '%12s %12s %12s %12s %12s\n' "$calls" "$plain" "$down" "$up" "$kept"
done
