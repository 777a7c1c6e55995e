#!/usr/bin/env python3
"""Times a registry of 1,024 modules: all modules are decided by one loader, from `open` to `into_world`, each with the verdict that it is
published. It prints a row of a table for each graph: the verdicts that are handed out, and the milliseconds of the processor, the least of
five runs. It builds the program below over a copy of the crates that it needs."""
import re, sys
from measuring import printed

MODULES = 1024
BELOW = ["lists", "py_tree", "import_graph", "registry_core"]
PROGRAM = r"""//! Decides the modules of each graph by a registry, and prints how many verdicts were handed out and the least microseconds that it took.
#![tactic(auto)]

ghost use Rattle.std.specs.Prelude.{◌≡◌, ◌<◌, ◌≤◌, ◌+◌, Some};
ghost use Rattle.std.specs.Arc.{arc_value};
ghost use Rattle.registry_core.specs.Slots.{slot_at};
ghost use Rattle.registry_core.specs.Named.{module_count, IsNeedOf};

use import_graph::graph::{build_graph, is_graph};
use import_graph::rows::{DirectImport, GraphRow, GraphRows};
use lists::Items;
use registry_core::claim::{Claim, ClaimAnswer};
use registry_core::imports::Imports;
use registry_core::loads::Loads;
use registry_core::naming::Naming;
use registry_core::registry::Registry;
use registry_core::slot::Slot;
use registry_core::sources::Sources;
use std::alloc::{AllocError, Global};
use std::io;
use std::marker::Brand;
use std::sync::Arc;
use std::sync::ledger::{Blank, Share};
use std::time::CpuClock;

const MODULES: u32 = COUNT;
const HALF: u32 = MODULES / 2;

/// What each module imports.
#[derive(Clone, Copy)]
enum Kind {
    /// So many before it.
    Before(u32),
    /// So many behind it.
    Behind(u32),
    /// In the first half the one behind it and all of the second half.
    Halves,
}

/// Every module is published.
#[derive(Drop)]
struct Published;

impl Loads for Published {
    type Source = bool;

    type Verdict = bool;

    type Data = bool;

    ghost use Rattle.std.specs.Prelude.{◌≡◌, false};

    ghost verdict_data = { λ verdict. verdict };

    ghost right = { λ loads all m list. false };

    ghost is_right = { λ loads all m list verdict. verdict ≡ false };

    ghost is_refused = { λ verdict. verdict };

    ghost right_data = { λ loads all m list verdict h. h };

    fn load(
        &self,
        _alloc: Global,
        _all: &Sources<bool>,
        _module: u32,
        _imports: &Imports<bool>,
    ) -> Result<bool, AllocError> {
        Ok(false)
    }

    fn refuses(&self, verdict: &bool) -> bool {
        *verdict
    }
}

fn put(row: &mut GraphRow, first: u32, end: u32) -> Result<(), AllocError> {
    for module in first..end {
        row.push(DirectImport { line: 1, module })?;
    }
    Ok(())
}

fn row(alloc: Global, kind: Kind, module: u32) -> Result<GraphRow, AllocError> {
    let mut row: GraphRow = Items::new(alloc);
    let behind = module.saturating_add(1);
    match kind {
        Kind::Before(count) => put(&mut row, module.saturating_sub(count), module)?,
        Kind::Behind(count) => put(&mut row, behind, behind.saturating_add(count).min(MODULES))?,
        Kind::Halves if module < HALF => {
            put(&mut row, behind, behind.saturating_add(1).min(HALF))?;
            put(&mut row, HALF, MODULES)?;
        }
        Kind::Halves => {}
    }
    Ok(row)
}

fn rows(alloc: Global, kind: Kind) -> Result<GraphRows, AllocError> {
    let mut rows: GraphRows = Items::new(alloc);
    for module in 0..MODULES {
        rows.push(row(alloc, kind, module)?)?;
    }
    Ok(rows)
}

fn sources(alloc: Global, kind: Kind) -> Result<Option<Arc<Sources<bool>>>, AllocError> {
    let rows = rows(alloc, kind)?;
    let list = Items::from_vec(vec![in alloc; false; rows.len()]?);
    if rows.len() > 4294967295 || list.len() != rows.len() || !is_graph(&rows) {
        return Ok(None);
    }
    let graph = build_graph(alloc, &rows)?;
    Ok(Some(Arc::new(alloc, Sources { list, graph })?))
}

/// Decides a claimed module, or withdraws the claim for want of memory.
fn decide<L: Loads, N: Naming<L, L::Source>>(
    alloc: Global,
    registry: &mut Registry<L, N>,
    share: &mut Share<N>,
    all: &Sources<L::Source>,
    loads: &L,
    claim: Claim<N>,
    imports: &Imports<L::Verdict>,
) -> Result<(), AllocError>
    requires loads { N.loads ≡ Some loads.now }
    requires sources { N.sources ≡ Some all.now }
    requires there { claim.module < module_count N.Naming.own }
    requires slot { slot_at registry.old.slots claim.module ≡ Slot.Claimed claim.loader }
    requires share { 1 ≤ share.old.amount }
    requires imports { IsNeedOf L.Loads N.Naming.own claim.module imports.now.rows }
    ensures parts { share.new.parts ≡ share.old.parts }
{
    let Ok(verdict) = loads.load(alloc, all, claim.module, imports) else {
        registry.withdraw(share, claim);
        return Err(AllocError);
    };
    let is_refused = loads.refuses(&verdict);
    let Ok(verdict) = Arc::new(alloc, verdict) else {
        registry.withdraw(share, claim);
        return Err(AllocError);
    };
    if is_refused {
        registry.refuse(share, claim, verdict);
    } else {
        registry.publish(share, claim, verdict);
    }
    Ok(())
}

/// Decides all modules, and counts the verdicts that are handed out.
fn decide_each<L: Loads, N: Naming<L, L::Source>>(
    alloc: Global,
    registry: &mut Registry<L, N>,
    share: &mut Share<N>,
    all: &Sources<L::Source>,
    loads: &L,
    room: &mut Imports<L::Verdict>,
) -> Result<usize, AllocError>
    requires loads { N.loads ≡ Some loads.now }
    requires sources { N.sources ≡ Some all.now }
    requires part { 0 < share.old.parts }
    requires room { module_count N.Naming.own ≤ room.old.room }
{
    let mut given: usize = 0;
    for _module in 0..MODULES {
        match registry.claim(share, 0, room) {
            ClaimAnswer::Claimed(claim) => {
                given = given.saturating_add(room.as_slice().len());
                decide(alloc, registry, share, all, loads, claim, room)?;
            }
            ClaimAnswer::Memory(error) => return Err(error),
            ClaimAnswer::AllDecided(_) => return Ok(given),
            ClaimAnswer::Stopped(_) => return Ok(given),
            ClaimAnswer::NoneReady => return Ok(given),
        }
    }
    Ok(given)
}

/// Decides all modules by a registry of that name.
fn decided<L: Loads, N: Naming<L, L::Source>>(
    alloc: Global,
    all: &Arc<Sources<L::Source>>,
    loads: &L,
    blank: Blank,
) -> Result<Option<usize>, AllocError>
    requires name { blank.name ≡ N.name }
    requires parts { blank.parts ≡ N.parts }
    requires some { 0 < N.parts }
    requires loads { N.loads ≡ Some loads.now }
    requires sources { N.sources ≡ Some (arc_value all.now) }
{
    let mut room = Imports::with_room(alloc, all.graph.count())?;
    let (mut registry, mut share) = Registry::<L, N>::open(alloc, Arc::try_clone(all)?, blank)?;
    let given = decide_each(alloc, &mut registry, &mut share, &**all, loads, &mut room)?;
    match registry.into_world() {
        Ok(_) => Ok(Some(given)),
        Err(_) => Ok(None),
    }
}

fn decided_alone(alloc: Global, all: &Arc<Sources<bool>>) -> Result<Option<usize>, AllocError> {
    decided::<Published, Brand>(alloc, all, &Published, Blank::new(1))
}

fn main(rt: HostRuntime) -> io::Result<()> {
    let alloc = rt.alloc();
    let kinds = [
        Kind::Before(32),
        Kind::Behind(32),
        Kind::Before(1),
        Kind::Behind(1),
        Kind::Before(MODULES),
        Kind::Behind(MODULES),
        Kind::Halves,
    ];
    for kind in kinds {
        let Some(all) = sources(alloc, kind)? else {
            return Ok(());
        };
        let (mut least, mut given) = (u128::MAX, None);
        for _ in 0..5 {
            let before = rt.process_cpu_time()?;
            given = decided_alone(alloc, &all)?;
            let after = rt.process_cpu_time()?;
            least = least.min(after.saturating_sub(before).as_micros());
        }
        let Some(given) = given else {
            return Ok(());
        };
        println!(rt; "{given} {least}")?;
    }
    Ok(())
}
"""
PROOFS = {
    "proofs/decide_each/Invariants.antt": """use Rattle.std.proofs.Common.{◌<◌, ◌≤◌}
use Rattle.registry_core.specs.Named.{module_count}
use Rattle.registry_times.proofs.decide_each.Given as goal

abbrev pub invariant-loop-module : goal.invariant-loop-module
invariant-loop-module g l = record {
  part : 0 < l.share.parts;
  room : module_count g.N.Naming ≤ l.room.room;
}
""",
    "proofs/decided_alone/Invariants.antt": """use Rattle.std.proofs.Common.{Some}
use Rattle.std.specs.Arc.{arc_value}
use Rattle.registry_times.proofs.decided_alone.Given as goal

abbrev pub ghosts-decided-N-Ledger : goal.ghosts-decided-N-Ledger
ghosts-decided-N-Ledger a = record { name = a.blank.name; parts = a.blank.parts }

abbrev pub ghosts-decided-N-Naming : goal.ghosts-decided-N-Naming
ghosts-decided-N-Naming a = record { loads = Some a.loads.now; sources = Some (arc_value a.all.now) }
""",
}
GRAPHS = [
    "each imports the 32 before it",
    "each imports the 32 behind it",
    "a chain, each imports the one before it",
    "a chain, each imports the one behind it",
    "each imports all before it",
    "each imports all behind it",
    "512 modules import the one behind and all of the other 512",
]

output = printed("registry_times", PROGRAM.replace("COUNT", str(MODULES)), BELOW, "", PROOFS)
rows = re.findall(r"(?m)^(\d+) (\d+)$", output)
if len(rows) != len(GRAPHS):
    sys.exit(output + "\nbench/registry.py: a graph has no row")
for graph, (given, micros) in zip(GRAPHS, rows):
    print(f"| {graph} | {int(given):,} | {int(micros) / 1000:.1f} ms |")
