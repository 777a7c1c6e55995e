#!/usr/bin/env python3
"""Times `contains`, the search for a part in a text: a part of `a`s with a `b` behind them in a text of `a`s alone, at which a search that
begins anew at each place takes time in proportion to the product of both lengths; and the places of a short part, each found from
behind the one before it. It prints a row of a table for each: the milliseconds of the processor, the least of five runs, and how many
times the longest takes as long as half of it. It builds the program below over a copy of the crates that it needs."""
import re, sys
from measuring import printed

SIZES = [250_000, 500_000, 1_000_000]
BELOW = ["lists", "py_tree", "py_values", "atom_ops"]
PROGRAM = r"""//! Looks for parts in texts of each size, and prints how often they were found and the least microseconds that it took.
#![tactic(auto)]

use atom_ops::search::{Pattern, contains};
use std::alloc::{AllocError, Global};
use std::io;
use std::time::CpuClock;

fn repeated(alloc: Global, point: char, count: usize) -> Result<Vec<char>, AllocError> {
    let mut text = Vec::new(alloc);
    for _ in 0..count {
        text.push(point)?;
    }
    Ok(text)
}

fn places(alloc: Global, part: &[char], text: &[char]) -> Result<usize, AllocError> {
    let pattern = Pattern::new(alloc, part)?;
    let (mut from, mut last): (usize, usize) = (0, 0);
    for _ in 0..text.len() {
        match pattern.find(text, from.min(text.len())) {
            Some(place) => {
                last = place;
                from = place.saturating_add(1);
            }
            None => return Ok(last),
        }
    }
    Ok(last)
}

fn main(rt: HostRuntime) -> io::Result<()> {
    let alloc = rt.alloc();
    for size in [SIZES] {
        let text = repeated(alloc, 'a', size)?;
        let mut part = repeated(alloc, 'a', size / 2)?;
        part.push('b')?;
        let (mut least, mut found) = (u128::MAX, true);
        for _ in 0..5 {
            let before = rt.process_cpu_time()?;
            found = contains(alloc, part.as_slice(), text.as_slice())?;
            let after = rt.process_cpu_time()?;
            least = least.min(after.saturating_sub(before).as_micros());
        }
        println!(rt; "{found} {least}")?;
    }
    for size in [SIZES] {
        let text = repeated(alloc, 'a', size)?;
        let part = repeated(alloc, 'a', 2)?;
        let (mut least, mut last) = (u128::MAX, 0);
        for _ in 0..5 {
            let before = rt.process_cpu_time()?;
            last = places(alloc, part.as_slice(), text.as_slice())?;
            let after = rt.process_cpu_time()?;
            least = least.min(after.saturating_sub(before).as_micros());
        }
        println!(rt; "{last} {least}")?;
    }
    Ok(())
}
"""

output = printed("search_times", PROGRAM.replace("SIZES", ", ".join(map(str, SIZES))), BELOW, "")
times = re.findall(r"(?m)^(\w+) (\d+)$", output)
if [found for found, _ in times] != ["false"] * len(SIZES) + [str(size - 2) for size in SIZES]:
    sys.exit(output + "\nbench/search.py: another answer")
for place, call in enumerate(["a part of half the text, `a`s with a `b` behind them", "each place of `aa`, from behind the one before"]):
    row = [int(time) / 1000 for _, time in times[place * len(SIZES) :][: len(SIZES)]]
    print(f"| {call} | " + " | ".join(f"{time:.1f} ms" for time in row) + f" | {row[-1] / row[-2]:.1f} |")
