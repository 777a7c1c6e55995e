#!/usr/bin/env python3
"""Times `KeyMap`: that many puts of distinct keys into an empty dictionary, and then as many finds. It prints a row of a table for each
kind of key and each of the two calls: the milliseconds of the processor, the least of five runs, and how many times the longest takes as
long as half of it. Keys are made before the clock starts. It builds the program below over a copy of the crates that it needs."""
import re, sys
from measuring import printed

KINDS = ["ints", "texts of seven digits", "pairs of an int and a text"]
SIZES = [100_000, 200_000, 400_000]
BELOW = ["key_map"]
PROGRAM = r"""//! Puts keys of each kind and finds them again, and prints how many were found and the least microseconds that each took.
#![tactic(auto)]

use key_map::key::{Key, KeyText, Keys};
use key_map::map::KeyMap;
use std::alloc::{AllocError, Global};
use std::io;
use std::time::CpuClock;

#[derive(Clone, Copy)]
enum Kind {
    Ints,
    Texts,
    Pairs,
}

fn text(alloc: Global, number: u32) -> Result<Key, AllocError> {
    let mut points = KeyText::new(alloc);
    for place in [1_000_000, 100_000, 10_000, 1_000, 100, 10, 1] {
        points.push(char::from_digit(number / place % 10, 10).unwrap_or('0'))?;
    }
    Ok(Key::Str(points))
}

fn pair(alloc: Global, number: u32) -> Result<Key, AllocError> {
    let mut items = Keys::new(alloc);
    items.push(Key::Int(i64::from(number)))?;
    items.push(text(alloc, number)?)?;
    Ok(Key::Tuple(items))
}

fn key(alloc: Global, kind: Kind, number: u32) -> Result<Key, AllocError> {
    match kind {
        Kind::Ints => Ok(Key::Int(i64::from(number))),
        Kind::Texts => text(alloc, number),
        Kind::Pairs => pair(alloc, number),
    }
}

fn keys(alloc: Global, kind: Kind, count: u32) -> Result<Vec<Key>, AllocError> {
    let mut made = Vec::new(alloc);
    for number in 0..count {
        made.push(key(alloc, kind, number)?)?;
    }
    Ok(made)
}

fn put_all(map: &mut KeyMap<u32, u32>, made: Vec<Key>) -> Result<(), AllocError> {
    for key in made {
        map.put(key, 0, 1)?;
    }
    Ok(())
}

fn found(map: &KeyMap<u32, u32>, made: &[Key]) -> usize {
    made.iter().filter(|key| map.find(*key).is_some()).count()
}

fn main(rt: HostRuntime) -> io::Result<()> {
    let alloc = rt.alloc();
    for kind in [Kind::Ints, Kind::Texts, Kind::Pairs] {
        for count in [SIZES] {
            let (mut put, mut find, mut all) = (u128::MAX, u128::MAX, 0);
            for _ in 0..5 {
                let (made, again) = (keys(alloc, kind, count)?, keys(alloc, kind, count)?);
                let mut map = KeyMap::new(alloc);
                let before = rt.process_cpu_time()?;
                put_all(&mut map, made)?;
                let between = rt.process_cpu_time()?;
                all = found(&map, again.as_slice());
                let after = rt.process_cpu_time()?;
                put = put.min(between.saturating_sub(before).as_micros());
                find = find.min(after.saturating_sub(between).as_micros());
            }
            println!(rt; "{all} {put} {find}")?;
        }
    }
    Ok(())
}
"""

output = printed("key_times", PROGRAM.replace("SIZES", ", ".join(map(str, SIZES))), BELOW, "")
times = re.findall(r"(?m)^(\d+) (\d+) (\d+)$", output)
if [int(found) for found, _, _ in times] != SIZES * len(KINDS):
    sys.exit(output + "\nbench/keys.py: a key was not found")
for place, kind in enumerate(KINDS):
    rows = times[place * len(SIZES) :][: len(SIZES)]
    for call, column in ("puts", 1), ("finds", 2):
        row = [int(cells[column]) / 1000 for cells in rows]
        print(f"| {call} of {kind} | " + " | ".join(f"{time:.1f} ms" for time in row) + f" | {row[-1] / row[-2]:.1f} |")
