#!/usr/bin/env python3
"""Times `resolve` on modules of growing size, of about 1 MiB at the most: of many distinct names, of classes in chains, combs and
stars, and of classes below those of an imported module. It prints a row of a table for each kind of module: the milliseconds of the
processor, and the microseconds a line of the longest over those of the one before. It builds the program below over a copy of the crates
that it needs."""
import re, sys
from measuring import printed

BELOW = ["lists", "py_values", "py_tree", "py_lexer", "py_phrases", "py_expr", "py_blocks", "symbols", "import_graph", "registry_core", "module_load"]
PROGRAM = r"""//! Reads modules on standard input, with `$` between them, and prints the least microseconds that the names of each took. Each
//! imports a module `m` with as many classes as stand below one of its.
#![tactic(auto)]

use module_load::preparing::parse;
use py_tree::expression::Texts;
use py_tree::text::Text;
use py_values::class_id::ClassId;
use std::alloc::{AllocError, Global};
use std::io::{self, Read};
use std::time::CpuClock;
use symbols::class::ClassKind;
use symbols::outer::{ModuleClass, ModuleClasses, Outer, OuterBinding, OuterBindings, OuterKind};
use symbols::resolve::resolve;

/// The classes `C0`, `C1`, .. of the module `m`.
fn classes(alloc: Global, count: u32) -> Result<ModuleClasses, AllocError> {
    let mut classes = ModuleClasses::new(alloc);
    for number in 0..count {
        let name = format!(in alloc; "C{number}")?;
        classes.push(ModuleClass {
            name: Text::from_str(alloc, name.as_str())?,
            class: ClassKind {
                id: ClassId::User { home: 1, number },
                slots: Texts::new(alloc),
                methods: Texts::new(alloc),
            },
        })?;
    }
    Ok(classes)
}

fn outer(alloc: Global, count: u32) -> Result<Outer, AllocError> {
    let mut bindings = OuterBindings::new(alloc);
    bindings.push(OuterBinding {
        name: Text::from_str(alloc, "m")?,
        kind: OuterKind::Module(classes(alloc, count)?),
    })?;
    Ok(Outer {
        name: Text::from_str(alloc, "n")?,
        number: 0,
        bindings,
    })
}

/// How many classes stand below one of `m`.
fn below(module: &[u8]) -> u32 {
    let mut count: u32 = 0;
    for part in module.windows(3) {
        if part == b"(m.".as_slice() {
            count = count.saturating_add(1);
        }
    }
    count
}

fn main(rt: HostRuntime) -> io::Result<()> {
    let alloc = rt.alloc();
    let mut text = Vec::new(alloc);
    let _ = rt.reader().read_to_end(&mut text)?;
    for module in text.split(|byte| *byte == b'$') {
        let outer = outer(alloc, below(module))?;
        let Ok(tree) = parse(alloc, module) else {
            return Ok(());
        };
        let mut least = u128::MAX;
        for _ in 0..5 {
            let before = rt.process_cpu_time()?;
            let Ok(_names) = resolve(alloc, &tree, &outer) else {
                return Ok(());
            };
            let took = rt.process_cpu_time()?.saturating_sub(before);
            least = least.min(took.as_micros());
        }
        println!(rt; "took {least}")?;
    }
    Ok(())
}
"""


def distinct(size):
    """So many lines of 20 bytes, each with a name of its own."""
    return "".join(f"name_{n:010} = 1\n" for n in range(size))


def chain(size, member):
    """So many classes, each below the one before, with a member each."""
    return f"class C0:\n {member}0{TAILS[member]}\n" + "".join(f"class C{n}(C{n - 1}):\n {member}{n}{TAILS[member]}\n" for n in range(1, size))


def fields(size):
    return chain(size, "f")


def methods(size):
    return chain(size, "def f")


def comb(size):
    """A chain of so many classes with a field each, and below each another one with a field."""
    return fields(size) + "".join(f"class D{n}(C{n}): g{n}: int\n" for n in range(size))


def two_stars(size):
    """Two classes with so many fields each, and so many classes that are below the one and the other in turn."""
    bases = "".join(f"class {base}:\n" + "".join(f" {base}{n}: int\n" for n in range(size)) for base in "AB")
    return bases + "".join(f"class D{n}({'AB'[n % 2]}): f{n}: int\n" for n in range(size))


def below_imported(size):
    """So many classes, each below one of the same number of the module `m`."""
    return "import m\n" + "".join(f"class D{n}(m.C{size - 1 - n}): pass\n" for n in range(size))


# What stands behind the name of a member.
TAILS = {"f": ": int", "def f": "(self): pass"}
MODULES = {
    "distinct names": (distinct, [12_500, 25_000, 50_000]),
    "a chain of classes with a field each": (fields, [2_000, 4_000, 8_000, 30_000]),
    "a chain of classes with a method each": (methods, [2_000, 4_000, 8_000, 22_000]),
    "a comb of classes": (comb, [1_000, 2_000, 4_000, 16_000]),
    "two stars of classes": (two_stars, [2_000, 4_000, 8_000, 19_000]),
    "classes below those of an imported module": (below_imported, [5_000, 10_000, 20_000]),
}


text = "$".join(module(size) for module, sizes in MODULES.values() for size in sizes)
output = printed("name_times", PROGRAM, BELOW, text)
times = [int(micros) / 1000 for micros in re.findall(r"(?m)^took (\d+)$", output)]
if len(times) != sum(len(sizes) for _, sizes in MODULES.values()):
    sys.exit(output + "\nbench/names.py: a module has no names")
for name, (_, sizes) in MODULES.items():
    row, times = times[: len(sizes)], times[len(sizes) :]
    cells = " | ".join(f"{size:,}: {time:.1f} ms" for size, time in zip(sizes, row))
    print(f"| {name} | {cells} | {row[-1] / row[-2] * sizes[-2] / sizes[-1]:.1f} |")
