#!/usr/bin/env python3
"""Times `line_form` on one long line of tokens, at 50,000 tokens and at two, four and eight times as many. It prints a row of
a table for each kind of line: the milliseconds of the processor, and how many times the longest takes as long as half of
it. It builds the program below over a copy of the crates that it needs."""
import re, sys
from measuring import printed

SIZES = [50_000, 100_000, 200_000, 400_000]
BELOW = ["lists", "py_tree", "py_lexer", "py_phrases", "py_expr"]
PROGRAM = r"""//! Takes the form of each line on standard input some times, and prints its tokens and the least microseconds that it took.
#![tactic(auto)]

use py_expr::form::Form;
use py_expr::line::line_form;
use py_lexer::lex::lex;
use py_tree::code::Code;
use py_tree::fault::{Fault, Stop};
use std::io::{self, Read};
use std::time::CpuClock;

fn is_read(answer: &Result<Form, Stop>) -> bool {
    match answer {
        Ok(_) => true,
        Err(Stop::Fault(Fault { code, .. })) => matches!(code, Code::TooDeep),
        Err(Stop::Memory(_)) => false,
    }
}

fn main(rt: HostRuntime) -> io::Result<()> {
    let alloc = rt.alloc();
    let mut text = Vec::new(alloc);
    let _ = rt.reader().read_to_end(&mut text)?;
    for line in text.split(|byte| *byte == b'\n') {
        let Ok(lines) = lex(alloc, line) else {
            return Ok(());
        };
        for line in lines.as_slice() {
            let mut least = u128::MAX;
            for _ in 0..5 {
                let before = rt.process_cpu_time()?;
                let answer = line_form(alloc, line);
                let took = rt.process_cpu_time()?.saturating_sub(before);
                if !is_read(&answer) {
                    return Ok(());
                }
                least = least.min(took.as_micros());
            }
            println!(rt; "{} {}", line.tokens.len(), least)?;
        }
    }
    Ok(())
}
"""


def filled(begins, part, between, ends, each, size):
    """A line of about that many tokens, `each` for a part with what stands between."""
    return begins + between.join(part.replace("#", str(n)) for n in range(size // each)) + ends + "\n"


LINES = {
    "`a + a + ..`": lambda size: filled("", "a", " + ", "", 2, size),
    "`a.b.c..`": lambda size: filled("", "a", ".", "", 2, size),
    "`f(1, 1, ..)`": lambda size: filled("f(", "1", ", ", ")", 2, size),
    "`f(k1=1, k2=1, ..)`": lambda size: filled("f(", "k#=1", ",", ")", 4, size),
    "`'' \"\" ..`": lambda size: filled("", "''\"\"", "", "", 2, size),
    "`a, a, ..`": lambda size: filled("", "a", ", ", "", 2, size),
    "`{1: 1, 1: 1, ..}`": lambda size: filled("{", "1: 1", ", ", "}", 4, size),
    "`a[0][0]..`": lambda size: filled("a", "[0]", "", "", 3, size),
}


text = "".join(line(size) for line in LINES.values() for size in SIZES)
output = printed("line_times", PROGRAM, BELOW, text)
times = [int(micros) / 1000 for micros in re.findall(r"(?m)^\d+ (\d+)$", output)]
if len(times) != len(SIZES) * len(LINES):
    sys.exit(output + "\nbench/lines.py: a line was not read")
for place, name in enumerate(LINES):
    row = times[place * len(SIZES) :][: len(SIZES)]
    print(f"| {name} | " + " | ".join(f"{time:.1f} ms" for time in row) + f" | {row[-1] / row[-2]:.1f} |")
