#!/usr/bin/env python3
"""Times `lex` on texts of 1,048,576 bytes, each as much of one short text as fits. It prints a row of a table for each: the
text, what `lex` answers, and the milliseconds of the processor. It builds the program below over a copy of the crates that it needs."""
import re, sys
from measuring import printed

SIZE = 1_048_576
BELOW = ["lists", "py_tree", "py_lexer"]
PROGRAM = r"""//! Lexes the parts of standard input, which a zero byte ends, some times each, and prints what is answered and the least
//! microseconds that it took.
#![tactic(auto)]

use py_lexer::lex::lex;
use py_tree::fault::{Fault, Stop};
use std::io::{self, Read};
use std::time::CpuClock;

fn main(rt: HostRuntime) -> io::Result<()> {
    let alloc = rt.alloc();
    let mut input = Vec::new(alloc);
    let _ = rt.reader().read_to_end(&mut input)?;
    for text in input.split(|byte| *byte == 0) {
        let mut least = u128::MAX;
        for _ in 0..5 {
            let before = rt.process_cpu_time()?;
            let answer = lex(alloc, text);
            let took = rt.process_cpu_time()?.saturating_sub(before);
            drop(answer);
            least = least.min(took.as_micros());
        }
        match lex(alloc, text) {
            Ok(lines) => {
                let mut tokens: usize = 0;
                for line in lines.as_slice() {
                    tokens = tokens.saturating_add(line.tokens.len());
                }
                println!(rt; "{} {} lines, {} tokens", least, lines.len(), tokens)?;
            }
            Err(Stop::Fault(Fault { line, code })) => {
                println!(rt; "{} {} on line {}", least, code, line)?;
            }
            Err(Stop::Memory(_)) => println!(rt; "{} no memory", least)?,
        }
    }
    Ok(())
}
"""
TEXTS = {
    "`(`": "(",
    "`'`": "'",
    '`"`': '"',
    "`7`": "7",
    "`é`": "é",
    "space": " ",
    "backslash": "\\",
    "backslash and line feed": "\\\n",
    "`a `": "a ",
    "`,`": ",",
    "`'\\x41' `": "'\\x41' ",
    "`a` and line feed": "a\n",
}


def filled(part):
    """As many whole parts as fit."""
    return part * (SIZE // len(part.encode()))


output = printed("lex_times", PROGRAM, BELOW, "\0".join(map(filled, TEXTS.values())))
rows = re.findall(r"(?m)^(\d+) ((?:E\d+ on|\d+ lines|no memory).*)$", output)
if len(rows) != len(TEXTS):
    sys.exit(output + "\nbench/lex.py: a text has no row")
print("| text, repeated | answer | time |\n|---|---|---|")
for name, (micros, answer) in zip(TEXTS, rows):
    print(f"| {name} | {answer} | {int(micros) / 1000:.1f} ms |")
