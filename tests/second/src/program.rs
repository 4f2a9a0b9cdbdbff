//! What the program of document 01 writes.

use crate::analysis::{analyse, Lengths};
use crate::bracket::bracket;
use crate::judge::Refusal;
use crate::listing::Walk;
use std::io::{self, Write};

/// The program reads no more than this.
pub const MOST_READ: usize = 24_576;
/// The nodes that it lends to each table.
pub const LENT_NODES: usize = 4_096;

/// The program's own answer to its standard input.
pub fn program(input: &[u8], out: &mut dyn Write) -> io::Result<()> {
    let first = &input[..input.len().min(MOST_READ)];
    report(first, Lengths::of_capacities(LENT_NODES, LENT_NODES), true, out)
}

/// The same report with any tables, and without the lines of cuts where they are too many to print.
pub fn report(bytes: &[u8], lengths: Lengths, with_cuts: bool, out: &mut dyn Write) -> io::Result<()> {
    let done = match analyse(bytes, lengths) {
        Ok(done) => done,
        Err(Refusal { number, place }) => return writeln!(out, "refused {number} at {place}"),
    };
    writeln!(out, "events {}", done.tree.event_count)?;
    writeln!(out, "gates {}", done.tree.gate_count)?;
    writeln!(out, "nodes {}", done.robdd.nodes.count())?;
    writeln!(out, "cuts")?;
    if with_cuts {
        for cut in Walk::new(&done.lent_cuts(), None) {
            let members: Vec<String> = cut.members().iter().map(u32::to_string).collect();
            writeln!(out, "{}", members.join(" "))?;
        }
    }
    let top = bracket(&done.lent_function(), &done.tree.chances, true);
    writeln!(out, "top {} {}", top.low, top.high)
}
