//! Document 01's program `phrase` by this implementation, with results as texts (document 02, C-14): the table is phrases.tab, empty if it cannot be opened,
//! the formula standard input. `cargo build --example phrase` makes it; tools/phrases asks it if PHRASE names it.

use plain::TEXTS;
use std::io::{Read, Write};

const CELLS: usize = 4 * 4_096;
const TEXT: usize = 65_536;

fn main() -> std::io::Result<()> {
    let table = std::fs::read("phrases.tab").unwrap_or_default();
    let mut formula = Vec::new();
    std::io::stdin().take(TEXT as u64).read_to_end(&mut formula)?;
    let (mut cells, mut text) = (vec![0; CELLS], vec![0; TEXT]);
    let answer = TEXTS.expand(&table, &formula, &mut cells, &mut text);
    let mut out = std::io::stdout();
    match answer.number {
        0 => {
            writeln!(out, "ok {} {} {}", answer.a, answer.b, answer.c)?;
            out.write_all(&text[..answer.c as usize])?;
            writeln!(out)
        }
        number => writeln!(out, "refused {number} {} {} {}", answer.a, answer.b, answer.c),
    }
}
