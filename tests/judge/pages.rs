//! The pages of a plan by a second reading of docs/FORMAT.md, Pages: written from its words alone, for a plan of the
//! Rust's. The bits of a bin are those that the Rust's writer puts for it.
use crate::eac3::ahtenc::{self, AhtChannelPlan};
use crate::signals::vectors;
use oxideav_core::bits::BitWriter;

/// What is shown of a bin; Gk where the bin is active in the plan's mode.
#[derive(Clone, Debug)]
pub struct Cell {
    pub bin: usize,
    pub hebap: u8,
    pub gk: Option<u8>,
    pub bits: usize,
}

/// The bins of a plan that fits, in order.
pub fn cells(plan: &AhtChannelPlan, row: &[u8], start: usize, end: usize, x: &[f32]) -> Vec<Cell> {
    let x = vectors(x);
    let mut gains = plan.gains.iter();
    let cell = |bin: usize| {
        let hebap = row[bin];
        let active = match plan.gaqmod {
            1 => (8..=11).contains(&hebap),
            2 | 3 => (8..=16).contains(&hebap),
            _ => false,
        };
        let code = active.then(|| *gains.next().expect("a gain for each active bin"));
        Cell { bin, hebap, gk: code.map(|c| [1, 2, 4][c as usize]), bits: own_bits(plan.gaqmod, code, row, bin, &x) }
    };
    (start..end).map(cell).collect()
}

/// The bits of a field with this bin alone, less those of the same field without it: the mode and the gain word are in
/// both.
fn own_bits(mode: u8, code: Option<u8>, row: &[u8], bin: usize, x: &[[f32; 6]]) -> usize {
    let plan = AhtChannelPlan { gaqmod: mode, gains: code.into_iter().collect(), payload_bits: 0 };
    let [without, with] = [bin, bin + 1].map(|end| {
        let mut w = BitWriter::new();
        ahtenc::write_aht_channel(&mut w, &plan, row, bin, end, x);
        w.bits()
    });
    with - without
}

/// The pages: four bins to a line, 50 lines to a page, the last page filled with lines of spaces.
pub fn pages(cells: &[Cell]) -> Vec<u8> {
    let text = |c: &Cell| {
        let gk = c.gk.map_or("-".into(), |gk| gk.to_string());
        format!("{:>3} {:>2} {gk} {:>3}", c.bin, c.hebap, c.bits)
    };
    let line = |four: &[Cell]| format!("{:<64}\n", four.iter().map(text).collect::<Vec<_>>().join(" "));
    let mut lines: Vec<String> = cells.chunks(4).map(line).collect();
    lines.resize(lines.len().next_multiple_of(50), line(&[]));
    lines.concat().into_bytes()
}
