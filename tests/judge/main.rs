//! Compares the proved calls with the Rust that they were ported from: results, refusals, positions and every lent
//! byte; those that the Rust does not have with second readings of docs/FORMAT.md (shown.rs, pages.rs). The files of the
//! Rust stand beside this one under eac3/, unchanged. Its word is the seed; a second word, `scale` or `few`, makes it
//! long or short.
#![allow(dead_code)]

/// What ahtenc.rs takes from audblk.rs, which rests on files that are not at hand, and from encoder.rs, which is one
/// of these; none of it is called.
mod audblk {
    pub const N_COEFFS: usize = 256;
}
mod encoder {
    pub struct BitAllocParams;
    pub struct DbaPlan;
    pub fn compute_bap_table(_: &[u8; 256], _: usize, _: u8, _: &BitAllocParams, _: &mut [u8; 256], _: Option<(&DbaPlan, usize)>, _: &[u8; 64]) {}
}
mod eac3 {
    pub mod aht;
    pub mod ahtenc;
    pub mod tables {
        pub mod aht_codebooks;
    }
}
#[cfg(not(record))]
mod channels;
#[cfg(not(record))]
mod coding;
#[cfg(not(record))]
mod foundations;
#[cfg(not(record))]
mod ours;
mod pages;
#[cfg(not(record))]
mod printed;
mod random;
#[cfg(record)]
mod record;
#[cfg(record)]
mod record_channels;
mod shown;
mod signals;

fn seed() -> u64 {
    std::env::args().nth(1).and_then(|s| s.parse().ok()).expect("a seed")
}

/// How often a case is drawn: as usual; with the second word `scale` at scale; with `few`, for a slow machine under
/// this program, a fiftieth.
#[cfg(not(record))]
pub fn times(usual: usize, at_scale: usize) -> usize {
    match std::env::args().nth(2).as_deref() {
        Some("scale") => at_scale,
        Some("few") => usual / 50,
        _ => usual,
    }
}

/// Built with --cfg record it needs no proved library: it writes the Rust's answers to the crates in the folder that
/// its other word names.
#[cfg(record)]
fn main() {
    record::write(seed(), &std::env::args().nth(2).expect("a folder to write to"));
}

/// Each call with all of its refusals, 0 for an answer: the comparison must have met each.
#[cfg(not(record))]
const MET: [(&str, &[u8]); 17] = [
    ("read_u32", &[0, 8, 12]),
    ("write_u32", &[0, 7, 12]),
    ("hebap_from_address", &[0, 12]),
    ("endbap_for_gaqmod", &[0, 12]),
    ("fill_gaqbin", &[0, 12]),
    ("gaq_sections", &[0, 12]),
    ("gaq_gain_value", &[0, 12]),
    ("read_gaq_gains", &[0, 8, 12]),
    ("read_scalar_aht_mantissas", &[0, 4, 8, 12]),
    ("vq_lookup", &[0]),
    ("vq_search", &[0, 5]),
    ("quantise_scalar", &[0, 5, 11]),
    ("quantise_bin", &[0, 5, 11]),
    ("plan_aht_channel", &[0, 1, 2, 3, 4, 5]),
    ("write_aht_channel", &[0, 1, 2, 3, 4, 5, 6, 7]),
    ("read_aht_channel", &[0, 1, 2, 3, 4, 8, 9, 10]),
    ("print_pages", &[0, 1, 2, 3, 4, 5, 6, 7]),
];

#[cfg(not(record))]
fn main() {
    let seed = seed();
    println!("compare: seed {seed}");
    let mut all = Tally::default();
    foundations::run(seed, &mut all);
    coding::run(seed, &mut all);
    channels::run(seed, &mut all);
    printed::run(seed, &mut all);
    println!("compare: {} cases, {} different", all.cases, all.different);
    let mut missing = 0;
    for (call, refusals) in MET {
        let met: Vec<String> = refusals.iter().map(|&n| format!("{n}×{}", all.met.get(&(call, n)).copied().unwrap_or(0))).collect();
        println!("compare: {call:<28} {}", met.join(" "));
        missing += refusals.iter().filter(|&&n| !all.met.contains_key(&(call, n))).count();
    }
    let known = |&(call, n): &(&str, u8)| MET.iter().any(|(c, refusals)| *c == call && refusals.contains(&n));
    let unknown: Vec<_> = all.met.keys().filter(|k| !known(k)).collect();
    let mut few = 0;
    for call in ["vq_search", "quantise_scalar", "quantise_bin", "plan_aht_channel", "write_aht_channel", "print_pages"] {
        let n = all.louder.get(call).copied().unwrap_or(0);
        println!("compare: {call:<28} {n} answers with a component above 1024");
        few += usize::from(n < times(10_000, 10_000) as u64);
    }
    println!("compare: {few} calls have too few of these");
    println!("compare: {missing} refusals of a call were not met, {} are on no list {unknown:?}", unknown.len());
    if all.different > 0 || missing > 0 || few > 0 || !unknown.is_empty() {
        std::process::exit(1);
    }
}

/// The cases of one call, or of all.
#[derive(Default)]
pub struct Tally {
    /// The call, and behind a comma what its cases are.
    pub name: &'static str,
    pub cases: u64,
    pub different: u64,
    /// How often a call was due to answer a number.
    pub met: std::collections::HashMap<(&'static str, u8), u64>,
    /// How often it was due to answer where a component is above 1024, which it refused once.
    pub louder: std::collections::HashMap<&'static str, u64>,
}

impl Tally {
    pub fn of(name: &'static str) -> Self {
        Tally { name, ..Tally::default() }
    }

    /// Counts a case in which a refusal is due, 0 for none; the first few that differ are shown.
    pub fn case(&mut self, due: u8, same: bool, what: impl FnOnce() -> String) {
        self.cases += 1;
        *self.met.entry((self.name.split(',').next().unwrap(), due)).or_default() += 1;
        if !same {
            self.different += 1;
            if self.different <= 5 {
                println!("compare: {}: {}", self.name, what());
            }
        }
    }

    pub fn loud(&mut self, is: bool) {
        *self.louder.entry(self.name.split(',').next().unwrap()).or_default() += u64::from(is);
    }

    pub fn close(self, all: &mut Tally) {
        println!("compare: {:<40} {:>10} cases, {} different", self.name, self.cases, self.different);
        all.cases += self.cases;
        all.different += self.different;
        for (k, n) in self.met {
            *all.met.entry(k).or_default() += n;
        }
        for (k, n) in self.louder {
            *all.louder.entry(k).or_default() += n;
        }
    }
}
