//! Times the original Rust and the proved library on the same inputs, in one run, turn by turn, and prints medians
//! and their ratios.
#![allow(dead_code)]
mod audblk {
    pub const N_COEFFS: usize = 256;
}
mod encoder {
    pub struct BitAllocParams;
    pub struct DbaPlan;
    pub fn compute_bap_table(_: &[u8; 256], _: usize, _: u8, _: &BitAllocParams, _: &mut [u8; 256], _: Option<(&DbaPlan, usize)>, _: &[u8; 64]) {}
}
mod eac3 {
    pub mod aht;
    pub mod ahtenc;
    pub mod tables {
        pub mod aht_codebooks;
    }
}
mod ours;
mod random;
mod signals;

use eac3::{aht, ahtenc};
use oxideav_core::bits::{BitReader, BitWriter};
use random::Random;
use std::hint::black_box;
use std::time::Instant;

/// A channel as both sides take it.
struct Channel {
    row: Vec<u8>,
    x: Vec<f32>,
    v: Vec<[f32; 6]>,
}

/// Rows of several kinds: book bins only, scalar bins only (hebap 8 to 19), mixed; quiet and loud.
fn channels(kind: usize, bins: usize, random: &mut Random) -> Vec<Channel> {
    (0..8)
        .map(|k| {
            let row: Vec<u8> = (0..bins)
                .map(|_| match kind {
                    0 => 1 + random.below(7) as u8,
                    1 => 8 + random.below(12) as u8,
                    _ => random.below(20) as u8,
                })
                .collect();
            let scale = if k % 2 == 0 { 0.05 } else { 1.0 };
            let x: Vec<f32> = (0..6 * bins).map(|_| (signals::unit(random) - 0.5) * 2.0 * scale).collect();
            let v = signals::vectors(&x);
            Channel { row, x, v }
        })
        .collect()
}

/// Seconds of one turn, theirs and ours, as medians over so many turns each, one after the other.
fn medians(turns: usize, mut theirs: impl FnMut(), mut ours: impl FnMut()) -> (f64, f64) {
    let mut a = Vec::new();
    let mut b = Vec::new();
    for _ in 0..turns {
        let t = Instant::now();
        theirs();
        a.push(t.elapsed().as_secs_f64());
        let t = Instant::now();
        ours();
        b.push(t.elapsed().as_secs_f64());
    }
    let mid = |v: &mut Vec<f64>| {
        v.sort_by(f64::total_cmp);
        v[v.len() / 2]
    };
    (mid(&mut a), mid(&mut b))
}

/// The Rust's own reading functions in the order of the layout.
fn read_theirs(src: &[u8], row: &[u8], values: &mut [[f32; 6]]) {
    let mut br = BitReader::new(src);
    let mode = br.read_u32(2).unwrap() as u8;
    let mut marks = [0i8; 256];
    let marked = aht::fill_gaqbin(row, mode, &mut marks[..row.len()]);
    let active = if mode == 0 { 0 } else { marked };
    let mut codes = [0u8; 258];
    aht::read_gaq_gains(&mut br, mode, aht::gaq_sections(mode, active), &mut codes).unwrap();
    let mut next = 0;
    for (k, &h) in row.iter().enumerate() {
        match h {
            0 => values[k] = [0.0; 6],
            1..=7 => {
                let i = br.read_u32(u32::from(aht::VQ_BITS[h as usize])).unwrap();
                values[k] = aht::vq_lookup(h, i as usize);
            }
            _ => {
                let code = if mode > 0 && marks[k] == 1 {
                    next += 1;
                    codes[next - 1]
                } else {
                    0
                };
                aht::read_scalar_aht_mantissas(&mut br, h, mode, marks[k], code, &mut values[k]).unwrap();
            }
        }
    }
}

struct Sums {
    theirs: f64,
    ours: f64,
}

/// Seconds a call of plan, write and read, theirs and ours, on eight channels of a kind; short channels are gone
/// through several times a turn.
fn measure(kind: usize, bins: usize, random: &mut Random) -> [(f64, f64); 3] {
    let cs = channels(kind, bins, random);
    let plans: Vec<_> = cs.iter().map(|c| ahtenc::plan_aht_channel(&c.row, 0, bins, &c.v)).collect();
    let ours_plans: Vec<ours::Plan> = cs
        .iter()
        .map(|c| {
            let mut p = ours::Plan::filled();
            assert_eq!(ours::plan_aht_channel(&c.row, 0, bins, &c.x, &mut p), 0);
            p
        })
        .collect();
    let fields: Vec<Vec<u8>> = cs
        .iter()
        .zip(&plans)
        .map(|(c, p)| {
            let mut w = BitWriter::new();
            ahtenc::write_aht_channel(&mut w, p, &c.row, 0, bins, &c.v);
            w.finish()
        })
        .collect();
    // what is timed below answers alike on both sides
    for (((c, theirs), ours_plan), field) in cs.iter().zip(&plans).zip(&ours_plans).zip(&fields) {
        assert_eq!((theirs.gaqmod, theirs.payload_bits, theirs.gains.len()), (ours_plan.mode, ours_plan.payload, ours_plan.count));
        let mut out = vec![0u8; field.len()];
        assert_eq!(ours::write_aht_channel(ours_plan, &c.row, 0, bins, &c.x, &mut out, &mut ours::Pos::of(0)), 0);
        assert_eq!(&out, field);
        let mut values = vec![[0f32; 6]; bins];
        read_theirs(field, &c.row, &mut values);
        let mut got = ours::Outputs { values: vec![7.5; 6 * bins], exact: vec![0; 6 * bins], indices: vec![0; bins] };
        assert_eq!(ours::read_aht_channel(field, &mut ours::Pos::of(0), &c.row, 0, bins, &mut got, &mut ours::Channel::filled()), 0);
        assert_eq!(got.values, values.concat());
    }
    let (turns, rounds) = (41, 256 / bins);
    let plan = medians(
        turns,
        || (0..rounds).for_each(|_| cs.iter().for_each(|c| { black_box(ahtenc::plan_aht_channel(&c.row, 0, bins, &c.v)); })),
        || {
            let mut p = ours::Plan::filled();
            (0..rounds).for_each(|_| cs.iter().for_each(|c| { black_box(ours::plan_aht_channel(&c.row, 0, bins, &c.x, &mut p)); }))
        },
    );
    let write = medians(
        turns,
        || (0..rounds).for_each(|_| cs.iter().zip(&plans).for_each(|(c, p)| {
            let mut w = BitWriter::new();
            ahtenc::write_aht_channel(&mut w, p, &c.row, 0, bins, &c.v);
            black_box(w.finish());
        })),
        || (0..rounds).for_each(|_| cs.iter().zip(&ours_plans).for_each(|(c, p)| {
            let mut out = vec![0u8; 16 * bins];
            black_box(ours::write_aht_channel(p, &c.row, 0, bins, &c.x, &mut out, &mut ours::Pos::of(0)));
            black_box(out);
        })),
    );
    let mut values = vec![[0f32; 6]; bins];
    let mut outputs = ours::Outputs { values: vec![0.0; 6 * bins], exact: vec![0; 6 * bins], indices: vec![0; bins] };
    let mut answer = ours::Channel::filled();
    let read = medians(
        turns,
        || (0..rounds).for_each(|_| cs.iter().zip(&fields).for_each(|(c, f)| {
            read_theirs(f, &c.row, &mut values);
            black_box(&values);
        })),
        || (0..rounds).for_each(|_| cs.iter().zip(&fields).for_each(|(c, f)| {
            black_box(ours::read_aht_channel(f, &mut ours::Pos::of(0), &c.row, 0, bins, &mut outputs, &mut answer));
        })),
    );
    [plan, write, read].map(|(t, o)| (t / (8 * rounds) as f64, o / (8 * rounds) as f64))
}

/// Seconds a search in the book of a hebap, theirs and ours.
fn measure_search(hebap: u8, random: &mut Random) -> (f64, f64) {
    let xs: Vec<[f32; 6]> = (0..200).map(|_| core::array::from_fn(|_| (signals::unit(random) - 0.5) * 0.5)).collect();
    for x in &xs {
        let mut i = usize::MAX;
        assert_eq!((ours::vq_search(hebap, x, &mut i), i), (0, ahtenc::vq_search(hebap, x)));
    }
    let (t, o) = medians(
        41,
        || xs.iter().for_each(|x| { black_box(ahtenc::vq_search(hebap, x)); }),
        || {
            let mut i = 0;
            xs.iter().for_each(|x| { black_box(ours::vq_search(hebap, x, &mut i)); })
        },
    );
    (t / 200.0, o / 200.0)
}

/// Seconds that the Rust's planner takes a call to look a variable up in its environment, which a short row would feel
/// and the library does not do.
fn look() -> f64 {
    let turn = || (0..1000).for_each(|_| { black_box(std::env::var(black_box("EAC3_AHT_MAX_GAQMOD")).ok()); });
    medians(41, turn, || ()).0 / 1000.0
}

/// For tools/growth.py: `call size theirs ours`, microseconds a call; the size is bins of a mixed row, or vectors of
/// a book. Planning is without the Rust's look at its environment.
fn growth(random: &mut Random) {
    let look = look();
    eprintln!("bench: the Rust's look at its environment, {:.3} microseconds a call, is taken off its planning", look * 1e6);
    for bins in [1, 2, 4, 8, 16, 32, 64, 128, 256] {
        for (call, (t, o)) in ["plan", "write", "read"].iter().zip(measure(2, bins, random)) {
            let t = if *call == "plan" { t - look } else { t };
            println!("{call} {bins} {:.4} {:.4}", t * 1e6, o * 1e6);
        }
    }
    for hebap in 1..=7u8 {
        let (t, o) = measure_search(hebap, random);
        println!("search {} {:.4} {:.4}", signals::book_size(hebap), t * 1e6, o * 1e6);
    }
}

fn main() {
    let mut random = Random::new(7);
    if std::env::args().nth(1).is_some_and(|word| word == "growth") {
        growth(&mut random);
        return;
    }
    let mut totals: Vec<(&str, Sums)> = ["plan", "write", "read"].iter().map(|&n| (n, Sums { theirs: 0.0, ours: 0.0 })).collect();
    println!("{:<8} {:<8} {:>12} {:>12} {:>7}", "call", "rows", "Rust us", "ours us", "ratio");
    for (kind, name) in ["books", "scalars", "mixed"].iter().enumerate() {
        for ((n, sums), (t, o)) in totals.iter_mut().zip(measure(kind, 256, &mut random)) {
            println!("{n:<8} {name:<8} {:>12.1} {:>12.1} {:>7.2}", t * 1e6, o * 1e6, t / o);
            sums.theirs += t;
            sums.ours += o;
        }
    }
    let mut search = Sums { theirs: 0.0, ours: 0.0 };
    for hebap in 5..=7u8 {
        let (t, o) = measure_search(hebap, &mut random);
        println!("{:<8} {hebap:<8} {:>12.2} {:>12.2} {:>7.2}", "search", t * 1e6, o * 1e6, t / o);
        search.theirs += t;
        search.ours += o;
    }
    for (n, s) in &totals {
        println!("ratio {n} {:.2}", s.theirs / s.ours);
    }
    println!("ratio search {:.2}", search.theirs / search.ours);
}
