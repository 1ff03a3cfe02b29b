//! Components, channels and what the Rust makes of them: for the comparison and for the recorded answers.
use crate::eac3::{aht, ahtenc};
use crate::random::Random;
use oxideav_core::bits::BitWriter;

pub fn book_size(hebap: u8) -> usize {
    if (1..=7).contains(&hebap) { 1 << aht::VQ_BITS[hebap as usize] } else { 0 }
}

/// The largest size of a component (docs/FORMAT.md, cause 5), and what it was before loud material was answered.
pub const LARGEST: f32 = 16384.0;
pub const EARLIER: f32 = 1024.0;

/// Cause 5 of docs/FORMAT.md.
pub fn outside(x: f32) -> bool {
    !(x.abs() <= LARGEST)
}

/// Accepted, and refused before.
pub fn louder(x: f32) -> bool {
    !outside(x) && x.abs() > EARLIER
}

/// A limit and its neighbours, in either sign.
pub fn edges(limit: f32) -> [f32; 6] {
    [limit, -limit, nudged(limit, 1), -nudged(limit, 1), nudged(limit, -1), -nudged(limit, -1)]
}

/// NaNs of each kind and sign, and the infinities.
pub const NANS_AND_INFINITIES: [u32; 8] = [0x7fc0_0000, 0xffc0_0000, 0x7fff_ffff, 0x7f80_0001, 0xff80_0001, 0x7fa0_0000, 0x7f80_0000, 0xff80_0000];

/// All of these.
pub fn borders() -> impl Iterator<Item = f32> {
    edges(EARLIER).into_iter().chain(edges(LARGEST)).chain(NANS_AND_INFINITIES.map(f32::from_bits))
}

pub fn border(random: &mut Random) -> f32 {
    borders().nth(random.below(20)).unwrap()
}

/// The f32 that lies n steps from x.
pub fn nudged(x: f32, n: i32) -> f32 {
    let mut key = x.to_bits() as i32;
    if key < 0 {
        key = i32::MIN - key;
    }
    key += n;
    if key < 0 {
        key = i32::MIN - key;
    }
    f32::from_bits(key as u32)
}

/// What stands in a lent output of six f32 before a call: signalling NaNs, whose bits must be kept too.
pub fn kept() -> [f32; 6] {
    core::array::from_fn(|i| f32::from_bits(0x7fa0_0001 + i as u32))
}

pub fn unit(random: &mut Random) -> f32 {
    (random.next() >> 40) as f32 / (1u64 << 24) as f32
}

/// A component from 1.25 to 16384 in size, as many in each octave, or from 1024 on, or at its end.
pub fn loud(random: &mut Random) -> f32 {
    let (low, high) = (1.25f32.to_bits(), LARGEST.to_bits());
    let x = match random.below(4) {
        0 => nudged(LARGEST, -(random.below(3) as i32)),
        1 => EARLIER + (LARGEST - EARLIER) * unit(random),
        _ => f32::from_bits(low + random.below((high - low + 1) as usize) as u32),
    };
    if random.below(2) == 0 { x } else { -x }
}

/// A vector with a component of 16384, where an ulp is 1/512: the two vectors of a book that reach furthest its way are
/// equally far but for rounding, and half the time in f32 too.
pub fn loud_tie(random: &mut Random, hebap: u8) -> [f32; 6] {
    let book: Vec<[f32; 6]> = (0..book_size(hebap)).map(|i| aht::vq_lookup(hebap, i)).collect();
    let way: [f32; 6] = core::array::from_fn(|_| unit(random) - 0.5);
    let dot = |a: &[f32; 6], b: &[f32; 6]| (0..6).map(|j| a[j] * b[j]).sum::<f32>();
    let mut by: Vec<&[f32; 6]> = book.iter().collect();
    by.sort_by(|a, b| dot(&way, b).total_cmp(&dot(&way, a)));
    let apart: [f32; 6] = core::array::from_fn(|j| by[0][j] - by[1][j]);
    let across: [f32; 6] = core::array::from_fn(|j| way[j] - dot(&way, &apart) / dot(&apart, &apart) * apart[j]);
    let most = across.iter().fold(0f32, |m, v| m.max(v.abs()));
    across.map(|v| v / most * LARGEST)
}

/// A component up to a limit: mostly in and around -1 to 1, quiet ones, wide ones, ends of the domain, denormals and both
/// zeros; above 1024 loud ones too.
pub fn component(random: &mut Random, limit: f32) -> f32 {
    let sign = if random.below(2) == 0 { 1.0 } else { -1.0 };
    sign * match random.below(16) {
        0 => 0.0,
        1 => f32::from_bits(random.below(1 << 23) as u32),
        2 => limit * unit(random),
        3 => nudged(limit, -(random.below(3) as i32)),
        4..=6 => unit(random) / 64.0,
        7 => (random.below(1 << 16) as f32) / 32768.0,
        8 => f32::from_bits((random.next() as u32 % limit.to_bits()).max(1)),
        9 if limit > EARLIER => loud(random),
        10 if limit > EARLIER => random.pick(&edges(EARLIER)),
        _ => 1.2 * unit(random),
    }
}

/// What the Rust's code is here: large or small, its bits, and how many bits it takes.
pub fn code_of(hebap: u8, gk: u8, x: f32) -> (u8, u32, u32, f32) {
    let (code, y) = ahtenc::quantise_scalar(hebap, gk, x);
    let bits = code.first.0 + code.second.map_or(0, |(n, _)| n);
    match code.second {
        Some((_, v)) => {
            assert_eq!(code.first.1, 1 << (code.first.0 - 1), "an escape begins with the tag");
            (1, v, bits, y)
        }
        None => (u8::from(gk == 1), code.first.1, bits, y),
    }
}

pub fn allowed(hebap: u8, gk: u8) -> bool {
    (8..=19).contains(&hebap) && (gk == 1 || (hebap <= 16 && (gk == 2 || gk == 4)))
}

/// A component near a place where the code changes: half way between two levels, or where a code stops being small.
pub fn aimed(random: &mut Random, hebap: u8, gk: u8) -> f32 {
    let m = u32::from(aht::HEBAP_MANT_BITS[hebap as usize]);
    let full = (1u32 << (m - 1)) as f32;
    let n = random.below(1 << m) as f32 - full;
    let x = match random.below(4) {
        0 => (n + 0.5) / full,
        1 => {
            let b = if gk == 2 { m - 1 } else { m - 2 };
            let edge = ((1u32 << b) - 1) as f32 / (2.0 * full);
            if random.below(2) == 0 { edge } else { -edge }
        }
        2 => {
            // the large codes of Gk 2 have one bit less
            let scale = if gk == 2 { full / 2.0 } else { full };
            let n = random.below(2 * scale as usize) as f32 - scale;
            let (a, b) = (aht::gaq_remap(hebap, gk, n / scale), aht::gaq_remap(hebap, gk, (n + 1.0) / scale));
            (a + b) / 2.0
        }
        _ => n / full,
    };
    nudged(x, random.below(7) as i32 - 3)
}

/// A row and its vectors up to a limit: one kind of bin, or all kinds, quiet or mixed, aimed at the places where codes
/// change, or, above 1024, loud.
pub fn channel(random: &mut Random, bins: usize, limit: f32) -> (Vec<u8>, Vec<f32>) {
    let kind = random.below(6);
    let row: Vec<u8> = (0..bins)
        .map(|_| match kind {
            0 => 1 + random.below(7) as u8,
            1 => 8 + random.below(4) as u8,
            2 => 8 + random.below(9) as u8,
            3 => 17 + random.below(3) as u8,
            _ => random.below(20) as u8,
        })
        .collect();
    let quiet = random.below(if limit > EARLIER { 4 } else { 3 });
    let x = row
        .iter()
        .flat_map(|&h| {
            let v: [f32; 6] = core::array::from_fn(|_| match quiet {
                0 => component(random, limit),
                1 if (8..=16).contains(&h) => {
                    let gk = random.pick(&[2, 4]);
                    aimed(random, h, gk)
                }
                3 => loud(random),
                _ => (unit(random) - 0.5) / [1.0, 2.0, 4.0, 16.0][random.below(4)],
            });
            v
        })
        .collect();
    (row, x)
}

/// Cause 1 to 5, the lowest that holds.
pub fn cause(row: &[u8], start: usize, end: usize, x: &[f32]) -> u8 {
    if start > end {
        1
    } else if end > 256 {
        2
    } else if row.len() < end || x.len() < 6 * end {
        3
    } else if row[start..end].iter().any(|&h| h > 19) {
        4
    } else if (start..end).any(|b| row[b] != 0 && x[6 * b..6 * b + 6].iter().any(|&v| outside(v))) {
        5
    } else {
        0
    }
}

pub fn vectors(x: &[f32]) -> Vec<[f32; 6]> {
    x.chunks_exact(6).map(|c| c.try_into().unwrap()).collect()
}

/// quantise_bin of the Rust is private: its three lines over quantise_scalar, which is not.
pub fn bin_of(hebap: u8, gk: u8, x: &[f32; 6]) -> (u32, f32, [f32; 6]) {
    let (mut bits, mut err, mut values) = (0, 0.0f32, [0f32; 6]);
    for (j, &xj) in x.iter().enumerate() {
        let (_, _, b, y) = code_of(hebap, gk, xj);
        bits += b;
        err += (y - xj) * (y - xj);
        values[j] = y;
    }
    (bits, err, values)
}

/// The gains that a mode allows; above 3 there are none.
pub fn gains_of(mode: u8) -> &'static [u8] {
    [&[1u8][..], &[1, 2], &[1, 4], &[1, 2, 4], &[]][mode.min(4) as usize]
}

/// The Rust's plan, or a mode and gains drawn at will.
pub fn some_plan(random: &mut Random, row: &[u8], start: usize, end: usize, x: &[f32]) -> ahtenc::AhtChannelPlan {
    if random.below(2) == 0 {
        return ahtenc::plan_aht_channel(row, start, end, &vectors(x));
    }
    let mode = random.below(4) as u8;
    plan_with(mode, || random.pick(gains_of(mode)), row, start, end, x)
}

/// A mode with the gains that are given for its active bins, in order, and the bits that the Rust's codes have.
pub fn plan_with(mode: u8, mut gain: impl FnMut() -> u8, row: &[u8], start: usize, end: usize, x: &[f32]) -> ahtenc::AhtChannelPlan {
    let (mut gains, mut bits) = (Vec::new(), 0);
    for k in start..end {
        let v: [f32; 6] = x[6 * k..6 * k + 6].try_into().unwrap();
        bits += match row[k] {
            0 => 0,
            h @ 1..=7 => u32::from(aht::VQ_BITS[h as usize]),
            h if mode > 0 && h < aht::endbap_for_gaqmod(mode) => {
                let gk = gain();
                gains.push(gk / 2);
                bin_of(h, gk, &v).0
            }
            h => bin_of(h, 1, &v).0,
        };
    }
    let words = aht::gaq_sections(mode, gains.len()) as u32 * if mode == 3 { 5 } else { 1 };
    ahtenc::AhtChannelPlan { gaqmod: mode, gains, payload_bits: bits + words }
}

/// The bits of the Rust's field, put into the bytes from a position on.
pub fn with_field(bytes: &[u8], at: usize, p: &ahtenc::AhtChannelPlan, row: &[u8], start: usize, end: usize, x: &[f32]) -> (Vec<u8>, usize) {
    let mut w = BitWriter::new();
    ahtenc::write_aht_channel(&mut w, p, row, start, end, &vectors(x));
    let n = w.bits();
    let field = w.finish();
    let mut out = bytes.to_vec();
    for i in 0..n {
        let bit = field[i / 8] >> (7 - i % 8) & 1;
        let byte = &mut out[(at + i) / 8];
        let mask = 1 << (7 - (at + i) % 8);
        *byte = if bit == 1 { *byte | mask } else { *byte & !mask };
    }
    (out, n)
}

/// Whether a plan fits no row at all, by its mode, its count or a gain alone.
pub fn unfit(mode: u8, gains: &[u8], count: usize) -> bool {
    mode > 3 || count > 256 || gains.iter().take(count).any(|g| !gains_of(mode).contains(g))
}

/// The Rust's plan of these parts where they fit by the words of docs/FORMAT.md: mode, count, gains as Gk, payload.
#[allow(clippy::too_many_arguments)]
pub fn fitting(mode: u8, gains: &[u8], count: usize, payload: u32, row: &[u8], start: usize, end: usize, x: &[f32]) -> Option<ahtenc::AhtChannelPlan> {
    if mode > 3 {
        return None;
    }
    let active = |h: u8| mode > 0 && (8..aht::endbap_for_gaqmod(mode)).contains(&h);
    if count != (start..end).filter(|&k| active(row[k])).count() {
        return None;
    }
    if unfit(mode, gains, count) {
        return None;
    }
    let gains: Vec<u8> = gains[..count].iter().map(|g| g / 2).collect();
    let theirs = ahtenc::AhtChannelPlan { gaqmod: mode, gains, payload_bits: payload };
    let mut w = BitWriter::new();
    ahtenc::write_aht_channel(&mut w, &theirs, row, start, end, &vectors(x));
    (w.bits() == 2 + payload as usize).then_some(theirs)
}
