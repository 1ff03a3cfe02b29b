//! Writer and channel reader: whole fields written, read back, damaged, cut and made up.
use crate::eac3::{aht, ahtenc};
use crate::ours;
use crate::random::Random;
use crate::shown::{self, Shown};
use crate::signals::{bin_of, border, cause, channel, fitting, louder, some_plan, unit, vectors, with_field, LARGEST};
use crate::Tally;
use oxideav_core::bits::BitWriter;

pub fn run(seed: u64, all: &mut Tally) {
    written(&mut Random::new(seed + 20), all);
    refused(&mut Random::new(seed + 21), all);
    damaged(&mut Random::new(seed + 22), all);
    cut(&mut Random::new(seed + 23), all);
    outputs(&mut Random::new(seed + 24), all);
    largest(&mut Random::new(seed + 25), all);
}

/// A channel of few bins mostly, of up to 256 at times.
pub fn some_channel(random: &mut Random) -> (Vec<u8>, Vec<f32>, usize, usize) {
    let bins = match random.below(16) {
        0 => random.below(257),
        1 => 256 - random.below(3),
        _ => random.below(14),
    };
    let (row, x) = channel(random, bins, LARGEST);
    let start = if random.below(3) == 0 { random.below(bins + 1) } else { 0 };
    let end = start + if random.below(3) == 0 { random.below(bins - start + 1) } else { bins - start };
    (row, x, start, end)
}

/// The same plan as the library has it; the places that no gain uses hold anything.
pub fn plan_of(random: &mut Random, p: &ahtenc::AhtChannelPlan) -> ours::Plan {
    let mut gains = [0u8; 256];
    for (i, g) in gains.iter_mut().enumerate() {
        *g = p.gains.get(i).map_or_else(|| random.below(256) as u8, |&code| [1, 2, 4][code as usize]);
    }
    ours::Plan { mode: p.gaqmod, gains, count: p.gains.len(), payload: p.payload_bits }
}

/// Lent outputs with a pattern in them, for bins up to `end` and some more.
fn patterned(random: &mut Random, end: usize) -> ours::Outputs {
    let (a, b, c) = (random.below(3), random.below(3), random.below(3));
    ours::Outputs {
        // signalling NaNs, whose bits a copy must keep too
        values: (0..6 * end + a).map(|i| f32::from_bits(0x7fa0_0001 + i as u32)).collect(),
        exact: (0..6 * end + b).map(|i| 0x5a5a_0000 + i as i32).collect(),
        indices: (0..end + c).map(|i| 0xa500 + i as u16).collect(),
    }
}

/// Reads a field with the library and with the Rust's functions; every output is compared whole. Answers what was
/// shown.
fn read_both(t: &mut Tally, random: &mut Random, src: &[u8], at: usize, row: &[u8], start: usize, end: usize) -> Result<Shown, u8> {
    let mut got = patterned(random, end);
    let mut want = got.clone();
    let mut answer = ours::Channel::filled();
    let over = if random.below(7) == 0 { random.below(at / 8 + 1) } else { 0 };
    let p = ours::Pos { byte: at / 8 - over, bit: (at % 8 + 8 * over) as u32 };
    let mut next = p;
    let refusal = ours::read_aht_channel(src, &mut next, row, start, end, &mut got, &mut answer);
    let theirs = shown::read(src, at, &row[start..end]);
    let (number, mut expected) = (theirs.as_ref().err().copied().unwrap_or(0), ours::Channel::filled());
    if let Ok(s) = &theirs {
        expected = ours::Channel { mode: s.mode, gains: [0; 256], count: s.gains.len(), bits: s.bits as u32 };
        expected.gains[..s.gains.len()].copy_from_slice(&s.gains);
        want.values[6 * start..6 * end].copy_from_slice(&s.values);
        want.exact[6 * start..6 * end].copy_from_slice(&s.exact);
        want.indices[start..end].copy_from_slice(&s.indices);
    }
    let same = refusal == number
        && next == theirs.as_ref().map_or(p, |s| ours::Pos::of(at + s.bits))
        && answer == expected
        && got.exact == want.exact
        && got.indices == want.indices
        && got.values.iter().map(|v| v.to_bits()).eq(want.values.iter().map(|v| v.to_bits()));
    t.case(number, same, || format!("{src:?} at {at}, {row:?} {start} {end}: {refusal} {next:?} {answer:?} {got:?}, not {number} {expected:?} {want:?}"));
    theirs
}

/// Channels planned, and fields written with the Rust's plan and with others: every byte of the output, then what is
/// read there.
fn written(random: &mut Random, all: &mut Tally) {
    let (mut p, mut w) = (Tally::of("plan_aht_channel, written"), Tally::of("write_aht_channel, written"));
    let (mut r, mut b) = (Tally::of("read_aht_channel, written"), Tally::of("read_aht_channel, read back"));
    for _ in 0..crate::times(120_000, 1_000_000) {
        let (row, x, start, end) = some_channel(random);
        let best = ahtenc::plan_aht_channel(&row, start, end, &vectors(&x));
        let (mut planned, mut want) = (ours::Plan::filled(), plan_of(random, &best));
        want.gains[best.gains.len()..].fill(0);
        let refusal = ours::plan_aht_channel(&row, start, end, &x, &mut planned);
        p.case(0, refusal == 0 && planned == want, || format!("{row:?} {start} {end} {x:?}: {refusal} {planned:?}, not {want:?}"));
        let rust = some_plan(random, &row, start, end, &x);
        let (at, total) = (random.below(40), 2 + rust.payload_bits as usize);
        let len = (at + total).div_ceil(8) + random.below(3);
        let before = random.bytes(len);
        let (want, n) = with_field(&before, at, &rust, &row, start, end, &x);
        let mut out = before.clone();
        let mut next = ours::Pos::of(at);
        let refusal = ours::write_aht_channel(&plan_of(random, &rust), &row, start, end, &x, &mut out, &mut next);
        w.loud((start..end).any(|k| row[k] != 0 && x[6 * k..6 * k + 6].iter().any(|&v| louder(v))));
        w.case(0, refusal == 0 && n == total && out == want && next == ours::Pos::of(at + total), || {
            format!("{row:?} {start} {end} {x:?} {rust:?} at {at}: {refusal} {out:?} {next:?}, not {want:?}")
        });
        let shown = read_both(&mut r, random, &out, at, &row, start, end);
        // the plan, the search's indices and the quantiser's values come back
        let back = shown.is_ok_and(|s| {
            let gains: Vec<u8> = rust.gains.iter().map(|&c| [1, 2, 4][c as usize]).collect();
            let mut next = gains.iter();
            s.mode == rust.gaqmod
                && s.gains == gains
                && s.bits == total
                && (start..end).all(|k| {
                    let v: [f32; 6] = x[6 * k..6 * k + 6].try_into().unwrap();
                    let (index, values) = match row[k] {
                        0 => (0, [0.0; 6]),
                        h @ 1..=7 => (ahtenc::vq_search(h, &v) as u16, aht::vq_lookup(h, ahtenc::vq_search(h, &v))),
                        h => {
                            let active = s.mode > 0 && h < aht::endbap_for_gaqmod(s.mode);
                            (0, bin_of(h, if active { *next.next().unwrap() } else { 1 }, &v).2)
                        }
                    };
                    s.indices[k - start] == index && s.values[6 * (k - start)..6 * (k - start) + 6].iter().map(|y| y.to_bits()).eq(values.iter().map(|y| y.to_bits()))
                })
        });
        b.case(0, back, || format!("{row:?} {start} {end} {x:?} {rust:?} at {at}"));
    }
    p.close(all);
    w.close(all);
    r.close(all);
    b.close(all);
}

/// The writer's refusals, the lowest number first; every byte stays.
fn refused(random: &mut Random, all: &mut Tally) {
    let mut t = Tally::of("write_aht_channel, faults");
    for _ in 0..crate::times(60_000, 60_000) {
        let (mut row, mut x, mut start, mut end) = some_channel(random);
        let rust = some_plan(random, &row, start, end, &x);
        let total = 2 + rust.payload_bits as usize;
        let at = random.below(20);
        let mut plan = plan_of(random, &rust);
        let mut len = (at + total).div_ceil(8);
        let mut p = ours::Pos::of(at);
        for _ in 0..1 + random.below(2) {
            match random.below(13) {
                0 => plan.mode = random.pick(&[4, 5, 255]),
                1 => plan.count = random.pick(&[0, 1, 256, 257, usize::MAX, plan.count.wrapping_add(1), plan.count.wrapping_sub(1)]),
                2 if plan.count > 0 && plan.count < 257 => plan.gains[random.below(plan.count)] = random.below(6) as u8,
                3 => plan.payload = random.pick(&[0, u32::MAX, plan.payload.wrapping_add(1), plan.payload.wrapping_sub(1), 4711]),
                4 => len = random.below(len + 1),
                5 => p = random.pick(&[ours::Pos { byte: len, bit: 0 }, ours::Pos { byte: len + 1, bit: 0 }, ours::Pos { byte: usize::MAX, bit: u32::MAX }, ours::Pos { byte: 0, bit: u32::MAX }]),
                6 if !row.is_empty() => {
                    let k = random.below(row.len());
                    row[k] = 20 + random.below(236) as u8;
                }
                7 if !x.is_empty() => {
                    let k = random.below(x.len());
                    x[k] = border(random);
                }
                8 => x.truncate(random.below(x.len() + 1)),
                9 => row.truncate(random.below(row.len() + 1)),
                10 => start = random.pick(&[end, end + 1, 255, 257, usize::MAX]),
                11 => end = random.pick(&[start, row.len(), row.len() + 1, 257, usize::MAX]),
                _ => plan.mode = random.below(4) as u8,
            }
        }
        let before = random.bytes(len);
        // cause 6 is looked up by the words of docs/FORMAT.md: mode, count, gains, payload
        let mut number = cause(&row, start, end, &x);
        let mut field = None;
        if number == 0 {
            match fitting(plan.mode, &plan.gains, plan.count, plan.payload, &row, start, end, &x) {
                None => number = 6,
                Some(theirs) => {
                    let room = (8 * len as u128).checked_sub(8 * p.byte as u128 + p.bit as u128);
                    if room.is_none_or(|n| n < 2 + u128::from(plan.payload)) {
                        number = 7;
                    } else {
                        field = Some(with_field(&before, 8 * p.byte + p.bit as usize, &theirs, &row, start, end, &x).0);
                    }
                }
            }
        }
        let mut out = before.clone();
        let mut q = p;
        let refusal = ours::write_aht_channel(&plan, &row, start, end, &x, &mut out, &mut q);
        let moved = if number == 0 { ours::Pos::of(8 * p.byte + p.bit as usize + 2 + plan.payload as usize) } else { p };
        t.case(number, refusal == number && out == field.unwrap_or(before) && q == moved, || format!("{plan:?} {row:?} {start} {end} {x:?} {p:?} {len}: {refusal} {q:?}, not {number} {moved:?}"));
    }
    t.close(all);
}

/// Fields with bits changed, and bytes that were never a field.
fn damaged(random: &mut Random, all: &mut Tally) {
    let mut t = Tally::of("read_aht_channel, damaged");
    let mut made_up = Tally::of("read_aht_channel, random");
    let mut seen = [0u64; 11];
    for _ in 0..crate::times(100_000, 300_000) {
        let (row, x, start, end) = some_channel(random);
        let rust = some_plan(random, &row, start, end, &x);
        let at = random.below(17);
        let len = (at + 2 + rust.payload_bits as usize).div_ceil(8);
        let (field, _) = with_field(&random.bytes(len), at, &rust, &row, start, end, &x);
        for i in 0..6 {
            let mut src = field.clone();
            for _ in 0..1 + i / 2 {
                // early bits decide most: the mode and the gain words
                let k = if random.below(2) == 0 { (at + random.below(24)).min(8 * len - 1) } else { random.below(8 * len) };
                src[k / 8] ^= 1 << (7 - k % 8);
            }
            if i == 5 {
                src.truncate(random.below(len + 1));
            }
            let shown = read_both(&mut t, random, &src, at, &row, start, end);
            seen[shown.err().unwrap_or(0) as usize] += 1;
        }
        for _ in 0..6 {
            let n = random.below(len + 12);
            let src = random.bytes(n);
            let at = random.below(8 * n + 10);
            let shown = read_both(&mut made_up, random, &src, at, &row, start, end);
            seen[shown.err().unwrap_or(0) as usize] += 1;
        }
    }
    t.close(all);
    made_up.close(all);
    println!("compare: of these {} were accepted, {} refused with 8, {} with 9, {} with 10", seen[0], seen[8], seen[9], seen[10]);
    assert!([0, 8, 9, 10].iter().all(|&k| seen[k] > crate::times(10_000, 10_000) as u64), "each answer is met");
}

/// Fields that end after each of their bits.
fn cut(random: &mut Random, all: &mut Tally) {
    let mut t = Tally::of("read_aht_channel, cut");
    for _ in 0..crate::times(1_500, 1_500) {
        let (row, x) = {
            let bins = random.below(9);
            channel(random, bins, LARGEST)
        };
        let (start, end) = (0, row.len());
        let rust = some_plan(random, &row, start, end, &x);
        for c in 0..=2 + rust.payload_bits as usize {
            // the input's end falls behind the bit c of the field
            let at = (8 - c % 8) % 8;
            let len = (at + 2 + rust.payload_bits as usize).div_ceil(8);
            let (mut src, _) = with_field(&random.bytes(len), at, &rust, &row, start, end, &x);
            src.truncate((at + c) / 8);
            let shown = read_both(&mut t, random, &src, at, &row, start, end);
            assert_eq!(shown.is_ok(), c == 2 + rust.payload_bits as usize);
        }
    }
    t.close(all);
}

/// The reader's causes 1 to 4, before any bit is looked at.
fn outputs(random: &mut Random, all: &mut Tally) {
    let mut t = Tally::of("read_aht_channel, faults");
    for _ in 0..crate::times(40_000, 40_000) {
        let (mut row, _, mut start, mut end) = some_channel(random);
        let mut got = patterned(random, row.len());
        for _ in 0..1 + random.below(2) {
            match random.below(7) {
                0 => row.truncate(random.below(row.len() + 1)),
                1 => got.values.truncate(random.below(got.values.len() + 1)),
                2 => got.exact.truncate(random.below(got.exact.len() + 1)),
                3 => got.indices.truncate(random.below(got.indices.len() + 1)),
                4 => start = random.pick(&[end, end + 1, 255, 257, usize::MAX]),
                5 => end = random.pick(&[start, row.len(), row.len() + 1, 256, 257, usize::MAX]),
                _ if !row.is_empty() => {
                    let k = random.below(row.len());
                    row[k] = 20 + random.below(236) as u8;
                }
                _ => {}
            }
        }
        let n = random.below(9);
        let src = random.bytes(n);
        let at = random.below(8 * n + 3);
        let number = if start > end {
            1
        } else if end > 256 {
            2
        } else if row.len() < end || got.values.len() < 6 * end || got.exact.len() < 6 * end || got.indices.len() < end {
            3
        } else if row[start..end].iter().any(|&h| h > 19) {
            4
        } else {
            read_both(&mut t, random, &src, at, &row, start, end).err().unwrap_or(0)
        };
        if (1..=4).contains(&number) {
            let before = got.clone();
            let mut answer = ours::Channel::filled();
            let mut next = ours::Pos::of(at);
            let refusal = ours::read_aht_channel(&src, &mut next, &row, start, end, &mut got, &mut answer);
            t.case(number, refusal == number && next == ours::Pos::of(at) && answer == ours::Channel::filled() && got.bits() == before.bits(), || format!("{row:?} {start} {end}: {refusal}, not {number}"));
        }
    }
    // 256 active bins in mode 3: the last of 86 group words has one gain; its missing codes stand beyond 256 places
    for (word, number) in [(0u32, 0), (9, 0), (18, 0), (10, 10), (12, 10), (3, 10), (27, 9), (31, 9)] {
        let mut w = BitWriter::new();
        w.write_u32(3, 2);
        for _ in 0..85 {
            w.write_u32(0, 5);
        }
        w.write_u32(word, 5);
        for _ in 0..256 {
            // six codes of hebap 8; at Gk 2 and 4 the last bin's are small ones
            w.write_u32(0, 18);
        }
        let shown = read_both(&mut t, random, &w.finish(), 0, &[8; 256], 0, 256);
        assert_eq!(shown.err().unwrap_or(0), number);
    }
    // a position that no input reaches
    for p in [ours::Pos { byte: usize::MAX, bit: u32::MAX }, ours::Pos { byte: 0, bit: u32::MAX }, ours::Pos { byte: 2, bit: 0 }, ours::Pos { byte: 0, bit: 9 }] {
        let mut got = patterned(random, 3);
        let (before, mut answer, mut next) = (got.clone(), ours::Channel::filled(), p);
        let refusal = ours::read_aht_channel(&[0], &mut next, &[0, 8, 1], 1, 1, &mut got, &mut answer);
        let kept = next == p && answer == ours::Channel::filled() && got.bits() == before.bits();
        t.case(8, refusal == 8 && kept, || format!("{p:?}: {refusal}, not 8"));
    }
    t.close(all);
}

/// The largest field there is, 31,152 bits: 256 bins of hebap 16 in mode 3, every gain 2 or 4 and every code large.
fn largest(random: &mut Random, all: &mut Tally) {
    let (mut w, mut r) = (Tally::of("write_aht_channel, largest"), Tally::of("read_aht_channel, largest"));
    for at in 0..16 {
        let row = [16u8; 256];
        let x: Vec<f32> = (0..6 * 256).map(|_| (0.6 + 0.4 * unit(random)) * random.pick(&[1.0, -1.0])).collect();
        let gains: Vec<u8> = (0..256).map(|_| 1 + random.below(2) as u8).collect();
        let rust = ahtenc::AhtChannelPlan { gaqmod: 3, gains, payload_bits: 31150 };
        let before = random.bytes((at + 31152usize).div_ceil(8));
        let (want, n) = with_field(&before, at, &rust, &row, 0, 256, &x);
        let (mut out, mut next) = (before.clone(), ours::Pos::of(at));
        let refusal = ours::write_aht_channel(&plan_of(random, &rust), &row, 0, 256, &x, &mut out, &mut next);
        w.case(0, refusal == 0 && n == 31152 && out == want && next == ours::Pos::of(at + 31152), || format!("at {at}: {refusal} {n} {next:?}"));
        let shown = read_both(&mut r, random, &out, at, &row, 0, 256);
        assert_eq!(shown.map(|s| s.bits), Ok(31152));
        // and a byte less
        let (mut short, mut place) = (before[1..].to_vec(), ours::Pos::of(at));
        let refusal = ours::write_aht_channel(&plan_of(random, &rust), &row, 0, 256, &x, &mut short, &mut place);
        w.case(7, refusal == 7 && short == before[1..] && place == ours::Pos::of(at), || format!("at {at}, a byte less: {refusal}"));
        let shown = read_both(&mut r, random, &out[..out.len() - 1], at, &row, 0, 256);
        assert_eq!(shown.err(), Some(8));
    }
    w.close(all);
    r.close(all);
}
