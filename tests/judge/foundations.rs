//! Tables, bits, levels and the small ports.
use crate::eac3::aht;
use crate::ours::{self, Pos};
use crate::random::Random;
use crate::signals::kept;
use crate::Tally;
use oxideav_core::bits::{BitReader, BitWriter};

pub fn run(seed: u64, all: &mut Tally) {
    read_u32(&mut Random::new(seed), all);
    write_u32(&mut Random::new(seed + 1), all);
    hebap_from_address(&mut Random::new(seed + 2), all);
    endbap_for_gaqmod(all);
    fill_gaqbin(&mut Random::new(seed + 3), all);
    gaq_sections(&mut Random::new(seed + 4), all);
    gaq_gain_value(all);
    read_gaq_gains(&mut Random::new(seed + 5), all);
    scalar_codes(all);
    scalar_random(&mut Random::new(seed + 6), all);
}

/// Positions in a buffer of `len` bytes and around its end, some of them with a bit of 8 or more, and some far off.
fn positions(len: usize) -> Vec<Pos> {
    let mut out: Vec<Pos> = (0..=8 * len + 9).map(Pos::of).collect();
    for byte in 0..=len {
        for bit in [8, 9, 15, 16, 40, 255] {
            out.push(Pos { byte, bit });
        }
    }
    for byte in [len + 1, usize::MAX / 8, usize::MAX - 1, usize::MAX] {
        for bit in [0, 7, 8, u32::MAX] {
            out.push(Pos { byte, bit });
        }
    }
    out
}

/// The bit that a position names, where the buffer can have it.
fn bit_of(p: Pos, len: usize) -> Option<usize> {
    let at = p.byte as u128 * 8 + p.bit as u128;
    if at <= 8 * len as u128 {
        Some(at as usize)
    } else {
        None
    }
}

fn read_u32(random: &mut Random, all: &mut Tally) {
    let mut t = Tally::of("read_u32");
    for len in 0..=9 {
        for _ in 0..4 {
            let src = random.bytes(len);
            for p in positions(len) {
                for n in (0..=34).chain([40, 64, 255, u32::MAX]) {
                    let (mut after, mut value) = (p, 0x5a5a_5a5a);
                    let refusal = ours::read_u32(&src, &mut after, n, &mut value);
                    let want = if n > 32 {
                        (12, p, 0x5a5a_5a5a)
                    } else {
                        match bit_of(p, len).and_then(|at| Some((at, BitReader::at(&src, at).ok()?.read_u32(n).ok()?))) {
                            Some((at, v)) => (0, Pos::of(at + n as usize), v),
                            None => (8, p, 0x5a5a_5a5a),
                        }
                    };
                    t.case(want.0, (refusal, after, value) == want, || format!("{src:?} {p:?} {n}: {refusal} {after:?} {value}, not {want:?}"));
                }
            }
        }
    }
    t.close(all);
}

fn write_u32(random: &mut Random, all: &mut Tally) {
    let mut t = Tally::of("write_u32");
    for len in 0..=9 {
        for _ in 0..4 {
            let before = random.bytes(len);
            for p in positions(len) {
                for n in (0..=34).chain([40, 64, 255, u32::MAX]) {
                    let v = random.next() as u32;
                    let (mut after, mut out) = (p, before.clone());
                    let refusal = ours::write_u32(&mut out, &mut after, v, n);
                    let want = if n > 32 {
                        (12, p, before.clone())
                    } else {
                        match bit_of(p, len).filter(|at| at + n as usize <= 8 * len) {
                            Some(at) => (0, Pos::of(at + n as usize), put(&before, at, v, n)),
                            None => (7, p, before.clone()),
                        }
                    };
                    t.case(want.0, (refusal, after, out.clone()) == want, || format!("{before:?} {p:?} {v} {n}: {refusal} {after:?} {out:?}, not {want:?}"));
                }
            }
        }
    }
    t.close(all);
}

/// The buffer written anew: the bits before, the number, the bits behind.
fn put(before: &[u8], at: usize, v: u32, n: u32) -> Vec<u8> {
    let mut r = BitReader::new(before);
    let mut w = BitWriter::new();
    for _ in 0..at {
        w.write_u32(r.read_u32(1).unwrap(), 1);
    }
    w.write_u32(v, n);
    let mut r = BitReader::at(before, at + n as usize).unwrap();
    while let Ok(b) = r.read_u32(1) {
        w.write_u32(b, 1);
    }
    w.finish()
}

fn hebap_from_address(random: &mut Random, all: &mut Tally) {
    let mut t = Tally::of("hebap_from_address");
    let mut one = |psd: i16, mask: i32| {
        let mut hebap = 99;
        let refusal = ours::hebap_from_address(psd, mask, &mut hebap);
        let want = if (-65536..=65536).contains(&mask) { (0, aht::hebap_from_address(psd, mask)) } else { (12, 99) };
        t.case(want.0, (refusal, hebap) == want, || format!("{psd} {mask}: {refusal} {hebap}, not {want:?}"));
    };
    let masks = [0, 1, -1, 31, 32, -32, 255, 256, 2015, 2016, 2017, 8192, -8192, 32767, -32768, 65535, 65536, -65535, -65536, 65537, -65537, i32::MAX, i32::MIN];
    for psd in i16::MIN..=i16::MAX {
        for mask in masks {
            one(psd, mask);
        }
    }
    for _ in 0..crate::times(500_000, 500_000) {
        let psd = random.next() as i16;
        let mask = psd as i32 - random.below(2200) as i32 + 60;
        one(psd, mask);
        one(random.next() as i16, random.next() as i32);
    }
    t.close(all);
}

fn endbap_for_gaqmod(all: &mut Tally) {
    let mut t = Tally::of("endbap_for_gaqmod");
    for mode in 0..=255 {
        let mut endbap = 99;
        let refusal = ours::endbap_for_gaqmod(mode, &mut endbap);
        let want = if mode > 3 { (12, 99) } else { (0, aht::endbap_for_gaqmod(mode)) };
        t.case(want.0, (refusal, endbap) == want, || format!("{mode}: {refusal} {endbap}"));
    }
    t.close(all);
}

fn fill_gaqbin(random: &mut Random, all: &mut Tally) {
    let mut t = Tally::of("fill_gaqbin");
    let mut one = |row: &[u8], mode: u8, places: usize| {
        let (mut out, mut active) = (vec![77i8; places], 12345);
        let refusal = ours::fill_gaqbin(row, mode, &mut out, &mut active);
        let (mut want, mut want_active, mut number) = (vec![77i8; places], 12345, 12);
        if mode <= 3 {
            want_active = aht::fill_gaqbin(row, mode, &mut want);
            number = 0;
        }
        t.case(number, (refusal, active, &out) == (number, want_active, &want), || format!("{row:?} {mode} {places}: {refusal} {active} {out:?}"));
    };
    for h in 0..=255 {
        for mode in 0..=255 {
            one(&[h], mode, 1);
            one(&[h], mode, 0);
        }
    }
    for _ in 0..crate::times(100_000, 100_000) {
        let len = random.below(300);
        let row: Vec<u8> = (0..len).map(|_| if random.below(8) == 0 { random.next() as u8 } else { random.below(21) as u8 }).collect();
        let places = if random.below(2) == 0 { len } else { random.below(300) };
        one(&row, random.below(5) as u8, places);
    }
    t.close(all);
}

fn gaq_sections(random: &mut Random, all: &mut Tally) {
    let mut t = Tally::of("gaq_sections");
    let mut one = |mode: u8, active: usize| {
        let mut sections = 4711;
        let refusal = ours::gaq_sections(mode, active, &mut sections);
        let want = if mode > 3 { (12, 4711) } else { (0, aht::gaq_sections(mode, active)) };
        t.case(want.0, (refusal, sections) == want, || format!("{mode} {active}: {refusal} {sections}"));
    };
    for mode in 0..=255 {
        for active in (0..600).chain([usize::MAX - 2, usize::MAX - 1, usize::MAX, usize::MAX / 3]) {
            one(mode, active);
        }
    }
    for _ in 0..crate::times(100_000, 100_000) {
        one(random.below(4) as u8, random.next() as usize);
    }
    t.close(all);
}

fn gaq_gain_value(all: &mut Tally) {
    let mut t = Tally::of("gaq_gain_value");
    for mode in 0..=255 {
        for code in 0..=255 {
            let mut gain = 99;
            let refusal = ours::gaq_gain_value(code, mode, &mut gain);
            let want = if mode > 3 { (12, 99) } else { (0, aht::gaq_gain_value(code, mode)) };
            t.case(want.0, (refusal, gain) == want, || format!("{code} {mode}: {refusal} {gain}"));
        }
    }
    t.close(all);
}

fn read_gaq_gains(random: &mut Random, all: &mut Tally) {
    let mut t = Tally::of("read_gaq_gains");
    let mut one = |src: &[u8], p: Pos, mode: u8, sections: usize, places: usize| {
        let (mut after, mut out, mut count) = (p, vec![77u8; places], 4711);
        let refusal = ours::read_gaq_gains(src, &mut after, mode, sections, &mut out, &mut count);
        let untouched = vec![77u8; places];
        let want = if mode > 3 {
            (12, p, untouched, 4711)
        } else {
            let mut given = untouched.clone();
            let read = bit_of(p, src.len()).and_then(|at| {
                let mut r = BitReader::at(src, at).ok()?;
                let n = aht::read_gaq_gains(&mut r, mode, sections, &mut given).ok()?;
                Some((r.taken(), n))
            });
            match read {
                Some((end, n)) => (0, Pos::of(end), given, n),
                None => (8, p, untouched, 4711),
            }
        };
        t.case(want.0, (refusal, after, out.clone(), count) == want, || {
            format!("{src:?} {p:?} mode {mode}, {sections} sections, {places} places: {refusal} {after:?} {out:?} {count}, not {want:?}")
        });
    };
    // every word of five bits, at every bit of a byte
    for word in 0..32u8 {
        for at in 0..8 {
            let mut w = BitWriter::new();
            w.write_u32(0, at);
            w.write_u32(u32::from(word), 5);
            let src = w.finish();
            for places in 0..5 {
                for mode in 0..6 {
                    for sections in 0..3 {
                        one(&src, Pos::of(at as usize), mode, sections, places);
                    }
                }
            }
        }
    }
    for _ in 0..crate::times(400_000, 400_000) {
        let len = random.below(14);
        let src = random.bytes(len);
        let p = if random.below(10) == 0 { random.pick(&positions(len)) } else { Pos::of(random.below(8 * len + 2)) };
        let sections = if random.below(50) == 0 { random.pick(&[usize::MAX, usize::MAX / 5, 1 << 61, 1 << 63]) } else { random.below(24) };
        let places = random.below(26);
        one(&src, p, random.below(5) as u8, sections, places);
    }
    t.close(all);
}

/// Six f32 by their bits, so that zeros keep their sign.
fn bits6(v: [f32; 6]) -> [u32; 6] {
    v.map(f32::to_bits)
}

fn scalar_case(t: &mut Tally, src: &[u8], p: Pos, hebap: u8, mode: u8, gaqbin: i8, code: u8) {
    let filler = kept();
    let (mut after, mut out) = (p, filler);
    let refusal = ours::read_scalar_aht_mantissas(src, &mut after, hebap, mode, gaqbin, code, &mut out);
    let want = if mode > 3 {
        (12, p, filler)
    } else if hebap > 19 {
        (4, p, filler)
    } else {
        let mut given = filler;
        let read = bit_of(p, src.len()).and_then(|at| {
            let mut r = BitReader::at(src, at).ok()?;
            aht::read_scalar_aht_mantissas(&mut r, hebap, mode, gaqbin, code, &mut given).ok()?;
            Some(r.taken())
        });
        match read {
            Some(end) => (0, Pos::of(end), given),
            None => (8, p, filler),
        }
    };
    t.case(want.0, (refusal, after, bits6(out)) == (want.0, want.1, bits6(want.2)), || {
        format!("{src:?} {p:?} hebap {hebap} mode {mode} gaqbin {gaqbin} code {code}: {refusal} {after:?} {out:?}, not {want:?}")
    });
}

/// Every code of every hebap and gain, six to a call, the scalar reader's Gk 2 and 4 at hebap 17 to 19 among them.
fn scalar_codes(all: &mut Tally) {
    let mut t = Tally::of("read_scalar_aht_mantissas, all codes");
    for hebap in 8..=19u8 {
        let m = u32::from(aht::HEBAP_MANT_BITS[hebap as usize]);
        for (mode, code, small, large) in [(0u8, 0u8, 0, m), (1, 1, m - 1, m - 1), (3, 2, m - 2, m)] {
            // (first code, its bits, second code, its bits)
            let mut codes: Vec<(u32, u32, u32, u32)> = Vec::new();
            if small == 0 {
                codes.extend((0..1u32 << large).map(|k| (k, large, 0, 0)));
            } else {
                let tag = 1u32 << (small - 1);
                codes.extend((0..1u32 << small).filter(|&s| s != tag).map(|s| (s, small, 0, 0)));
                codes.extend((0..1u32 << large).map(|l| (tag, small, l, large)));
            }
            while codes.len() % 6 != 0 {
                codes.push(codes[0]);
            }
            for (i, group) in codes.chunks(6).enumerate() {
                let at = i % 8;
                let mut w = BitWriter::new();
                w.write_u32(0x55, at as u32);
                for &(a, n, b, k) in group {
                    w.write_u32(a, n);
                    w.write_u32(b, k);
                }
                scalar_case(&mut t, &w.finish(), Pos::of(at), hebap, mode, 1, code);
            }
        }
    }
    t.close(all);
}

fn scalar_random(random: &mut Random, all: &mut Tally) {
    let mut t = Tally::of("read_scalar_aht_mantissas, random");
    for hebap in 0..=255 {
        for mode in 0..=7 {
            for gaqbin in [-128, -1, 0, 1, 2, 127] {
                for code in [0, 1, 2, 3, 9, 255] {
                    let src = random.bytes(26);
                    scalar_case(&mut t, &src, Pos::of(random.below(20)), hebap, mode, gaqbin, code);
                }
            }
        }
    }
    for _ in 0..crate::times(500_000, 500_000) {
        let len = random.below(30);
        let src = random.bytes(len);
        let p = if random.below(10) == 0 { random.pick(&positions(len)) } else { Pos::of(random.below(8 * len + 2)) };
        let gaqbin = random.pick(&[1i8, 1, 1, 0, -1]);
        scalar_case(&mut t, &src, p, random.below(21) as u8, random.below(4) as u8, gaqbin, random.below(4) as u8);
    }
    t.close(all);
}
