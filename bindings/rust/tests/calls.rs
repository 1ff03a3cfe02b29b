//! The crate's functions: channels written and read back, and each refusal with what was lent.
#![forbid(unsafe_code)]

use fathrugg::{endbap_for_gaqmod, fill_gaqbin, gaq_gain_value, gaq_sections, hebap_from_address, read_gaq_gains};
use fathrugg::{plan_aht_channel, print_pages, read_aht_channel, write_aht_channel};
use fathrugg::{quantise_bin, quantise_scalar, read_scalar_aht_mantissas, vq_lookup, vq_search};
use fathrugg::{read_u32, version, write_u32, AhtChannel, AhtChannelPlan, Code, Position, Refusal};
use std::error::Error;

/// The position of a bit.
fn position(at: usize) -> Position {
    Position { byte: at / 8, bit: (at % 8) as u32 }
}

fn bit(bytes: &[u8], at: usize) -> u8 {
    bytes[at / 8] >> (7 - at % 8) & 1
}

/// Bytes of the numbers, each with so many bits, the first bit the heaviest; zeros fill the last byte.
fn bytes_of(numbers: &[(u32, u32)]) -> Vec<u8> {
    let bits: Vec<u8> = numbers.iter().flat_map(|&(v, n)| (0..n).rev().map(move |i| (v >> i & 1) as u8)).collect();
    bits.chunks(8).map(|c| c.iter().enumerate().fold(0, |b, (i, x)| b | x << (7 - i))).collect()
}

fn patterned(len: usize) -> Vec<u8> {
    (0..len).map(|i| 0xa5 ^ (i as u8).wrapping_mul(29)).collect()
}

/// What is lent to the reader, with a pattern in it.
struct Outputs {
    values: Vec<f32>,
    exact: Vec<i32>,
    indices: Vec<u16>,
}

impl Outputs {
    /// For so many bins.
    fn patterned(bins: usize) -> Outputs {
        Outputs {
            // NaNs, so that only the same bits are the same
            values: (0..6 * bins).map(|i| f32::from_bits(0x7fc0_0001 + i as u32)).collect(),
            exact: (0..6 * bins).map(|i| 0x5a5a_0000 + i as i32).collect(),
            indices: (0..bins).map(|i| 0xa500 + i as u16).collect(),
        }
    }

    fn read(&mut self, src: &[u8], p: &mut Position, row: &[u8], start: usize, end: usize) -> Result<AhtChannel, Refusal> {
        read_aht_channel(src, p, row, start, end, &mut self.values, &mut self.exact, &mut self.indices)
    }

    /// All of it, the f32 by their bits.
    fn bits(&self) -> (Vec<u32>, Vec<i32>, Vec<u16>) {
        (self.values.iter().map(|v| v.to_bits()).collect(), self.exact.clone(), self.indices.clone())
    }
}

/// Vectors for so many bins, of components up to `size`, always the same.
fn vectors(bins: usize, size: f32) -> Vec<f32> {
    let mut state = 20_261_115u32;
    (0..6 * bins)
        .map(|_| {
            state = state.wrapping_mul(1_664_525).wrapping_add(1_013_904_223);
            size * ((state >> 8) as f32 / (1 << 23) as f32 - 1.0)
        })
        .collect()
}

fn six(x: &[f32], bin: usize) -> &[f32; 6] {
    x[6 * bin..6 * bin + 6].try_into().unwrap()
}

/// Whether a bin has a gain of its own: hebap 8 to 11 in mode 1, 8 to 16 in modes 2 and 3.
fn has_gain(mode: u8, hebap: u8) -> bool {
    match mode {
        0 => false,
        1 => (8..=11).contains(&hebap),
        _ => (8..=16).contains(&hebap),
    }
}

/// Writes the field of a plan at a bit position of a patterned buffer, reads it back and tests everything that was
/// lent.
fn written_and_read(p: &AhtChannelPlan, row: &[u8], start: usize, end: usize, x: &[f32], at: usize) {
    let total = p.total_bits() as usize;
    let before = patterned((at + total).div_ceil(8) + 1);
    let mut out = before.clone();
    let mut here = position(at);
    assert_eq!(write_aht_channel(p, row, start, end, x, &mut out, &mut here), Ok(()));
    assert_eq!(here, position(at + total));
    for k in (0..at).chain(at + total..8 * out.len()) {
        assert_eq!(bit(&out, k), bit(&before, k), "the bit {k}, outside of {at} to {}", at + total);
    }

    // the same bit by a byte less
    let mut again = before.clone();
    let mut over = Position { byte: at / 8 - 1, bit: (at % 8 + 8) as u32 };
    assert_eq!(write_aht_channel(p, row, start, end, x, &mut again, &mut over), Ok(()));
    assert_eq!((again, over), (out.clone(), here));

    let mut got = Outputs::patterned(end + 2);
    let (values, exact, indices) = got.bits();
    let mut behind = position(at);
    let channel = got.read(&out, &mut behind, row, start, end).unwrap();
    assert_eq!((channel.gaqmod(), channel.gains(), u64::from(channel.bits())), (p.gaqmod(), p.gains(), p.total_bits()));
    assert_eq!(behind, here);
    let mut over = Position { byte: at / 8 - 1, bit: (at % 8 + 8) as u32 };
    assert_eq!(Outputs::patterned(end + 2).read(&out, &mut over, row, start, end).unwrap(), channel);
    assert_eq!(over, here);

    let mut gains = p.gains().iter();
    for bin in 0..end + 2 {
        let places = 6 * bin..6 * bin + 6;
        let shown: Vec<u32> = got.values[places.clone()].iter().map(|v| v.to_bits()).collect();
        if bin < start || end <= bin {
            assert_eq!(shown, values[places.clone()], "the bin {bin} was not asked for");
            assert_eq!(got.exact[places.clone()], exact[places]);
            assert_eq!(got.indices[bin], indices[bin]);
            continue;
        }
        let (hebap, v) = (row[bin], six(x, bin));
        match hebap {
            0 => assert_eq!((shown, got.indices[bin]), (vec![0; 6], 0)),
            1..=7 => assert_eq!(usize::from(got.indices[bin]), vq_search(hebap, v).unwrap()),
            _ => {
                let gk = if has_gain(p.gaqmod(), hebap) { *gains.next().unwrap() } else { 1 };
                let want: Vec<u32> = quantise_bin(hebap, gk, v).unwrap().values.iter().map(|y| y.to_bits()).collect();
                assert_eq!((shown, got.indices[bin]), (want, 0), "the bin {bin} of hebap {hebap} at Gk {gk}");
            }
        }
        for k in places {
            let far = f64::from(got.values[k]) * f64::from(1 << 30) - f64::from(got.exact[k]);
            assert!(far.abs() <= 256.0, "the place {k}: {} and {}", got.values[k], got.exact[k]);
        }
    }
    assert!(gains.next().is_none());
}

#[test]
fn tie() {
    let row = [8, 0];
    let x = [0.25, 0.0, -0.25, 0.0, 0.0, 0.0, 0.0, 0.0, 0.0, 0.0, 0.0, 0.0];
    let p = plan_aht_channel(&row, 0, 2, &x).unwrap();
    assert_eq!((p.gaqmod(), p.gains(), p.count(), p.payload_bits(), p.total_bits()), (1, &[2][..], 1, 13, 15));
    assert_eq!(p, AhtChannelPlan::new(1, &[2], 13));
    let mut out = [0; 2];
    let mut here = Position::default();
    write_aht_channel(&p, &row, 0, 2, &x, &mut out, &mut here).unwrap();
    assert_eq!((out, here), ([0x69, 0x80], Position { byte: 1, bit: 7 }));
    let mut got = Outputs::patterned(2);
    let mut behind = Position::default();
    let channel = got.read(&out, &mut behind, &row, 0, 2).unwrap();
    assert_eq!((channel.gaqmod(), channel.gains(), channel.bits(), behind), (1, &[2][..], 15, here));
    assert_eq!(got.values, x);
    assert_eq!(got.exact, x.map(|v| (v * (1 << 30) as f32) as i32));
    assert_eq!(got.indices, [0, 0]);
    written_and_read(&p, &row, 0, 2, &x, 13);
}

#[test]
fn channels_come_back() {
    let all: Vec<u8> = (0..20).collect();
    let long: Vec<u8> = (0..256).map(|k| (k * 7 % 20) as u8).collect();
    // the first component of a vector larger than the others
    let mixed: Vec<f32> = vectors(256, 0.2).iter().enumerate().map(|(i, v)| if i % 6 == 0 { 4.0 * v } else { *v }).collect();
    let channels: &[(&[u8], usize, usize, Vec<f32>)] = &[
        (&[], 0, 0, Vec::new()),
        (&all, 7, 7, vectors(20, 1.0)),
        (&[0, 0, 0], 0, 3, vectors(3, 1.0)),
        (&[1, 2, 3, 4, 5, 6, 7], 0, 7, vectors(7, 0.9)),
        (&[8, 9, 10, 11], 0, 4, vectors(4, 0.4)),
        (&[12, 13, 14, 15, 16, 12], 1, 6, vectors(6, 0.05)),
        (&[17, 18, 19, 8], 0, 4, vectors(4, 1.0)),
        (&all, 0, 20, vectors(20, 0.1)),
        (&all, 3, 17, vectors(20, 0.3)),
        (&all, 0, 20, vectors(20, 16384.0)),
        (&long, 0, 256, vectors(256, 0.2)),
        (&long, 0, 256, mixed.clone()),
        (&long, 100, 201, mixed.clone()),
        (&[8; 256], 0, 256, mixed),
        // the desk's example group_of_one: four gains in mode 3
        (
            &[11, 14, 12, 14],
            0,
            4,
            [
                [9611, 13281, 18494, -7555, -7899, 13548],
                [-7799, -13832, 9267, -117, -10708, -14058],
                [105, 163, -139, -285, 241, -236],
                [-264, -106, -53, -270, 175, 34],
            ]
            .concat()
            .iter()
            .map(|&n| n as f32 / 32768.0)
            .collect(),
        ),
    ];
    let mut modes = [false; 4];
    for (row, start, end, x) in channels {
        let p = plan_aht_channel(row, *start, *end, x).unwrap();
        modes[usize::from(p.gaqmod())] = true;
        for at in [13, 8, 23] {
            written_and_read(&p, row, *start, *end, x, at);
        }
        // a plan that is not the best: every gain 1
        for mode in 0..4 {
            let mut gains = 0;
            let mut payload = 0;
            for bin in *start..*end {
                payload += match row[bin] {
                    0 => 0,
                    h @ 1..=7 => [2, 3, 4, 5, 7, 8, 9][usize::from(h) - 1],
                    h => quantise_bin(h, 1, six(x, bin)).unwrap().bits,
                };
                gains += usize::from(has_gain(mode, row[bin]));
            }
            payload += if mode == 3 { 5 * gains.div_ceil(3) as u32 } else { gains as u32 };
            assert!(p.payload_bits() <= payload);
            written_and_read(&AhtChannelPlan::new(mode, &vec![1; gains], payload), row, *start, *end, x, 11);
        }
    }
    assert_eq!(modes, [true; 4], "each mode is met");
}

#[test]
fn scalars_and_books() {
    // hebap 8 has three bits: 0.25 at Gk 2 is a short code, at Gk 1 a whole one
    assert_eq!(quantise_scalar(8, 2, 0.25).unwrap().code, Code::Small(1));
    assert_eq!(quantise_scalar(8, 2, 0.25).unwrap().value, 0.25);
    assert!(matches!(quantise_scalar(8, 1, 0.25).unwrap().code, Code::Large(_)));
    assert!(matches!(quantise_scalar(8, 4, 0.75).unwrap().code, Code::Large(_)));
    let x = [0.25, 0.0, -0.25, 0.0, 0.0, 0.0];
    let b = quantise_bin(8, 2, &x).unwrap();
    assert_eq!((b.values, b.bits, b.err), (x, 12, 0.0));
    // the sum of the errors is that of the values
    let x = [0.3, -0.9, 0.01, 0.0, 1.5, -3.0];
    let b = quantise_bin(10, 4, &x).unwrap();
    let err = b.values.iter().zip(&x).fold(0.0, |e, (y, x)| e + (y - x) * (y - x));
    assert_eq!(b.err, err);
    for (y, x) in b.values.iter().zip(x) {
        assert_eq!(*y, quantise_scalar(10, 4, x).unwrap().value);
    }
    // no book, no refusal
    for hebap in [0, 8, 255] {
        assert_eq!(vq_search(hebap, &[f32::NAN; 6]), Ok(0));
    }
    for (hebap, bits) in [(1, 2), (2, 3), (3, 4), (4, 5), (5, 7), (6, 8), (7, 9)] {
        for bin in 0..20 {
            assert!(vq_search(hebap, six(&vectors(20, 1.0), bin)).unwrap() < 1 << bits);
        }
    }
}

// ---- pages; what is expected is worked out by hand from the layout of lines and codes

/// Pages that begin with these lines: spaces fill each line, lines of spaces the last page.
fn pages(lines: &[&str]) -> Vec<u8> {
    let all = 50 * lines.len().div_ceil(50);
    (0..all).flat_map(|i| format!("{:64}\n", lines.get(i).unwrap_or(&"")).into_bytes()).collect()
}

/// Prints the pages of a plan to outputs as long as these lines want and longer, and to shorter ones.
fn printed(p: &AhtChannelPlan, row: &[u8], start: usize, end: usize, x: &[f32], lines: &[&str]) {
    let want = pages(lines);
    for more in [0, 1, 700] {
        let mut out = patterned(want.len() + more);
        let rest = out[want.len()..].to_vec();
        assert_eq!(print_pages(p, row, start, end, x, &mut out), Ok(want.len()), "{p:?}");
        assert_eq!(String::from_utf8_lossy(&out[..want.len()]), String::from_utf8_lossy(&want), "{p:?}");
        assert_eq!(out[want.len()..], rest);
    }
    for less in [1, 65, want.len()] {
        let before = patterned(want.len() - less);
        let mut out = before.clone();
        assert_eq!(print_pages(p, row, start, end, x, &mut out), Err(Refusal::OutputEnds));
        assert_eq!(out, before);
    }
}

#[test]
fn pages_of_the_tie() {
    let row = [8, 0];
    let x = [0.25, 0.0, -0.25, 0.0, 0.0, 0.0, 0.0, 0.0, 0.0, 0.0, 0.0, 0.0];
    let mut line = *b"  0  8 2  12   1  0 -   0                                       \n";
    let best = plan_aht_channel(&row, 0, 2, &x).unwrap();
    let mut out = [0; 3250];
    assert_eq!(print_pages(&best, &row, 0, 2, &x, &mut out), Ok(3250));
    assert_eq!(out[..65], line);
    line[..64].fill(b' ');
    assert!(out[65..].chunks(65).all(|l| l == line));
    printed(&best, &row, 0, 2, &x, &["  0  8 2  12   1  0 -   0"]);
    // the other plans that fit: 3 bits a code at Gk 1, at Gk 4 four for 0.25 and -0.25 and one for 0
    printed(&AhtChannelPlan::new(0, &[], 18), &row, 0, 2, &x, &["  0  8 -  18   1  0 -   0"]);
    printed(&AhtChannelPlan::new(1, &[1], 19), &row, 0, 2, &x, &["  0  8 1  18   1  0 -   0"]);
    printed(&AhtChannelPlan::new(2, &[1], 19), &row, 0, 2, &x, &["  0  8 1  18   1  0 -   0"]);
    printed(&AhtChannelPlan::new(2, &[4], 13), &row, 0, 2, &x, &["  0  8 4  12   1  0 -   0"]);
    printed(&AhtChannelPlan::new(3, &[1], 23), &row, 0, 2, &x, &["  0  8 1  18   1  0 -   0"]);
    printed(&AhtChannelPlan::new(3, &[2], 17), &row, 0, 2, &x, &["  0  8 2  12   1  0 -   0"]);
    printed(&AhtChannelPlan::new(3, &[4], 17), &row, 0, 2, &x, &["  0  8 4  12   1  0 -   0"]);
}

#[test]
fn pages_from_a_later_bin() {
    // bins below start and from end on are not looked at; bin 4 has one component that takes a large code, bin 6 six
    let row = [20, 255, 8, 3, 12, 17, 16, 99];
    let mut x = [0.0; 48];
    x[..12].fill(f32::NAN);
    x[4 * 6 + 2] = 1.0;
    x[6 * 6..7 * 6].fill(-1.0);
    x[7 * 6..].fill(f32::INFINITY);
    // Gk 1: 6 × 3 bits, an index of 4 bits, 6 × 7, 6 × 12 and 6 × 11
    let plan = AhtChannelPlan::new(0, &[], 18 + 4 + 42 + 72 + 66);
    printed(&plan, &row, 2, 7, &x, &["  2  8 -  18   3  3 -   4   4 12 -  42   5 17 -  72", "  6 16 -  66"]);
    // in mode 1 hebap 12 and 16 have no gain of their own; bin 2 at Gk 2: 6 × 2
    let plan = AhtChannelPlan::new(1, &[2], 1 + 12 + 4 + 42 + 72 + 66);
    printed(&plan, &row, 2, 7, &x, &["  2  8 2  12   3  3 -   4   4 12 -  42   5 17 -  72", "  6 16 -  66"]);
    // the best: at Gk 4 bin 2 has 6 × 1, bin 4 5 × 5 + 5 + 7
    let plan = AhtChannelPlan::new(2, &[4, 4, 1], 3 + 6 + 4 + 37 + 72 + 66);
    assert_eq!(plan_aht_channel(&row, 2, 7, &x).as_ref(), Ok(&plan));
    printed(&plan, &row, 2, 7, &x, &["  2  8 4   6   3  3 -   4   4 12 4  37   5 17 -  72", "  6 16 1  66"]);
    // not the best: bin 4 at Gk 2 has 5 × 6 + 6 + 6, bin 6 at Gk 4 6 × (9 + 11)
    let plan = AhtChannelPlan::new(3, &[1, 2, 4], 5 + 18 + 4 + 42 + 72 + 120);
    printed(&plan, &row, 2, 7, &x, &["  2  8 1  18   3  3 -   4   4 12 2  42   5 17 -  72", "  6 16 4 120"]);
}

#[test]
fn pages_of_many_bins() {
    // the bits of zeros: for each hebap at Gk 1, and for hebap 8 to 16 at Gk 4
    let ones = [0, 2, 3, 4, 5, 7, 8, 9, 18, 24, 30, 36, 42, 48, 54, 60, 66, 72, 84, 96];
    let fours = [6, 12, 18, 24, 30, 36, 42, 48, 54];
    let row: Vec<u8> = (0..256).map(|k| (k * 7 % 20) as u8).collect();
    let x = [0.0; 6 * 256];
    for (start, end, count) in [(9, 13, 1), (0, 200, 1), (0, 201, 2), (56, 256, 1), (55, 256, 2), (0, 256, 2)] {
        for mode in [0, 3] {
            let (mut cells, mut gains, mut payload) = (Vec::new(), Vec::new(), 0);
            for (bin, &hebap) in row.iter().enumerate().take(end).skip(start) {
                let h = usize::from(hebap);
                let (gk, bits) = if has_gain(mode, hebap) { ('4', fours[h - 8]) } else { ('-', ones[h]) };
                if gk == '4' {
                    gains.push(4);
                }
                payload += bits;
                cells.push(format!("{bin:3} {h:2} {gk} {bits:3}"));
            }
            payload += 5 * gains.len().div_ceil(3) as u32;
            let lines: Vec<String> = cells.chunks(4).map(|c| c.join(" ")).collect();
            let lines: Vec<&str> = lines.iter().map(|l| l.as_str()).collect();
            assert_eq!(pages(&lines).len(), 3250 * count);
            printed(&AhtChannelPlan::new(mode, &gains, payload), &row, start, end, &x, &lines);
        }
    }
}

#[test]
fn no_bins_no_page() {
    let (row, x) = ([255; 256], [f32::NAN; 6 * 256]);
    for at in [0, 7, 200, 256] {
        for mode in 0..4 {
            let none = AhtChannelPlan::new(mode, &[], 0);
            for len in [0, 1, 6500] {
                let mut out = patterned(len);
                assert_eq!(print_pages(&none, &row, at, at, &x, &mut out), Ok(0));
                assert_eq!(out, patterned(len));
            }
        }
        // what does not fit no bins is refused all the same
        for p in [AhtChannelPlan::new(4, &[], 0), AhtChannelPlan::new(1, &[1], 0), AhtChannelPlan::new(0, &[], 1)] {
            assert_eq!(print_pages(&p, &row, at, at, &x, &mut []), Err(Refusal::PlanDoesNotFit));
        }
    }
}

/// A channel that the calls accept, with room around it, to make one fault in.
struct Call {
    row: Vec<u8>,
    start: usize,
    end: usize,
    x: Vec<f32>,
    plan: AhtChannelPlan,
    out: Vec<u8>,
    at: Position,
    /// The output of the pages, which it just holds.
    page: Vec<u8>,
    /// A field of the channel at `at`, for the reader.
    src: Vec<u8>,
    got: Outputs,
}

impl Call {
    /// Four bins with a gain in mode 3 and a book bin.
    fn good() -> Call {
        let row = vec![8, 14, 12, 9, 5];
        let x = vectors(5, 0.3);
        let payload = 10 + (1..4).fold(7, |n, k| n + quantise_bin(row[k], 2, six(&x, k)).unwrap().bits) + quantise_bin(8, 4, six(&x, 0)).unwrap().bits;
        let plan = AhtChannelPlan::new(3, &[4, 2, 2, 2], payload);
        let len = (11 + plan.total_bits() as usize).div_ceil(8);
        let mut src = patterned(len);
        write_aht_channel(&plan, &row, 0, 5, &x, &mut src, &mut position(11)).unwrap();
        let (out, page, got) = (patterned(len), patterned(3250), Outputs::patterned(5));
        Call { row, start: 0, end: 5, x, plan, out, at: position(11), page, src, got }
    }

    fn with(fault: impl FnOnce(&mut Call)) -> Call {
        let mut call = Call::good();
        fault(&mut call);
        call
    }

    fn plan(&self) -> Result<AhtChannelPlan, Refusal> {
        plan_aht_channel(&self.row, self.start, self.end, &self.x)
    }

    /// Writes; where it is refused, the output and the position must be as they were.
    fn write(&mut self) -> Result<(), Refusal> {
        let before = (self.out.clone(), self.at);
        let answer = write_aht_channel(&self.plan, &self.row, self.start, self.end, &self.x, &mut self.out, &mut self.at);
        assert_eq!(answer.is_err(), before == (self.out.clone(), self.at));
        answer
    }

    /// Prints; where it is refused, the output must be as it was.
    fn print(&mut self) -> Result<usize, Refusal> {
        let before = self.page.clone();
        let answer = print_pages(&self.plan, &self.row, self.start, self.end, &self.x, &mut self.page);
        assert_eq!(answer.is_err(), before == self.page);
        answer
    }

    /// Reads; where it is refused, every output and the position must be as they were.
    fn read(&mut self) -> Result<AhtChannel, Refusal> {
        let before = (self.got.bits(), self.at);
        let answer = self.got.read(&self.src, &mut self.at, &self.row, self.start, self.end);
        assert_eq!(answer.is_err(), before == (self.got.bits(), self.at));
        answer
    }
}

/// Plan, write, print and read with the same fault are refused for the same cause.
fn all_refuse(want: Refusal, fault: impl Fn(&mut Call)) {
    assert_eq!(Call::with(&fault).plan(), Err(want));
    assert_eq!(Call::with(&fault).write(), Err(want));
    assert_eq!(Call::with(&fault).print(), Err(want));
    assert_eq!(Call::with(&fault).read(), Err(want));
}

#[test]
fn the_good_call_is_accepted() {
    assert!(Call::good().plan().is_ok());
    assert_eq!(Call::good().write(), Ok(()));
    assert_eq!(Call::good().print(), Ok(3250));
    assert_eq!(Call::good().read().unwrap().gains(), [4, 2, 2, 2]);
}

#[test]
fn refusal_1_start_above_end() {
    all_refuse(Refusal::StartAboveEnd, |c| c.start = 6);
    all_refuse(Refusal::StartAboveEnd, |c| c.start = usize::MAX);
    // the lowest number of causes that hold together
    all_refuse(Refusal::StartAboveEnd, |c| (c.start, c.end, c.row[0]) = (300, 299, 20));
}

#[test]
fn refusal_2_end_above_256() {
    all_refuse(Refusal::EndAbove256, |c| c.end = usize::MAX);
    all_refuse(Refusal::EndAbove256, |c| {
        c.row = vec![0; 257];
        c.x = vec![0.0; 6 * 257];
        c.got = Outputs::patterned(257);
        c.end = 257;
    });
}

#[test]
fn refusal_3_too_short() {
    all_refuse(Refusal::TooShort, |c| c.row.truncate(4));
    all_refuse(Refusal::TooShort, |c| c.end = 6);
    for short in [|c: &mut Call| c.x.truncate(29), |c: &mut Call| c.x.clear()] {
        assert_eq!(Call::with(short).plan(), Err(Refusal::TooShort));
        assert_eq!(Call::with(short).write(), Err(Refusal::TooShort));
        assert_eq!(Call::with(short).print(), Err(Refusal::TooShort));
    }
    let shorts: [fn(&mut Call); 3] = [|c| c.got.values.truncate(29), |c| c.got.exact.truncate(29), |c| c.got.indices.truncate(4)];
    for short in shorts {
        assert_eq!(Call::with(short).read(), Err(Refusal::TooShort));
    }
}

#[test]
fn refusal_4_hebap_above_19() {
    all_refuse(Refusal::HebapAbove19, |c| c.row[4] = 20);
    all_refuse(Refusal::HebapAbove19, |c| c.row[0] = 255);
    // outside of the bins it is not looked at
    assert!(Call::with(|c| (c.row[0], c.start) = (20, 1)).plan().is_ok());
}

#[test]
fn refusal_5_component_too_large() {
    let above = f32::from_bits(16384f32.to_bits() + 1);
    for bad in [f32::NAN, f32::INFINITY, -f32::INFINITY, above, -above] {
        assert_eq!(Call::with(|c| c.x[29] = bad).plan(), Err(Refusal::ComponentTooLarge));
        assert_eq!(Call::with(|c| c.x[29] = bad).write(), Err(Refusal::ComponentTooLarge));
        assert_eq!(Call::with(|c| c.x[29] = bad).print(), Err(Refusal::ComponentTooLarge));
        let x = [0.0, 0.0, 0.0, bad, 0.0, 0.0];
        assert_eq!(vq_search(1, &x), Err(Refusal::ComponentTooLarge));
        assert_eq!(quantise_scalar(8, 1, bad), Err(Refusal::ComponentTooLarge));
        assert_eq!(quantise_bin(8, 1, &x), Err(Refusal::ComponentTooLarge));
    }
    for good in [16384.0, -16384.0] {
        assert!(Call::with(|c| c.x[29] = good).plan().is_ok());
        let x = [0.0, 0.0, 0.0, good, 0.0, 0.0];
        assert!(vq_search(1, &x).is_ok() && quantise_scalar(8, 1, good).is_ok() && quantise_bin(8, 1, &x).is_ok());
    }
    // nor is it looked at where nothing is coded
    assert!(Call::with(|c| (c.row[4], c.x[29]) = (0, f32::NAN)).plan().is_ok());
}

#[test]
fn refusal_6_plan_does_not_fit() {
    let good = Call::good().plan;
    let (mode, gains, payload) = (good.gaqmod(), good.gains().to_vec(), good.payload_bits());
    let plans = [
        AhtChannelPlan::new(4, &gains, payload),
        AhtChannelPlan::new(255, &gains, payload),
        AhtChannelPlan::new(2, &gains, payload),
        AhtChannelPlan::new(mode, &gains[..3], payload),
        AhtChannelPlan::new(mode, &[4, 2, 2, 2, 1], payload),
        AhtChannelPlan::new(mode, &[4, 2, 2, 3], payload),
        AhtChannelPlan::new(mode, &gains, payload + 1),
        AhtChannelPlan::new(mode, &gains, payload - 1),
        AhtChannelPlan::new(mode, &gains, u32::MAX),
        AhtChannelPlan::new(mode, &[1; 257], payload),
        AhtChannelPlan::new(mode, &[1; 5000], payload),
    ];
    for p in plans {
        assert_eq!(Call::with(|c| c.plan = p.clone()).write(), Err(Refusal::PlanDoesNotFit), "{p:?}");
        assert_eq!(Call::with(|c| c.plan = p.clone()).print(), Err(Refusal::PlanDoesNotFit), "{p:?}");
    }
    // 6 comes before 7
    assert_eq!(Call::with(|c| (c.plan, c.out) = (AhtChannelPlan::new(4, &[], 0), Vec::new())).write(), Err(Refusal::PlanDoesNotFit));
    let misfit = AhtChannelPlan::new(4, &[], 0);
    assert_eq!(Call::with(|c| (c.plan, c.page) = (misfit, Vec::new())).print(), Err(Refusal::PlanDoesNotFit));
    // such plans say what they were made of
    let many = AhtChannelPlan::new(9, &[7; 257], u32::MAX);
    assert_eq!((many.gaqmod(), many.gains(), many.count(), many.total_bits()), (9, &[7; 256][..], 257, (1 << 32) + 1));
}

#[test]
fn refusal_7_output_ends() {
    let faults: [fn(&mut Call); 6] = [
        |c| c.out.truncate(c.out.len() - 1),
        |c| c.out.clear(),
        |c| c.at = position(8 * c.out.len()),
        |c| c.at = Position { byte: c.out.len(), bit: 1 },
        |c| c.at = Position { byte: 0, bit: u32::MAX },
        |c| c.at = Position { byte: usize::MAX, bit: u32::MAX },
    ];
    for fault in faults {
        assert_eq!(Call::with(fault).write(), Err(Refusal::OutputEnds));
    }
    for len in [0, 65, 3249] {
        assert_eq!(Call::with(|c| c.page.truncate(len)).print(), Err(Refusal::OutputEnds));
    }
}

#[test]
fn refusal_8_input_ends() {
    let faults: [fn(&mut Call); 6] = [
        |c| c.src.truncate(c.src.len() - 1),
        |c| c.src.clear(),
        |c| c.at = position(8 * c.src.len()),
        |c| c.at = Position { byte: c.src.len(), bit: 1 },
        |c| c.at = Position { byte: 0, bit: u32::MAX },
        |c| c.at = Position { byte: usize::MAX, bit: u32::MAX },
    ];
    for fault in faults {
        assert_eq!(Call::with(fault).read(), Err(Refusal::InputEnds));
    }
}

/// A reader's call on a field of hebap 8 in mode 3: the group words, then the bins' codes, all 0.
fn group_words(bins: usize, words: &[u32]) -> Call {
    Call::with(|c| {
        let mut numbers = vec![(3, 2)];
        numbers.extend(words.iter().map(|&w| (w, 5)));
        numbers.extend(vec![(0, 18); bins]);
        c.src = bytes_of(&numbers);
        c.at = Position::default();
        c.row = vec![8; bins];
        c.end = bins;
    })
}

#[test]
fn refusal_9_group_word_above_26() {
    for word in 27..32 {
        assert_eq!(group_words(3, &[word]).read(), Err(Refusal::GroupWordAbove26));
        assert_eq!(group_words(4, &[0, word]).read(), Err(Refusal::GroupWordAbove26));
    }
    assert_eq!(group_words(3, &[26]).read().unwrap().gains(), [4, 4, 4]);
}

#[test]
fn refusal_10_unused_code_not_zero() {
    for word in 0..27 {
        let one = group_words(4, &[0, word]).read();
        let two = group_words(5, &[0, word]).read();
        let gain = |code: u32| [1, 2, 4][code as usize];
        if word % 9 == 0 {
            assert_eq!(one.unwrap().gains(), [1, 1, 1, gain(word / 9)]);
        } else {
            assert_eq!(one, Err(Refusal::UnusedCodeNotZero));
        }
        if word % 3 == 0 {
            assert_eq!(two.unwrap().gains(), [1, 1, 1, gain(word / 9), gain(word / 3 % 3)]);
        } else {
            assert_eq!(two, Err(Refusal::UnusedCodeNotZero));
        }
    }
}

#[test]
fn refusal_11_unknown_to_quantiser() {
    for (hebap, gk) in [(0, 1), (7, 1), (20, 1), (255, 1), (8, 0), (8, 3), (16, 5), (17, 2), (19, 4)] {
        // 11 comes before 5
        for x in [0.0, f32::NAN] {
            assert_eq!(quantise_scalar(hebap, gk, x), Err(Refusal::UnknownToQuantiser));
            assert_eq!(quantise_bin(hebap, gk, &[x; 6]), Err(Refusal::UnknownToQuantiser));
        }
    }
    for (hebap, gk) in [(8, 1), (19, 1), (16, 2), (16, 4)] {
        assert!(quantise_scalar(hebap, gk, 0.0).is_ok());
    }
}

// Each refusal by its number and its words; 12 is met by the small calls below. Numbers that are not known yet have
// words too.
#[test]
fn numbers_and_words() {
    let mut words = Vec::new();
    for number in 1..=255 {
        let refusal = Refusal::from_number(number).unwrap();
        assert_eq!(refusal.number(), number);
        assert_eq!(refusal == Refusal::Other(number), number > 13);
        let error: Box<dyn Error> = Box::new(refusal);
        words.push(error.to_string());
    }
    assert_eq!(words[0], "start is above end");
    assert_eq!(words[11], "a mode is above 3, a count of bits above 32, or a mask outside -65536 to 65536");
    assert_eq!(words[98], "refusal 99, which this version does not know");
    words.sort();
    words.dedup();
    assert_eq!(words.len(), 255);
    assert_eq!(Refusal::from_number(0), None);
}

#[test]
fn one_version() {
    let parts: Vec<u32> = env!("CARGO_PKG_VERSION").split('.').map(|n| n.parse().unwrap()).collect();
    assert_eq!(version(), 10000 * parts[0] + 100 * parts[1] + parts[2]);
}

// ---- the small calls; what is expected is worked out by hand from Annex E, 3.4

#[test]
fn numbers_as_bits() {
    let mut out = [0xff, 0x00, 0xff];
    let mut here = position(3);
    assert_eq!(write_u32(&mut out, &mut here, 0b0_1010_0101, 9), Ok(()));
    // 111 0 1010 0101 0000 1111 1111: the bits in front and behind are kept
    assert_eq!((out, here), ([0b1110_1010, 0b0101_0000, 0xff], position(12)));
    let mut here = position(3);
    assert_eq!(read_u32(&out, &mut here, 9), Ok(0b0_1010_0101));
    assert_eq!(here, position(12));
    assert_eq!(read_u32(&out, &mut here, 0), Ok(0));
    assert_eq!(read_u32(&out, &mut here, 13), Err(Refusal::InputEnds));
    assert_eq!(read_u32(&out, &mut here, 33), Err(Refusal::ArgumentOutOfRange));
    assert_eq!(write_u32(&mut out, &mut here, 0, 13), Err(Refusal::OutputEnds));
    assert_eq!(write_u32(&mut out, &mut here, 0, 33), Err(Refusal::ArgumentOutOfRange));
    assert_eq!((out, here), ([0b1110_1010, 0b0101_0000, 0xff], position(12)));
}

#[test]
fn hebap_of_an_address() {
    // the first and the last entry of Table E3.1, and the ninth, at the address 8: (psd - mask) / 32, held to 0 to 63
    assert_eq!(hebap_from_address(0, 1), Ok(0));
    assert_eq!(hebap_from_address(8 * 32, 0), Ok(8));
    assert_eq!(hebap_from_address(i16::MAX, -65536), Ok(19));
    assert_eq!(hebap_from_address(0, 65537), Err(Refusal::ArgumentOutOfRange));
    assert_eq!(hebap_from_address(0, -65537), Err(Refusal::ArgumentOutOfRange));
}

#[test]
fn gains_of_a_row() {
    assert_eq!((0..4).map(|m| endbap_for_gaqmod(m).unwrap()).collect::<Vec<_>>(), [12, 12, 17, 17]);
    let row = [0, 7, 8, 11, 12, 16, 17, 19];
    let mut marks = [9; 8];
    assert_eq!(fill_gaqbin(&row, 1, &mut marks), Ok(2));
    assert_eq!(marks, [0, 0, 1, 1, -1, -1, -1, -1]);
    assert_eq!(fill_gaqbin(&row, 3, &mut marks), Ok(4));
    assert_eq!(marks, [0, 0, 1, 1, 1, 1, -1, -1]);
    assert_eq!((0..4).map(|m| gaq_sections(m, 4).unwrap()).collect::<Vec<_>>(), [0, 4, 4, 2]);
    assert_eq!((0..4).map(|m| gaq_gain_value(1, m).unwrap()).collect::<Vec<_>>(), [1, 2, 4, 2]);
    assert_eq!(gaq_gain_value(2, 3), Ok(4));
    // two group words: 1 * 9 + 2 * 3 + 0 and 31, whose first code is cut to 2
    let (words, mut codes, mut here) = (bytes_of(&[(15, 5), (31, 5)]), [9; 7], position(0));
    assert_eq!(read_gaq_gains(&words, &mut here, 3, 2, &mut codes), Ok(6));
    assert_eq!((codes, here), ([1, 2, 0, 2, 1, 1, 9], position(10)));
    assert_eq!(read_gaq_gains(&words, &mut here, 3, 2, &mut codes), Err(Refusal::InputEnds));
    for refused in [endbap_for_gaqmod(4).err(), fill_gaqbin(&row, 4, &mut marks).err(), gaq_sections(4, 1).err(), gaq_gain_value(0, 4).err()] {
        assert_eq!(refused, Some(Refusal::ArgumentOutOfRange));
    }
    assert_eq!(read_gaq_gains(&words, &mut here, 4, 2, &mut codes), Err(Refusal::ArgumentOutOfRange));
    assert_eq!((marks, codes, here), ([0, 0, 1, 1, 1, 1, -1, -1], [1, 2, 0, 2, 1, 1, 9], position(10)));
}

#[test]
fn mantissas_and_vectors() {
    // hebap 19 at Gk 1: six numbers of 16 bits over 2^15; Table E3.6 has a = b = 0 there
    let src = bytes_of(&[(0x4000, 16), (0xc000, 16), (1, 16), (0, 16), (0xffff, 16), (0x7fff, 16)]);
    let mut here = position(0);
    let unit = 1.0 / 32768.0;
    assert_eq!(read_scalar_aht_mantissas(&src, &mut here, 19, 0, -1, 0), Ok([0.5, -0.5, unit, 0.0, -unit, 1.0 - unit]));
    assert_eq!(here, position(96));
    assert_eq!(read_scalar_aht_mantissas(&src, &mut here, 19, 0, -1, 0), Err(Refusal::InputEnds));
    assert_eq!(read_scalar_aht_mantissas(&src, &mut here, 20, 0, -1, 0), Err(Refusal::HebapAbove19));
    assert_eq!(read_scalar_aht_mantissas(&src, &mut here, 20, 4, -1, 0), Err(Refusal::ArgumentOutOfRange));
    assert_eq!(read_scalar_aht_mantissas(&src, &mut here, 7, 0, 0, 0), Ok([0.0; 6]));
    assert_eq!(here, position(96));
    // a vector of a book is its own nearest, and the index is counted round the book
    for (hebap, size) in [(1, 4), (2, 8), (3, 16), (4, 32), (5, 128), (6, 256), (7, 512)] {
        for index in [0, 1, size / 2, size - 1] {
            let v = vq_lookup(hebap, index);
            assert_eq!(vq_search(hebap, &v), Ok(index));
            assert_eq!(vq_lookup(hebap, index + size), v);
        }
    }
    assert_eq!((vq_lookup(0, 5), vq_lookup(8, 5)), ([0.0; 6], [0.0; 6]));
}
