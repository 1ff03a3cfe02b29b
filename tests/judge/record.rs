//! The recorded answers that crates/replay and crates/replay_channels replay: calls with what the Rust answers. Their
//! files stdin and stdout were made by `tests/compare FOLDER 20261117 record`, and tests/compare makes them again and
//! compares. read_u32, read_three and write_u32 are the stand-in's answers, read_aht_channel's those of the Rust's
//! reading functions in the order of the layout (shown.rs), print_pages' those of a second reading of docs/FORMAT.md
//! with the bits of the Rust's writer (pages.rs); the numbers of refusals are those of docs/FORMAT.md.
//!
//! Here are the calls below the planner, 256 bytes each, least significant byte first: 0 function, 1 refusal, 2 to 5
//! small arguments, 6 length of the input, 7 places of the output, 8 position's byte (8 bytes), 16 its bit (4), 20 a
//! number of 32 bits, 24 one of 64, 32 the input (24), 56 the output before (24), 80 the output after (24), 104 the
//! value, 112 and 120 the position after, 125 to 127 what the record is aimed at, 128 vectors (24). A refused call has
//! its value 0 and its position and output as they were, a refused bin is zeros. Channels are in record_channels.rs.
//!
//! Of each function first the calls that are aimed at something, then 250 drawn at random, all of them with components
//! up to 1024; then those that came with loud material, up to 16384, from a seed of their own: the others stayed.
use crate::eac3::{aht, ahtenc};
use crate::random::Random;
use crate::record_channels;
use crate::signals::{aimed, allowed, bin_of, book_size, code_of, component, edges, loud, loud_tie, nudged, outside, EARLIER, LARGEST};
use oxideav_core::bits::{BitReader, BitWriter};

/// What a record is aimed at, at its place 127; tests/reach has their names, and wants each of them.
pub mod aim {
    /// Two causes hold; which ones stands at 125 and 126.
    pub const TWO_CAUSES: u8 = 1;
    /// A position of 2^32 bytes or more, whose number of bits may not fit 64 bits.
    pub const FAR: u8 = 2;
    /// A search whose answer another order of the sum, another width or a fused operation changes.
    pub const NEAR_TIE: u8 = 3;
    /// Two vectors of a book equally far.
    pub const TIE: u8 = 4;
    /// A component that is NaN or infinite.
    pub const NO_NUMBER: u8 = 5;
    /// hebap 18 at 16379 / 32768, where exact errors would pick another code.
    pub const INEXACT: u8 = 6;
    /// The lowest code at Gk 1.
    pub const LOWEST_CODE: u8 = 7;
    /// Six or more bins, with more than 28 bytes ahead of some.
    pub const LONG: u8 = 8;
    /// Two group words or more, the last one not full.
    pub const GROUP_WORDS: u8 = 9;
    /// Two group words or more, all full.
    pub const FULL_GROUPS: u8 = 10;
    /// start above 0.
    pub const LATER_START: u8 = 11;
    /// A plan that is not the best.
    pub const OTHER_PLAN: u8 = 12;
    /// Cause 6 by the mode, the count, a gain or the payload alone.
    pub const WRONG_MODE: u8 = 13;
    pub const WRONG_COUNT: u8 = 14;
    pub const WRONG_GAIN: u8 = 15;
    pub const WRONG_PAYLOAD: u8 = 16;
    /// Cause 3 by one buffer alone.
    pub const SHORT_ROW: u8 = 17;
    pub const SHORT_VECTORS: u8 = 18;
    pub const SHORT_VALUES: u8 = 19;
    pub const SHORT_EXACT: u8 = 20;
    pub const SHORT_INDICES: u8 = 21;
    /// An output, or an input, of which just the last bit is missing.
    pub const BIT_SHORT: u8 = 22;
    /// 1024 or 16384 in size, or the next f32 above or below.
    pub const LIMIT: u8 = 23;
    /// Half way between two codes, or nearly; where a code stops being small.
    pub const HALF: u8 = 24;
    /// Components from 1.25 to 16384 in size, one above 1024 or more.
    pub const LOUD: u8 = 25;
    /// Two vectors of a book equally far from one of 16384, where an ulp is 1/512.
    pub const LOUD_TIE: u8 = 26;
    /// On pages, each hebap in a mode, at one of its gains.
    pub const KINDS: u8 = 27;
    /// Bits of 99 or more.
    pub const DIGITS: u8 = 28;
    /// A line that is full, or not; two lines.
    pub const LINES: u8 = 29;
    /// An output of which just the last byte is missing.
    pub const BYTE_SHORT: u8 = 30;
    /// An output with bytes behind the pages.
    pub const REST_KEPT: u8 = 31;
    /// start = end.
    pub const NO_BINS: u8 = 32;
}

/// Positions that no buffer reaches; 2^61 bytes are 2^64 bits, which would wrap to 0.
pub const FAR: [(usize, u32); 7] =
    [(1 << 32, 0), (1 << 61, 0), ((1 << 61) - 1, 15), ((1 << 61) - 1, 7), (usize::MAX, u32::MAX), (0, u32::MAX), (usize::MAX - 1, 16)];

/// Components that are no numbers; the replay has one NaN for all of them.
pub const NO_NUMBERS: [f32; 4] = [f32::NAN, f32::INFINITY, f32::NEG_INFINITY, -f32::NAN];

struct Record([u8; 256]);

impl Record {
    fn new(function: u8) -> Self {
        let mut r = [0; 256];
        r[0] = function;
        Record(r)
    }
    fn aim(mut self, at: u8) -> Self {
        self.0[127] = at;
        self
    }
    fn two(mut self, a: u8, b: u8) -> Self {
        self.0[125..128].copy_from_slice(&[a, b, aim::TWO_CAUSES]);
        self
    }
    fn args(mut self, args: &[u8]) -> Self {
        self.0[2..2 + args.len()].copy_from_slice(args);
        self
    }
    fn src(mut self, src: &[u8]) -> Self {
        self.0[6] = src.len() as u8;
        self.0[32..32 + src.len()].copy_from_slice(src);
        self
    }
    /// The position; `over` bytes of it are said in bits, so that the bit is 8 or more.
    fn at(mut self, at: usize, over: usize) -> Self {
        let over = over.min(at / 8);
        self.0[8..16].copy_from_slice(&(at / 8 - over).to_le_bytes());
        self.0[16..20].copy_from_slice(&((at % 8 + 8 * over) as u32).to_le_bytes());
        self
    }
    fn position(mut self, (byte, bit): (usize, u32)) -> Self {
        self.0[8..16].copy_from_slice(&byte.to_le_bytes());
        self.0[16..20].copy_from_slice(&bit.to_le_bytes());
        self
    }
    fn arg32(mut self, v: u32) -> Self {
        self.0[20..24].copy_from_slice(&v.to_le_bytes());
        self
    }
    fn arg64(mut self, v: usize) -> Self {
        self.0[24..32].copy_from_slice(&v.to_le_bytes());
        self
    }
    fn out(mut self, before: &[u8], after: &[u8]) -> Self {
        self.0[7] = before.len() as u8;
        self.0[56..56 + before.len()].copy_from_slice(before);
        self.0[80..80 + after.len()].copy_from_slice(after);
        self
    }
    /// Six numbers as the output after the call.
    fn floats(mut self, y: &[f32; 6]) -> Self {
        for (place, v) in self.0[80..104].chunks_exact_mut(4).zip(y) {
            place.copy_from_slice(&v.to_bits().to_le_bytes());
        }
        self
    }
    /// The components.
    fn vectors(mut self, x: &[f32]) -> Self {
        for (place, v) in self.0[128..152].chunks_exact_mut(4).zip(x) {
            place.copy_from_slice(&v.to_bits().to_le_bytes());
        }
        self
    }
    fn answer(mut self, refusal: u8, value: usize, next: usize) -> Self {
        self.0[1] = refusal;
        self.0[104..112].copy_from_slice(&value.to_le_bytes());
        self.0[112..120].copy_from_slice(&(next / 8).to_le_bytes());
        self.0[120..124].copy_from_slice(&((next % 8) as u32).to_le_bytes());
        self
    }
}

/// The records of one function, and how many.
pub struct Records {
    pub name: &'static str,
    pub bytes: Vec<u8>,
    pub count: usize,
}

const NAMES: [&str; 18] = [
    "", "read_u32", "write_u32", "hebap_from_address", "endbap_for_gaqmod", "fill_gaqbin", "gaq_sections", "gaq_gain_value", "read_gaq_gains",
    "read_scalar_aht_mantissas", "vq_lookup", "vq_search", "quantise_scalar", "quantise_bin", "", "", "", "read_three",
];

/// Writes the files stdin, and stdout as it is when no answer is wrong, of both programs.
pub fn write(seed: u64, crates: &str) {
    let (mut random, mut later, mut last) = (Random::new(seed), Random::new(seed + 1), Random::new(seed + 2));
    let calls = (1..=13).chain([17]).map(|f| {
        let mut records = special(f, &mut random);
        records.extend((0..250).map(|i| one(f, i, &mut random)));
        records.extend(loud_ones(f, &mut later));
        Records { name: NAMES[f as usize], bytes: records.iter().flat_map(|r| r.0).collect(), count: records.len() }
    });
    let calls: Vec<Records> = calls.collect();
    let channels = record_channels::records(&mut random, &mut later, &mut last);
    for (program, all) in [("replay", &calls), ("replay_channels", &channels)] {
        let stdin: Vec<u8> = all.iter().flat_map(|r| r.bytes.iter().copied()).collect();
        let stdout: String = all.iter().map(|r| format!("{}: {} answers, 0 wrong\n", r.name, r.count)).collect();
        std::fs::write(format!("{crates}/{program}/stdin"), stdin).expect("the list can be written");
        std::fs::write(format!("{crates}/{program}/stdout"), stdout).expect("the list can be written");
        println!("record: {} answers of the Rust for {program}, seed {seed}", all.iter().map(|r| r.count).sum::<usize>());
    }
}

/// The calls of a function that are aimed at something.
fn special(f: u8, random: &mut Random) -> Vec<Record> {
    let src = random.bytes(9);
    let mut out = Vec::new();
    match f {
        // read_u32
        1 => {
            for (n, at) in [(33, 73), (64, 80), (255, 73), (u32::MAX, 200), (33, 70)] {
                out.push(Record::new(f).src(&src).at(at, 0).arg32(n).answer(12, 0, at).two(8, 12));
            }
            for p in FAR {
                for n in [0, 1, 32] {
                    out.push(Record::new(f).src(&src).position(p).arg32(n).answer(8, 0, 0).aim(aim::FAR));
                }
            }
            for n in 1..=32 {
                out.push(Record::new(f).src(&src).at(73 - n as usize, 0).arg32(n).answer(8, 0, 0).aim(aim::BIT_SHORT));
            }
        }
        // write_u32
        2 => {
            for (n, at) in [(33, 73), (64, 80), (255, 73), (33, 70)] {
                out.push(Record::new(f).at(at, 0).args(&[n]).out(&src, &src).answer(12, 0, at).two(7, 12));
            }
            for p in FAR {
                for n in [0, 1, 32] {
                    out.push(Record::new(f).position(p).args(&[n]).out(&src, &src).answer(7, 0, 0).aim(aim::FAR));
                }
            }
            for n in 1..=32 {
                out.push(Record::new(f).at(73 - n as usize, 0).args(&[n]).out(&src, &src).answer(7, 0, 0).aim(aim::BIT_SHORT));
            }
        }
        // read_three: the first number that is refused decides
        17 => {
            for (widths, number, a, b) in [([33, 0, 0], 12, 12, 8), ([40, 32, 32], 12, 12, 8), ([32, 32, 33], 8, 8, 12), ([32, 41, 32], 12, 12, 8)] {
                let at = if number == 12 && widths[0] > 32 { 73 } else { 40 };
                let at = if widths == [32, 41, 32] { 8 } else { at };
                out.push(Record::new(f).src(&src).at(at, 0).args(&widths).answer(number, 0, at).two(a, b));
            }
            for p in FAR {
                out.push(Record::new(f).src(&src).position(p).args(&[0, 0, 0]).answer(8, 0, 0).aim(aim::FAR));
            }
            for widths in [[32, 32, 9], [1, 32, 32], [5, 5, 5]] {
                let at = 73 - widths.iter().map(|&n| n as usize).sum::<usize>();
                out.push(Record::new(f).src(&src).at(at, 0).args(&widths).answer(8, 0, at).aim(aim::BIT_SHORT));
            }
        }
        // read_gaq_gains
        8 => {
            let before = random.bytes(6);
            for mode in [4, 5, 255] {
                out.push(Record::new(f).src(&src).at(73, 0).args(&[mode]).arg64(6).out(&before, &before).answer(12, 0, 73).two(8, 12));
            }
            for p in FAR {
                for mode in 0..4 {
                    out.push(Record::new(f).src(&src).position(p).args(&[mode]).arg64(2).out(&before, &before).answer(8, 0, 0).aim(aim::FAR));
                }
            }
            for (mode, sections, bits) in [(1, 6, 6), (2, 6, 6), (3, 6, 30), (3, 1, 5)] {
                let at = 73 - bits;
                out.push(Record::new(f).src(&src).at(at, 0).args(&[mode]).arg64(sections).out(&before, &before).answer(8, 0, at).aim(aim::BIT_SHORT));
            }
        }
        // read_scalar_aht_mantissas
        9 => {
            let kept = [0x42u8; 24];
            let at = 73;
            for (hebap, mode, number, a, b) in [(20, 4, 12, 4, 12), (255, 255, 12, 4, 12), (8, 4, 12, 8, 12), (0, 9, 12, 8, 12), (20, 3, 4, 4, 8), (255, 0, 4, 4, 8)] {
                let at = if b == 8 || a == 8 { at } else { 0 };
                out.push(Record::new(f).src(&src).at(at, 0).args(&[hebap, mode, 1, 0]).out(&kept, &kept).answer(number, 0, at).two(a, b));
            }
            for p in FAR {
                for hebap in [0, 5, 8, 19] {
                    out.push(Record::new(f).src(&src).position(p).args(&[hebap, 0, 0, 0]).out(&kept, &kept).answer(8, 0, 0).aim(aim::FAR));
                }
            }
            for hebap in 8..=19 {
                let m = u32::from(aht::HEBAP_MANT_BITS[hebap as usize]);
                let mut w = BitWriter::new();
                for k in 0..6u32 {
                    w.write_u32(if k % 2 == 0 { 1 << (m - 1) } else { k }, m);
                }
                let src = w.finish();
                out.push(scalar(f, &src, 0, 0, hebap, 0, 0, 0).aim(aim::LOWEST_CODE));
                let short = scalar(f, &src, 8 * src.len() + 1 - 6 * m as usize, 0, hebap, 0, 0, 0);
                assert_eq!(short.0[1], 8);
                out.push(short.aim(aim::BIT_SHORT));
            }
        }
        // vq_search
        11 => {
            for hebap in 1..=7 {
                for (other, at) in OTHERS {
                    for x in nearly_tied(hebap, other, random) {
                        let index = ahtenc::vq_search(hebap, &x);
                        out.push(Record::new(f).args(&[hebap]).vectors(&x).answer(0, index, 0).aim(at));
                    }
                }
            }
            for hebap in [0, 1, 2, 3, 4, 5, 6, 7, 8, 19, 255u8] {
                for (j, bad) in NO_NUMBERS.into_iter().enumerate() {
                    let mut x = [0.25f32; 6];
                    x[(j + hebap as usize) % 6] = bad;
                    out.push(searched(f, hebap, x).aim(aim::NO_NUMBER));
                }
            }
            for (j, x) in edges(EARLIER).into_iter().enumerate() {
                let hebap = 1 + (j % 7) as u8;
                let mut v = [0.1f32; 6];
                v[j % 6] = x;
                out.push(searched(f, hebap, v).aim(aim::LIMIT));
            }
        }
        // quantise_scalar and quantise_bin: every component of a bin in turn
        12 | 13 => {
            let each = |x: f32, hebap: u8, gk: u8, j: usize| {
                let mut six = [0.1f32; 6];
                six[j % 6] = x;
                if f == 12 { quantised(f, hebap, gk, x) } else { quantised_bin(f, hebap, gk, six) }
            };
            let x = 16379.0 / 32768.0;
            assert_eq!((code_of(18, 1, x).1, code_of(18, 1, -x).1), (4094, 16384 - 4095), "the code that f32 errors pick");
            for j in 0..6 {
                out.push(each(x, 18, 1, j).aim(aim::INEXACT));
            }
            let halves = [
                (8, 2, 0.125),
                (8, 2, -0.125),
                (8, 2, 0.375),
                (8, 2, -0.375),
                (8, 2, -0.374995),
                (8, 4, 0.125),
                (8, 4, nudged(0.125, -1)),
                (9, 2, 0.375),
                (9, 2, 0.4375),
                (9, 2, -0.4375),
                (10, 2, 2.5 / 16.0),
                (10, 4, -1.5 / 16.0),
                (19, 1, 1.0 / 65536.0),
                (19, 1, -1.0 / 65536.0),
            ];
            for (j, (hebap, gk, x)) in halves.into_iter().enumerate() {
                out.push(each(x, hebap, gk, j).aim(aim::HALF));
            }
            for (j, bad) in NO_NUMBERS.into_iter().enumerate() {
                for (hebap, gk) in [(7, 1), (20, 1), (8, 3), (16, 0), (17, 2), (19, 4), (0, 0), (255, 255)] {
                    let r = each(bad, hebap, gk, j);
                    assert_eq!(r.0[1], 11);
                    out.push(r.two(5, 11));
                }
                for (hebap, gk) in [(8, 1), (12, 2), (16, 4), (19, 1)] {
                    let r = each(bad, hebap, gk, j + hebap as usize);
                    assert_eq!(r.0[1], 5);
                    out.push(r.aim(aim::NO_NUMBER));
                }
            }
            for (j, x) in edges(EARLIER).into_iter().enumerate() {
                out.push(each(x, 8 + (j % 9) as u8, [1, 2, 4][j % 3], j).aim(aim::LIMIT));
            }
        }
        _ => {}
    }
    out
}

/// The calls of a function that came with loud material.
fn loud_ones(f: u8, random: &mut Random) -> Vec<Record> {
    let mut out = Vec::new();
    match f {
        // vq_search
        11 => {
            for hebap in 1..=7 {
                for x in loudly_tied(hebap, random) {
                    out.push(searched(f, hebap, x).aim(aim::LOUD_TIE));
                    out.push(searched(f, hebap, six_loud(random)).aim(aim::LOUD));
                }
            }
            for (j, x) in edges(LARGEST).into_iter().enumerate() {
                let mut v = [0.1f32; 6];
                v[j % 6] = x;
                out.push(searched(f, 1 + (j % 7) as u8, v).aim(aim::LIMIT));
            }
        }
        // quantise_scalar and quantise_bin: every hebap and gain
        12 | 13 => {
            let of = |hebap, gk, j: usize, x: [f32; 6]| if f == 12 { quantised(f, hebap, gk, x[j]) } else { quantised_bin(f, hebap, gk, x) };
            for (hebap, gk) in (8..=19).flat_map(|h| [1, 2, 4].map(|g| (h, g))).filter(|&(h, g)| allowed(h, g)) {
                out.push(of(hebap, gk, 0, six_loud(random)).aim(aim::LOUD));
            }
            for (j, x) in edges(LARGEST).into_iter().enumerate() {
                let mut v = [0.1f32; 6];
                v[j] = x;
                out.push(of(8 + j as u8, [1, 2, 4][j % 3], j, v).aim(aim::LIMIT));
            }
        }
        _ => {}
    }
    out
}

/// Six loud components, the first above 1024.
pub fn six_loud(random: &mut Random) -> [f32; 6] {
    let mut x = core::array::from_fn(|_| loud(random));
    while x[0].abs() <= EARLIER {
        x[0] = loud(random);
    }
    x
}

/// Two vectors with a component of 16384 for which the last of equals is another than the first.
fn loudly_tied(hebap: u8, random: &mut Random) -> Vec<[f32; 6]> {
    let book: Vec<[f32; 6]> = (0..book_size(hebap)).map(|i| aht::vq_lookup(hebap, i)).collect();
    let mut out = Vec::new();
    while out.len() < 2 {
        let x = loud_tie(random, hebap);
        if last(&book, &x) != ahtenc::vq_search(hebap, &x) {
            out.push(x);
        }
    }
    out
}

/// Searches that are nearly the Rust's: the last two components added in the other order, all of them backwards, in
/// f64, with fused operations, and the last of equals taken.
type Search = fn(&[[f32; 6]], &[f32; 6]) -> usize;
const OTHERS: [(Search, u8); 5] = [
    (exchanged, aim::NEAR_TIE),
    (backwards, aim::NEAR_TIE),
    (wider, aim::NEAR_TIE),
    (fused, aim::NEAR_TIE),
    (last, aim::TIE),
];

fn first_least(d: impl Iterator<Item = f64>) -> usize {
    d.enumerate().fold((0, f64::INFINITY), |best, (i, d)| if d < best.1 { (i, d) } else { best }).0
}

fn in_order(book: &[[f32; 6]], x: &[f32; 6], order: [usize; 6]) -> usize {
    first_least(book.iter().map(|v| f64::from(order.iter().fold(0f32, |sum, &j| sum + (x[j] - v[j]) * (x[j] - v[j])))))
}

fn exchanged(book: &[[f32; 6]], x: &[f32; 6]) -> usize {
    in_order(book, x, [0, 1, 2, 3, 5, 4])
}

fn backwards(book: &[[f32; 6]], x: &[f32; 6]) -> usize {
    in_order(book, x, [5, 4, 3, 2, 1, 0])
}

fn wider(book: &[[f32; 6]], x: &[f32; 6]) -> usize {
    first_least(book.iter().map(|v| (0..6).map(|j| (f64::from(x[j]) - f64::from(v[j])).powi(2)).sum()))
}

fn fused(book: &[[f32; 6]], x: &[f32; 6]) -> usize {
    first_least(book.iter().map(|v| f64::from((0..6).fold(0f32, |sum, j| (x[j] - v[j]).mul_add(x[j] - v[j], sum)))))
}

fn last(book: &[[f32; 6]], x: &[f32; 6]) -> usize {
    let d = |v: &[f32; 6]| (0..6).fold(0f32, |sum, j| sum + (x[j] - v[j]) * (x[j] - v[j]));
    (0..book.len()).fold((0, f32::INFINITY), |best, i| if d(&book[i]) <= best.1 { (i, d(&book[i])) } else { best }).0
}

/// Two vectors for which another search answers something else than the Rust's: half way between neighbours of a
/// book, a few steps off.
fn nearly_tied(hebap: u8, other: Search, random: &mut Random) -> Vec<[f32; 6]> {
    let book: Vec<[f32; 6]> = (0..book_size(hebap)).map(|i| aht::vq_lookup(hebap, i)).collect();
    let mut out = Vec::new();
    while out.len() < 2 {
        let i = random.below(book.len());
        let distance = |j: &usize| (0..6).map(|k| (book[i][k] - book[*j][k]).powi(2)).sum::<f32>();
        let mut by: Vec<usize> = (0..book.len()).filter(|&j| j != i).collect();
        by.sort_by(|a, b| distance(a).total_cmp(&distance(b)));
        for &j in &by[..by.len().min(3)] {
            // multiples of 2^-17 have ties, others near ones
            let whole = random.below(2) == 0;
            let x = core::array::from_fn(|k| {
                let mid = (book[i][k] + book[j][k]) / 2.0;
                if whole { mid + random.below(3) as f32 / 131072.0 } else { nudged(mid, random.below(5) as i32 - 2) }
            });
            if other(&book, &x) != ahtenc::vq_search(hebap, &x) && out.len() < 2 {
                out.push(x);
            }
        }
    }
    out
}

fn one(f: u8, i: usize, random: &mut Random) -> Record {
    let len = random.below(25);
    let src = random.bytes(len);
    let at = random.below(8 * len + 3);
    let over = if i % 7 == 0 { random.below(4) } else { 0 };
    match f {
        // read_u32
        1 => {
            let n = random.below(35) as u32;
            let r = Record::new(f).src(&src).at(at, over).arg32(n);
            if n > 32 {
                return r.answer(12, 0, at);
            }
            match BitReader::at(&src, at).and_then(|mut b| b.read_u32(n)) {
                Ok(v) => r.answer(0, v as usize, at + n as usize),
                Err(_) => r.answer(8, 0, at),
            }
        }
        // read_three: one reader for three numbers, whose widths are the small arguments; they stand at 80
        17 => {
            let widths: [u8; 3] = core::array::from_fn(|_| random.below(if i % 5 == 0 { 35 } else { 25 }) as u8);
            let mut r = Record::new(f).src(&src).at(at, over).args(&widths);
            let mut reader = BitReader::at(&src, at);
            let mut numbers = [0; 12];
            for (place, n) in numbers.chunks_exact_mut(4).zip(widths) {
                if n > 32 {
                    return r.answer(12, 0, at);
                }
                match reader.as_mut().map_err(|e| *e).and_then(|b| b.read_u32(n.into())) {
                    Ok(v) => place.copy_from_slice(&v.to_le_bytes()),
                    Err(_) => return r.answer(8, 0, at),
                }
            }
            r.0[80..92].copy_from_slice(&numbers);
            r.answer(0, 0, reader.unwrap().taken())
        }
        // write_u32
        2 => {
            let n = random.below(35) as u32;
            let v = random.next() as u32;
            let r = Record::new(f).at(at, over).arg32(v).args(&[n as u8]);
            if n > 32 {
                return r.out(&src, &src).answer(12, 0, at);
            }
            if at + n as usize > 8 * len {
                return r.out(&src, &src).answer(7, 0, at);
            }
            let mut w = BitWriter::new();
            let mut b = BitReader::new(&src);
            for _ in 0..at {
                w.write_u32(b.read_u32(1).unwrap(), 1);
            }
            w.write_u32(v, n);
            let mut b = BitReader::at(&src, at + n as usize).unwrap();
            while let Ok(bit) = b.read_u32(1) {
                w.write_u32(bit, 1);
            }
            r.out(&src, &w.finish()).answer(0, 0, at + n as usize)
        }
        // hebap_from_address
        3 => {
            let psd = random.next() as i16;
            let mask = match i % 5 {
                0 => random.pick(&[65536, 65537, -65536, -65537, i32::MAX, i32::MIN]),
                _ => i32::from(psd) - random.below(2300) as i32 + 100,
            };
            let r = Record::new(f).args(&psd.to_le_bytes()).arg32(mask as u32);
            if (-65536..=65536).contains(&mask) {
                r.answer(0, aht::hebap_from_address(psd, mask) as usize, 0)
            } else {
                r.answer(12, 0, 0)
            }
        }
        // endbap_for_gaqmod
        4 => {
            let mode = i as u8;
            let r = Record::new(f).args(&[mode]);
            if mode > 3 { r.answer(12, 0, 0) } else { r.answer(0, aht::endbap_for_gaqmod(mode) as usize, 0) }
        }
        // fill_gaqbin
        5 => {
            let row: Vec<u8> = src.iter().map(|b| b % 21).collect();
            let mode = random.below(5) as u8;
            let places = random.below(25);
            let before = random.bytes(places);
            let mut given: Vec<i8> = before.iter().map(|&b| b as i8).collect();
            let r = Record::new(f).src(&row).args(&[mode]);
            if mode > 3 {
                return r.out(&before, &before).answer(12, 0, 0);
            }
            let active = aht::fill_gaqbin(&row, mode, &mut given);
            let after: Vec<u8> = given.iter().map(|&b| b as u8).collect();
            r.out(&before, &after).answer(0, active, 0)
        }
        // gaq_sections
        6 => {
            let mode = random.below(5) as u8;
            let active = if i % 3 == 0 { random.next() as usize } else { random.below(300) };
            let r = Record::new(f).args(&[mode]).arg64(active);
            if mode > 3 { r.answer(12, 0, 0) } else { r.answer(0, aht::gaq_sections(mode, active), 0) }
        }
        // gaq_gain_value
        7 => {
            let (code, mode) = ((i / 5) as u8, (i % 5) as u8);
            let r = Record::new(f).args(&[code, mode]);
            if mode > 3 { r.answer(12, 0, 0) } else { r.answer(0, aht::gaq_gain_value(code, mode) as usize, 0) }
        }
        // read_gaq_gains
        8 => {
            let mode = random.below(5) as u8;
            let sections = if i % 25 == 0 { usize::MAX - random.below(2) } else { random.below(30) };
            let places = random.below(25);
            let before = random.bytes(places);
            let mut given = before.clone();
            let r = Record::new(f).src(&src).at(at, over).args(&[mode]).arg64(sections);
            if mode > 3 {
                return r.out(&before, &before).answer(12, 0, at);
            }
            let read = BitReader::at(&src, at).and_then(|mut b| aht::read_gaq_gains(&mut b, mode, sections, &mut given).map(|n| (n, b.taken())));
            match read {
                Ok((n, end)) => r.out(&before, &given).answer(0, n, end),
                Err(_) => r.out(&before, &before).answer(8, 0, at),
            }
        }
        // vq_lookup
        10 => {
            let hebap = (i % 9) as u8;
            let index = if i % 4 == 0 { random.next() as usize } else { random.below(600) };
            Record::new(f).args(&[hebap]).arg64(index).floats(&aht::vq_lookup(hebap, index)).answer(0, 0, 0)
        }
        // vq_search
        11 => {
            let hebap = (i % 9) as u8;
            let x = six(random, i, |random| component(random, EARLIER) / 4.0);
            searched(f, hebap, x)
        }
        // quantise_scalar: every hebap and gain
        12 => {
            let (hebap, gk) = gain_of(i);
            let x = six(random, i, |random| if allowed(hebap, gk) { aimed(random, hebap, gk) } else { component(random, EARLIER) })[i % 6];
            quantised(f, hebap, gk, x)
        }
        // quantise_bin
        13 => {
            let (hebap, gk) = gain_of(i);
            let x = six(random, i, |random| if allowed(hebap, gk) && random.below(2) == 0 { aimed(random, hebap, gk) } else { component(random, EARLIER) });
            quantised_bin(f, hebap, gk, x)
        }
        // read_scalar_aht_mantissas: first every hebap and gain, with codes chosen so that half of them are behind
        // the tag
        _ if i < 216 => {
            let (hebap, gain) = (8 + (i % 36 / 3) as u8, i % 3);
            let m = u32::from(aht::HEBAP_MANT_BITS[hebap as usize]);
            let (mode, code, small, large) = [(0, 0, 0, m), (1, 1, m - 1, m - 1), (2 + (i / 36 % 2) as u8, 2, m - 2, m)][gain];
            let at = random.below(8);
            let mut w = BitWriter::new();
            w.write_u32(random.next() as u32, at as u32);
            for _ in 0..6 {
                let ends = [0, (1u32 << large) - 1, 1 << (large - 1), (1 << (large - 1)) - 1];
                let l = if random.below(3) == 0 { random.pick(&ends) } else { random.below(1 << large) as u32 };
                if small == 0 {
                    w.write_u32(l, large);
                } else if random.below(2) == 0 {
                    w.write_u32(1 << (small - 1), small);
                    w.write_u32(l, large);
                } else {
                    w.write_u32(random.below(1 << small) as u32, small);
                    w.write_u32(l, large);
                }
            }
            let mut src = w.finish();
            src.truncate(24);
            scalar(f, &src, at, over, hebap, mode, 1, code)
        }
        _ => {
            let (hebap, mode, code) = (random.below(22) as u8, random.below(5) as u8, random.below(4) as u8);
            let gaqbin = random.pick(&[1i8, 1, 0, -1]);
            let (gaqbin, code) = if i % 5 == 0 { (random.pick(&[2i8, 127, -128, 1]), random.pick(&[1u8, 2, 9, 255])) } else { (gaqbin, code) };
            scalar(f, &src, at / 3, over, hebap, mode, gaqbin, code)
        }
    }
}

#[allow(clippy::too_many_arguments)]
fn scalar(f: u8, src: &[u8], at: usize, over: usize, hebap: u8, mode: u8, gaqbin: i8, code: u8) -> Record {
    let before = vec![0x42u8; 24];
    let mut given = [0f32; 6];
    let r = Record::new(f).src(src).at(at, over).args(&[hebap, mode, gaqbin as u8, code]);
    if mode > 3 {
        return r.out(&before, &before).answer(12, 0, at);
    }
    if hebap > 19 {
        return r.out(&before, &before).answer(4, 0, at);
    }
    let read = BitReader::at(src, at).and_then(|mut b| aht::read_scalar_aht_mantissas(&mut b, hebap, mode, gaqbin, code, &mut given).map(|()| b.taken()));
    match read {
        Ok(end) => {
            let after: Vec<u8> = given.iter().flat_map(|y| y.to_bits().to_le_bytes()).collect();
            r.out(&before, &after).answer(0, 0, end)
        }
        Err(_) => r.out(&before, &before).answer(8, 0, at),
    }
}

fn searched(f: u8, hebap: u8, x: [f32; 6]) -> Record {
    let r = Record::new(f).args(&[hebap]).vectors(&x);
    if book_size(hebap) > 0 && x.iter().any(|&v| outside(v)) {
        return r.answer(5, 0, 0);
    }
    r.answer(0, ahtenc::vq_search(hebap, &x), 0)
}

/// The last of the small arguments says whether the code is large.
fn quantised(f: u8, hebap: u8, gk: u8, x: f32) -> Record {
    let r = Record::new(f).vectors(&[x]);
    if !allowed(hebap, gk) {
        return r.args(&[hebap, gk]).answer(11, 0, 0);
    }
    if outside(x) {
        return r.args(&[hebap, gk]).answer(5, 0, 0);
    }
    let (large, code, _, y) = code_of(hebap, gk, x);
    r.args(&[hebap, gk, large]).floats(&[y, 0.0, 0.0, 0.0, 0.0, 0.0]).answer(0, code as usize, 0)
}

/// The error stands as the number of 32 bits.
fn quantised_bin(f: u8, hebap: u8, gk: u8, x: [f32; 6]) -> Record {
    let r = Record::new(f).args(&[hebap, gk]).vectors(&x);
    if !allowed(hebap, gk) {
        return r.answer(11, 0, 0);
    }
    if x.iter().any(|&v| outside(v)) {
        return r.answer(5, 0, 0);
    }
    let (bits, err, values) = bin_of(hebap, gk, &x);
    r.arg32(err.to_bits()).floats(&values).answer(0, bits as usize, 0)
}

/// Every hebap from 7 to 20 with every gain, and one that is none.
fn gain_of(i: usize) -> (u8, u8) {
    (7 + (i % 14) as u8, [1, 2, 4, 1, 4, 2, 3][i / 14 % 7])
}

/// Six components, now and then one that is not answered.
fn six(random: &mut Random, i: usize, mut one: impl FnMut(&mut Random) -> f32) -> [f32; 6] {
    let mut x = core::array::from_fn(|_| one(random));
    if i % 11 == 5 {
        x[i % 6] = random.pick(&[f32::INFINITY, f32::NEG_INFINITY, 1024.0001, -4096.0, 1024.0]);
    }
    x
}
