//! The recorded answers of plan_aht_channel, write_aht_channel, read_aht_channel and print_pages (functions 14, 15, 16
//! and 18), 1024 bytes each, least significant byte first, with up to eight bins: 0 function, 1 refusal, 2 mode,
//! 3 length of the row, 4 how many components, 5 length of the bytes, 6 and 7 how many values and exact values,
//! 8 position's byte (8 bytes), 16 its bit (4), 20 the plan's payload (4), 24 start (8), 32 end (8), 40 count (8), 48
//! how many indices, 56 the row (16), 72 gains (32), 104 the value (8), 112 and 120 the position after, 125 to 127 what
//! the record is aimed at, 128 vectors (192), 320 bytes (128), 448 bytes after (128), 576 values (192), 768 exact
//! values (192), 960 indices (16).
//!
//! Mode, count and gains are the plan's that is handed in, or that was planned, or what was read. The value is the
//! payload that was planned, or the bits of the field that was read. The gains that are handed in are 256: the 32 again
//! and again. Values, exact values and indices are bytes 0x42 before the call. A refused plan or read is zeros.
//!
//! Of pages there are no bytes and no position: 8 is the length of the output (8 bytes), at most 3300, 104 that of the
//! pages, 0 for a refusal, and 320 their first two lines (130), on which eight bins stand; zeros where there is none.
//! The other 48 lines are spaces by docs/FORMAT.md. The output's bytes are 0x42 before the call. The answers are those
//! of pages.rs.
use crate::eac3::{aht, ahtenc};
use crate::pages;
use crate::random::Random;
use crate::record::{aim, six_loud, Records, FAR, NO_NUMBERS};
use crate::shown;
use crate::signals::{bin_of, cause, channel, edges, fitting, gains_of, outside, plan_with, some_plan, unfit, unit, vectors, with_field, EARLIER, LARGEST};
use oxideav_core::bits::{BitReader, BitWriter};

const PLAN: u8 = 14;
const WRITE: u8 = 15;
const READ: u8 = 16;
const PRINT: u8 = 18;

/// The highest number that a function refuses with, but 9 and 10, which stand in the field.
fn last_cause(f: u8) -> u8 {
    match f {
        PLAN => 5,
        READ => 8,
        _ => 7,
    }
}

/// The bytes of a page.
const PAGE: usize = 3250;

/// Everything that one of the calls is given.
#[derive(Clone)]
struct Call {
    row: Vec<u8>,
    x: Vec<f32>,
    start: usize,
    end: usize,
    mode: u8,
    gains: [u8; 32],
    count: usize,
    payload: u32,
    bytes: Vec<u8>,
    position: (usize, u32),
    values: usize,
    exact: usize,
    indices: usize,
    /// How many bytes are lent for pages.
    room: usize,
}

impl Call {
    /// A call for these bins whose plan is the Rust's or another, with its field at a bit position of the bytes.
    fn of(row: Vec<u8>, x: Vec<f32>, start: usize, end: usize, plan: &ahtenc::AhtChannelPlan, at: usize, random: &mut Random) -> Call {
        let total = 2 + plan.payload_bits as usize;
        let len = ((at + total).div_ceil(8) + random.below(3)).min(128);
        let bytes = with_field(&random.bytes(len), at, plan, &row, start, end, &x).0;
        // the places that no gain uses hold other numbers
        let gains = core::array::from_fn(|i| plan.gains.get(i).map_or_else(|| 3 + random.below(250) as u8, |&code| [1, 2, 4][code as usize]));
        let over = if random.below(5) == 0 { random.below(at / 8 + 1) } else { 0 };
        let position = (at / 8 - over, (at % 8 + 8 * over) as u32);
        let bins = row.len();
        let room = PAGE * (end - start).div_ceil(200);
        Call { row, x, start, end, mode: plan.gaqmod, gains, count: plan.gains.len(), payload: plan.payload_bits, bytes, position, values: 6 * bins, exact: 6 * bins, indices: bins, room }
    }

    fn drawn(random: &mut Random, bins: usize) -> Call {
        let (row, x) = channel(random, bins, EARLIER);
        let start = if random.below(3) == 0 { random.below(bins + 1) } else { 0 };
        let end = start + if random.below(3) == 0 { random.below(bins - start + 1) } else { bins - start };
        let plan = some_plan(random, &row, start, end, &x);
        let at = random.below(40);
        Call::of(row, x, start, end, &plan, at, random)
    }

    /// Five bins, of which the last four are called for, so that every cause can be put in: books, active bins, others.
    fn plain(random: &mut Random) -> Call {
        let row = vec![19, 9, 12, 3, 8];
        let x = (0..30).map(|_| unit(random) - 0.5).collect::<Vec<_>>();
        let plan = ahtenc::plan_aht_channel(&row, 1, 5, &vectors(&x));
        Call::of(row, x, 1, 5, &plan, 11, random)
    }

    /// The number of bits where the position lies, if the bytes reach there.
    fn at(&self) -> Option<usize> {
        let at = 8 * self.position.0 as u128 + u128::from(self.position.1);
        (at <= 8 * self.bytes.len() as u128).then_some(at as usize)
    }

    /// Cause 1 to 4 at the reader.
    fn reader_cause(&self) -> u8 {
        let short = self.end <= 256 && (self.values < 6 * self.end || self.exact < 6 * self.end || self.indices < self.end);
        // the row's own, with vectors that are there and in order
        match cause(&self.row, self.start, self.end, &[0.0; 6 * 256]) {
            n @ 1..=2 => n,
            _ if short => 3,
            n => n,
        }
    }

    /// The bins that the row has, of those called for.
    fn bins(&self) -> core::ops::Range<usize> {
        self.start..self.end.min(self.row.len()).max(self.start)
    }

    /// Whether a cause of a function holds, whatever others do: docs/FORMAT.md, 'Causes and refusals'.
    fn holds(&self, f: u8, number: u8) -> bool {
        let six = |len: usize| (len as u128) < 6 * self.end as u128;
        let short = match f {
            READ => six(self.values) || six(self.exact) || self.indices < self.end,
            _ => six(self.x.len()),
        };
        match number {
            1 => self.start > self.end,
            2 => self.end > 256,
            3 => self.row.len() < self.end || short,
            4 => self.bins().any(|k| self.row[k] > 19),
            5 => self.bins().any(|k| self.row[k] != 0 && self.x.iter().skip(6 * k).take(6).any(|&v| outside(v))),
            // by the plan alone where the row cannot be looked at
            6 => {
                unfit(self.mode, &self.gains, self.count)
                    || (1..=5).all(|n| !self.holds(WRITE, n)) && fitting(self.mode, &self.gains, self.count, self.payload, &self.row, self.start, self.end, &self.x).is_none()
            }
            7 if f == PRINT => self.start <= self.end && (self.room as u128) < PAGE as u128 * ((self.end - self.start) as u128).div_ceil(200),
            7 => self.at().is_none_or(|at| at + 2 + self.payload as usize > 8 * self.bytes.len()),
            _ => self.field_causes().contains(&number),
        }
    }

    /// Causes 8, 9 and 10 of the bits at the position, for the bins whose hebap is known: the bits run out; a group word
    /// that is there is above 26; a missing code of the last one, which is there, is not 0.
    fn field_causes(&self) -> Vec<u8> {
        let part: Vec<u8> = self.bins().map(|k| self.row[k]).filter(|&h| h <= 19).collect();
        let Some(at) = self.at() else { return vec![8] };
        let mut long = self.bytes.clone();
        long.extend([0; 200]);
        let mut br = BitReader::at(&long, at).unwrap();
        let mode = br.read_u32(2).unwrap() as u8;
        let mut marks = vec![0i8; part.len()];
        let marked = aht::fill_gaqbin(&part, mode, &mut marks);
        let active = if mode == 0 { 0 } else { marked };
        let (mut codes, mut out) = (Vec::new(), Vec::new());
        for _ in 0..aht::gaq_sections(mode, active) {
            let before = br.taken();
            let mut three = [0u8; 3];
            let n = aht::read_gaq_gains(&mut br, mode, 1, &mut three).unwrap();
            codes.extend(&three[..n]);
            if mode == 3 && br.taken() <= 8 * self.bytes.len() {
                let word = BitReader::at(&long, before).unwrap().read_u32(5).unwrap();
                if word > 26 {
                    out.push(9);
                }
                if codes.len() > active && codes[active..].iter().any(|&c| c != 0) {
                    out.push(10);
                }
            }
        }
        let mut gains = codes.iter();
        for (&h, &mark) in part.iter().zip(&marks) {
            match h {
                0 => {}
                1..=7 => drop(br.read_u32(u32::from(aht::VQ_BITS[h as usize])).unwrap()),
                _ => {
                    let code = if mode > 0 && mark == 1 { *gains.next().unwrap() } else { 0 };
                    aht::read_scalar_aht_mantissas(&mut br, h, mode, mark, code, &mut [0.0; 6]).unwrap();
                }
            }
        }
        if br.taken() > 8 * self.bytes.len() {
            out.push(8);
        }
        out
    }

    /// The record of a call of which both causes hold.
    fn two(&self, f: u8, a: u8, b: u8) -> Record {
        assert!(self.holds(f, a) && self.holds(f, b), "function {f}: causes {a} and {b} do not both hold");
        let mut r = self.record(f);
        r.0[125..128].copy_from_slice(&[a, b, aim::TWO_CAUSES]);
        r
    }

    /// Puts a cause into the call of a function; 4 and 5 into a bin.
    fn put(&mut self, f: u8, number: u8, bin: usize, random: &mut Random) {
        match number {
            1 => self.start = self.end + 1,
            2 => {
                // a start above the end stays above it
                let above = self.start > self.end;
                self.end = random.pick(&[257, 300, usize::MAX - 1]);
                self.start = if above { self.end + 1 } else { self.start };
            }
            3 => match (f, random.below(2)) {
                (READ, 0) => self.exact = 6 * self.row.len() - 1,
                (READ, _) | (_, 0) => self.row.truncate(self.row.len() - 1),
                _ => self.x.truncate(self.x.len() - 1),
            },
            4 => self.row[bin] = random.pick(&[20, 21, 64, 255]),
            5 => self.x[6 * bin + random.below(6)] = random.pick(&NO_NUMBERS),
            6 => match random.below(3) {
                0 => self.mode = 4,
                1 => self.gains[0] = 3,
                _ => self.count = usize::MAX,
            },
            7 if f == PRINT => self.room = random.pick(&[0, 1, 130, self.room - 1]),
            // past the end, or no byte of the field there
            7 | 8 => match random.below(3) {
                0 => self.position = random.pick(&FAR),
                1 => self.position = (self.bytes.len(), 1),
                _ => self.bytes.truncate(self.at().unwrap() / 8 + 1),
            },
            _ => unreachable!("other causes stand in the field"),
        }
    }

    /// The record of a call with the answer that is due.
    fn record(&self, f: u8) -> Record {
        let places = [self.row.len() <= 16, self.x.len() <= 48, self.bytes.len() <= 128, self.values <= 48, self.exact <= 48, self.indices <= 8];
        assert_eq!(places, [true; 6], "the call has its places in a record");
        let mut r = Record([0; 1024]);
        r.0[0] = f;
        r.0[3..5].copy_from_slice(&[self.row.len() as u8, self.x.len() as u8]);
        r.number(24, self.start);
        r.number(32, self.end);
        r.0[56..56 + self.row.len()].copy_from_slice(&self.row);
        for (place, v) in r.0[128..320].chunks_exact_mut(4).zip(&self.x) {
            place.copy_from_slice(&v.to_bits().to_le_bytes());
        }
        if f == PRINT {
            self.printed(&mut r);
            return r;
        }
        r.0[5..8].copy_from_slice(&[self.bytes.len() as u8, self.values as u8, self.exact as u8]);
        r.0[48] = self.indices as u8;
        r.number(8, self.position.0);
        r.0[16..20].copy_from_slice(&self.position.1.to_le_bytes());
        r.0[320..320 + self.bytes.len()].copy_from_slice(&self.bytes);
        match f {
            PLAN => self.planned(&mut r),
            WRITE => self.written(&mut r),
            _ => self.read(&mut r),
        }
        r
    }

    /// The plan that is handed in.
    fn plan(&self, r: &mut Record) {
        r.0[2] = self.mode;
        r.number(40, self.count);
        r.0[72..104].copy_from_slice(&self.gains);
        r.0[20..24].copy_from_slice(&self.payload.to_le_bytes());
    }

    /// The Rust's plan where the one that is handed in fits, or the number of the refusal, 1 to 6.
    fn fits(&self) -> Result<ahtenc::AhtChannelPlan, u8> {
        match cause(&self.row, self.start, self.end, &self.x) {
            0 => fitting(self.mode, &self.gains, self.count, self.payload, &self.row, self.start, self.end, &self.x).ok_or(6),
            n => Err(n),
        }
    }

    fn planned(&self, r: &mut Record) {
        r.0[1] = cause(&self.row, self.start, self.end, &self.x);
        if r.0[1] == 0 {
            let p = ahtenc::plan_aht_channel(&self.row, self.start, self.end, &vectors(&self.x));
            r.0[2] = p.gaqmod;
            r.number(40, p.gains.len());
            for (place, &code) in r.0[72..104].iter_mut().zip(&p.gains) {
                *place = [1, 2, 4][code as usize];
            }
            r.number(104, p.payload_bits as usize);
        }
    }

    fn written(&self, r: &mut Record) {
        self.plan(r);
        let mut after = self.bytes.clone();
        let total = 2 + self.payload as usize;
        r.0[1] = match (self.fits(), self.at().filter(|at| at + total <= 8 * self.bytes.len())) {
            (Err(n), _) => n,
            (Ok(_), None) => 7,
            (Ok(plan), Some(at)) => {
                after = with_field(&self.bytes, at, &plan, &self.row, self.start, self.end, &self.x).0;
                r.number(112, (at + total) / 8);
                r.0[120] = ((at + total) % 8) as u8;
                0
            }
        };
        r.0[448..448 + after.len()].copy_from_slice(&after);
    }

    fn printed(&self, r: &mut Record) {
        self.plan(r);
        assert!(self.room <= PAGE + 50, "the output has its places in the replay");
        r.number(8, self.room);
        let text = self.fits().map(|plan| pages::pages(&pages::cells(&plan, &self.row, self.start, self.end, &self.x)));
        r.0[1] = match text {
            Err(n) => n,
            Ok(text) if self.room < text.len() => 7,
            Ok(text) => {
                assert!(text.chunks(65).skip(2).all(|line| line[..64] == [b' '; 64]), "eight bins stand on two lines");
                r.number(104, text.len());
                let two = text.len().min(130);
                r.0[320..320 + two].copy_from_slice(&text[..two]);
                0
            }
        };
    }

    fn read(&self, r: &mut Record) {
        r.0[576..976].fill(0x42);
        r.0[1] = match (self.reader_cause(), self.at()) {
            (0, None) => 8,
            (0, Some(at)) => match shown::read(&self.bytes, at, &self.row[self.start..self.end]) {
                Err(number) => number,
                Ok(s) => {
                    r.0[2] = s.mode;
                    r.number(40, s.gains.len());
                    r.0[72..72 + s.gains.len()].copy_from_slice(&s.gains);
                    r.number(104, s.bits);
                    let (first, six) = (self.start, 6 * self.start);
                    for (place, v) in r.0[576 + 4 * six..768].chunks_exact_mut(4).zip(&s.values) {
                        place.copy_from_slice(&v.to_bits().to_le_bytes());
                    }
                    for (place, v) in r.0[768 + 4 * six..960].chunks_exact_mut(4).zip(&s.exact) {
                        place.copy_from_slice(&v.to_le_bytes());
                    }
                    for (place, v) in r.0[960 + 2 * first..976].chunks_exact_mut(2).zip(&s.indices) {
                        place.copy_from_slice(&v.to_le_bytes());
                    }
                    0
                }
            },
            (n, _) => n,
        };
    }
}

struct Record([u8; 1024]);

impl Record {
    fn number(&mut self, at: usize, v: usize) {
        self.0[at..at + 8].copy_from_slice(&v.to_le_bytes());
    }
    fn refusal(&self) -> u8 {
        self.0[1]
    }
    fn aim(mut self, at: u8) -> Record {
        self.0[127] = at;
        self
    }
    /// As a record that has this refusal.
    fn with(self, number: u8) -> Record {
        assert_eq!(self.refusal(), number, "a record of function {} has another refusal than it is aimed at", self.0[0]);
        self
    }
}

/// The records of the functions: of the first three the aimed ones, then 100 drawn at random, then the loud ones; then
/// pages, from a seed of their own.
pub fn records(random: &mut Random, later: &mut Random, last: &mut Random) -> Vec<Records> {
    let mut out = Vec::new();
    for (f, name) in [(PLAN, "plan_aht_channel"), (WRITE, "write_aht_channel"), (READ, "read_aht_channel")] {
        let mut of = Vec::new();
        pairs(f, random, &mut of);
        special(f, random, &mut of);
        if f == READ {
            fields(random, &mut of);
        }
        of.extend((0..100).map(|i| drawn(f, i, random)));
        if f != READ {
            at_limit(LARGEST, f, later, &mut of);
            loud_ones(f, later, &mut of);
        }
        out.push(Records { name, bytes: of.iter().flat_map(|r| r.0).collect(), count: of.len() });
    }
    let of = pages_of(last);
    out.push(Records { name: "print_pages", bytes: of.iter().flat_map(|r| r.0).collect(), count: of.len() });
    out
}

/// Any two causes that can hold together: the lower number is due.
fn pairs(f: u8, random: &mut Random, out: &mut Vec<Record>) {
    for a in 1..last_cause(f) {
        for b in a + 1..=last_cause(f) {
            // no bin is between a start and an end below it, and none has a page; the reader has no vectors and no plan
            if a == 1 && (b == 4 || b == 5) || f == PRINT && (a, b) == (1, 7) || f == READ && (5..=7).contains(&a) || f == READ && (5..=7).contains(&b) {
                continue;
            }
            // the two in one bin, the one before the other and behind it
            for (at_a, at_b) in [(2, 2), (1, 3), (3, 1)] {
                let mut call = Call::plain(random);
                // what looks at the row or the vectors before what makes them shorter
                let mut order = [(b, at_b), (a, at_a)];
                order.sort_by_key(|(n, _)| [8, 1, 2, 6, 3, 4, 5, 0, 0][*n as usize]);
                for (n, bin) in order {
                    call.put(f, n, bin, random);
                }
                if (a, b) == (1, 8) {
                    // of no bins only the position can be past the end
                    call.position = random.pick(&FAR);
                }
                out.push(call.two(f, a, b).with(a));
            }
        }
    }
}

fn special(f: u8, random: &mut Random, out: &mut Vec<Record>) {
    // each cause by itself, and cause 3 by each buffer
    for number in 1..=last_cause(f) {
        if f == READ && (5..=7).contains(&number) {
            continue;
        }
        for _ in 0..3 {
            let mut call = Call::plain(random);
            call.put(f, number, 1 + out.len() % 4, random);
            out.push(call.record(f).with(number));
        }
    }
    for (at, buffer) in [(aim::SHORT_ROW, 0), (aim::SHORT_VECTORS, 1), (aim::SHORT_VALUES, 2), (aim::SHORT_EXACT, 3), (aim::SHORT_INDICES, 4)] {
        let of_reader = buffer >= 2;
        if buffer > 0 && of_reader != (f == READ) {
            continue;
        }
        let mut call = Call::plain(random);
        match buffer {
            0 => call.row.truncate(4),
            1 => call.x.truncate(29),
            2 => call.values = 29,
            3 => call.exact = 29,
            _ => call.indices = 4,
        }
        out.push(call.record(f).with(3).aim(at));
    }
    // start = end: no bin is looked at, and causes 2 and 3 hold all the same
    for (bins, number) in [(5, 0), (6, 3), (257, 2)] {
        let mut call = Call::plain(random);
        (call.start, call.end) = (bins, bins);
        (call.mode, call.count, call.payload) = (0, 0, 0);
        out.push(call.record(f).with(number));
    }
    // a hebap above 19 and a NaN that no bin called for has
    for _ in 0..2 {
        let mut call = Call::plain(random);
        call.row[0] = 20 + random.below(236) as u8;
        call.x[random.below(6)] = f32::NAN;
        out.push(call.record(f).with(0));
    }
    for p in FAR {
        if f != PLAN {
            let mut call = Call::plain(random);
            call.position = p;
            out.push(call.record(f).with(if f == WRITE { 7 } else { 8 }).aim(aim::FAR));
        }
    }
    // rows of six to eight bins, of each kind of gain words, and a start above 0
    for k in 0..24 {
        let bins = 6 + k % 3;
        let row: Vec<u8> = (0..bins).map(|_| 14 + random.below(if k % 2 == 0 { 3 } else { 6 }) as u8).collect();
        let loud = [0.1, 0.5, 1.0, 2.0][k / 3 % 4];
        let x: Vec<f32> = (0..6 * bins).map(|_| (unit(random) - 0.5) * loud).collect();
        let plan = some_plan(random, &row, 0, bins, &x);
        let at = random.below(8);
        let call = Call::of(row, x, 0, bins, &plan, at, random);
        assert!(call.bytes.len() > 28);
        out.push(call.record(f).with(0).aim(aim::LONG));
    }
    for k in 0..12 {
        let (full, later) = (k % 2 == 0, k / 2 % 2);
        let bins = if full { 6 } else { 4 + k / 2 % 2 };
        let call = loop {
            let row: Vec<u8> = (0..later + bins).map(|_| 8 + random.below(9) as u8).collect();
            let x: Vec<f32> = row.iter().flat_map(|_| six_of(random)).collect();
            // the planner's answer has group words only where its own plan does
            let plan = if f == PLAN { ahtenc::plan_aht_channel(&row, later, later + bins, &vectors(&x)) } else { in_mode_3(&row, later, later + bins, &x, random) };
            if plan.gaqmod == 3 {
                assert_eq!(plan.gains.len(), bins);
                break Call::of(row, x, later, later + bins, &plan, k, random);
            }
        };
        let at = if full { aim::FULL_GROUPS } else { aim::GROUP_WORDS };
        let at = if k >= 8 && later == 1 { aim::LATER_START } else { at };
        out.push(call.record(f).with(0).aim(at));
    }
    if f != READ {
        at_limit(EARLIER, f, random, out);
        // components of hebap 0 are not looked at
        for bad in NO_NUMBERS {
            let mut call = Call::plain(random);
            call.row[2] = 0;
            call.x[12..18].fill(bad);
            let plan = ahtenc::plan_aht_channel(&call.row, 1, 5, &vectors(&call.x));
            let call = Call::of(call.row, call.x, 1, 5, &plan, 6, random);
            out.push(call.record(f).with(0).aim(aim::NO_NUMBER));
        }
    }
    // the last bit of the field is missing
    if f != PLAN {
        for _ in 0..8 {
            let mut call = Call::drawn(random, 1 + out.len() % 8);
            let total = 2 + call.payload as usize;
            let at = (9 - total % 8) % 8;
            let plan = fitting(call.mode, &call.gains, call.count, call.payload, &call.row, call.start, call.end, &call.x).unwrap();
            call = Call::of(call.row, call.x, call.start, call.end, &plan, at, random);
            call.bytes.truncate((at + total) / 8);
            out.push(call.record(f).with(if f == WRITE { 7 } else { 8 }).aim(aim::BIT_SHORT));
        }
    }
    if f == WRITE {
        unfit_ones(f, random, out);
        others(f, random, out);
    }
}

/// Plans that do not fit.
fn unfit_ones(f: u8, random: &mut Random, out: &mut Vec<Record>) {
    // cause 6 by one part of the plan alone
    for k in 0..12 {
        let mut call = Call::plain(random);
        let plan = in_mode_3(&call.row, 1, 5, &call.x, random);
        call = Call::of(call.row, call.x, 1, 5, &plan, 5, random);
        let at = match k % 4 {
            0 => {
                call.mode = [4, 255, 2][k / 4];
                aim::WRONG_MODE
            }
            1 => {
                call.count = [2, 4, usize::MAX][k / 4];
                aim::WRONG_COUNT
            }
            2 => {
                call.gains[k / 4] = [0, 3, 8][k / 4];
                aim::WRONG_GAIN
            }
            _ => {
                call.payload = [call.payload - 1, call.payload + 1, u32::MAX][k / 4];
                aim::WRONG_PAYLOAD
            }
        };
        out.push(call.record(f).with(6).aim(at));
    }
    // gains of another mode, with the payload that they would cost
    for (mode, gk) in [(1, 4), (2, 2)] {
        let mut call = Call::plain(random);
        let (row, x) = (vec![9u8], call.x[..6].to_vec());
        let plan = ahtenc::AhtChannelPlan { gaqmod: mode, gains: vec![gk / 2], payload_bits: 1 + bin_of(9, gk, x[..].try_into().unwrap()).0 };
        call = Call::of(row, x, 0, 1, &ahtenc::plan_aht_channel(&[9], 0, 1, &vectors(&call.x[..6])), 5, random);
        (call.mode, call.gains[0], call.count, call.payload) = (mode, gk, 1, plan.payload_bits);
        call.bytes.resize(40, 0x55);
        out.push(call.record(f).with(6).aim(aim::WRONG_GAIN));
    }
}

/// Plans that are not the best.
fn others(f: u8, random: &mut Random, out: &mut Vec<Record>) {
    let mut others = 0;
    while others < 8 {
        let call = Call::drawn(random, 5);
        let best = ahtenc::plan_aht_channel(&call.row, call.start, call.end, &vectors(&call.x));
        if best.payload_bits < call.payload {
            out.push(call.record(f).with(0).aim(aim::OTHER_PLAN));
            others += 1;
        }
    }
}

/// Six components, as loud as no other bin's, so that gains differ.
fn six_of(random: &mut Random) -> [f32; 6] {
    let loud = random.pick(&[2.0, 0.6, 0.3, 0.1, 0.02]);
    core::array::from_fn(|_| (unit(random) - 0.5) * loud)
}

/// A plan of mode 3 with gains drawn at will.
fn in_mode_3(row: &[u8], start: usize, end: usize, x: &[f32], random: &mut Random) -> ahtenc::AhtChannelPlan {
    loop {
        let plan = some_plan(random, row, start, end, x);
        if plan.gaqmod == 3 {
            return plan;
        }
    }
}

/// Fields made bit by bit: the lowest code at Gk 1, and words of mode 3 that the reader refuses, before the bits run
/// out and before it looks at padding.
fn fields(random: &mut Random, out: &mut Vec<Record>) {
    let field = |row: Vec<u8>, bytes: Vec<u8>, random: &mut Random| {
        let mut call = Call::plain(random);
        (call.start, call.end, call.values, call.exact, call.indices) = (0, row.len(), 6 * row.len(), 6 * row.len(), row.len());
        (call.row, call.bytes, call.position) = (row, bytes, (0, 0));
        call
    };
    for hebap in 8..=19u8 {
        let m = u32::from(aht::HEBAP_MANT_BITS[hebap as usize]);
        let mut w = BitWriter::new();
        w.write_u32(0, 2);
        for k in 0..18 {
            w.write_u32(if k % 4 == 1 { 1 << (m - 1) } else { k }, m);
        }
        out.push(field(vec![hebap; 3], w.finish(), random).record(READ).with(0).aim(aim::LOWEST_CODE));
    }
    // group words, how many bins of hebap 8, and how many bits are there
    for (words, bins, bits, number) in [
        (&[27u32][..], 4, 7, 9),
        (&[28], 1, 7, 9),
        (&[28], 1, 60, 9),
        (&[1], 1, 7, 10),
        (&[3], 1, 7, 10),
        (&[9], 1, 7, 8),
        (&[25, 31], 5, 12, 9),
        (&[25, 30], 4, 200, 9),
        (&[0, 1], 5, 12, 10),
        (&[26, 26, 10], 7, 17, 10),
        (&[26, 27, 10], 7, 17, 9),
        (&[26, 26, 28], 8, 17, 9),
        (&[26, 26, 1], 8, 300, 10),
        (&[27], 1, 6, 8),
        (&[26, 1], 4, 11, 8),
        (&[26, 26, 18], 7, 600, 0),
    ] {
        let mut w = BitWriter::new();
        let before = (8 - bits % 8) % 8;
        w.write_u32(0x55, before as u32);
        w.write_u32(3, 2);
        words.iter().for_each(|&word| w.write_u32(word, 5));
        while w.bits() < before + bits {
            w.write_u32(0, 1);
        }
        let mut bytes = w.finish();
        bytes.truncate((before + bits) / 8);
        let mut call = field(vec![8; bins], bytes, random);
        call.position = (0, before as u32);
        let causes = call.field_causes();
        out.push(call.record(READ).with(number));
        for (i, &a) in causes.iter().enumerate() {
            for &b in &causes[i + 1..] {
                out.push(call.two(READ, a.min(b), a.max(b)).with(number));
            }
        }
        // the row's causes come first: an end that is too high, an output that is too short, a bin in front
        for &n in &causes {
            let mut high = call.clone();
            high.end = 300;
            out.push(high.two(READ, 2, n).with(2));
            let mut short = call.clone();
            short.indices = bins - 1;
            out.push(short.two(READ, 3, n).with(3));
            if bins < 8 {
                let mut unknown = call.clone();
                unknown.row.insert(0, 20);
                (unknown.end, unknown.values, unknown.exact, unknown.indices) = (bins + 1, 6 * bins + 6, 6 * bins + 6, bins + 1);
                out.push(unknown.two(READ, 4, n).with(4));
            }
        }
    }
}

/// One component at a limit, beside it, or no number.
fn at_limit(limit: f32, f: u8, random: &mut Random, out: &mut Vec<Record>) {
    for (j, x) in edges(limit).into_iter().chain(NO_NUMBERS).enumerate() {
        let mut call = Call::plain(random);
        call.x[6 + j] = x;
        let plan = if x.abs() <= limit { Some(ahtenc::plan_aht_channel(&call.row, 1, 5, &vectors(&call.x))) } else { None };
        let call = plan.map_or_else(|| call.clone(), |p| Call::of(call.row.clone(), call.x.clone(), 1, 5, &p, 3, random));
        let at = if j < 6 { aim::LIMIT } else { aim::NO_NUMBER };
        // beside 1024 the call is as it was, refused with 5; its plan is that of another vector, and may not fit
        let due = if outside(x) { 5 } else { call.record(f).refusal() };
        assert!(due == 5 || x.abs() > limit || due == 0, "at the limit it is answered");
        out.push(call.record(f).with(due).aim(at));
    }
}

/// Loud bins of every kind.
fn loud_ones(f: u8, random: &mut Random, out: &mut Vec<Record>) {
    for k in 0..18 {
        let bins = 1 + k % 6;
        let row: Vec<u8> = (0..bins).map(|i| 1 + ((7 * k + i) % 19) as u8).collect();
        let x: Vec<f32> = row.iter().flat_map(|_| six_loud(random)).collect();
        let plan = some_plan(random, &row, 0, bins, &x);
        out.push(Call::of(row, x, 0, bins, &plan, k, random).record(f).with(0).aim(aim::LOUD));
    }
}

/// A call drawn at random, some of them with a fault.
fn drawn(f: u8, i: usize, random: &mut Random) -> Record {
    let bins = random.below(9);
    let mut call = Call::drawn(random, bins);
    match i % 12 {
        1 => call.start = random.below(bins + 2),
        2 => call.end = random.pick(&[256, 257, usize::MAX]),
        3 if bins > 0 => call.row[random.below(bins)] = 20 + random.below(236) as u8,
        4 if bins > 0 => call.x[random.below(6 * bins)] = random.pick(&[f32::INFINITY, -1025.0, 1024.0, f32::NAN]),
        5 => call.x.truncate(random.below(6 * bins + 1)),
        6 => call.row.truncate(random.below(bins + 1)),
        7 => call.bytes.truncate(random.below(call.bytes.len() + 1)),
        8 => call.payload = call.payload.wrapping_add(random.pick(&[1, u32::MAX, 5])),
        9 if f == READ => call.bytes.iter_mut().for_each(|b| *b = random.next() as u8),
        10 if f == READ && !call.bytes.is_empty() => {
            // bits of the mode and the gain words exchanged
            let at = (call.at().unwrap() + random.below(9)).min(8 * call.bytes.len() - 1);
            call.bytes[at / 8] ^= 1 << (7 - at % 8);
        }
        _ => {}
    }
    call.record(f)
}

/// The records of print_pages: causes, alone and together, the kinds of bins, the ends of lines and of the output, loud
/// bins, and 20 drawn at random.
fn pages_of(random: &mut Random) -> Vec<Record> {
    let mut out = Vec::new();
    pairs(PRINT, random, &mut out);
    for number in 1..=last_cause(PRINT) {
        let mut call = Call::plain(random);
        call.put(PRINT, number, 1 + number as usize % 4, random);
        out.push(call.record(PRINT).with(number));
    }
    for (at, row, components) in [(aim::SHORT_ROW, 4, 30), (aim::SHORT_VECTORS, 5, 29)] {
        let mut call = Call::plain(random);
        call.row.truncate(row);
        call.x.truncate(components);
        out.push(call.record(PRINT).with(3).aim(at));
    }
    unfit_ones(PRINT, random, &mut out);
    others(PRINT, random, &mut out);
    no_bins(random, &mut out);
    kinds(random, &mut out);
    digits(random, &mut out);
    // one to eight bins, from 0 on and from a later one; a hebap above 19 and a NaN that no bin called for has
    for bins in 1..=8 {
        let start = if bins % 2 == 0 { 0 } else { 8 - bins };
        let mut row: Vec<u8> = (0..8).map(|_| random.below(20) as u8).collect();
        let mut x: Vec<f32> = row.iter().flat_map(|_| six_of(random)).collect();
        row[..start].fill(20);
        x[..6 * start].fill(f32::NAN);
        let plan = some_plan(random, &row, start, start + bins, &x);
        let at = if start > 0 { aim::LATER_START } else { aim::LINES };
        out.push(Call::of(row, x, start, start + bins, &plan, 0, random).record(PRINT).with(0).aim(at));
    }
    // an output that lacks the last byte, that has one more, and up to 50 more
    for (room, at, number) in [(PAGE - 1, aim::BYTE_SHORT, 7), (PAGE + 1, aim::REST_KEPT, 0), (PAGE + 50, aim::REST_KEPT, 0)] {
        for bins in [1, 4, 5] {
            let mut call = Call::drawn(random, bins);
            (call.start, call.end) = (0, bins);
            let plan = some_plan(random, &call.row, 0, bins, &call.x);
            call = Call::of(call.row, call.x, 0, bins, &plan, 0, random);
            call.room = room;
            out.push(call.record(PRINT).with(number).aim(at));
        }
    }
    at_limit(LARGEST, PRINT, random, &mut out);
    loud_ones(PRINT, random, &mut out);
    for i in 0..20 {
        let bins = random.below(9);
        let mut call = Call::drawn(random, bins);
        match i % 5 {
            1 => call.room = random.below(PAGE + 51),
            2 => call.payload = call.payload.wrapping_add(1),
            3 => call.end = random.below(9),
            _ => call.room += random.below(51),
        }
        out.push(call.record(PRINT));
    }
    out
}

/// start = end: no page and no need of an output, and causes 2, 3 and 6 hold all the same.
fn no_bins(random: &mut Random, out: &mut Vec<Record>) {
    for (bins, room, payload, number) in [(0, 0, 0, 0), (5, 0, 0, 0), (5, 1, 0, 0), (3, PAGE + 50, 0, 0), (6, 0, 0, 3), (257, 0, 0, 2), (2, 0, 1, 6)] {
        let mut call = Call::plain(random);
        (call.start, call.end, call.room) = (bins, bins, room);
        (call.mode, call.count, call.payload) = (random.below(4) as u8, 0, payload);
        let r = call.record(PRINT).with(number);
        out.push(if number == 0 { r.aim(aim::NO_BINS) } else { r });
    }
}

/// Every hebap in every mode, at every gain where it is active.
fn kinds(random: &mut Random, out: &mut Vec<Record>) {
    for mode in 0..4 {
        let gains = gains_of(mode);
        for (turn, part) in (0..gains.len()).flat_map(|turn| [0..8, 8..16, 16..20].map(|part| (turn, part))) {
            let row: Vec<u8> = part.collect();
            let (bins, x) = (row.len(), row.iter().flat_map(|_| six_of(random)).collect::<Vec<f32>>());
            // every gain has its turn at each active bin
            let mut turns = gains.iter().cycle().skip(turn);
            let plan = plan_with(mode, || *turns.next().unwrap(), &row, 0, bins, &x);
            if turn == 0 || !plan.gains.is_empty() {
                out.push(Call::of(row, x, 0, bins, &plan, 0, random).record(PRINT).with(0).aim(aim::KINDS));
            }
        }
    }
}

/// Bits of 99 and more, by so many escapes.
fn digits(random: &mut Random, out: &mut Vec<Record>) {
    for (hebap, gk, escapes, bits) in [(15, 2, 5, 99), (16, 2, 4, 100), (15, 2, 6, 108), (16, 4, 5, 109), (16, 2, 6, 120), (16, 4, 6, 120)] {
        let x: Vec<f32> = (0..6).map(|j| if j < escapes { 0.6 + unit(random) } else { 0.0 }).collect();
        let plan = ahtenc::AhtChannelPlan { gaqmod: 3, gains: vec![gk / 2], payload_bits: 5 + bits };
        out.push(Call::of(vec![hebap], x, 0, 1, &plan, 0, random).record(PRINT).with(0).aim(aim::DIGITS));
    }
}
