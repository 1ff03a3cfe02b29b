//! print_pages: every byte of the output, and the length, against a second reading (pages.rs). Best plans and others,
//! bins at the ends of lines and pages, outputs at the pages' end, and causes that hold together.
use crate::channels::{plan_of, some_channel};
use crate::eac3::aht;
use crate::eac3::ahtenc::{self, AhtChannelPlan};
use crate::ours;
use crate::pages::{self, Cell};
use crate::random::Random;
use crate::signals::{border, cause, channel, fitting, gains_of, louder, outside, plan_with, some_plan, unfit, unit, vectors, LARGEST};
use crate::Tally;
use std::collections::HashMap;

/// How many bins are shown: at the ends of a line, of a page and of the row.
const COUNTS: [usize; 9] = [0, 1, 3, 4, 5, 199, 200, 201, 256];

/// Causes that can hold together: with cause 1 there is no bin to look at, and no page.
const PAIRS: [(u8, u8); 18] =
    [(1, 2), (1, 3), (1, 6), (2, 3), (2, 4), (2, 5), (2, 6), (2, 7), (3, 4), (3, 5), (3, 6), (3, 7), (4, 5), (4, 6), (4, 7), (5, 6), (5, 7), (6, 7)];

/// What else has to be met, and how often at least.
const OTHERS: [(&str, usize); 16] = [
    ("two pages", 1_000),
    ("a start above 0", 1_000),
    ("more bits than the best plan", 1_000),
    ("99 bits", 100),
    ("100 bits", 100),
    ("above 100 bits", 1_000),
    ("no bins and no output", 1_000),
    ("no bins and an output", 1_000),
    ("no byte behind the pages", 1_000),
    ("some behind the pages", 1_000),
    ("a byte short of a page", 500),
    ("a byte short of two pages", 500),
    ("one page of two", 500),
    ("no byte of a page", 500),
    ("a start above the end and no output", 200),
    ("several causes", 1_000),
];

/// What stands in the length before a call.
const KEPT: usize = 4711;

pub fn run(seed: u64, all: &mut Tally) {
    let mut seen = Seen::default();
    by_hand(&mut Random::new(seed + 26), &mut seen, all);
    drawn(&mut Random::new(seed + 27), &mut seen, all);
    ends(&mut Random::new(seed + 28), &mut seen, all);
    digits(&mut Random::new(seed + 31), &mut seen, all);
    refused(&mut Random::new(seed + 29), &mut seen, all);
    pairs(&mut Random::new(seed + 32), &mut seen, all);
    seen.enough();
}

fn room(bins: usize) -> usize {
    3250 * bins.div_ceil(200)
}

#[derive(Clone, Debug)]
struct Call {
    plan: ours::Plan,
    row: Vec<u8>,
    x: Vec<f32>,
    start: usize,
    end: usize,
    /// How many bytes are lent.
    len: usize,
}

impl Call {
    /// The Rust's plan or another that fits, with an output as long as its pages.
    fn of(random: &mut Random, (row, x, start, end): (Vec<u8>, Vec<f32>, usize, usize)) -> Call {
        let rust = some_plan(random, &row, start, end, &x);
        Call { plan: plan_of(random, &rust), row, x, start, end, len: room(end - start) }
    }

    /// All causes that hold, whatever others do, the lowest first, and the Rust's plan where 1 to 6 do not. Where the
    /// row cannot be looked at, 6 holds by the plan alone.
    fn causes(&self) -> (Vec<u8>, Option<AhtChannelPlan>) {
        let bins = || (self.start..self.end.min(self.row.len())).map(|k| (self.row[k], self.x.iter().skip(6 * k).take(6)));
        let first = cause(&self.row, self.start, self.end, &self.x);
        let p = &self.plan;
        let theirs = if first == 0 { fitting(p.mode, &p.gains, p.count, p.payload, &self.row, self.start, self.end, &self.x) } else { None };
        let holds = [
            self.start > self.end,
            self.end > 256,
            self.row.len() < self.end || (self.x.len() as u128) < 6 * self.end as u128,
            bins().any(|(h, _)| h > 19),
            bins().any(|(h, mut v)| h != 0 && v.any(|&c| outside(c))),
            unfit(p.mode, &p.gains, p.count) || first == 0 && theirs.is_none(),
            self.start <= self.end && (self.len as u128) < 3250 * ((self.end - self.start) as u128).div_ceil(200),
        ];
        let causes: Vec<u8> = (1..=7).filter(|&n| holds[n as usize - 1]).collect();
        assert_eq!(first, causes.first().copied().filter(|&n| n < 6).unwrap_or(0));
        (causes, theirs)
    }

    fn compare(&self, random: &mut Random, seen: &mut Seen, t: &mut Tally) {
        let (causes, theirs) = self.causes();
        let number = causes.first().copied().unwrap_or(0);
        seen.call(self, &causes);
        let before = random.bytes(self.len);
        let (mut want, mut due) = (before.clone(), KEPT);
        if let (0, Some(plan)) = (number, &theirs) {
            let cells = pages::cells(plan, &self.row, self.start, self.end, &self.x);
            let text = pages::pages(&cells);
            assert_eq!(text.len(), room(cells.len()));
            let words = aht::gaq_sections(plan.gaqmod, plan.gains.len()) * if plan.gaqmod == 3 { 5 } else { 1 };
            assert_eq!(cells.iter().map(|c| c.bits).sum::<usize>() + words, plan.payload_bits as usize, "the bits add up to the payload");
            want[..text.len()].copy_from_slice(&text);
            due = text.len();
            seen.pages(self, plan, &cells);
            t.loud((self.start..self.end).any(|k| self.row[k] != 0 && self.x[6 * k..6 * k + 6].iter().any(|&v| louder(v))));
        }
        let (mut out, mut length) = (before, KEPT);
        let refusal = ours::print_pages(&self.plan, &self.row, self.start, self.end, &self.x, &mut out, &mut length);
        t.case(number, refusal == number && length == due && out == want, || {
            let at = out.iter().zip(&want).position(|(a, b)| a != b);
            format!("{self:?}: {refusal} with length {length}, not {number} with {due}; the first other byte is {at:?}")
        });
    }
}

/// What was met, and how often.
#[derive(Default)]
struct Seen {
    /// A mode, a hebap and the Gk that is shown for it.
    shown: HashMap<(u8, u8, Option<u8>), u64>,
    /// So many bins on pages.
    counts: HashMap<usize, u64>,
    /// A cause that is due, and another that holds.
    pairs: HashMap<(u8, u8), u64>,
    others: HashMap<&'static str, u64>,
}

impl Seen {
    fn add(&mut self, what: &'static str, is: bool) {
        *self.others.entry(what).or_default() += u64::from(is);
    }

    fn call(&mut self, c: &Call, causes: &[u8]) {
        for &n in causes.iter().skip(1) {
            *self.pairs.entry((causes[0], n)).or_default() += 1;
        }
        self.add("several causes", causes.len() > 1);
        self.add("a start above the end and no output", c.start > c.end && c.len == 0);
        if causes == [7] {
            self.add("a byte short of a page", c.len == 3249 && c.end - c.start <= 200);
            self.add("a byte short of two pages", c.len == 6499);
            self.add("one page of two", c.len == 3250);
            self.add("no byte of a page", c.len == 0);
        }
        if causes.is_empty() {
            let rest = c.len - room(c.end - c.start);
            self.add("no bins and no output", c.start == c.end && c.len == 0);
            self.add("no bins and an output", c.start == c.end && c.len > 0);
            self.add("no byte behind the pages", rest == 0 && c.len > 0);
            self.add("some behind the pages", rest > 0 && c.start < c.end);
        }
    }

    fn pages(&mut self, c: &Call, plan: &AhtChannelPlan, cells: &[Cell]) {
        *self.counts.entry(cells.len()).or_default() += 1;
        self.add("two pages", cells.len() > 200);
        self.add("a start above 0", c.start > 0 && c.start < c.end);
        let best = || ahtenc::plan_aht_channel(&c.row, c.start, c.end, &vectors(&c.x));
        self.add("more bits than the best plan", cells.len() < 9 && plan.payload_bits > best().payload_bits);
        for c in cells {
            *self.shown.entry((plan.gaqmod, c.hebap, c.gk)).or_default() += 1;
            self.add("99 bits", c.bits == 99);
            self.add("100 bits", c.bits == 100);
            self.add("above 100 bits", c.bits > 100);
        }
    }

    /// Fails where too few of something were met.
    fn enough(&self) {
        let mut few = Vec::new();
        let mut need = |met: Option<&u64>, least: usize, what: String| {
            let met = met.copied().unwrap_or(0);
            if met < crate::times(least, least) as u64 {
                few.push(format!("{what}: {met}"));
            }
        };
        for (mode, hebap) in (0..4u8).flat_map(|m| (0..20u8).map(move |h| (m, h))) {
            let active = (8..=[0, 11, 16, 16][mode as usize]).contains(&hebap);
            let shown: Vec<Option<u8>> = if active { gains_of(mode).iter().map(|&gk| Some(gk)).collect() } else { vec![None] };
            for gk in shown {
                need(self.shown.get(&(mode, hebap, gk)), 1_000, format!("mode {mode}, hebap {hebap}, Gk {gk:?}"));
            }
        }
        COUNTS.iter().for_each(|n| need(self.counts.get(n), 500, format!("{n} bins")));
        PAIRS.iter().for_each(|p| need(self.pairs.get(p), 100, format!("causes {p:?}")));
        OTHERS.iter().for_each(|(what, least)| need(self.others.get(what), *least, what.to_string()));
        let others: Vec<String> = OTHERS.iter().map(|(what, _)| format!("{what} {}", self.others[what])).collect();
        others.chunks(4).for_each(|four| println!("compare: of these {}", four.join(", ")));
        println!("compare: {} kinds of bins were shown, {} pairs of causes held", self.shown.len(), self.pairs.len());
        assert!(few.is_empty(), "too few pages of {few:?}");
    }
}

/// Two pages written out by hand: the channel of docs/FORMAT.md, Desk text, and bins from 98 on, with a dash for
/// hebap 17 in mode 3 and three digits for four escapes at Gk 2.
fn by_hand(random: &mut Random, seen: &mut Seen, all: &mut Tally) {
    let mut t = Tally::of("print_pages, by hand");
    let desk = (1, vec![1u8], 13, vec![8, 0], vec![0.25, 0.0, -0.25, 0.0, 0.0, 0.0], 0);
    let later = (3, vec![1u8], 282, vec![16, 17, 19, 0, 7], vec![1.0, 1.0, 1.0, 1.0, 0.0, 0.0], 98);
    let lines = [
        &["  0  8 2  12   1  0 -   0                                       "][..],
        &[" 98 16 2 100  99 17 -  72 100 19 -  96 101  0 -   0             ", "102  7 -   9                                                    "],
    ];
    for ((mode, gains, payload, part, mut first, start), lines) in [desk, later].into_iter().zip(lines) {
        let end = start + part.len();
        let row: Vec<u8> = vec![20; start].into_iter().chain(part).collect();
        let mut x = vec![f32::NAN; 6 * start];
        x.append(&mut first);
        x.resize(6 * end, 0.0);
        let rust = AhtChannelPlan { gaqmod: mode, gains, payload_bits: payload };
        let text = pages::pages(&pages::cells(&rust, &row, start, end, &x));
        let blank = " ".repeat(64);
        let want: Vec<u8> = (0..50).flat_map(|i| format!("{}\n", lines.get(i).unwrap_or(&blank.as_str())).into_bytes()).collect();
        assert_eq!(String::from_utf8(text), String::from_utf8(want), "the page as it was written by hand");
        let call = Call { plan: plan_of(random, &rust), row, x, start, end, len: 3250 };
        assert_eq!(call.causes().0, []);
        for len in [3249, 3250, 3251, 6500] {
            Call { len, ..call.clone() }.compare(random, seen, &mut t);
        }
    }
    t.close(all);
}

/// Channels of all kinds, with an output that has bytes behind the pages, or none, or that lacks some.
fn drawn(random: &mut Random, seen: &mut Seen, all: &mut Tally) {
    let mut t = Tally::of("print_pages, drawn");
    for _ in 0..crate::times(60_000, 300_000) {
        let some = some_channel(random);
        let mut call = Call::of(random, some);
        call.len = match random.below(12) {
            0..=4 => call.len + 1 + random.below(70),
            5 => call.len.saturating_sub(1 + random.below(70)),
            _ => call.len,
        };
        call.compare(random, seen, &mut t);
    }
    t.close(all);
}

/// Bins at the ends of lines and pages, from 0 and from other bins on, each with outputs around the pages' end.
fn ends(random: &mut Random, seen: &mut Seen, all: &mut Tally) {
    let mut t = Tally::of("print_pages, ends");
    for i in 0..crate::times(7_200, 36_000) {
        let bins = COUNTS[i % 9];
        let start = if random.below(2) == 0 { 0 } else { random.below(256 - bins + 1) };
        let more = random.below(3);
        let (row, x) = channel(random, start + bins + more, LARGEST);
        let call = Call::of(random, (row, x, start, start + bins));
        for len in [call.len, call.len + 1, call.len.saturating_sub(1), call.len.saturating_sub(3250)] {
            Call { len, ..call.clone() }.compare(random, seen, &mut t);
        }
    }
    t.close(all);
}

/// One bin with each number of escapes at each gain, up to 120 bits.
fn digits(random: &mut Random, seen: &mut Seen, all: &mut Tally) {
    let mut t = Tally::of("print_pages, digits");
    for _ in 0..crate::times(100, 100) {
        for (hebap, gk, escapes) in (8..=16).flat_map(|h| [2, 4].into_iter().flat_map(move |g| (0..=6).map(move |n| (h, g, n)))) {
            let mut v: [f32; 6] = core::array::from_fn(|j| if j < escapes { 0.6 + unit(random) } else { 0.0 });
            v.rotate_right(random.below(6));
            let rust = plan_with(3, || gk, &[hebap], 0, 1, &v);
            let call = Call { plan: plan_of(random, &rust), row: vec![hebap], x: v.to_vec(), start: 0, end: 1, len: 3250 };
            call.compare(random, seen, &mut t);
        }
    }
    t.close(all);
}

/// One to three faults of a call: the lowest number is due, and every byte stays.
fn refused(random: &mut Random, seen: &mut Seen, all: &mut Tally) {
    let mut t = Tally::of("print_pages, faults");
    for _ in 0..crate::times(60_000, 60_000) {
        let some = some_channel(random);
        let mut call = Call::of(random, some);
        let plan = &mut call.plan;
        for _ in 0..1 + random.below(3) {
            match random.below(13) {
                0 => plan.mode = random.pick(&[4, 5, 255]),
                1 => plan.count = random.pick(&[0, 1, 256, 257, usize::MAX, plan.count.wrapping_add(1), plan.count.wrapping_sub(1)]),
                2 if plan.count > 0 && plan.count < 257 => plan.gains[random.below(plan.count)] = random.below(6) as u8,
                3 => plan.payload = random.pick(&[0, u32::MAX, plan.payload.wrapping_add(1), plan.payload.wrapping_sub(1), 4711]),
                4 => call.len = random.below(call.len + 1),
                5 => call.len = random.pick(&[0, 1, 65, 3249, 3250, 6499, 6500]),
                6 if !call.row.is_empty() => {
                    let k = random.below(call.row.len());
                    call.row[k] = 20 + random.below(236) as u8;
                }
                7 if !call.x.is_empty() => {
                    let k = random.below(call.x.len());
                    call.x[k] = border(random);
                }
                8 => call.x.truncate(random.below(call.x.len() + 1)),
                9 => call.row.truncate(random.below(call.row.len() + 1)),
                10 => call.start = random.pick(&[call.end, call.end.saturating_add(1), 255, 257, usize::MAX]),
                11 => call.end = random.pick(&[call.start, call.row.len(), call.row.len() + 1, 257, usize::MAX]),
                _ => plan.mode = random.below(4) as u8,
            }
        }
        call.compare(random, seen, &mut t);
    }
    t.close(all);
}

/// Any two causes that can hold together, in calls of two bins or more.
fn pairs(random: &mut Random, seen: &mut Seen, all: &mut Tally) {
    let mut t = Tally::of("print_pages, two causes");
    for _ in 0..crate::times(100, 100) {
        for (a, b) in PAIRS {
            let most = random.pick(&[7, 255]);
            let bins = 2 + random.below(most);
            let (mut row, x) = channel(random, bins, LARGEST);
            row[0] = row[0].max(1);
            let mut call = Call::of(random, (row, x, 0, bins));
            // what looks at the row before what makes it shorter, or the end higher
            for number in [b, a] {
                match number {
                    1 => call.start = call.end + 1,
                    2 => call.end = random.pick(&[257, 300, usize::MAX - 1]),
                    3 if random.below(2) == 0 => call.row.truncate(bins - 1),
                    3 => call.x.truncate(6 * bins - 1),
                    4 => call.row[random.below(bins - 1)] = 20 + random.below(236) as u8,
                    5 => call.x[random.below(6)] = f32::NAN,
                    6 => call.plan.mode = 4 + random.below(252) as u8,
                    _ => call.len = random.below(call.len),
                }
            }
            assert!([a, b].iter().all(|n| call.causes().0.contains(n)), "causes {a} and {b} hold together");
            call.compare(random, seen, &mut t);
        }
    }
    t.close(all);
}
