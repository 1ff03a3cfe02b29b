//! Books, quantiser and planner.
use crate::eac3::{aht, ahtenc};
use crate::ours;
use crate::random::Random;
use crate::signals::{aimed, allowed, bin_of, book_size, border, borders, cause, channel, code_of, component, kept, loud, loud_tie, louder, nudged, outside, vectors, LARGEST};
use crate::Tally;

pub fn run(seed: u64, all: &mut Tally) {
    vq_lookup(&mut Random::new(seed + 10), all);
    vq_search(&mut Random::new(seed + 11), all);
    quantise_scalar(&mut Random::new(seed + 12), all);
    quantise_bin(&mut Random::new(seed + 13), all);
    plan(&mut Random::new(seed + 14), all);
}

fn vq_lookup(random: &mut Random, all: &mut Tally) {
    let mut t = Tally::of("vq_lookup");
    for hebap in 0..=255u8 {
        for i in (0..1100).chain((0..20).map(|_| random.next() as usize)) {
            let mut out = kept();
            ours::vq_lookup(hebap, i, &mut out);
            let want = aht::vq_lookup(hebap, i);
            t.case(0, out.map(f32::to_bits) == want.map(f32::to_bits), || format!("{hebap} {i}: {out:?}, not {want:?}"));
        }
    }
    t.close(all);
}

fn vq_search(random: &mut Random, all: &mut Tally) {
    let mut t = Tally::of("vq_search");
    let mut one = |hebap: u8, x: &[f32; 6]| {
        let mut index = 99_999;
        let refusal = ours::vq_search(hebap, x, &mut index);
        let want = if book_size(hebap) > 0 && x.iter().any(|&v| outside(v)) { (5, 99_999) } else { (0, ahtenc::vq_search(hebap, x)) };
        t.loud(want.0 == 0 && book_size(hebap) > 0 && x.iter().any(|&v| louder(v)));
        t.case(want.0, (refusal, index) == want, || format!("{hebap} {x:?}: {refusal} {index}, not {want:?}"));
    };
    // a near tie and an exact one
    one(1, &[-3582.0, -5096.0, -3448.0, 4629.0, -3975.0, -1091.0].map(|v: f32| v / 32768.0));
    one(1, &[-2535.0, 1492.0, -3722.0, -7072.0, -2163.0, -884.0].map(|v: f32| v / 32768.0));
    for hebap in 0..=255u8 {
        for bad in borders() {
            for j in 0..6 {
                let mut x = [0.25f32; 6];
                x[j] = bad;
                one(hebap, &x);
            }
        }
    }
    for _ in 0..crate::times(60_000, 60_000) {
        let hebap = random.below(9) as u8;
        let size = book_size(hebap);
        let x: [f32; 6] = if size > 0 && random.below(2) == 0 {
            // half way between two vectors, a few steps off: distances that nearly meet
            let (a, b) = (aht::vq_lookup(hebap, random.below(size)), aht::vq_lookup(hebap, random.below(size)));
            core::array::from_fn(|j| nudged((a[j] + b[j]) / 2.0, random.below(5) as i32 - 2))
        } else {
            core::array::from_fn(|_| component(random, LARGEST))
        };
        one(hebap, &x);
    }
    // loud vectors, each component or some, and those with two vectors of a book as far
    let mut ties = 0;
    for _ in 0..crate::times(40_000, 400_000) {
        let hebap = 1 + random.below(7) as u8;
        let x: [f32; 6] = match random.below(4) {
            0 => core::array::from_fn(|_| loud(random)),
            1 => core::array::from_fn(|_| if random.below(2) == 0 { random.pick(&[LARGEST, -LARGEST]) } else { component(random, LARGEST) }),
            _ => loud_tie(random, hebap),
        };
        ties += usize::from(tied(hebap, &x));
        one(hebap, &x);
    }
    println!("compare: of these {ties} loud vectors are as far from a later one of the book as from the one found");
    assert!(ties > crate::times(5_000, 50_000), "ties are met");
    t.close(all);
}

/// Another vector of the book is as far as the one that the Rust finds.
fn tied(hebap: u8, x: &[f32; 6]) -> bool {
    let far = |i: usize| aht::vq_lookup(hebap, i).iter().zip(x).fold(0f32, |d, (v, x)| d + (x - v) * (x - v));
    let found = ahtenc::vq_search(hebap, x);
    let least = far(found);
    assert!(least.is_finite(), "no distance is infinite");
    (found + 1..book_size(hebap)).any(|i| far(i) == least)
}

fn quantise_scalar(random: &mut Random, all: &mut Tally) {
    let mut t = Tally::of("quantise_scalar");
    let mut one = |hebap: u8, gk: u8, x: f32| {
        let (mut large, mut code, mut value) = (9u8, 0xdead_beef, kept()[0]);
        let refusal = ours::quantise_scalar(hebap, gk, x, &mut large, &mut code, &mut value);
        let want = if !allowed(hebap, gk) {
            (11, 9, 0xdead_beef, kept()[0])
        } else if outside(x) {
            (5, 9, 0xdead_beef, kept()[0])
        } else {
            let (large, code, _, y) = code_of(hebap, gk, x);
            (0, large, code, y)
        };
        t.loud(want.0 == 0 && louder(x));
        t.case(want.0, (refusal, large, code, value.to_bits()) == (want.0, want.1, want.2, want.3.to_bits()), || {
            format!("{hebap} {gk} {x:e} ({:#x}): {refusal} {large} {code} {value}, not {want:?}", x.to_bits())
        });
    };
    for hebap in 0..=255 {
        for gk in 0..=255 {
            one(hebap, gk, 0.3);
            one(hebap, gk, f32::NAN);
        }
    }
    for hebap in 8..=19 {
        for gk in [1, 2, 4] {
            for x in [0.0, -0.0, f32::MIN_POSITIVE, f32::from_bits(1)].into_iter().chain(borders()) {
                one(hebap, gk, x);
            }
            if !allowed(hebap, gk) {
                continue;
            }
            for _ in 0..crate::times(25_000, 170_000) {
                let x = component(random, LARGEST);
                one(hebap, gk, x);
                let x = aimed(random, hebap, gk);
                one(hebap, gk, x);
            }
            for i in 0..crate::times(5_000, 50_000) {
                let x = if i < 2 { [1.25, -1.25][i] } else { loud(random) };
                let (large, code, _, _) = code_of(hebap, gk, x);
                assert_eq!((large, code), (1, end_code(hebap, gk, x)), "{hebap} {gk} {x}: the end code");
                one(hebap, gk, x);
            }
        }
    }
    t.close(all);
}

/// The code of the highest or the lowest level; -2^(m-1) is not picked at Gk 1.
fn end_code(hebap: u8, gk: u8, x: f32) -> u32 {
    let m = u32::from(aht::HEBAP_MANT_BITS[hebap as usize]);
    let half = 1 << (if gk == 2 { m - 2 } else { m - 1 });
    if x > 0.0 { half - 1 } else { half + u32::from(gk == 1) }
}

fn quantise_bin(random: &mut Random, all: &mut Tally) {
    let mut t = Tally::of("quantise_bin");
    for _ in 0..crate::times(100_000, 1_000_000) {
        let hebap = 7 + random.below(14) as u8;
        let gk = random.pick(&[1u8, 2, 4, 4, 2, 3]);
        let all_loud = random.below(8) == 0;
        let mut x: [f32; 6] = core::array::from_fn(|_| match random.below(2) {
            _ if all_loud => loud(random),
            0 if allowed(hebap, gk) => aimed(random, hebap, gk),
            _ => component(random, LARGEST),
        });
        if random.below(10) == 0 {
            x[random.below(6)] = border(random);
        }
        let (mut values, mut bits, mut err) = (kept(), 4711u32, kept()[1]);
        let refusal = ours::quantise_bin(hebap, gk, &x, &mut values, &mut bits, &mut err);
        let want = if !allowed(hebap, gk) {
            (11, kept(), 4711, kept()[1])
        } else if x.iter().any(|&v| outside(v)) {
            (5, kept(), 4711, kept()[1])
        } else {
            let (n, e, ys) = bin_of(hebap, gk, &x);
            (0, ys, n, e)
        };
        t.loud(want.0 == 0 && x.iter().any(|&v| louder(v)));
        let same = refusal == want.0 && values.map(f32::to_bits) == want.1.map(f32::to_bits) && bits == want.2 && err.to_bits() == want.3.to_bits();
        t.case(want.0, same, || format!("{hebap} {gk} {x:?}: {refusal} {values:?} {bits} {err}, not {want:?}"));
    }
    t.close(all);
}

fn plan(random: &mut Random, all: &mut Tally) {
    let (mut plans, mut refusals) = (Tally::of("plan_aht_channel, planned"), Tally::of("plan_aht_channel, refused"));
    let mut both = 0;
    for i in 0..crate::times(170_000, 1_000_000) {
        let bins = match i % 8 {
            0 => random.below(257),
            1 => 256,
            _ => random.below(24),
        };
        let (mut row, mut x) = channel(random, bins, LARGEST);
        let (mut start, mut end) = (0, bins);
        if random.below(3) == 0 {
            start = random.below(bins + 2);
            end = random.below(bins + 3);
        }
        // often a fault, at times two: a hebap that is too high and a component that is too large in one channel, say
        for _ in 0..random.below(3) {
            match random.below(12) {
                0 if !row.is_empty() => {
                    let k = random.below(row.len());
                    row[k] = 20 + random.below(236) as u8;
                }
                1 if !x.is_empty() => {
                    let k = random.below(x.len());
                    x[k] = border(random);
                }
                2 => x.truncate(random.below(x.len() + 1)),
                3 => row.truncate(random.below(row.len() + 1)),
                4 => {
                    start = random.pick(&[0, 255, 256, 257, usize::MAX]);
                    end = random.pick(&[0, 255, 256, 257, usize::MAX]);
                }
                5 if bins > 0 && x.len() == 6 * bins && row.len() == bins => {
                    row[random.below(bins)] = 20;
                    x[random.below(6 * bins)] = f32::NAN;
                }
                _ => {}
            }
        }
        let mut ours_plan = ours::Plan::filled();
        let refusal = ours::plan_aht_channel(&row, start, end, &x, &mut ours_plan);
        let number = cause(&row, start, end, &x);
        let five = |k: usize| row[k] != 0 && x[6 * k..6 * k + 6].iter().any(|&v| outside(v));
        both += usize::from(number == 4 && (start..end).any(five));
        let mut want = ours::Plan::filled();
        if number == 0 {
            let p = ahtenc::plan_aht_channel(&row, start, end, &vectors(&x));
            want = ours::Plan { mode: p.gaqmod, gains: [0; 256], count: p.gains.len(), payload: p.payload_bits };
            for (g, &code) in want.gains.iter_mut().zip(&p.gains) {
                *g = [1, 2, 4][code as usize];
            }
        }
        let t = if number == 0 { &mut plans } else { &mut refusals };
        t.loud(number == 0 && (start..end).any(|k| row[k] != 0 && x[6 * k..6 * k + 6].iter().any(|&v| louder(v))));
        t.case(number, refusal == number && ours_plan == want, || format!("{row:?} {start} {end} {x:?}: {refusal} {ours_plan:?}, not {number} {want:?}"));
    }
    plans.close(all);
    refusals.close(all);
    println!("compare: of these {both} have causes 4 and 5");
    assert!(both > crate::times(1_000, 1_000), "both causes are met together");
}
