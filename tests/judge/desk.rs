//! The desk programs against a second reading of docs/FORMAT.md, Desk text: a parser written from that section alone,
//! with the Rust's planner and writer behind it, and of Pages (pages.rs). Its words are the seed, the programs desk and
//! desk_pages, and how many texts; or `expect`, and it prints what the desk has to print for the text on standard input;
//! or `expect-pages`, and it prints what desk_pages has to.
#![allow(dead_code)]
mod audblk {
    pub const N_COEFFS: usize = 256;
}
mod encoder {
    pub struct BitAllocParams;
    pub struct DbaPlan;
    pub fn compute_bap_table(_: &[u8; 256], _: usize, _: u8, _: &BitAllocParams, _: &mut [u8; 256], _: Option<(&DbaPlan, usize)>, _: &[u8; 64]) {}
}
mod eac3 {
    pub mod aht;
    pub mod ahtenc;
    pub mod tables {
        pub mod aht_codebooks;
    }
}
mod pages;
mod random;
mod signals;

use eac3::ahtenc;
use oxideav_core::bits::BitWriter;
use random::Random;
use std::io::{Read, Write};
use std::process::{Command, Stdio};

/// An item of a form.
enum Item {
    Number(i64),
    Form(Form),
}

struct Form {
    name: Vec<u8>,
    items: Vec<Item>,
}

struct Text<'a> {
    bytes: &'a [u8],
    at: usize,
}

impl Text<'_> {
    fn next(&self) -> Option<u8> {
        self.bytes.get(self.at).copied()
    }

    /// A form, so many levels deep; behind it stands what follows its closing bracket.
    fn form(&mut self, level: usize) -> Option<Form> {
        if level > 4 || self.next()? != b'(' {
            return None;
        }
        self.at += 1;
        let from = self.at;
        while self.next()?.is_ascii_lowercase() {
            self.at += 1;
        }
        let mut form = Form { name: self.bytes[from..self.at].to_vec(), items: Vec::new() };
        loop {
            let line = self.next()? == b'\n' && self.bytes.get(self.at + 1) == Some(&b')');
            if line {
                self.at += 1;
            }
            if self.next()? == b')' {
                self.at += 1;
                return Some(form);
            }
            if !matches!(self.next()?, b' ' | b'\n') {
                return None;
            }
            self.at += 1;
            form.items.push(if self.next()? == b'(' { Item::Form(self.form(level + 1)?) } else { Item::Number(self.number()?) });
        }
    }

    fn number(&mut self) -> Option<i64> {
        let minus = self.next()? == b'-';
        if minus {
            self.at += 1;
        }
        let from = self.at;
        while self.next().is_some_and(|b| b.is_ascii_digit()) {
            self.at += 1;
        }
        let digits = &self.bytes[from..self.at];
        if digits.is_empty() || digits.len() > 8 || (digits[0] == b'0' && (digits.len() > 1 || minus)) {
            return None;
        }
        let size: i64 = std::str::from_utf8(digits).unwrap().parse().unwrap();
        (size <= 16_777_216).then_some(if minus { -size } else { size })
    }
}

fn numbers(form: &Form) -> Option<Vec<i64>> {
    form.items.iter().map(|i| if let Item::Number(n) = i { Some(*n) } else { None }).collect()
}

/// Bins, row and vectors of a text, by the rules of the section.
fn channel_of(bytes: &[u8]) -> Option<(usize, usize, Vec<u8>, Vec<f32>)> {
    if bytes.is_empty() || bytes.len() > 65_536 {
        return None;
    }
    let mut text = Text { bytes, at: 0 };
    let channel = text.form(1)?;
    if !matches!(&bytes[text.at..], b"" | b"\n") || channel.name != b"channel" {
        return None;
    }
    let forms: Option<Vec<&Form>> = channel.items.iter().map(|i| if let Item::Form(f) = i { Some(f) } else { None }).collect();
    let forms = forms?;
    let names: Vec<&[u8]> = forms.iter().map(|f| f.name.as_slice()).collect();
    if names.len() < 2 || names[0] != b"bins" || names[1] != b"row" || names[2..].iter().any(|&n| n != b"vector") {
        return None;
    }
    let bins = numbers(forms[0])?;
    let row = numbers(forms[1])?;
    if bins.len() != 2 || bins.iter().any(|&n| n < 0) || row.len() > 256 || row.iter().any(|n| !(0..=255).contains(n)) || forms.len() - 2 != row.len() {
        return None;
    }
    let mut x = Vec::new();
    for f in &forms[2..] {
        let v = numbers(f)?;
        if v.len() != 6 {
            return None;
        }
        x.extend(v.iter().map(|&n| (n as f64 / 32768.0) as f32));
    }
    Some((bins[0] as usize, bins[1] as usize, row.iter().map(|&n| n as u8).collect(), x))
}

/// A channel with its best plan.
struct Planned {
    start: usize,
    end: usize,
    row: Vec<u8>,
    x: Vec<f32>,
    plan: ahtenc::AhtChannelPlan,
}

/// The plan of a text, or the number of its refusal.
fn planned(bytes: &[u8]) -> Result<Planned, u8> {
    let (start, end, row, x) = channel_of(bytes).ok_or(13u8)?;
    match signals::cause(&row, start, end, &x) {
        0 => {
            let plan = ahtenc::plan_aht_channel(&row, start, end, &signals::vectors(&x));
            Ok(Planned { start, end, row, x, plan })
        }
        number => Err(number),
    }
}

/// What the desk has to print.
fn desk(text: &Result<Planned, u8>) -> Vec<u8> {
    let Planned { start, end, row, x, plan: p } = match text {
        Ok(planned) => planned,
        Err(number) => return format!("(refused {number})\n").into_bytes(),
    };
    let mut w = BitWriter::new();
    ahtenc::write_aht_channel(&mut w, p, row, *start, *end, &signals::vectors(x));
    let gains: String = p.gains.iter().map(|&c| format!(" {}", [1, 2, 4][c as usize])).collect();
    let field: String = w.finish().iter().map(|b| format!(" {b:02x}")).collect();
    format!("(plan\n(mode {})\n(gains{gains})\n(payload {})\n(total {})\n(field{field})\n)\n", p.gaqmod, p.payload_bits, 2 + p.payload_bits).into_bytes()
}

/// What desk_pages has to print: nothing where there are no bins.
fn desk_pages(text: &Result<Planned, u8>) -> Vec<u8> {
    match text {
        Ok(p) => pages::pages(&pages::cells(&p.plan, &p.row, p.start, p.end, &p.x)),
        Err(_) => desk(text),
    }
}

fn sep(random: &mut Random, lines: bool) -> &'static str {
    if lines || random.below(6) == 0 { "\n" } else { " " }
}

/// A text that keeps to the rules, in one of many layouts.
fn good(random: &mut Random) -> Vec<u8> {
    let bins = match random.below(30) {
        0 => 256,
        1 => random.below(257),
        _ => random.below(7),
    };
    let (mut row, x) = signals::channel(random, bins, signals::EARLIER);
    let (mut start, mut end) = (0, bins);
    match random.below(14) {
        0 => start = random.below(bins + 2),
        1 => end = random.pick(&[0, 1, 256, 257, 16_777_216]),
        2 if bins > 0 => row[random.below(bins)] = random.below(256) as u8,
        _ => {}
    }
    let lines = random.below(2) == 0;
    let close = |random: &mut Random| if random.below(5) == 0 { "\n)" } else { ")" };
    let mut s = String::from("(channel");
    s += sep(random, lines);
    s += &format!("(bins{}{start}{}{end}{}", sep(random, false), sep(random, false), close(random));
    s += sep(random, lines);
    s += "(row";
    for h in &row {
        s += sep(random, false);
        s += &h.to_string();
    }
    s += close(random);
    for v in x.chunks(6) {
        s += sep(random, lines);
        s += "(vector";
        for &c in v {
            s += sep(random, false);
            let n = match random.below(12) {
                0 => random.pick(&[16_777_216, -16_777_216, 0, 1, -1, 32768, -32768]),
                _ => ((c.clamp(-512.0, 512.0) * 32768.0) as i64).clamp(-16_777_216, 16_777_216),
            };
            s += &n.to_string();
        }
        s += close(random);
    }
    s += if lines { "\n)" } else { close(random) };
    if random.below(2) == 0 {
        s += "\n";
    }
    s.into_bytes()
}

/// The same with a rule broken, or broken by chance.
fn broken(random: &mut Random) -> Vec<u8> {
    let mut s = good(random);
    match random.below(12) {
        0 => {
            let k = random.below(s.len());
            s.remove(k);
        }
        1 => {
            let k = random.below(s.len() + 1);
            s.insert(k, random.pick(b" \n()-+0123456789abcdhilnorsvw\t\r."));
        }
        2 => {
            let k = random.below(s.len());
            s[k] = random.pick(b" \n()-+0123456789abcdhilnorsvw\t\r.\0\xff");
        }
        3 => s.truncate(random.below(s.len() + 1)),
        4 => {
            let word: &[u8] = random.pick(&[b"(bins 0 1)", b"(row)", b"(vector 0 0 0 0 0 0)", b"(vector 0 0 0 0 0)", b"(note)", b"0", b"()", b"(channel)", b"(row (row (row)))"]);
            let spaces: Vec<usize> = (0..s.len()).filter(|&i| matches!(s[i], b' ' | b'\n')).collect();
            if let Some(&k) = spaces.get(random.below(spaces.len().max(1))) {
                let mut new = s[..k].to_vec();
                new.push(b' ');
                new.extend(word);
                new.extend(&s[k..]);
                s = new;
            }
        }
        5 => {
            let numbers: Vec<usize> = (1..s.len()).filter(|&i| s[i].is_ascii_digit() && !s[i - 1].is_ascii_digit() && s[i - 1] != b'-').collect();
            if !numbers.is_empty() {
                let k = random.pick(&numbers);
                let end = (k..s.len()).find(|&i| !s[i].is_ascii_digit()).unwrap_or(s.len());
                let word: &[u8] = random.pick(&[b"16777217", b"-16777217", b"016", b"-0", b"00", b"+1", b"256", b"-1", b"99999999999999999999999999", b"1e3", b"0x1", b"1.5", b""]);
                s.splice(k..end, word.iter().copied());
            }
        }
        6 => s.extend_from_slice(random.pick(&[b"\n\n" as &[u8], b" ", b"\n ", b")", b"x", b"\0"])),
        7 => s.insert(0, random.pick(b" \n(")),
        8 => s = random.pick(&[b"" as &[u8], b"\n", b"(", b"()", b"(channel)", b"(channel", b"(channel)\n\n", b"(channel (bins 0 0))", b"(channel (bins 0 0) (row))", b"(channel (row) (bins 0 0))", b"(channel(bins 0 0) (row))"]).to_vec(),
        9 => {
            let n = 65_530 + random.below(12);
            s = vec![random.pick(b" \n0(")];
            s.resize(n, b'0');
        }
        10 => {
            if let Some(k) = s.windows(2).position(|w| w == b"\n)") {
                s.insert(k, b'\n');
            }
        }
        _ => {
            // a row number or a vector more, or less
            if let Some(k) = s.windows(4).position(|w| w == b"(row") {
                let word: &[u8] = random.pick(&[b" 8", b" 0", b"\n19"]);
                s.splice(k + 4..k + 4, word.iter().copied());
            }
        }
    }
    s
}

/// What a program prints for a text; None where it fails, or says something beside its answer.
fn printed(program: &str, text: &[u8]) -> Option<Vec<u8>> {
    let mut child = Command::new(program).stdin(Stdio::piped()).stdout(Stdio::piped()).stderr(Stdio::piped()).spawn().expect("the program runs");
    let mut input = child.stdin.take().unwrap();
    // in two pieces, as a pipe may give them; a program that has seen enough may close its end
    let cut = text.len() / 3;
    let _ = input.write_all(&text[..cut]).and_then(|()| input.flush()).and_then(|()| input.write_all(&text[cut..]));
    drop(input);
    let output = child.wait_with_output().expect("the program ends");
    (output.status.success() && output.stderr.is_empty()).then_some(output.stdout)
}

fn main() {
    let words: Vec<String> = std::env::args().collect();
    if let Some(word @ ("expect" | "expect-pages")) = words.get(1).map(String::as_str) {
        let mut text = Vec::new();
        std::io::stdin().read_to_end(&mut text).expect("a text");
        let planned = planned(&text);
        let answer = if word == "expect" { desk(&planned) } else { desk_pages(&planned) };
        std::io::stdout().write_all(&answer).expect("an answer can be printed");
        return;
    }
    let seed = words.get(1).and_then(|s| s.parse().ok()).unwrap_or(1);
    let programs = [words.get(2).expect("the desk program"), words.get(3).expect("the program of its pages")];
    let count: u64 = words.get(4).and_then(|s| s.parse().ok()).unwrap_or(20_000);
    let mut random = Random::new(seed + 30);
    let (mut different, mut plans, mut refusals) = (0u64, 0u64, [0u64; 14]);
    let mut sheets = [0u64; 3];
    for i in 0..count {
        let text = if i % 2 == 0 { good(&mut random) } else { broken(&mut random) };
        let planned = planned(&text);
        let want = [desk(&planned), desk_pages(&planned)];
        match planned {
            Ok(_) => {
                plans += 1;
                sheets[want[1].len() / 3250] += 1;
            }
            Err(number) => refusals[number as usize] += 1,
        }
        for (program, want) in programs.into_iter().zip(want) {
            let got = printed(program, &text);
            if got.as_ref() != Some(&want) {
                different += 1;
                if different <= 5 {
                    let shown = |b: &[u8]| String::from_utf8_lossy(b).into_owned();
                    println!("{program}: {:?}: {:?}, not {:?}", shown(&text), got.as_deref().map(shown), shown(&want));
                }
            }
        }
    }
    let refused: Vec<String> = refusals.iter().enumerate().filter(|(_, n)| **n > 0).map(|(k, n)| format!("{n} with {k}")).collect();
    println!("compare: desk, seed {seed}: {count} texts, {different} different; {plans} planned, refused {}", refused.join(", "));
    println!("compare: desk, of the plans {} have no page, {} one, {} two", sheets[0], sheets[1], sheets[2]);
    // each answer that the desk can give is met
    let met = plans > count / 4 && [1, 2, 3, 4, 13].iter().all(|&k| refusals[k] > count / 500) && sheets.iter().all(|&n| n > count / 500);
    if different > 0 || !met {
        std::process::exit(1);
    }
}
