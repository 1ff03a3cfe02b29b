//! What the Rust makes of a field: its own reading functions in the order of the layout (docs/FORMAT.md, Channel
//! reader), with the strictness of the channel reader (words above 26 and missing codes), and the exact values by the
//! formulas of docs/FORMAT.md from the codes that stand in the field. The numbers a and b are taken from the Rust's
//! gaq_remap.
use crate::eac3::aht;
use oxideav_core::bits::BitReader;

/// What a field shows of the bins start to end - 1.
#[derive(Clone, Debug, PartialEq)]
pub struct Shown {
    pub mode: u8,
    /// Gk in bin order.
    pub gains: Vec<u8>,
    pub bits: usize,
    pub values: Vec<f32>,
    pub exact: Vec<i32>,
    pub indices: Vec<u16>,
}

/// The channel that stands at a bit position, for the hebaps of its bins; or the number of the refusal: 8, 9 or 10.
pub fn read(src: &[u8], at: usize, part: &[u8]) -> Result<Shown, u8> {
    let mut br = BitReader::at(src, at).map_err(|_| 8u8)?;
    let mode = br.read_u32(2).map_err(|_| 8u8)? as u8;
    let mut marks = vec![0i8; part.len()];
    let marked = aht::fill_gaqbin(part, mode, &mut marks);
    let active = if mode == 0 { 0 } else { marked };
    let codes = gain_codes(src, &mut br, mode, active)?;
    let mut shown = Shown { mode, gains: codes.iter().map(|&c| aht::gaq_gain_value(c, mode)).collect(), bits: 0, values: Vec::new(), exact: Vec::new(), indices: Vec::new() };
    let mut next = codes.iter();
    for (&h, &mark) in part.iter().zip(&marks) {
        let (mut values, mut exact, mut index) = ([0f32; 6], [0i32; 6], 0u16);
        match h {
            0 => {}
            1..=7 => {
                index = br.read_u32(u32::from(aht::VQ_BITS[h as usize])).map_err(|_| 8u8)? as u16;
                values = aht::vq_lookup(h, index as usize);
                exact = values.map(|v| (f64::from(v) * (1u64 << 30) as f64) as i32);
            }
            _ => {
                let code = if mode > 0 && mark == 1 { *next.next().expect("a gain for each active bin") } else { 0 };
                let gk = if mark == 1 { aht::gaq_gain_value(code, mode) } else { 1 };
                let before = br.taken();
                aht::read_scalar_aht_mantissas(&mut br, h, mode, mark, code, &mut values).map_err(|_| 8u8)?;
                exact = exact_values(src, before, h, gk);
            }
        }
        shown.values.extend(values);
        shown.exact.extend(exact);
        shown.indices.push(index);
    }
    shown.bits = br.taken() - at;
    Ok(shown)
}

/// The codes of the active bins, a word at a time, so that refusals come as they are met.
fn gain_codes(src: &[u8], br: &mut BitReader, mode: u8, active: usize) -> Result<Vec<u8>, u8> {
    let sections = aht::gaq_sections(mode, active);
    let mut codes = Vec::new();
    for _ in 0..sections {
        let mut three = [0u8; 3];
        let before = br.taken();
        let n = aht::read_gaq_gains(br, mode, 1, &mut three).map_err(|_| 8u8)?;
        if mode == 3 && BitReader::at(src, before).and_then(|mut b| b.read_u32(5)).unwrap() > 26 {
            return Err(9);
        }
        codes.extend(&three[..n]);
    }
    if codes[active..].iter().any(|&c| c != 0) {
        return Err(10);
    }
    codes.truncate(active);
    Ok(codes)
}

/// The exact values of the six codes that stand at a bit position, in units of 2^-30: docs/FORMAT.md, Levels.
fn exact_values(src: &[u8], at: usize, hebap: u8, gk: u8) -> [i32; 6] {
    let m = u32::from(aht::HEBAP_MANT_BITS[hebap as usize]);
    let q15 = |y: f32| (y * 32768.0) as i64;
    // y = x + a x + b at x = 1, 0 and -1
    let b = if gk == 1 { 0 } else { q15(aht::gaq_remap(hebap, gk, 0.0)) };
    let a = q15(aht::gaq_remap(hebap, gk, 1.0)) - 32768 - b;
    let below = if gk == 1 { 0 } else { q15(aht::gaq_remap(hebap, gk, -1.0)) + 32768 + a };
    let (small, large, shift) = match gk {
        1 => (0, m, 16 - m),
        2 => (m - 1, m - 1, 17 - m),
        _ => (m - 2, m, 16 - m),
    };
    let mut br = BitReader::at(src, at).unwrap();
    let mut code = |w: u32| {
        let u = i64::from(br.read_u32(w).unwrap());
        if u < 1 << (w - 1) { u } else { u - (1 << w) }
    };
    core::array::from_fn(|_| {
        if small > 0 {
            let s = code(small);
            if s != -(1 << (small - 1)) {
                return (s << (31 - m)) as i32;
            }
        }
        let l = code(large);
        (((l * (32768 + a)) << shift) + ((if l < 0 { below } else { b }) << 15)) as i32
    })
}
