//! The channel coder of the adaptive hybrid transform (AHT) of E-AC-3, as safe functions over the static library of
//! proved calls.
//!
//! A **bin** is a frequency place, 0 to 255; its **hebap**, 0 to 19, says how it is coded, and a **row** has a hebap
//! for each bin, from bin 0 on. The **vectors** have six components for each bin, from bin 0 on, one behind the
//! other: those of the bin k are the places `6 * k` to `6 * k + 5`. A call works on the bins `start` to `end - 1`.
//!
//! [`plan_aht_channel`] finds the mode and the gains of fewest bits, [`write_aht_channel`] puts the field of a plan
//! into an output, with exactly the bits that the plan announces, and [`read_aht_channel`] reads a field back.
//! [`print_pages`] prints a plan as text, bin by bin. The small calls under them, such as [`vq_search`],
//! [`quantise_bin`] and [`read_u32`], are there too. Functions and plan have the names of the Rust that the library was
//! ported from, where that has them; a plan's gains are Gk (1, 2, 4) here, not codes.
//!
//! ```
//! use fathrugg::{plan_aht_channel, read_aht_channel, write_aht_channel, AhtChannelPlan, Position};
//!
//! let row = [8, 0];
//! let mut vectors = [0.0; 12];
//! vectors[..6].copy_from_slice(&[0.25, 0.0, -0.25, 0.0, 0.0, 0.0]);
//!
//! let best = plan_aht_channel(&row, 0, 2, &vectors)?;
//! assert_eq!(best, AhtChannelPlan::new(1, &[2], 13));
//! assert_eq!(best.total_bits(), 15);
//!
//! let mut out = [0; 2];
//! let mut end = Position::default();
//! write_aht_channel(&best, &row, 0, 2, &vectors, &mut out, &mut end)?;
//! assert_eq!(out, [0x69, 0x80]);
//! assert_eq!(end, Position { byte: 1, bit: 7 });
//!
//! let (mut values, mut exact, mut indices) = ([0.0; 12], [0; 12], [0; 2]);
//! let mut position = Position::default();
//! let channel = read_aht_channel(&out, &mut position, &row, 0, 2, &mut values, &mut exact, &mut indices)?;
//! assert_eq!((channel.gaqmod(), channel.gains(), channel.bits()), (1, &[2][..], 15));
//! assert_eq!(position, end);
//! assert_eq!(values[..3], [0.25, 0.0, -0.25]);
//! # Ok::<(), fathrugg::Refusal>(())
//! ```
//!
//! A call that refuses answers a [`Refusal`], and leaves every lent buffer and position as it was. Of causes that
//! hold together it answers the first in the order that its description has them in.
//!
//! What is proved is the library: that its functions meet their contracts for every input and stay inside their
//! buffers. These declarations of them are not.
//!
//! It needs no `std`, takes no memory but the stack, and links on x86-64 Linux. Floats must be rounded to nearest,
//! subnormal numbers not be flushed to zero, and floating-point exceptions be masked, as is the default.
#![no_std]
#![warn(missing_docs)]

use core::error::Error;
use core::fmt;

/// The places for gains, one for each bin that there may be.
const PLACES: usize = 256;

// As the modules of crates/fathrugg/src have them: a slice is a pointer and its length, an array a pointer alone. Each
// answers the number of its refusal, 0 for none, asks nothing of its arguments but that the pointers are good, and
// keeps none of them.
extern "C" {
    fn fathrugg_version() -> u32;
    fn fathrugg_plan_aht_channel(
        row: *const u8,
        row_len: usize,
        start: usize,
        end: usize,
        vectors: *const f32,
        vectors_len: usize,
        mode: *mut u8,
        gains: *mut u8,
        count: *mut usize,
        payload: *mut u32,
    ) -> u8;
    fn fathrugg_write_aht_channel(
        mode: u8,
        gains: *const u8,
        count: usize,
        payload: u32,
        row: *const u8,
        row_len: usize,
        start: usize,
        end: usize,
        vectors: *const f32,
        vectors_len: usize,
        out: *mut u8,
        out_len: usize,
        byte: *mut usize,
        bit: *mut u32,
    ) -> u8;
    fn fathrugg_read_aht_channel(
        src: *const u8,
        src_len: usize,
        byte: *mut usize,
        bit: *mut u32,
        row: *const u8,
        row_len: usize,
        start: usize,
        end: usize,
        values: *mut f32,
        values_len: usize,
        exact: *mut i32,
        exact_len: usize,
        indices: *mut u16,
        indices_len: usize,
        mode: *mut u8,
        gains: *mut u8,
        count: *mut usize,
        bits: *mut u32,
    ) -> u8;
    fn fathrugg_print_pages(
        mode: u8,
        gains: *const u8,
        count: usize,
        payload: u32,
        row: *const u8,
        row_len: usize,
        start: usize,
        end: usize,
        vectors: *const f32,
        vectors_len: usize,
        out: *mut u8,
        out_len: usize,
        length: *mut usize,
    ) -> u8;
    fn fathrugg_vq_search(hebap: u8, x: *const f32, index: *mut usize) -> u8;
    fn fathrugg_vq_lookup(hebap: u8, index: usize, out: *mut f32) -> u8;
    fn fathrugg_quantise_scalar(hebap: u8, gk: u8, x: f32, large: *mut u8, code: *mut u32, value: *mut f32) -> u8;
    fn fathrugg_quantise_bin(hebap: u8, gk: u8, x: *const f32, values: *mut f32, bits: *mut u32, err: *mut f32) -> u8;
    fn fathrugg_read_u32(src: *const u8, src_len: usize, byte: *mut usize, bit: *mut u32, n: u32, value: *mut u32) -> u8;
    fn fathrugg_write_u32(out: *mut u8, out_len: usize, byte: *mut usize, bit: *mut u32, v: u32, n: u32) -> u8;
    fn fathrugg_hebap_from_address(psd: i16, mask: i32, hebap: *mut u8) -> u8;
    fn fathrugg_endbap_for_gaqmod(gaqmod: u8, endbap: *mut u8) -> u8;
    fn fathrugg_fill_gaqbin(row: *const u8, row_len: usize, gaqmod: u8, gaqbin: *mut i8, gaqbin_len: usize, active: *mut usize) -> u8;
    fn fathrugg_gaq_sections(gaqmod: u8, active: usize, sections: *mut usize) -> u8;
    fn fathrugg_gaq_gain_value(code: u8, gaqmod: u8, gain: *mut u8) -> u8;
    fn fathrugg_read_gaq_gains(
        src: *const u8,
        src_len: usize,
        byte: *mut usize,
        bit: *mut u32,
        gaqmod: u8,
        nsections: usize,
        out: *mut u8,
        out_len: usize,
        count: *mut usize,
    ) -> u8;
    fn fathrugg_read_scalar_aht_mantissas(
        src: *const u8,
        src_len: usize,
        byte: *mut usize,
        bit: *mut u32,
        hebap: u8,
        gaqmod: u8,
        gaqbin: i8,
        gain_code: u8,
        out: *mut f32,
    ) -> u8;
}

/// Why a call refused.
#[derive(Clone, Copy, Debug, PartialEq, Eq, Hash)]
#[non_exhaustive]
pub enum Refusal {
    /// 1: start is above end.
    StartAboveEnd,
    /// 2: end is above 256.
    EndAbove256,
    /// 3: the row, the vectors or an output is too short for the bins.
    TooShort,
    /// 4: a hebap is above 19.
    HebapAbove19,
    /// 5: a vector's component is NaN, infinite or above 16384 in size.
    ComponentTooLarge,
    /// 6: the plan does not fit the row and the vectors.
    PlanDoesNotFit,
    /// 7: the output is too short from the position on, or for the pages, or the position is past its end.
    OutputEnds,
    /// 8: the input runs out, or the position is past its end.
    InputEnds,
    /// 9: a group word of gains is above 26.
    GroupWordAbove26,
    /// 10: an unused code of the last group word is not 0.
    UnusedCodeNotZero,
    /// 11: the quantiser is asked for a hebap or gain that it does not have.
    UnknownToQuantiser,
    /// 12: a mode is above 3, a count of bits above 32, or a mask outside -65536 to 65536.
    ArgumentOutOfRange,
    /// 13: the desk's text is malformed. No function of this crate answers it.
    TextMalformed,
    /// A number that this version has no name for: the library that is linked is a later one.
    Other(u8),
}

/// The refusals that have a name, in the order of their numbers from 1 on.
const NAMED: [Refusal; 13] = [
    Refusal::StartAboveEnd,
    Refusal::EndAbove256,
    Refusal::TooShort,
    Refusal::HebapAbove19,
    Refusal::ComponentTooLarge,
    Refusal::PlanDoesNotFit,
    Refusal::OutputEnds,
    Refusal::InputEnds,
    Refusal::GroupWordAbove26,
    Refusal::UnusedCodeNotZero,
    Refusal::UnknownToQuantiser,
    Refusal::ArgumentOutOfRange,
    Refusal::TextMalformed,
];

impl Refusal {
    /// The number of the refusal, as include/fathrugg.h has it.
    pub fn number(self) -> u8 {
        match self {
            Refusal::Other(number) => number,
            named => NAMED.iter().position(|r| *r == named).map_or(0, |i| i as u8 + 1),
        }
    }

    /// The refusal of a number; none for 0, which is no refusal.
    pub fn from_number(number: u8) -> Option<Refusal> {
        match number {
            0 => None,
            _ => Some(NAMED.get(usize::from(number) - 1).copied().unwrap_or(Refusal::Other(number))),
        }
    }
}

impl fmt::Display for Refusal {
    fn fmt(&self, f: &mut fmt::Formatter<'_>) -> fmt::Result {
        f.write_str(match self {
            Refusal::StartAboveEnd => "start is above end",
            Refusal::EndAbove256 => "end is above 256",
            Refusal::TooShort => "the row, the vectors or an output is too short for the bins",
            Refusal::HebapAbove19 => "a hebap is above 19",
            Refusal::ComponentTooLarge => "a vector's component is NaN, infinite or above 16384 in size",
            Refusal::PlanDoesNotFit => "the plan does not fit the row and the vectors",
            Refusal::OutputEnds => "the output is too short from the position on, or for the pages, or the position is past its end",
            Refusal::InputEnds => "the input runs out, or the position is past its end",
            Refusal::GroupWordAbove26 => "a group word of gains is above 26",
            Refusal::UnusedCodeNotZero => "an unused code of the last group word is not 0",
            Refusal::UnknownToQuantiser => "the quantiser is asked for a hebap or gain that it does not have",
            Refusal::ArgumentOutOfRange => "a mode is above 3, a count of bits above 32, or a mask outside -65536 to 65536",
            Refusal::TextMalformed => "the desk's text is malformed",
            Refusal::Other(number) => return write!(f, "refusal {number}, which this version does not know"),
        })
    }
}

impl Error for Refusal {}

/// What the library's number says.
fn answer(number: u8) -> Result<(), Refusal> {
    Refusal::from_number(number).map_or(Ok(()), Err)
}

/// The version of the library that is linked: 10000 times the major number, 100 times the minor one, and the patch.
pub fn version() -> u32 {
    // SAFETY: it takes nothing.
    unsafe { fathrugg_version() }
}

/// A place in a buffer: the bit `8 * byte + bit`, the first of a byte the heaviest.
///
/// Any pair is a position, also one with a bit of 8 or more; a position that a call gives has a bit below 8.
#[derive(Clone, Copy, Debug, Default, PartialEq, Eq, Hash)]
pub struct Position {
    /// Whole bytes in front.
    pub byte: usize,
    /// Bits behind them.
    pub bit: u32,
}

/// The mode and the gains of a channel, with the bits that its field takes.
#[derive(Clone, Debug, PartialEq, Eq)]
pub struct AhtChannelPlan {
    gaqmod: u8,
    gains: [u8; PLACES],
    count: usize,
    payload_bits: u32,
}

impl AhtChannelPlan {
    /// A plan of any values; whether it fits a row and its vectors is tested by [`write_aht_channel`] and
    /// [`print_pages`]. `gains` has Gk (1, 2 or 4) for each bin that has a gain of its own in the mode, in bin order.
    /// Of more than 256 gains, which fit no row, only the first 256 are kept, and the count.
    pub fn new(gaqmod: u8, gains: &[u8], payload_bits: u32) -> AhtChannelPlan {
        let mut places = [0; PLACES];
        let kept = gains.len().min(PLACES);
        places[..kept].copy_from_slice(&gains[..kept]);
        AhtChannelPlan { gaqmod, gains: places, count: gains.len(), payload_bits }
    }

    /// The mode: 0 to 3 if [`plan_aht_channel`] made it.
    pub fn gaqmod(&self) -> u8 {
        self.gaqmod
    }

    /// The gains, Gk in bin order: the first [`count`](AhtChannelPlan::count) of 256 places.
    pub fn gains(&self) -> &[u8] {
        &self.gains[..self.count.min(PLACES)]
    }

    /// How many gains there are: at most 256 if [`plan_aht_channel`] made it.
    pub fn count(&self) -> usize {
        self.count
    }

    /// The bits of the gain words and of the bins.
    pub fn payload_bits(&self) -> u32 {
        self.payload_bits
    }

    /// The bits of the whole field: the payload and the two bits of the mode.
    pub fn total_bits(&self) -> u64 {
        2 + u64::from(self.payload_bits)
    }
}

/// What stands in a field beside the bins.
#[derive(Clone, Debug, PartialEq, Eq)]
pub struct AhtChannel {
    gaqmod: u8,
    gains: [u8; PLACES],
    count: usize,
    bits: u32,
}

impl AhtChannel {
    /// The mode, 0 to 3.
    pub fn gaqmod(&self) -> u8 {
        self.gaqmod
    }

    /// The gains, Gk (1, 2 or 4) in bin order.
    pub fn gains(&self) -> &[u8] {
        &self.gains[..self.count]
    }

    /// The bits of the whole field, with the two of the mode.
    pub fn bits(&self) -> u32 {
        self.bits
    }
}

/// The code of a scalar mantissa: its bits, as an unsigned number.
#[derive(Clone, Copy, Debug, PartialEq, Eq, Hash)]
pub enum Code {
    /// A short code; only with Gk 2 or 4.
    Small(u32),
    /// The code behind the tag with Gk 2 or 4, the whole code with Gk 1.
    Large(u32),
}

/// The code that is picked for a component.
#[derive(Clone, Copy, Debug, PartialEq)]
pub struct QuantisedScalar {
    /// The code.
    pub code: Code,
    /// What the code stands for.
    pub value: f32,
}

/// The codes that are picked for the six components of a bin, as values.
#[derive(Clone, Copy, Debug, PartialEq)]
pub struct QuantisedBin {
    /// What the codes stand for.
    pub values: [f32; 6],
    /// The bits of the six codes.
    pub bits: u32,
    /// The sum of the squared errors.
    pub err: f32,
}

/// The plan of the bins `start` to `end - 1`: the mode and the gains of fewest bits, the lowest of equals.
///
/// Refusals 1 to 5.
pub fn plan_aht_channel(row: &[u8], start: usize, end: usize, vectors: &[f32]) -> Result<AhtChannelPlan, Refusal> {
    let mut p = AhtChannelPlan::new(0, &[], 0);
    // SAFETY: each pointer goes with the length of its slice, and `gains` has its 256 places.
    answer(unsafe {
        fathrugg_plan_aht_channel(
            row.as_ptr(),
            row.len(),
            start,
            end,
            vectors.as_ptr(),
            vectors.len(),
            &mut p.gaqmod,
            p.gains.as_mut_ptr(),
            &mut p.count,
            &mut p.payload_bits,
        )
    })?;
    Ok(p)
}

/// Writes the field of a plan from the position on, and moves the position behind it; every other bit of the output
/// is kept.
///
/// The plan may be any that fits the row and the vectors, best or not.
///
/// Refusals 1 to 7.
pub fn write_aht_channel(
    plan: &AhtChannelPlan,
    row: &[u8],
    start: usize,
    end: usize,
    vectors: &[f32],
    out: &mut [u8],
    position: &mut Position,
) -> Result<(), Refusal> {
    // SAFETY: each pointer goes with the length of its slice, and `gains` has its 256 places, whatever the count.
    answer(unsafe {
        fathrugg_write_aht_channel(
            plan.gaqmod,
            plan.gains.as_ptr(),
            plan.count,
            plan.payload_bits,
            row.as_ptr(),
            row.len(),
            start,
            end,
            vectors.as_ptr(),
            vectors.len(),
            out.as_mut_ptr(),
            out.len(),
            &mut position.byte,
            &mut position.bit,
        )
    })
}

/// Reads the field of the bins `start` to `end - 1` from the position on, and moves the position behind it.
///
/// For the bin k six values go to the places `6 * k` to `6 * k + 5` of `values`, the same values in units of 2^-30,
/// exactly, to these places of `exact`, and the index of a book bin, 0 for others, to the place k of `indices`. Every
/// other place is kept.
///
/// Refusals 1 to 4, then 8, 9 and 10 as met.
#[allow(clippy::too_many_arguments)]
pub fn read_aht_channel(
    src: &[u8],
    position: &mut Position,
    row: &[u8],
    start: usize,
    end: usize,
    values: &mut [f32],
    exact: &mut [i32],
    indices: &mut [u16],
) -> Result<AhtChannel, Refusal> {
    let mut c = AhtChannel { gaqmod: 0, gains: [0; PLACES], count: 0, bits: 0 };
    // SAFETY: each pointer goes with the length of its slice, and `gains` has its 256 places.
    answer(unsafe {
        fathrugg_read_aht_channel(
            src.as_ptr(),
            src.len(),
            &mut position.byte,
            &mut position.bit,
            row.as_ptr(),
            row.len(),
            start,
            end,
            values.as_mut_ptr(),
            values.len(),
            exact.as_mut_ptr(),
            exact.len(),
            indices.as_mut_ptr(),
            indices.len(),
            &mut c.gaqmod,
            c.gains.as_mut_ptr(),
            &mut c.count,
            &mut c.bits,
        )
    })?;
    Ok(c)
}

/// Prints a plan on pages, as ASCII text, to the front of the output, whose rest is kept. How many bytes the pages
/// have is the answer.
///
/// A line has 64 characters, then a line feed. It shows four bins, in order from `start` on: the bin in 3 characters,
/// its hebap in 2, its Gk in 1 and its bits in 3, right-aligned, with a space between; a space between bins too, and
/// spaces to the end of the line. A bin without a gain of its own in the mode has a dash for Gk. The bits are those of
/// the bin's codes or index, 0 for hebap 0, without gain words. A page has 50 lines, 3250 bytes, and each 200 bins
/// begun have one; lines of 64 spaces fill the last. Without bins there is no page; 6500 bytes are always enough.
///
/// The plan may be any that fits the row and the vectors, best or not.
///
/// ```
/// use fathrugg::{plan_aht_channel, print_pages};
///
/// let row = [8, 0];
/// let vectors = [0.25, 0.0, -0.25, 0.0, 0.0, 0.0, 0.0, 0.0, 0.0, 0.0, 0.0, 0.0];
/// let best = plan_aht_channel(&row, 0, 2, &vectors)?;
///
/// let mut out = [0; 6500];
/// assert_eq!(print_pages(&best, &row, 0, 2, &vectors, &mut out), Ok(3250));
/// assert_eq!(out[..27], *b"  0  8 2  12   1  0 -   0  ");
/// # Ok::<(), fathrugg::Refusal>(())
/// ```
///
/// Refusals 1 to 6 as [`write_aht_channel`], then 7.
pub fn print_pages(
    plan: &AhtChannelPlan,
    row: &[u8],
    start: usize,
    end: usize,
    vectors: &[f32],
    out: &mut [u8],
) -> Result<usize, Refusal> {
    let mut length = 0;
    // SAFETY: each pointer goes with the length of its slice, and `gains` has its 256 places, whatever the count.
    answer(unsafe {
        fathrugg_print_pages(
            plan.gaqmod,
            plan.gains.as_ptr(),
            plan.count,
            plan.payload_bits,
            row.as_ptr(),
            row.len(),
            start,
            end,
            vectors.as_ptr(),
            vectors.len(),
            out.as_mut_ptr(),
            out.len(),
            &mut length,
        )
    })?;
    Ok(length)
}

/// The index of the vector nearest to `x` in the book of the hebap, the lowest of equals. Where there is no book,
/// outside hebap 1 to 7, it is 0.
///
/// Refusal 5, where there is a book.
pub fn vq_search(hebap: u8, x: &[f32; 6]) -> Result<usize, Refusal> {
    let mut index = 0;
    // SAFETY: `x` has its six places.
    answer(unsafe { fathrugg_vq_search(hebap, x.as_ptr(), &mut index) })?;
    Ok(index)
}

/// The code for a component at a hebap of 8 to 19 and a gain: Gk 1, or 2 and 4 up to hebap 16.
///
/// Refusals 11, then 5.
pub fn quantise_scalar(hebap: u8, gk: u8, x: f32) -> Result<QuantisedScalar, Refusal> {
    let (mut large, mut code, mut value) = (0, 0, 0.0);
    // SAFETY: the pointers are to locals.
    answer(unsafe { fathrugg_quantise_scalar(hebap, gk, x, &mut large, &mut code, &mut value) })?;
    let code = if large == 0 { Code::Small(code) } else { Code::Large(code) };
    Ok(QuantisedScalar { code, value })
}

/// The six values of a bin at a hebap of 8 to 19 and a gain, Gk 1, or 2 and 4 up to hebap 16, with their bits and
/// errors.
///
/// Refusals 11, then 5.
pub fn quantise_bin(hebap: u8, gk: u8, x: &[f32; 6]) -> Result<QuantisedBin, Refusal> {
    let mut b = QuantisedBin { values: [0.0; 6], bits: 0, err: 0.0 };
    // SAFETY: `x` and `values` have their six places.
    answer(unsafe { fathrugg_quantise_bin(hebap, gk, x.as_ptr(), b.values.as_mut_ptr(), &mut b.bits, &mut b.err) })?;
    Ok(b)
}

/// The vector at an index of the book of the hebap, counted round the book; six zeros where there is no book, outside
/// hebap 1 to 7.
pub fn vq_lookup(hebap: u8, index: usize) -> [f32; 6] {
    let mut out = [0.0; 6];
    // SAFETY: `out` has its six places. The call never refuses.
    unsafe { fathrugg_vq_lookup(hebap, index, out.as_mut_ptr()) };
    out
}

/// The next `n` bits, 0 to 32 of them, as a number; moves the position behind them.
///
/// Refusals 12, then 8.
pub fn read_u32(src: &[u8], position: &mut Position, n: u32) -> Result<u32, Refusal> {
    let mut value = 0;
    // SAFETY: the pointer goes with the length of its slice, the others are to numbers.
    answer(unsafe { fathrugg_read_u32(src.as_ptr(), src.len(), &mut position.byte, &mut position.bit, n, &mut value) })?;
    Ok(value)
}

/// Puts the low `n` bits of `v`, 0 to 32 of them, at the position, and moves it behind them; every other bit of the
/// output is kept.
///
/// Refusals 12, then 7.
pub fn write_u32(out: &mut [u8], position: &mut Position, v: u32, n: u32) -> Result<(), Refusal> {
    // SAFETY: the pointer goes with the length of its slice, the others are to numbers.
    answer(unsafe { fathrugg_write_u32(out.as_mut_ptr(), out.len(), &mut position.byte, &mut position.bit, v, n) })
}

/// The hebap of a power density and a mask after its floor, -65536 to 65536.
///
/// Refusal 12.
pub fn hebap_from_address(psd: i16, mask: i32) -> Result<u8, Refusal> {
    let mut hebap = 0;
    // SAFETY: the pointer is to a local.
    answer(unsafe { fathrugg_hebap_from_address(psd, mask, &mut hebap) })?;
    Ok(hebap)
}

/// The hebap up to which, not included, [`fill_gaqbin`] marks bins with 1: 12 in modes 0 and 1, 17 in modes 2 and 3.
///
/// Refusal 12.
pub fn endbap_for_gaqmod(gaqmod: u8) -> Result<u8, Refusal> {
    let mut endbap = 0;
    // SAFETY: the pointer is to a local.
    answer(unsafe { fathrugg_endbap_for_gaqmod(gaqmod, &mut endbap) })?;
    Ok(endbap)
}

/// Marks the bins of a row: 1 for hebap 8 up to the mode's [`endbap_for_gaqmod`], not included (also in mode 0, where
/// no gain is read), -1 from there on, else 0. Of the two lengths the lower counts. How many bins are marked with 1
/// is the answer.
///
/// Refusal 12.
pub fn fill_gaqbin(row: &[u8], gaqmod: u8, gaqbin: &mut [i8]) -> Result<usize, Refusal> {
    let mut active = 0;
    // SAFETY: each pointer goes with the length of its slice.
    answer(unsafe { fathrugg_fill_gaqbin(row.as_ptr(), row.len(), gaqmod, gaqbin.as_mut_ptr(), gaqbin.len(), &mut active) })?;
    Ok(active)
}

/// How many gain words so many active bins have: none in mode 0, one each in modes 1 and 2, one for each three begun
/// in mode 3.
///
/// Refusal 12.
pub fn gaq_sections(gaqmod: u8, active: usize) -> Result<usize, Refusal> {
    let mut sections = 0;
    // SAFETY: the pointer is to a local.
    answer(unsafe { fathrugg_gaq_sections(gaqmod, active, &mut sections) })?;
    Ok(sections)
}

/// Gk of a gain code: 1 for code 0; for a higher one 2 in mode 1, 4 in mode 2, and in mode 3 2 for code 1, else 4; in
/// mode 0 always 1.
///
/// Refusal 12.
pub fn gaq_gain_value(code: u8, gaqmod: u8) -> Result<u8, Refusal> {
    let mut gain = 0;
    // SAFETY: the pointer is to a local.
    answer(unsafe { fathrugg_gaq_gain_value(code, gaqmod, &mut gain) })?;
    Ok(gain)
}

/// Reads `nsections` gain words and puts their codes, 0 to 2, to the front of the output, as far as it goes; moves
/// the position. It is laxer than [`read_aht_channel`]: of a group word above 26 the first code is cut to 2. How many
/// codes were put there is the answer.
///
/// Refusals 12, then 8.
pub fn read_gaq_gains(src: &[u8], position: &mut Position, gaqmod: u8, nsections: usize, out: &mut [u8]) -> Result<usize, Refusal> {
    let mut count = 0;
    // SAFETY: each pointer goes with the length of its slice, the others are to numbers.
    answer(unsafe {
        fathrugg_read_gaq_gains(
            src.as_ptr(),
            src.len(),
            &mut position.byte,
            &mut position.bit,
            gaqmod,
            nsections,
            out.as_mut_ptr(),
            out.len(),
            &mut count,
        )
    })?;
    Ok(count)
}

/// Reads the six mantissas of a bin and moves the position. Gk is that of `gain_code` where `gaqbin` is 1, else 1.
/// For hebap 0 to 7 it reads nothing and gives zeros.
///
/// Refusals 12, 4, then 8.
pub fn read_scalar_aht_mantissas(
    src: &[u8],
    position: &mut Position,
    hebap: u8,
    gaqmod: u8,
    gaqbin: i8,
    gain_code: u8,
) -> Result<[f32; 6], Refusal> {
    let mut out = [0.0; 6];
    // SAFETY: the pointer goes with the length of its slice, `out` has its six places, the others are to numbers.
    answer(unsafe {
        fathrugg_read_scalar_aht_mantissas(
            src.as_ptr(),
            src.len(),
            &mut position.byte,
            &mut position.bit,
            hebap,
            gaqmod,
            gaqbin,
            gain_code,
            out.as_mut_ptr(),
        )
    })?;
    Ok(out)
}
