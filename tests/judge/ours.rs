//! The proved calls, through the static library. Nothing checks these declarations against the Rattle source.
#![allow(improper_ctypes)]

extern "C" {
    fn fathrugg_read_u32(src: *const u8, len: usize, byte: *mut usize, bit: *mut u32, n: u32, value: *mut u32) -> u8;
    fn fathrugg_write_u32(out: *mut u8, len: usize, byte: *mut usize, bit: *mut u32, v: u32, n: u32) -> u8;
    fn fathrugg_hebap_from_address(psd: i16, mask: i32, hebap: *mut u8) -> u8;
    fn fathrugg_endbap_for_gaqmod(gaqmod: u8, endbap: *mut u8) -> u8;
    fn fathrugg_fill_gaqbin(hebap: *const u8, bins: usize, gaqmod: u8, gaqbin: *mut i8, places: usize, active: *mut usize) -> u8;
    fn fathrugg_gaq_sections(gaqmod: u8, active: usize, sections: *mut usize) -> u8;
    fn fathrugg_gaq_gain_value(code: u8, gaqmod: u8, gain: *mut u8) -> u8;
    fn fathrugg_read_gaq_gains(
        src: *const u8, len: usize, byte: *mut usize, bit: *mut u32, gaqmod: u8, nsections: usize, out: *mut u8, places: usize, count: *mut usize,
    ) -> u8;
    fn fathrugg_read_scalar_aht_mantissas(
        src: *const u8, len: usize, byte: *mut usize, bit: *mut u32, hebap: u8, gaqmod: u8, gaqbin: i8, gain_code: u8, out: *mut f32,
    ) -> u8;
    fn fathrugg_vq_lookup(hebap: u8, index: usize, out: *mut f32) -> u8;
    fn fathrugg_vq_search(hebap: u8, x: *const f32, index: *mut usize) -> u8;
    fn fathrugg_quantise_scalar(hebap: u8, gk: u8, x: f32, large: *mut u8, code: *mut u32, value: *mut f32) -> u8;
    fn fathrugg_quantise_bin(hebap: u8, gk: u8, x: *const f32, values: *mut f32, bits: *mut u32, err: *mut f32) -> u8;
    fn fathrugg_plan_aht_channel(
        hebap: *const u8, bins: usize, start: usize, end: usize, x: *const f32, components: usize, mode: *mut u8, gains: *mut u8, count: *mut usize, payload: *mut u32,
    ) -> u8;
    fn fathrugg_write_aht_channel(
        mode: u8, gains: *const u8, count: usize, payload: u32, hebap: *const u8, bins: usize, start: usize, end: usize, x: *const f32, components: usize, out: *mut u8, len: usize,
        byte: *mut usize, bit: *mut u32,
    ) -> u8;
    fn fathrugg_read_aht_channel(
        src: *const u8, len: usize, byte: *mut usize, bit: *mut u32, hebap: *const u8, bins: usize, start: usize, end: usize, values: *mut f32, nvalues: usize, exact: *mut i32, nexact: usize,
        indices: *mut u16, nindices: usize, mode: *mut u8, gains: *mut u8, count: *mut usize, bits: *mut u32,
    ) -> u8;
    fn fathrugg_print_pages(
        mode: u8, gains: *const u8, count: usize, payload: u32, hebap: *const u8, bins: usize, start: usize, end: usize, x: *const f32, components: usize, out: *mut u8, len: usize,
        length: *mut usize,
    ) -> u8;
}

/// A bit position, as the library has it.
#[derive(Clone, Copy, Debug, PartialEq, Eq)]
pub struct Pos {
    pub byte: usize,
    pub bit: u32,
}

impl Pos {
    pub fn of(at: usize) -> Pos {
        Pos { byte: at / 8, bit: (at % 8) as u32 }
    }
}

pub fn read_u32(src: &[u8], p: &mut Pos, n: u32, value: &mut u32) -> u8 {
    unsafe { fathrugg_read_u32(src.as_ptr(), src.len(), &mut p.byte, &mut p.bit, n, value) }
}

pub fn write_u32(out: &mut [u8], p: &mut Pos, v: u32, n: u32) -> u8 {
    unsafe { fathrugg_write_u32(out.as_mut_ptr(), out.len(), &mut p.byte, &mut p.bit, v, n) }
}

pub fn hebap_from_address(psd: i16, mask: i32, hebap: &mut u8) -> u8 {
    unsafe { fathrugg_hebap_from_address(psd, mask, hebap) }
}

pub fn endbap_for_gaqmod(gaqmod: u8, endbap: &mut u8) -> u8 {
    unsafe { fathrugg_endbap_for_gaqmod(gaqmod, endbap) }
}

pub fn fill_gaqbin(hebap: &[u8], gaqmod: u8, gaqbin: &mut [i8], active: &mut usize) -> u8 {
    unsafe { fathrugg_fill_gaqbin(hebap.as_ptr(), hebap.len(), gaqmod, gaqbin.as_mut_ptr(), gaqbin.len(), active) }
}

pub fn gaq_sections(gaqmod: u8, active: usize, sections: &mut usize) -> u8 {
    unsafe { fathrugg_gaq_sections(gaqmod, active, sections) }
}

pub fn gaq_gain_value(code: u8, gaqmod: u8, gain: &mut u8) -> u8 {
    unsafe { fathrugg_gaq_gain_value(code, gaqmod, gain) }
}

pub fn read_gaq_gains(src: &[u8], p: &mut Pos, gaqmod: u8, nsections: usize, out: &mut [u8], count: &mut usize) -> u8 {
    unsafe { fathrugg_read_gaq_gains(src.as_ptr(), src.len(), &mut p.byte, &mut p.bit, gaqmod, nsections, out.as_mut_ptr(), out.len(), count) }
}

pub fn read_scalar_aht_mantissas(src: &[u8], p: &mut Pos, hebap: u8, gaqmod: u8, gaqbin: i8, gain_code: u8, out: &mut [f32; 6]) -> u8 {
    unsafe { fathrugg_read_scalar_aht_mantissas(src.as_ptr(), src.len(), &mut p.byte, &mut p.bit, hebap, gaqmod, gaqbin, gain_code, out.as_mut_ptr()) }
}

pub fn vq_lookup(hebap: u8, index: usize, out: &mut [f32; 6]) -> u8 {
    unsafe { fathrugg_vq_lookup(hebap, index, out.as_mut_ptr()) }
}

pub fn vq_search(hebap: u8, x: &[f32; 6], index: &mut usize) -> u8 {
    unsafe { fathrugg_vq_search(hebap, x.as_ptr(), index) }
}

pub fn quantise_scalar(hebap: u8, gk: u8, x: f32, large: &mut u8, code: &mut u32, value: &mut f32) -> u8 {
    unsafe { fathrugg_quantise_scalar(hebap, gk, x, large, code, value) }
}

pub fn quantise_bin(hebap: u8, gk: u8, x: &[f32; 6], values: &mut [f32; 6], bits: &mut u32, err: &mut f32) -> u8 {
    unsafe { fathrugg_quantise_bin(hebap, gk, x.as_ptr(), values.as_mut_ptr(), bits, err) }
}

/// A plan, as the library has it.
#[derive(Clone, Debug, PartialEq, Eq)]
pub struct Plan {
    pub mode: u8,
    pub gains: [u8; 256],
    pub count: usize,
    pub payload: u32,
}

impl Plan {
    /// What stands there before a call, so that a refusal that changes it is seen.
    pub fn filled() -> Plan {
        Plan { mode: 0x5a, gains: [0x5a; 256], count: 4711, payload: 4711 }
    }
}

pub fn plan_aht_channel(hebap: &[u8], start: usize, end: usize, x: &[f32], p: &mut Plan) -> u8 {
    unsafe {
        fathrugg_plan_aht_channel(
            hebap.as_ptr(), hebap.len(), start, end, x.as_ptr(), x.len(), &mut p.mode, p.gains.as_mut_ptr(), &mut p.count, &mut p.payload,
        )
    }
}

#[allow(clippy::too_many_arguments)]
pub fn write_aht_channel(plan: &Plan, hebap: &[u8], start: usize, end: usize, x: &[f32], out: &mut [u8], p: &mut Pos) -> u8 {
    unsafe {
        fathrugg_write_aht_channel(
            plan.mode, plan.gains.as_ptr(), plan.count, plan.payload, hebap.as_ptr(), hebap.len(), start, end, x.as_ptr(), x.len(), out.as_mut_ptr(), out.len(), &mut p.byte, &mut p.bit,
        )
    }
}

/// What the channel reader answers beside its outputs.
#[derive(Clone, Debug, PartialEq, Eq)]
pub struct Channel {
    pub mode: u8,
    pub gains: [u8; 256],
    pub count: usize,
    pub bits: u32,
}

impl Channel {
    pub fn filled() -> Channel {
        Channel { mode: 0x5a, gains: [0x5a; 256], count: 4711, bits: 4711 }
    }
}

/// What is lent to the channel reader.
#[derive(Clone, Debug, PartialEq)]
pub struct Outputs {
    pub values: Vec<f32>,
    pub exact: Vec<i32>,
    pub indices: Vec<u16>,
}

impl Outputs {
    /// Everything that is lent, the f32 by their bits.
    pub fn bits(&self) -> (Vec<u32>, &[i32], &[u16]) {
        (self.values.iter().map(|v| v.to_bits()).collect(), &self.exact, &self.indices)
    }
}

pub fn read_aht_channel(src: &[u8], p: &mut Pos, hebap: &[u8], start: usize, end: usize, out: &mut Outputs, c: &mut Channel) -> u8 {
    unsafe {
        fathrugg_read_aht_channel(
            src.as_ptr(), src.len(), &mut p.byte, &mut p.bit, hebap.as_ptr(), hebap.len(), start, end, out.values.as_mut_ptr(), out.values.len(), out.exact.as_mut_ptr(), out.exact.len(),
            out.indices.as_mut_ptr(), out.indices.len(), &mut c.mode, c.gains.as_mut_ptr(), &mut c.count, &mut c.bits,
        )
    }
}

#[allow(clippy::too_many_arguments)]
pub fn print_pages(plan: &Plan, hebap: &[u8], start: usize, end: usize, x: &[f32], out: &mut [u8], length: &mut usize) -> u8 {
    unsafe {
        fathrugg_print_pages(
            plan.mode, plan.gains.as_ptr(), plan.count, plan.payload, hebap.as_ptr(), hebap.len(), start, end, x.as_ptr(), x.len(), out.as_mut_ptr(), out.len(), length,
        )
    }
}
