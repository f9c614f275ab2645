// Reading an instruction in plain Rust, as the programs of bench/insns and bench/code do.
#[rustfmt::skip]
#[derive(Clone, Copy)]
enum Format {
    F10x, F12x, F11n, F11x, F10t,
    F20t, F22x, F21t, F21s, F21h, F21c, F23x, F22b, F22t, F22s, F22c,
    F30t, F32x, F31i, F31t, F31c, F35c, F3rc,
    F51l,
}
use Format::*;

impl Format {
    fn units(self) -> usize {
        match self {
            F10x | F12x | F11n | F11x | F10t => 1,
            F51l => 5,
            F30t | F32x | F31i | F31t | F31c | F35c | F3rc => 3,
            _ => 2,
        }
    }
}

/// The format of an opcode.
const fn format_in_table(op: u8) -> Option<Format> {
    Some(match op {
        0x00 | 0x0e => F10x,
        0x01 | 0x04 | 0x07 | 0x21 | 0x7b..=0x8f | 0xb0..=0xcf => F12x,
        0x02 | 0x05 | 0x08 => F22x,
        0x03 | 0x06 | 0x09 => F32x,
        0x0a..=0x0d | 0x0f..=0x11 | 0x1d | 0x1e | 0x27 => F11x,
        0x12 => F11n,
        0x13 | 0x16 => F21s,
        0x14 | 0x17 => F31i,
        0x15 | 0x19 => F21h,
        0x18 => F51l,
        0x1a | 0x1c | 0x1f | 0x22 | 0x60..=0x6d => F21c,
        0x1b => F31c,
        0x20 | 0x23 | 0x52..=0x5f => F22c,
        0x24 | 0x6e..=0x72 => F35c,
        0x25 | 0x74..=0x78 => F3rc,
        0x26 | 0x2b | 0x2c => F31t,
        0x28 => F10t,
        0x29 => F20t,
        0x2a => F30t,
        0x2d..=0x31 | 0x44..=0x51 | 0x90..=0xaf => F23x,
        0x32..=0x37 => F22t,
        0x38..=0x3d => F21t,
        0xd0..=0xd7 => F22s,
        0xd8..=0xe2 => F22b,
        _ => return None,
    })
}

static FORMATS: [Option<Format>; 256] = {
    let mut formats = [None; 256];
    let mut op = 0;
    while op < 256 {
        formats[op] = format_in_table(op as u8);
        op += 1;
    }
    formats
};

fn format_of(op: u8) -> Option<Format> {
    FORMATS[op as usize]
}

#[allow(dead_code)]
#[rustfmt::skip]
#[derive(Clone, Copy)]
enum RawInsn<'a> {
    I10x { op: u8 },
    I12x { op: u8, a: u8, b: u8 },
    I11n { op: u8, a: u8, b: i8 },
    I11x { op: u8, a: u8 },
    I10t { op: u8, offset: i32 },
    I20t { op: u8, offset: i32 },
    I22x { op: u8, a: u8, b: u16 },
    I21t { op: u8, a: u8, offset: i32 },
    I21s { op: u8, a: u8, b: i16 },
    I21h { op: u8, a: u8, b: i16 },
    I21c { op: u8, a: u8, index: u32 },
    I23x { op: u8, a: u8, b: u8, c: u8 },
    I22b { op: u8, a: u8, b: u8, c: i8 },
    I22t { op: u8, a: u8, b: u8, offset: i32 },
    I22s { op: u8, a: u8, b: u8, c: i16 },
    I22c { op: u8, a: u8, b: u8, index: u32 },
    I30t { op: u8, offset: i32 },
    I32x { op: u8, a: u16, b: u16 },
    I31i { op: u8, a: u8, b: i32 },
    I31t { op: u8, a: u8, offset: i32 },
    I31c { op: u8, a: u8, index: u32 },
    I35c { op: u8, n: u8, regs: [u8; 5], index: u32 },
    I3rc { op: u8, n: u8, first: u16, index: u32 },
    I51l { op: u8, a: u8, b: i64 },
    Packed { first: i32, offsets: &'a [u8] },
    Sparse { keys: &'a [u8], offsets: &'a [u8] },
    Data { width: u16, bytes: &'a [u8] },
}
use RawInsn::*;

#[allow(dead_code)]
struct Fault {
    code: u16,
    place: u64,
}

fn unit(bytes: &[u8], k: usize) -> u16 {
    u16::from_le_bytes(bytes[2 * k..2 * k + 2].try_into().unwrap())
}

fn two_units(bytes: &[u8], k: usize) -> u32 {
    u32::from_le_bytes(bytes[2 * k..2 * k + 4].try_into().unwrap())
}

fn four_units(bytes: &[u8], k: usize) -> u64 {
    u64::from_le_bytes(bytes[2 * k..2 * k + 8].try_into().unwrap())
}

#[rustfmt::skip]
fn read_plain(front: &[u8]) -> Result<RawInsn<'_>, u16> {
    let [op, high] = unit(front, 0).to_le_bytes();
    let format = format_of(op).ok_or(62_u16)?;
    if front.len() < 2 * format.units() {
        return Err(63);
    }
    let (low, top) = (high & 15, high >> 4);
    Ok(match format {
        F10x | F20t | F30t | F32x if high != 0 => return Err(64),
        F10x => I10x { op },
        F12x => I12x { op, a: low, b: top },
        F11n => I11n { op, a: low, b: (high as i8) >> 4 },
        F11x => I11x { op, a: high },
        F10t => I10t { op, offset: high as i8 as i32 },
        F20t => I20t { op, offset: unit(front, 1) as i16 as i32 },
        F22x => I22x { op, a: high, b: unit(front, 1) },
        F21t => I21t { op, a: high, offset: unit(front, 1) as i16 as i32 },
        F21s => I21s { op, a: high, b: unit(front, 1) as i16 },
        F21h => I21h { op, a: high, b: unit(front, 1) as i16 },
        F21c => I21c { op, a: high, index: unit(front, 1) as u32 },
        F23x => { let [b, c] = unit(front, 1).to_le_bytes(); I23x { op, a: high, b, c } }
        F22b => { let [b, c] = unit(front, 1).to_le_bytes(); I22b { op, a: high, b, c: c as i8 } }
        F22t => I22t { op, a: low, b: top, offset: unit(front, 1) as i16 as i32 },
        F22s => I22s { op, a: low, b: top, c: unit(front, 1) as i16 },
        F22c => I22c { op, a: low, b: top, index: unit(front, 1) as u32 },
        F30t => I30t { op, offset: two_units(front, 1) as i32 },
        F32x => I32x { op, a: unit(front, 1), b: unit(front, 2) },
        F31i => I31i { op, a: high, b: two_units(front, 1) as i32 },
        F31t => I31t { op, a: high, offset: two_units(front, 1) as i32 },
        F31c => I31c { op, a: high, index: two_units(front, 1) },
        F35c if top > 5 => return Err(66),
        F35c => {
            let third = unit(front, 2);
            let all = [third as u8 & 15, (third >> 4) as u8 & 15, (third >> 8) as u8 & 15, (third >> 12) as u8, low];
            let mut regs = [0; 5];
            regs[..top as usize].copy_from_slice(&all[..top as usize]);
            I35c { op, n: top, regs, index: unit(front, 1) as u32 }
        }
        F3rc => I3rc { op, n: high, first: unit(front, 2), index: unit(front, 1) as u32 },
        F51l => I51l { op, a: high, b: four_units(front, 1) as i64 },
    })
}

fn read_payload(front: &[u8], at: u32) -> Result<RawInsn<'_>, u16> {
    if at % 2 == 1 {
        return Err(67);
    }
    if front.len() < 4 {
        return Err(63);
    }
    let size = unit(front, 1) as usize;
    match unit(front, 0) {
        0x0100 => {
            if front.len() < 8 + 4 * size {
                return Err(63);
            }
            Ok(Packed { first: two_units(front, 2) as i32, offsets: &front[8..8 + 4 * size] })
        }
        0x0200 => {
            if front.len() < 4 + 8 * size {
                return Err(63);
            }
            let (keys, offsets) = front[4..4 + 8 * size].split_at(4 * size);
            for i in 1..size {
                if two_units(keys, 2 * i - 2) as i32 >= two_units(keys, 2 * i) as i32 {
                    return Err(67);
                }
            }
            Ok(Sparse { keys, offsets })
        }
        _ => {
            if front.len() < 8 {
                return Err(63);
            }
            let width = size as u16;
            if !matches!(width, 1 | 2 | 4 | 8) {
                return Err(67);
            }
            let bytes = two_units(front, 2) as usize * size;
            if front.len() < 8 + (bytes + 1) / 2 * 2 {
                return Err(63);
            }
            Ok(Data { width, bytes: &front[8..8 + bytes] })
        }
    }
}

fn read_insn(units: &[u8], at: u32) -> Result<RawInsn<'_>, Fault> {
    let fault = |code| Fault { code, place: at as u64 };
    let begin = 2 * at as usize;
    if units.len() < begin + 2 {
        return Err(fault(63));
    }
    let front = &units[begin..];
    match unit(front, 0) {
        0x0100 | 0x0200 | 0x0300 => read_payload(front, at),
        _ => read_plain(front),
    }
    .map_err(fault)
}

#[rustfmt::skip]
fn size_of(insn: &RawInsn<'_>) -> u64 {
    match insn {
        I10x { .. } | I12x { .. } | I11n { .. } | I11x { .. } | I10t { .. } => 1,
        I30t { .. } | I32x { .. } | I31i { .. } | I31t { .. } | I31c { .. } | I35c { .. } | I3rc { .. } => 3,
        I51l { .. } => 5,
        Packed { offsets, .. } => 4 + 2 * (offsets.len() as u64 / 4),
        Sparse { keys, .. } => 2 + 4 * (keys.len() as u64 / 4),
        Data { bytes, .. } => 4 + (bytes.len() as u64 + 1) / 2,
        _ => 2,
    }
}
