//! The work of crates/bench/src/insns.rt in plain Rust: the same words, the same code, the same line.

include!("decode.rs");

static PACKED: [u8; 16] = [0, 1, 2, 0, 5, 0, 0, 0, 3, 0, 0, 0, 9, 0, 0, 0];
static SPARSE: [u8; 20] = [0, 2, 2, 0, 1, 0, 0, 0, 7, 0, 0, 0, 3, 0, 0, 0, 9, 0, 0, 0];
static ARRAY: [u8; 14] = [0, 3, 1, 0, 5, 0, 0, 0, 1, 2, 3, 4, 5, 0];

fn next(state: u64) -> u64 {
    state.wrapping_mul(6364136223846793005).wrapping_add(1442695040888963407)
}

fn high_byte(format: Format, byte: u8) -> u8 {
    match format {
        F10x | F20t | F30t | F32x => 0,
        F35c => byte % 96,
        _ => byte,
    }
}

fn put_random(out: &mut Vec<u8>, random: u64) {
    let op = (random >> 56) as u8;
    match format_of(op) {
        Some(format) => {
            out.extend_from_slice(&[op, high_byte(format, (random >> 48) as u8)]);
            out.extend_from_slice(&next(random).to_le_bytes()[..2 * format.units() - 2]);
        }
        None if out.len() % 4 != 0 => {}
        None if op % 4 == 0 => out.extend_from_slice(&PACKED),
        None if op % 4 == 1 => out.extend_from_slice(&SPARSE),
        None => out.extend_from_slice(&ARRAY),
    }
}

fn weight(insn: &RawInsn<'_>) -> u64 {
    match *insn {
        I12x { a, b, .. } => a as u64 + b as u64,
        I22c { index, .. } | I21c { index, .. } => index as u64,
        I35c { regs, index, .. } => index as u64 + regs[0] as u64,
        I23x { a, b, c, .. } => a as u64 + b as u64 + c as u64,
        I22b { c, .. } => c as u8 as u64,
        I21t { offset, .. } => offset as u32 as u64,
        _ => 1,
    }
}

fn walk(units: &[u8]) -> (u64, u64) {
    let (mut at, mut sum, mut count) = (0_u32, 0_u64, 0_u64);
    while let Ok(insn) = read_insn(units, at) {
        sum = sum.wrapping_add(weight(&insn));
        count += 1;
        at = at.wrapping_add(size_of(&insn) as u32);
    }
    (sum, count)
}

fn main() {
    let mut words = std::env::args().skip(1).map(|word| word.parse().unwrap_or(1));
    let megabytes: u64 = words.next().unwrap_or(1);
    let walks: u64 = words.next().unwrap_or(1);
    let mut units = Vec::new();
    let mut random: u64 = 1;
    while (units.len() as u64) / 1_000_000 < megabytes {
        random = next(random);
        put_random(&mut units, random);
    }
    let (mut sum, mut count) = (0_u64, 0_u64);
    for _ in 0..walks {
        let (weights, insns) = walk(&units);
        sum = sum.wrapping_add(weights);
        count += insns;
    }
    println!("{sum} {count}");
}
