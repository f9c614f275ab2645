//! The work of crates/bench/src/code.rt in plain Rust: the code items of a file of version 035 with all their rules, and the same sum.
//! Header, checksums and tables aren't looked at, since one reading of them isn't counted; the tables' sizes are. All code items of a
//! reading are held until its end, as those of a program are.
use std::collections::HashMap;
use std::io::Read;

include!("../insns/decode.rs");

/// An instruction whose offsets are numbers of instructions, and whose index is known to be a row.
#[allow(dead_code)]
enum Insn<'a> {
    Plain(RawInsn<'a>),
    Branch { raw: RawInsn<'a>, to: u32 },
    Switch { raw: RawInsn<'a>, targets: Vec<u32> },
}

#[allow(dead_code)]
struct Try {
    from: u32,
    to: u32,
    catches: Vec<(u32, u32)>,
    catch_all: Option<u32>,
}

struct Code<'a> {
    insns: Vec<Insn<'a>>,
    tries: Vec<Try>,
}

fn u16_at(b: &[u8], p: usize) -> usize {
    u16::from_le_bytes([b[p], b[p + 1]]) as usize
}

fn u32_at(b: &[u8], p: usize) -> usize {
    u32::from_le_bytes([b[p], b[p + 1], b[p + 2], b[p + 3]]) as usize
}

/// Which table the index of an instruction is of: 0 strings, 1 types, 3 fields, 4 methods.
fn table_of(op: u8) -> usize {
    match op {
        0x1a | 0x1b => 0,
        0x1c | 0x1f | 0x20 | 0x22..=0x25 => 1,
        0x52..=0x6d => 3,
        _ => 4,
    }
}

fn index_holds(raw: &RawInsn<'_>, sizes: &[usize; 5]) -> bool {
    match *raw {
        I21c { op, index, .. } | I22c { op, index, .. } | I31c { op, index, .. } | I35c { op, index, .. } | I3rc { op, index, .. } => {
            (index as usize) < sizes[table_of(op)]
        }
        _ => true,
    }
}

fn is_payload(raw: &RawInsn<'_>) -> bool {
    matches!(raw, Packed { .. } | Sparse { .. } | Data { .. })
}

/// Whether the payload is of the kind that the opcode refers to.
fn fits(op: u8, raw: &RawInsn<'_>) -> bool {
    match op {
        0x2b => matches!(raw, Packed { .. }),
        0x2c => matches!(raw, Sparse { .. }),
        _ => matches!(raw, Data { .. }),
    }
}

/// The number of the instruction at an address, which is no payload unless `payload`.
fn lands(raws: &[RawInsn<'_>], starts: &[u32], base: u32, offset: i32, payload: bool) -> Option<u32> {
    let at = u32::try_from(i64::from(base) + i64::from(offset)).ok()?;
    let number = starts.binary_search(&at).ok()?;
    (payload || !is_payload(&raws[number])).then_some(number as u32)
}

fn resolve<'a>(raws: &[RawInsn<'a>], starts: &[u32], users: &[u32], k: usize) -> Option<Insn<'a>> {
    let raw = raws[k];
    let branch = |offset: i32| {
        if offset == 0 && !matches!(raw, I30t { .. }) {
            return None;
        }
        Some(Insn::Branch { raw, to: lands(raws, starts, starts[k], offset, false)? })
    };
    match raw {
        I10t { offset, .. } | I20t { offset, .. } | I30t { offset, .. } | I21t { offset, .. } | I22t { offset, .. } => branch(offset),
        I31t { offset, .. } => Some(Insn::Branch { raw, to: lands(raws, starts, starts[k], offset, true)? }),
        Packed { offsets, .. } | Sparse { offsets, .. } => {
            let base = starts[users[k] as usize];
            let targets: Option<Vec<u32>> =
                offsets.chunks_exact(4).map(|four| lands(raws, starts, base, i32::from_le_bytes(four.try_into().unwrap()), false)).collect();
            Some(Insn::Switch { raw, targets: targets? })
        }
        _ => Some(Insn::Plain(raw)),
    }
}

/// Of each switch's payload its only user.
fn users_of(raws: &[RawInsn<'_>], starts: &[u32]) -> Option<Vec<u32>> {
    let mut users = vec![u32::MAX; raws.len()];
    for (k, raw) in raws.iter().enumerate() {
        if let I31t { op, offset, .. } = *raw {
            let to = lands(raws, starts, starts[k], offset, true)? as usize;
            if !fits(op, &raws[to]) || op != 0x26 && users[to] != u32::MAX {
                return None;
            }
            users[to] = k as u32;
        }
    }
    let used = |k: usize| users[k] != u32::MAX || !matches!(raws[k], Packed { .. } | Sparse { .. });
    (0..raws.len()).all(used).then_some(users)
}

fn uleb(b: &[u8], p: &mut usize) -> Option<u32> {
    let (mut n, mut shift) = (0u64, 0);
    for _ in 0..5 {
        let byte = *b.get(*p)? as u64;
        *p += 1;
        n |= (byte & 127) << shift;
        if byte < 128 {
            return u32::try_from(n).ok();
        }
        shift += 7;
    }
    None
}

fn sleb(b: &[u8], p: &mut usize) -> Option<i32> {
    let (mut n, mut shift) = (0i64, 0);
    for _ in 0..5 {
        let byte = *b.get(*p)? as i64;
        *p += 1;
        n |= (byte & 127) << shift;
        shift += 7;
        if byte < 128 {
            return i32::try_from(if byte & 64 != 0 { n - (1 << shift) } else { n }).ok();
        }
    }
    None
}

type Handler = (Vec<(u32, u32)>, Option<u32>);

fn read_handlers(list: &[u8], starts: &[u32], types: usize) -> Option<HashMap<usize, Handler>> {
    let mut p = 0;
    let count = uleb(list, &mut p)?;
    let mut handlers = HashMap::new();
    for _ in 0..count {
        let at = p;
        let n = sleb(list, &mut p)?;
        let mut catches = Vec::new();
        for _ in 0..n.unsigned_abs() {
            let ty = uleb(list, &mut p)?;
            if ty as usize >= types {
                return None;
            }
            catches.push((ty, starts.binary_search(&uleb(list, &mut p)?).ok()? as u32));
        }
        let all = if n <= 0 { Some(starts.binary_search(&uleb(list, &mut p)?).ok()? as u32) } else { None };
        handlers.insert(at, (catches, all));
    }
    Some(handlers)
}

fn read_tries(items: &[u8], list: &[u8], starts: &[u32], size: usize, types: usize) -> Option<Vec<Try>> {
    if items.is_empty() {
        return Some(Vec::new());
    }
    let mut before = 0;
    for one in items.chunks_exact(8) {
        let (begin, count) = (u32_at(one, 0), u16_at(one, 4));
        starts.binary_search(&(begin as u32)).ok()?;
        if count == 0 || begin + count > size || begin < before {
            return None;
        }
        before = begin + count;
    }
    let handlers = read_handlers(list, starts, types)?;
    items
        .chunks_exact(8)
        .map(|one| {
            let (begin, count) = (u32_at(one, 0), u16_at(one, 4));
            let (catches, catch_all) = handlers.get(&u16_at(one, 6))?.clone();
            let from = starts.binary_search(&(begin as u32)).ok()? as u32;
            let to = starts.partition_point(|at| (*at as usize) < begin + count) as u32;
            Some(Try { from, to, catches, catch_all })
        })
        .collect()
}

fn read_code<'a>(bytes: &'a [u8], sizes: &[usize; 5]) -> Option<Code<'a>> {
    if bytes.len() < 16 {
        return None;
    }
    let (tries, size) = (u16_at(bytes, 6), u32_at(bytes, 12));
    let end = 16 + 2 * size;
    let items = if tries == 0 { end } else { end + size % 2 * 2 };
    let list = items + 8 * tries;
    if bytes.len() < list || size == 0 {
        return None;
    }
    let units = &bytes[16..end];
    let (mut raws, mut starts, mut at) = (Vec::new(), Vec::new(), 0);
    while at < size {
        let raw = read_insn(units, at as u32).ok()?;
        raws.push(raw);
        starts.push(at as u32);
        at += size_of(&raw) as usize;
    }
    if !raws.iter().all(|raw| index_holds(raw, sizes)) {
        return None;
    }
    let users = users_of(&raws, &starts)?;
    let insns: Option<Vec<Insn<'_>>> = (0..raws.len()).map(|k| resolve(&raws, &starts, &users, k)).collect();
    let tries = read_tries(&bytes[items..list], &bytes[list..], &starts, size, sizes[1])?;
    Some(Code { insns: insns?, tries })
}

fn weight(one: &Insn<'_>) -> u64 {
    match one {
        Insn::Branch { raw: I10t { .. } | I21t { .. } | I31t { .. }, to } => *to as u64,
        Insn::Plain(I11n { a, b, .. }) => *a as u64 + *b as u8 as u64,
        Insn::Plain(I22c { a, b, .. }) => *a as u64 + *b as u64,
        Insn::Plain(I35c { n, regs, .. }) => *n as u64 + regs[0] as u64,
        Insn::Switch { raw: Packed { .. }, targets } => targets.len() as u64,
        _ => 1,
    }
}

fn main() {
    let times: u32 = std::env::args().nth(1).and_then(|word| word.parse().ok()).unwrap_or(1);
    let mut file = Vec::new();
    std::io::stdin().read_to_end(&mut file).unwrap();
    let sizes = [56, 64, 72, 80, 88].map(|at| u32_at(&file, at));
    let map = u32_at(&file, 52);
    let entry = |i: usize| map + 4 + 12 * i;
    let code = (0..u32_at(&file, map)).find(|i| u16_at(&file, entry(*i)) == 0x2001).unwrap();
    let (begin, end) = (u32_at(&file, entry(code) + 8), u32_at(&file, entry(code + 1) + 8));
    let mut sum = 0_u64;
    for _ in 0..times {
        let mut codes = Vec::new();
        for at in (begin..end).step_by(256) {
            let code = read_code(&file[at..end], &sizes).unwrap();
            sum = code.insns.iter().fold(sum, |sum, one| sum + weight(one));
            sum = code.tries.iter().fold(sum, |sum, one| sum + one.from as u64 + one.to as u64);
            codes.push(code);
        }
    }
    println!("{sum}");
}
