//! The work of crates/bench/src/tables.rt in plain Rust: the five tables of a file of version 035 with all their rules, and the same sum.
use std::io::Read;

fn u16_at(b: &[u8], p: usize) -> usize {
    u16::from_le_bytes([b[p], b[p + 1]]) as usize
}

fn u32_at(b: &[u8], p: usize) -> usize {
    u32::from_le_bytes([b[p], b[p + 1], b[p + 2], b[p + 3]]) as usize
}

fn uleb(b: &[u8], p: &mut usize) -> Option<usize> {
    let (mut n, mut shift) = (0u64, 0);
    for _ in 0..5 {
        let byte = *b.get(*p)? as u64;
        *p += 1;
        n |= (byte & 127) << shift;
        if byte < 128 {
            return (n <= u32::MAX as u64).then_some(n as usize);
        }
        shift += 7;
    }
    None
}

fn text(b: &[u8], mut p: usize, end: usize) -> Option<Vec<u16>> {
    let b = &b[..end];
    let count = uleb(b, &mut p)?;
    if b.len() - p < count {
        return None;
    }
    let mut units = Vec::with_capacity(count);
    for _ in 0..count {
        let a = *b.get(p)? as u16;
        let next = |k: usize| b.get(p + k).map(|x| *x as u16).filter(|x| x & 0xc0 == 0x80).map(|x| x & 63);
        let (unit, length) = match a {
            1..=127 => (a, 1),
            192..=223 => ((a & 31) << 6 | next(1)?, 2),
            224..=239 => ((a & 15) << 12 | next(1)? << 6 | next(2)?, 3),
            _ => return None,
        };
        if length == 2 && unit != 0 && unit < 128 || length == 3 && unit < 2048 {
            return None;
        }
        units.push(unit);
        p += length;
    }
    (*b.get(p)? == 0).then_some(units)
}

fn point(u: &[u16]) -> Option<(u32, usize)> {
    let a = *u.first()? as u32;
    if !(0xd800..0xdc00).contains(&a) {
        return Some((a, 1));
    }
    let b = *u.get(1)? as u32;
    (0xdc00..0xe000).contains(&b).then(|| (0x10000 + ((a - 0xd800) << 10) + (b - 0xdc00), 2))
}

fn run(u: &[u16]) -> usize {
    let mut at = 0;
    while let Some((c, length)) = point(&u[at..]) {
        let is = matches!(c, 65..=90 | 97..=122 | 48..=57 | 36 | 45 | 95 | 0xa1..=0x1fff | 0x2010..=0x2027 | 0x2030..=0xd7ff | 0xe000..=0xffef)
            || c >= 0x10000;
        if !is {
            break;
        }
        at += length;
    }
    at
}

fn is_name(u: &[u16]) -> bool {
    let inner = match u {
        [60, inner @ .., 62] => inner,
        _ => u,
    };
    !inner.is_empty() && run(inner) == inner.len()
}

fn is_descriptor(u: &[u16]) -> bool {
    if u == [86] {
        return true;
    }
    let depth = u.iter().take_while(|c| **c == 91).count();
    match &u[depth..] {
        _ if depth > 255 => false,
        [one] => b"ZBSCIJFD".contains(&(*one as u8)) && *one < 128,
        [76, names @ .., 59] => names.split(|c| *c == 47).all(|name| !name.is_empty() && run(name) == name.len()),
        _ => false,
    }
}

/// The section of a data kind: from its entry's offset to the next one's or the data's end.
fn section(b: &[u8], kind: usize) -> (usize, usize) {
    let map = u32_at(b, 52);
    let data_end = u32_at(b, 104) + u32_at(b, 108);
    let entries = u32_at(b, map);
    for i in 0..entries {
        let p = map + 4 + 12 * i;
        if u16_at(b, p) == kind {
            let end = if i + 1 < entries { data_end.min(u32_at(b, p + 20)) } else { data_end };
            return (u32_at(b, p + 8), end);
        }
    }
    (0, 0)
}

fn list<'b>(b: &'b [u8], lists: (usize, usize), off: usize) -> Option<&'b [u8]> {
    if off == 0 {
        return Some(&[]);
    }
    if off % 4 != 0 || off < lists.0 || lists.1 < off + 4 {
        return None;
    }
    let count = u32_at(b, off);
    ((lists.1 - off - 4) / 2 >= count).then(|| &b[off + 4..off + 4 + 2 * count])
}

struct Tables {
    strings: Vec<Vec<u16>>,
    fields: Vec<(usize, usize, usize)>,
    methods: Vec<(usize, usize, usize)>,
}

fn members(b: &[u8], k: usize, kinds: usize, types: &[usize], strings: &[Vec<u16>], names: &[bool]) -> Option<Vec<(usize, usize, usize)>> {
    let (size, at) = (u32_at(b, 56 + 8 * k), u32_at(b, 60 + 8 * k));
    let mut rows = Vec::with_capacity(size);
    for i in 0..size {
        let p = at + 8 * i;
        let (class, kind, name) = (u16_at(b, p), u16_at(b, p + 2), u32_at(b, p + 4));
        let head = strings[*types.get(class)?][0];
        let fits = if k == 3 { head == 76 } else { head == 76 || head == 91 };
        if kind >= kinds || !fits || !*names.get(name)? || k == 3 && strings[types[kind]] == [86] {
            return None;
        }
        if rows.last().is_some_and(|last| *last >= (class, name, kind)) {
            return None;
        }
        rows.push((class, name, kind));
    }
    Some(rows)
}

fn tables(b: &[u8]) -> Option<Tables> {
    let texts = section(b, 0x2002);
    let mut strings: Vec<Vec<u16>> = Vec::with_capacity(u32_at(b, 56));
    for i in 0..u32_at(b, 56) {
        let p = u32_at(b, u32_at(b, 60) + 4 * i);
        if p < texts.0 || texts.1 <= p {
            return None;
        }
        let next = text(b, p, texts.1)?;
        if strings.last().is_some_and(|last| *last >= next) {
            return None;
        }
        strings.push(next);
    }
    let mut types: Vec<usize> = Vec::with_capacity(u32_at(b, 64));
    for i in 0..u32_at(b, 64) {
        let row = u32_at(b, u32_at(b, 68) + 4 * i);
        if !is_descriptor(strings.get(row)?) || types.last().is_some_and(|last| *last >= row) {
            return None;
        }
        types.push(row);
    }
    let lists = section(b, 0x1001);
    let mut protos: Vec<(usize, Vec<usize>)> = Vec::with_capacity(u32_at(b, 72));
    for i in 0..u32_at(b, 72) {
        let p = u32_at(b, 76) + 12 * i;
        let (shorty, ret) = (strings.get(u32_at(b, p))?, u32_at(b, p + 4));
        let params: Vec<usize> = list(b, lists, u32_at(b, p + 8))?.chunks(2).map(|x| u16_at(x, 0)).collect();
        let mut letters = Vec::new();
        for t in std::iter::once(&ret).chain(&params) {
            let head = strings[*types.get(*t)?][0];
            letters.push(if head == 91 { 76 } else { head });
        }
        if params.iter().any(|t| strings[types[*t]] == [86]) || letters != *shorty {
            return None;
        }
        if protos.last().is_some_and(|last| *last >= (ret, params.clone())) {
            return None;
        }
        protos.push((ret, params));
    }
    let names: Vec<bool> = strings.iter().map(|s| is_name(s)).collect();
    let fields = members(b, 3, types.len(), &types, &strings, &names)?;
    let methods = members(b, 4, protos.len(), &types, &strings, &names)?;
    Some(Tables { strings, fields, methods })
}

fn main() {
    let times: u32 = std::env::args().nth(1).map_or(1, |word| word.parse().unwrap());
    let mut bytes = Vec::new();
    std::io::stdin().read_to_end(&mut bytes).unwrap();
    let mut sum = 0u64;
    for _ in 0..times {
        let t = tables(&bytes).expect("refused");
        sum += t.strings.iter().map(|s| s.len() as u64).sum::<u64>();
        sum += t.fields.iter().chain(&t.methods).map(|row| t.strings[row.1].len() as u64).sum::<u64>();
    }
    println!("{sum}");
}
