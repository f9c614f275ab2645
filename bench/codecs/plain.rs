//! The work of crates/bench/src/codecs.rt in plain Rust, with the same output: `plain WORK ROUNDS`.

use std::env;

const SIZE: usize = 1 << 20;

/// The bytes of a linear congruential generator.
fn noise() -> Vec<u8> {
    let mut state: u32 = 12345;
    (0..SIZE)
        .map(|_| {
            state = state.wrapping_mul(1664525).wrapping_add(1013904223);
            (state >> 24) as u8
        })
        .collect()
}

/// Numbers of one to four bytes.
fn numbers() -> Vec<u8> {
    let mut bytes = noise();
    for (i, byte) in bytes.iter_mut().enumerate() {
        if i % 4 == 3 {
            *byte &= 0x7f;
        }
    }
    bytes
}

/// Texts of 40 units: letters, and in each a unit of two bytes and one of three.
fn texts() -> Vec<u8> {
    let mut bytes = noise();
    for (i, byte) in bytes.iter_mut().enumerate() {
        *byte = match i % 45 {
            0 => 40,
            10 => 0xc3,
            20 => 0xe2,
            11 | 21 | 22 => 0x80 | *byte & 0x3f,
            44 => 0,
            _ => b'a' + *byte % 26,
        };
    }
    bytes
}

/// RFC 1950, with the sums reduced once a piece.
fn adler32(bytes: &[u8]) -> u32 {
    let (mut a, mut b) = (1u32, 0u32);
    for piece in bytes.chunks(5552) {
        for &byte in piece {
            a += u32::from(byte);
            b += a;
        }
        a %= 65521;
        b %= 65521;
    }
    b << 16 | a
}

fn read_uleb(bytes: &[u8]) -> Option<(u32, usize)> {
    let mut number = 0u64;
    for (i, &byte) in bytes.iter().take(5).enumerate() {
        number |= u64::from(byte & 0x7f) << (7 * i);
        if byte & 0x80 == 0 {
            return u32::try_from(number).ok().map(|number| (number, i + 1));
        }
    }
    None
}

fn continued(byte: u8) -> Option<u16> {
    (byte & 0xc0 == 0x80).then_some(u16::from(byte & 0x3f))
}

/// The unit at the front, and how many bytes it takes.
fn read_unit(bytes: &[u8]) -> Option<(u16, usize)> {
    match *bytes {
        [a @ 1..=0x7f, ..] => Some((u16::from(a), 1)),
        [a @ 0xc0..=0xdf, b, ..] => {
            let unit = u16::from(a & 0x1f) << 6 | continued(b)?;
            (unit == 0 || unit >= 0x80).then_some((unit, 2))
        }
        [a @ 0xe0..=0xef, b, c, ..] => {
            let unit = u16::from(a & 0x0f) << 12 | continued(b)? << 6 | continued(c)?;
            (unit >= 0x800).then_some((unit, 3))
        }
        _ => None,
    }
}

/// The texts that are read, in chunks that each hold some whole.
#[derive(Default)]
struct Arena {
    chunks: Vec<Vec<u16>>,
}

impl Arena {
    /// An empty piece with room for so many units, at the end of the last chunk.
    fn piece(&mut self, count: usize) -> &mut Vec<u16> {
        let full = self.chunks.last().is_none_or(|chunk| chunk.capacity() - chunk.len() < count);
        if full {
            let size = self.chunks.last().map_or(256, |chunk| chunk.capacity() * 2);
            self.chunks.push(Vec::with_capacity(size.max(count)));
        }
        self.chunks.last_mut().unwrap()
    }
}

/// The units of the string_data_item at the front, and its length in bytes.
fn read_mutf8<'a>(arena: &'a mut Arena, bytes: &[u8]) -> Option<(&'a [u16], usize)> {
    let (count, mut at) = read_uleb(bytes)?;
    let count = count as usize;
    if bytes.len() - at < count {
        return None;
    }
    let chunk = arena.piece(count);
    let begin = chunk.len();
    for _ in 0..count {
        let (unit, length) = read_unit(&bytes[at..])?;
        chunk.push(unit);
        at += length;
    }
    if *bytes.get(at)? != 0 {
        return None;
    }
    Some((&chunk[begin..], at + 1))
}

fn sum_of_numbers(bytes: &[u8]) -> u64 {
    let mut sum = 0u64;
    let mut rest = bytes;
    while let Some((number, length)) = read_uleb(rest) {
        sum = sum.wrapping_add(u64::from(number));
        rest = &rest[length..];
    }
    sum
}

fn sum_of_texts(bytes: &[u8]) -> u64 {
    let mut arena = Arena::default();
    let mut sum = 0u64;
    let mut rest = bytes;
    while let Some((units, length)) = read_mutf8(&mut arena, rest) {
        let last = units.last().copied().unwrap_or(0);
        sum = sum.wrapping_add(units.len() as u64).wrapping_add(u64::from(last));
        rest = &rest[length..];
    }
    sum
}

/// The sum over all rounds, each with another letter in the bytes.
fn sum_of_rounds(mut bytes: Vec<u8>, rounds: u32, work: impl Fn(&[u8]) -> u64) -> u64 {
    let mut sum = 0u64;
    for round in 0..rounds {
        bytes[1] = b'a' + (round % 26) as u8;
        sum = sum.wrapping_add(work(&bytes));
    }
    sum
}

fn main() {
    let words: Vec<String> = env::args().collect();
    let [_, work, rounds] = words.as_slice() else {
        return println!("plain adler32|uleb|mutf8|all ROUNDS");
    };
    let Ok(rounds) = rounds.parse() else {
        return println!("ROUNDS is a number");
    };
    let all = work == "all";
    if all || work == "adler32" {
        println!("adler32 {}", sum_of_rounds(noise(), rounds, |bytes| u64::from(adler32(bytes))));
    }
    if all || work == "uleb" {
        println!("uleb {}", sum_of_rounds(numbers(), rounds, sum_of_numbers));
    }
    if all || work == "mutf8" {
        println!("mutf8 {}", sum_of_rounds(texts(), rounds, sum_of_texts));
    }
}
