//! The work of crates/bench/src/listing.rt in plain Rust: a listing of the same lines is cut into words, read into classes, checked for
//! members and interfaces given twice, and printed again. Names are kept as UTF-16 units, as there.
use std::collections::HashMap;

type Units = Vec<u16>;

#[derive(PartialEq, Eq, Hash, Clone)]
struct Proto {
    params: Vec<Units>,
    ret: Units,
}

enum Name {
    Text(Units),
    Method { class: Units, name: Units, proto: Proto },
}

enum Value {
    Int(i32),
    Text(Units),
}

#[derive(Clone, Copy, PartialEq)]
enum Format {
    F10x,
    F11x,
    F12x,
    F21s,
    F21t,
    F21c,
    F22b,
    F23x,
    F35c,
}

struct Insn {
    op: usize,
    regs: Vec<u8>,
    literal: i32,
    target: u32,
    name: Option<Name>,
}

struct Code {
    sizes: [u16; 3],
    insns: Vec<Insn>,
}

struct Field {
    name: Units,
    ty: Units,
    flags: u32,
    value: Option<Value>,
}

struct Method {
    name: Units,
    proto: Proto,
    flags: u32,
    code: Option<Code>,
}

struct Class {
    ty: Units,
    flags: u32,
    superclass: Option<Units>,
    source: Option<Units>,
    statics: Vec<Field>,
    instances: Vec<Field>,
    directs: Vec<Method>,
    virtuals: Vec<Method>,
}

static OPCODES: [(&str, Format); 11] = [
    ("const/16", Format::F21s),
    ("add-int", Format::F23x),
    ("if-eqz", Format::F21t),
    ("const-string", Format::F21c),
    ("invoke-static", Format::F35c),
    ("add-int/lit8", Format::F22b),
    ("if-nez", Format::F21t),
    ("return-void", Format::F10x),
    ("move-wide", Format::F12x),
    ("long-to-int", Format::F12x),
    ("return", Format::F11x),
];

enum Word<'a> {
    Plain(&'a str),
    Text(Units),
}

fn words<'a>(line: &'a str, out: &mut Vec<Word<'a>>) -> Option<()> {
    out.clear();
    let mut rest = line.trim_start_matches(' ');
    while !rest.is_empty() {
        if let Some(inner) = rest.strip_prefix('"') {
            let mut units = Vec::new();
            let bytes = inner.as_bytes();
            let mut i = 0;
            loop {
                match *bytes.get(i)? {
                    b'"' => break,
                    b'\\' => {
                        let c = *bytes.get(i + 1)?;
                        if c == b'u' {
                            units.push(u16::from_str_radix(inner.get(i + 2..i + 6)?, 16).ok()?);
                            i += 6;
                        } else {
                            units.push(c as u16);
                            i += 2;
                        }
                    }
                    c if (0x20..0x7f).contains(&c) => {
                        units.push(c as u16);
                        i += 1;
                    }
                    _ => return None,
                }
            }
            out.push(Word::Text(units));
            rest = &inner[i + 1..];
        } else {
            let end = rest.find(' ').unwrap_or(rest.len());
            if !rest.as_bytes()[..end].iter().all(|c| (0x21..0x7f).contains(c)) {
                return None;
            }
            out.push(Word::Plain(&rest[..end]));
            rest = &rest[end..];
        }
        rest = rest.trim_start_matches(' ');
    }
    Some(())
}

fn units(text: &str) -> Option<Units> {
    let bytes = text.as_bytes();
    let mut out = Vec::with_capacity(bytes.len());
    let mut i = 0;
    while i < bytes.len() {
        if bytes[i] == b'\\' {
            out.push(u16::from_str_radix(text.get(i + 2..i + 6)?, 16).ok()?);
            i += 6;
        } else {
            out.push(bytes[i] as u16);
            i += 1;
        }
    }
    Some(out)
}

fn is_name_unit(u: u16) -> bool {
    matches!(u, 36 | 45 | 95 | 48..=57 | 65..=90 | 97..=122 | 0xa1..=0xffef)
}

/// The length of the descriptor at the front.
fn descriptor(us: &[u16]) -> Option<usize> {
    let dims = us.iter().take_while(|u| **u == 91).count();
    match *us.get(dims)? {
        86 if dims == 0 => Some(1),
        90 | 66 | 83 | 67 | 73 | 74 | 70 | 68 if dims <= 255 => Some(dims + 1),
        76 if dims <= 255 => {
            let end = dims + us[dims..].iter().position(|u| *u == 59)?;
            let mut parts = us[dims + 1..end].split(|u| *u == 47);
            parts.all(|p| !p.is_empty() && p.iter().all(|u| is_name_unit(*u))).then_some(end + 1)
        }
        _ => None,
    }
}

fn ty(text: &str) -> Option<Units> {
    let us = units(text)?;
    (descriptor(&us)? == us.len()).then_some(us)
}

fn member(us: &[u16]) -> bool {
    let inner = if us.len() > 2 && us[0] == 60 && us[us.len() - 1] == 62 { &us[1..us.len() - 1] } else { us };
    !inner.is_empty() && inner.iter().all(|u| is_name_unit(*u))
}

fn name(text: &str) -> Option<Units> {
    let us = units(text)?;
    member(&us).then_some(us)
}

fn proto(us: &[u16]) -> Option<Proto> {
    let mut rest = us.strip_prefix(&[40])?;
    let mut params = Vec::new();
    while *rest.first()? != 41 {
        let len = descriptor(rest)?;
        params.push(rest[..len].to_vec());
        rest = &rest[len..];
    }
    let ret = rest[1..].to_vec();
    (descriptor(&ret)? == ret.len()).then_some(Proto { params, ret })
}

fn method(text: &str) -> Option<Name> {
    let us = units(text)?;
    let len = descriptor(&us)?;
    let rest = us[len..].strip_prefix(&[45, 62])?;
    let open = rest.iter().position(|u| *u == 40)?;
    if !member(&rest[..open]) {
        return None;
    }
    Some(Name::Method { class: us[..len].to_vec(), name: rest[..open].to_vec(), proto: proto(&rest[open..])? })
}

fn flags(text: &str) -> Option<u32> {
    match text.strip_prefix("0x") {
        Some(digits) => u32::from_str_radix(digits, 16).ok(),
        None => text.parse().ok(),
    }
}

fn register(text: &str) -> Option<u8> {
    text.strip_prefix('v')?.parse().ok()
}

fn insn(opcodes: &HashMap<&str, usize>, ws: &[Word]) -> Option<Insn> {
    let plain = |i: usize| match ws.get(i) {
        Some(Word::Plain(w)) => Some(*w),
        _ => None,
    };
    let op = *opcodes.get(plain(1)?)?;
    let mut one = Insn { op, regs: Vec::new(), literal: 0, target: 0, name: None };
    let count = match OPCODES[op].1 {
        Format::F10x => 2,
        Format::F11x => {
            one.regs.push(register(plain(2)?)?);
            3
        }
        Format::F12x => {
            one.regs.push(register(plain(2)?)?);
            one.regs.push(register(plain(3)?)?);
            4
        }
        Format::F21s => {
            one.regs.push(register(plain(2)?)?);
            one.literal = plain(3)?.parse::<i16>().ok()? as i32;
            4
        }
        Format::F21t => {
            one.regs.push(register(plain(2)?)?);
            one.target = plain(3)?.strip_prefix('@')?.parse().ok()?;
            4
        }
        Format::F21c => {
            one.regs.push(register(plain(2)?)?);
            let Some(Word::Text(us)) = ws.get(3) else { return None };
            one.name = Some(Name::Text(us.clone()));
            4
        }
        Format::F22b => {
            one.regs.push(register(plain(2)?)?);
            one.regs.push(register(plain(3)?)?);
            one.literal = plain(4)?.parse::<i8>().ok()? as i32;
            5
        }
        Format::F23x => {
            for i in 2..5 {
                one.regs.push(register(plain(i)?)?);
            }
            5
        }
        Format::F35c => {
            let mut i = 3;
            while plain(i)? != "}" {
                one.regs.push(register(plain(i)?)?);
                i += 1;
            }
            one.name = Some(method(plain(i + 1)?)?);
            i + 2
        }
    };
    (ws.len() == count).then_some(one)
}

/// Where it goes in a list that rises; None where it is there.
fn place<T, K: Ord>(all: &[T], key: impl Fn(&T) -> K, new: &K) -> Option<usize> {
    all.binary_search_by(|one| key(one).cmp(new)).err()
}

fn parse(opcodes: &HashMap<&str, usize>, text: &str) -> Option<Vec<Class>> {
    let mut classes: Vec<Class> = Vec::new();
    let mut ws = Vec::new();
    let mut last: Option<(bool, usize)> = None;
    let mut code: Option<Code> = None;
    for line in text.lines() {
        words(line, &mut ws)?;
        let Some(Word::Plain(first)) = ws.first() else { continue };
        let plain = |i: usize| match ws.get(i) {
            Some(Word::Plain(w)) => Some(*w),
            _ => None,
        };
        if let Some(label) = first.strip_suffix(':') {
            let code = code.as_mut()?;
            if label.parse::<usize>().ok()? != code.insns.len() {
                return None;
            }
            code.insns.push(insn(opcodes, &ws)?);
            continue;
        }
        match *first {
            "dex" => {}
            "class" => classes.push(Class {
                ty: ty(plain(1)?)?,
                flags: flags(plain(2)?)?,
                superclass: None,
                source: None,
                statics: Vec::new(),
                instances: Vec::new(),
                directs: Vec::new(),
                virtuals: Vec::new(),
            }),
            "super" => classes.last_mut()?.superclass = Some(ty(plain(1)?)?),
            "source" => {
                let Some(Word::Text(us)) = ws.get(1) else { return None };
                classes.last_mut()?.source = Some(us.clone());
            }
            "static" | "instance" => {
                let value = match plain(5) {
                    Some("int") => Some(Value::Int(plain(6)?.parse().ok()?)),
                    Some("string") => {
                        let Some(Word::Text(us)) = ws.get(6) else { return None };
                        Some(Value::Text(us.clone()))
                    }
                    _ => None,
                };
                let new = Field { name: name(plain(1)?)?, ty: ty(plain(2)?)?, flags: flags(plain(3)?)?, value };
                let class = classes.last_mut()?;
                let list = if *first == "static" { &mut class.statics } else { &mut class.instances };
                let at = place(list, |f| (f.name.clone(), f.ty.clone()), &(new.name.clone(), new.ty.clone()))?;
                list.insert(at, new);
            }
            "direct" | "virtual" => {
                let new = Method { name: name(plain(1)?)?, proto: proto(&units(plain(2)?)?)?, flags: flags(plain(3)?)?, code: None };
                let class = classes.last_mut()?;
                let direct = *first == "direct";
                let list = if direct { &mut class.directs } else { &mut class.virtuals };
                let key = |m: &Method| (m.name.clone(), m.proto.ret.clone(), m.proto.params.clone());
                let at = place(list, key, &key(&new))?;
                list.insert(at, new);
                last = Some((direct, at));
            }
            "code" => {
                let sizes = [plain(1)?.parse().ok()?, plain(2)?.parse().ok()?, plain(3)?.parse().ok()?];
                code = Some(Code { sizes, insns: Vec::new() });
            }
            "end" if plain(1)? == "code" => {
                let whole = code.take()?;
                if whole.insns.iter().any(|i| OPCODES[i.op].1 == Format::F21t && i.target as usize >= whole.insns.len()) {
                    return None;
                }
                let (direct, at) = last?;
                let class = classes.last_mut()?;
                let list = if direct { &mut class.directs } else { &mut class.virtuals };
                list[at].code = Some(whole);
            }
            "end" => {}
            _ => return None,
        }
    }
    Some(classes)
}

fn put_name(out: &mut Vec<u8>, us: &[u16]) {
    for u in us {
        if (33..127).contains(u) && *u != 34 && *u != 92 {
            out.push(*u as u8);
        } else {
            out.extend_from_slice(format!("\\u{u:04x}").as_bytes());
        }
    }
}

fn put_text(out: &mut Vec<u8>, us: &[u16]) {
    out.push(b'"');
    for u in us {
        match *u {
            34 | 92 => out.extend_from_slice(&[92, *u as u8]),
            32..127 => out.push(*u as u8),
            _ => out.extend_from_slice(format!("\\u{u:04x}").as_bytes()),
        }
    }
    out.push(b'"');
}

fn put_proto(out: &mut Vec<u8>, p: &Proto) {
    out.push(b'(');
    for param in &p.params {
        put_name(out, param);
    }
    out.push(b')');
    put_name(out, &p.ret);
}

fn put_field(out: &mut Vec<u8>, key: &str, f: &Field) {
    use std::io::Write;
    out.extend_from_slice(key.as_bytes());
    put_name(out, &f.name);
    out.push(b' ');
    put_name(out, &f.ty);
    write!(out, " 0x{:x}", f.flags).unwrap();
    match &f.value {
        Some(Value::Int(n)) => write!(out, " = int {n}").unwrap(),
        Some(Value::Text(us)) => {
            out.extend_from_slice(b" = string ");
            put_text(out, us);
        }
        None => {}
    }
    out.push(b'\n');
}

fn put_insn(out: &mut Vec<u8>, k: usize, i: &Insn) {
    use std::io::Write;
    let (mnemonic, format) = OPCODES[i.op];
    write!(out, "{k}: {mnemonic}").unwrap();
    if format == Format::F35c {
        out.extend_from_slice(b" {");
    }
    for r in &i.regs {
        write!(out, " v{r}").unwrap();
    }
    match format {
        Format::F21s | Format::F22b => write!(out, " {}", i.literal).unwrap(),
        Format::F21t => write!(out, " @{}", i.target).unwrap(),
        Format::F35c => out.extend_from_slice(b" }"),
        _ => {}
    }
    match &i.name {
        Some(Name::Text(us)) => {
            out.push(b' ');
            put_text(out, us);
        }
        Some(Name::Method { class, name, proto }) => {
            out.push(b' ');
            put_name(out, class);
            out.extend_from_slice(b"->");
            put_name(out, name);
            put_proto(out, proto);
        }
        None => {}
    }
    out.push(b'\n');
}

fn put_method(out: &mut Vec<u8>, key: &str, m: &Method) {
    use std::io::Write;
    out.extend_from_slice(key.as_bytes());
    put_name(out, &m.name);
    out.push(b' ');
    put_proto(out, &m.proto);
    writeln!(out, " 0x{:x}", m.flags).unwrap();
    if let Some(code) = &m.code {
        writeln!(out, "code {} {} {}", code.sizes[0], code.sizes[1], code.sizes[2]).unwrap();
        for (k, i) in code.insns.iter().enumerate() {
            put_insn(out, k, i);
        }
        out.extend_from_slice(b"end code\n");
    }
}

fn print(classes: &[Class]) -> Vec<u8> {
    use std::io::Write;
    let mut out = b"dex 035\n".to_vec();
    for c in classes {
        out.extend_from_slice(b"class ");
        put_name(&mut out, &c.ty);
        writeln!(out, " 0x{:x}", c.flags).unwrap();
        if let Some(d) = &c.superclass {
            out.extend_from_slice(b"super ");
            put_name(&mut out, d);
            out.push(b'\n');
        }
        if let Some(us) = &c.source {
            out.extend_from_slice(b"source ");
            put_text(&mut out, us);
            out.push(b'\n');
        }
        c.statics.iter().for_each(|f| put_field(&mut out, "static ", f));
        c.instances.iter().for_each(|f| put_field(&mut out, "instance ", f));
        c.directs.iter().for_each(|m| put_method(&mut out, "direct ", m));
        c.virtuals.iter().for_each(|m| put_method(&mut out, "virtual ", m));
        out.extend_from_slice(b"end class\n");
    }
    out
}

fn listing() -> String {
    let mut text = String::from("dex 035\n");
    for i in 0..2000 {
        text.push_str(&format!("class Lp/C{i}; 0x1\nsuper Ljava/lang/Object;\nsource \"C{i}.java\"\nstatic a I 0x9 = int {i}\nstatic b Ljava/lang/String; 0x9 = string \"text {i}\"\ninstance c [J 0x2\n"));
        text.push_str(&format!("direct m (I)V 0x9\ncode 4 1 2\n0: const/16 v0 100\n1: add-int v1 v0 v3\n2: if-eqz v1 @5\n3: const-string v2 \"a text of number {i}\"\n"));
        text.push_str("4: invoke-static { v1 v2 } Lp/Called;->n(ILjava/lang/String;)V\n5: add-int/lit8 v1 v1 -1\n6: if-nez v1 @3\n7: return-void\nend code\n");
        text.push_str("virtual v (J)I 0x1\ncode 4 3 0\n0: move-wide v0 v2\n1: long-to-int v0 v0\n2: return v0\nend code\nend class\n");
    }
    text
}

fn size_of(classes: &[Class]) -> u64 {
    let insns = |m: &Method| m.code.as_ref().map_or(0, |c| c.insns.len());
    classes
        .iter()
        .map(|c| (c.statics.len() + c.instances.len() + c.directs.iter().map(insns).sum::<usize>() + c.virtuals.iter().map(insns).sum::<usize>()) as u64)
        .sum()
}

fn main() {
    let args: Vec<String> = std::env::args().collect();
    let rounds: u32 = args[2].parse().unwrap();
    let opcodes: HashMap<&str, usize> = OPCODES.iter().enumerate().map(|(i, o)| (o.0, i)).collect();
    let text = listing();
    if args[1] == "size" {
        println!("{}", text.len());
    }
    if args[1] == "parse" || args[1] == "all" {
        let sum: u64 = (0..rounds).map(|_| size_of(&parse(&opcodes, &text).unwrap())).sum();
        println!("parse {sum}");
    }
    if args[1] == "print" || args[1] == "all" {
        let classes = parse(&opcodes, &text).unwrap();
        let sum: u64 = (0..rounds).map(|_| print(&classes).len() as u64).sum();
        println!("print {sum}");
        assert_eq!(print(&classes), text.as_bytes());
    }
}
