//! The work of crates/bench/src/needed.rt in plain Rust: the same words, the same names, the same line. A set in the order of first need is
//! a `Vec` of names and a `HashMap` from a name to its place, by the standard hasher, as in the crate `indexmap`.
use std::collections::HashMap;
use std::hash::Hash;

type Str = &'static [u16];

struct Held<N> {
    places: HashMap<N, usize>,
    names: Vec<N>,
}

impl<N: Copy + Eq + Hash + Ord> Held<N> {
    fn new() -> Self {
        Held { places: HashMap::new(), names: Vec::new() }
    }

    fn holds(&self, name: &N) -> bool {
        self.places.contains_key(name)
    }

    fn add(&mut self, name: N) {
        let next = self.names.len();
        let names = &mut self.names;
        self.places.entry(name).or_insert_with(|| {
            names.push(name);
            next
        });
    }

    fn ranked(&self) -> Vec<N> {
        let mut names = self.names.clone();
        names.sort();
        names
    }
}

#[derive(Clone, Copy, PartialEq, Eq, PartialOrd, Ord, Hash)]
struct Proto {
    ret: Str,
    params: &'static [Str],
}

#[derive(Clone, Copy, PartialEq, Eq, PartialOrd, Ord, Hash)]
struct Field {
    class: Str,
    name: Str,
    ty: Str,
}

#[derive(Clone, Copy, PartialEq, Eq, PartialOrd, Ord, Hash)]
struct Method {
    class: Str,
    name: Str,
    proto: &'static Proto,
}

struct Needed {
    strings: Held<Str>,
    types: Held<Str>,
    protos: Held<Proto>,
    fields: Held<Field>,
    methods: Held<Method>,
}

impl Needed {
    fn add_type(&mut self, ty: Str) {
        self.strings.add(ty);
        self.types.add(ty);
    }

    fn add_proto(&mut self, proto: &Proto) {
        if self.protos.holds(proto) {
            return;
        }
        let letter = |ty: &Str| if ty[0] == 91 { 76 } else { ty[0] };
        let shorty: Vec<u16> = std::iter::once(&proto.ret).chain(proto.params).map(letter).collect();
        self.strings.add(shorty.leak());
        self.add_type(proto.ret);
        for param in proto.params {
            self.add_type(param);
        }
        self.protos.add(*proto);
    }

    fn add_field(&mut self, field: &Field) {
        if self.fields.holds(field) {
            return;
        }
        self.add_type(field.class);
        self.strings.add(field.name);
        self.add_type(field.ty);
        self.fields.add(*field);
    }

    fn add_method(&mut self, method: &Method) {
        if self.methods.holds(method) {
            return;
        }
        self.add_type(method.class);
        self.strings.add(method.name);
        self.add_proto(method.proto);
        self.methods.add(*method);
    }
}

fn numbered(number: u32) -> Str {
    let mut units = vec![76, 97, 97, 97, 97, 97, 97, 97, 97, 59];
    let mut rest = number;
    for i in 0..8 {
        units[8 - i] = 97 + (rest % 16) as u16;
        rest /= 16;
    }
    units.leak()
}

fn main() {
    let words: Vec<String> = std::env::args().collect();
    let count: u32 = words[2].parse().unwrap();
    let (class, int) = (numbered(1), &[73u16][..]);
    let params: &'static [Str] = vec![class, int].leak();
    let proto: &'static Proto = Box::leak(Box::new(Proto { ret: int, params }));
    let mut needed = Needed { strings: Held::new(), types: Held::new(), protos: Held::new(), fields: Held::new(), methods: Held::new() };
    for i in 0..count {
        let name = numbered(match words[3].as_str() {
            "falling" => count.saturating_sub(i),
            "random" => i.wrapping_mul(2654435761) % 268435456,
            "mentions" => i / 100,
            _ => i,
        });
        match words[1].as_str() {
            "field" => needed.add_field(Box::leak(Box::new(Field { class, name, ty: int }))),
            "method" => needed.add_method(Box::leak(Box::new(Method { class, name, proto }))),
            _ => needed.strings.add(name),
        }
    }
    let names = needed.strings.ranked().len() + needed.types.ranked().len() + needed.protos.ranked().len();
    println!("{}", names + needed.fields.ranked().len() + needed.methods.ranked().len());
}
