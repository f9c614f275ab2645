//! `make-hello OUT` writes a .dex file with one class, whose `main` prints "hello".
//!
//! In crates.txt: `make_hello: anyhow bumpalo dex_base dex_file dex_names dex_program`.
#![tactic(auto)]

use anyhow::{Error, Result, anyhow, bail};
use bumpalo::Bump;
use dex_base::Fault;
use dex_names::{field, method, proto, text, ty};
use dex_program::{Class, Code, Insn, Method, Name, Program, well_formed_in};
use std::alloc::Global;
use std::{env, fs};

fn main(rt: HostRuntime) -> Result<()> {
    let words: Vec<String> = env::args(&rt)?.collect(rt.alloc())?;
    let [_, out] = words.as_slice() else { bail!("usage: make-hello OUT") };
    Ok(fs::write(&rt, out.as_str(), &make(rt.alloc())?)?)
}

fn make(alloc: Global) -> Result<Vec<u8>> {
    let arena = Bump::new(alloc);
    let out = known(field(&arena, "Ljava/lang/System;->out:Ljava/io/PrintStream;"))?;
    let println = known(method(&arena, "Ljava/io/PrintStream;->println(Ljava/lang/String;)V"))?;
    let takes = known(proto(&arena, "([Ljava/lang/String;)V"))?;
    let (name, said) = (known(text(&arena, "main"))?, known(text(&arena, "hello"))?);
    let (ty, superclass) = (known(ty(&arena, "LMain;"))?, Some(known(ty(&arena, "Ljava/lang/Object;"))?));
    let insns = [
        Insn::I21c { op: 0x62, a: 0, name: Name::Field(&out) }, // sget-object v0
        Insn::I21c { op: 0x1a, a: 1, name: Name::Text(said) }, // const-string v1
        Insn::I35c { op: 0x6e, n: 2, regs: [0, 1, 0, 0, 0], name: Name::Method(&println) }, // invoke-virtual { v0 v1 }
        Insn::I10x { op: 0x0e }, // return-void
    ];
    // v2 has the argument of main; a call passes two registers at most.
    let code = Code { registers: 3, ins: 1, outs: 2, insns: &insns, tries: &[] };
    let directs = &[Method { name, proto: &takes, flags: 0x9, code: Some(&code) }]; // public static
    let class = Class { ty, flags: 0x1, superclass, interfaces: &[], source: None, statics: &[], values: &[],
        instances: &[], directs, virtuals: &[] };
    let program = Program { classes: &[class] };
    // `write` takes well-formed programs alone, so ask for what is made by hand.
    well_formed_in(alloc, &program).map_err(refused)?;
    dex_file::write(alloc, &program).map_err(refused)
}

// A text that is not a name is a mistake of this program.
fn known<T: Drop>(made: Result<Option<T>, Fault>) -> Result<T> {
    made.map_err(refused)?.ok_or(anyhow!("a text that is not a name"))
}

fn refused(fault: Fault) -> Error {
    anyhow!("refused {fault}")
}
