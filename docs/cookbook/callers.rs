//! `callers FILE METHOD` prints each method of FILE whose code calls METHOD.
//!
//! In crates.txt: `callers: anyhow bumpalo dex_base dex_file dex_names dex_program`.
#![tactic(auto)]

use anyhow::{Error, Result, anyhow, bail};
use bumpalo::Bump;
use dex_base::Fault;
use dex_names::method;
use dex_program::{Code, Insn, MethodRef, Name};
use std::{env, fs};

fn main(rt: HostRuntime) -> Result<()> {
    let words: Vec<String> = env::args(&rt)?.collect(rt.alloc())?;
    let [_, file, callee] = words.as_slice() else { bail!("usage: callers FILE METHOD") };
    let arena = Bump::new(rt.alloc());
    // Read once: names are compared by content after this, and none is printed for it.
    let Some(callee) = method(&arena, callee.as_str()).map_err(refused)? else { bail!("no method: {callee}") };
    let bytes = fs::read(&rt, file.as_str())?;
    let program = dex_file::read(rt.alloc(), &arena, &bytes).map_err(refused)?;
    for class in program.classes {
        for one in class.directs.iter().chain(class.virtuals) {
            let is_caller = match one.code {
                Some(code) => calls(code, &callee),
                None => false, // abstract or native
            };
            if is_caller {
                println!(rt; "{}->{}{}", class.ty, one.name, one.proto)?;
            }
        }
    }
    Ok(())
}

// The instructions that name a method are the calls, with single registers or with a range.
fn calls(code: &Code<'_>, callee: &MethodRef<'_>) -> bool {
    code.insns.iter().any(|insn| match *insn {
        Insn::I35c { name: Name::Method(it), .. } => it == callee,
        Insn::I3rc { name: Name::Method(it), .. } => it == callee,
        _ => false,
    })
}

fn refused(fault: Fault) -> Error {
    anyhow!("refused {fault}")
}
