//! `changed OLD NEW` prints the classes that were added, changed or removed.
//!
//! In crates.txt: `changed: anyhow bumpalo dex_base dex_file dex_listing dex_program`.
#![tactic(auto)]

use anyhow::{Error, Result, anyhow, bail};
use bumpalo::Bump;
use dex_base::Fault;
use dex_program::{Class, Program};
use std::alloc::Global;
use std::collections::BTreeMap;
use std::{env, fs};

fn main(rt: HostRuntime) -> Result<()> {
    let words: Vec<String> = env::args(&rt)?.collect(rt.alloc())?;
    let [_, old, new] = words.as_slice() else { bail!("usage: changed OLD NEW") };
    let arena = Bump::new(rt.alloc());
    let old = dex_file::read(rt.alloc(), &arena, &fs::read(&rt, old.as_str())?).map_err(refused)?;
    let new = dex_file::read(rt.alloc(), &arena, &fs::read(&rt, new.as_str())?).map_err(refused)?;
    let mut left = BTreeMap::new(rt.alloc());
    for class in old.classes {
        left.insert(class.ty, *class)?;
    }
    for class in new.classes {
        match left.remove(&class.ty) {
            None => println!(rt; "added {}", class.ty)?,
            Some(was) => {
                if listed(rt.alloc(), was)?.as_slice() != listed(rt.alloc(), *class)?.as_slice() {
                    println!(rt; "changed {}", class.ty)?;
                }
            }
        }
    }
    for gone in left.keys() {
        println!(rt; "removed {gone}")?;
    }
    Ok(())
}

// The text of one class. Classes have the same text if and only if they are the same, whatever the bytes around them.
fn listed(alloc: Global, class: Class<'_>) -> Result<Vec<u8>> {
    dex_listing::print(alloc, &Program { classes: &[class] }).map_err(refused)
}

fn refused(fault: Fault) -> Error {
    anyhow!("refused {fault}")
}
