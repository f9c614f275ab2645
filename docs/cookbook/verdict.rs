//! `verdict FILE ..` says of each file `ok`, or which rule it breaks and where. Status 1: one was refused.
//!
//! In crates.txt: `verdict: anyhow dex_base dex_file`.
#![tactic(auto)]

use anyhow::{Result, bail};
use dex_base::Fault;
use std::{env, fs};

fn main(rt: HostRuntime) -> Result<()> {
    let words: Vec<String> = env::args(&rt)?.collect(rt.alloc())?;
    let mut refusals = 0_u64;
    for file in words.iter().skip(1) {
        let bytes = fs::read(&rt, file.as_str())?;
        match dex_file::check(rt.alloc(), &bytes) {
            Ok(()) => println!(rt; "{file}: ok")?,
            // This one says nothing of the file.
            Err(Fault::MEMORY) => bail!("out of memory"),
            Err(fault) => {
                refusals = refusals.saturating_add(1);
                // Number, name, place and sentence. A program goes by `fault.code` and `fault.place`: a number never
                // changes its meaning.
                println!(rt; "{file}: {fault}")?;
            }
        }
    }
    if refusals > 0 {
        bail!("{refusals} refused");
    }
    Ok(())
}
