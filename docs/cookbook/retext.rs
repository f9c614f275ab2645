//! `retext FILE OLD NEW OUT` writes FILE to OUT with the string NEW wherever it has the constant OLD.
//!
//! In crates.txt: `retext: anyhow bumpalo dex_base dex_file dex_listing dex_names`.
#![tactic(auto)]

use anyhow::{Error, Result, anyhow, bail};
use bumpalo::Bump;
use dex_base::Fault;
use dex_names::text;
use std::alloc::Global;
use std::{env, fs, str};

fn main(rt: HostRuntime) -> Result<()> {
    let words: Vec<String> = env::args(&rt)?.collect(rt.alloc())?;
    let [_, file, old, new, out] = words.as_slice() else { bail!("usage: retext FILE OLD NEW OUT") };
    let bytes = fs::read(&rt, file.as_str())?;
    let made = retext(rt.alloc(), &bytes, old.as_str(), new.as_str())?;
    Ok(fs::write(&rt, out.as_str(), &made)?)
}

fn retext(alloc: Global, bytes: &[u8], old: &str, new: &str) -> Result<Vec<u8>> {
    let arena = Bump::new(alloc);
    let program = dex_file::read(alloc, &arena, bytes).map_err(refused)?;
    let listed = dex_listing::print(alloc, &program).map_err(refused)?;
    // A name is printed with \uXXXX for spaces, quotes and backslashes, so NEW is one text and no other words or lines.
    let Some(new) = text(&arena, new).map_err(refused)? else { bail!("not ASCII with \\uXXXX: {new}") };
    // In a listing a quote after a space begins a text and nothing else: quotes inside a text have a backslash. So this
    // finds whole texts: operands of const-string, values of static fields, names of source files.
    let (old, new) = (format!(in alloc; " \"{old}\"")?, format!(in alloc; " \"{new}\"")?);
    let edited = str::from_utf8(&listed)?.replace(alloc, old.as_str(), new.as_str())?;
    let program = dex_listing::parse(alloc, &arena, edited.as_bytes()).map_err(refused)?;
    dex_file::write(alloc, &program).map_err(refused)
}

fn refused(fault: Fault) -> Error {
    anyhow!("refused {fault}")
}
