//! Checks, lists, assembles and strips .dex files (Dalvik Executable, version 035), by libdexasm, whose calls are proved.
//!
//! ```no_run
//! let file = std::fs::read("classes.dex")?;
//! dexasm::check(&file)?;
//! let text = dexasm::list(&file)?;
//! let made = dexasm::assemble(text.as_bytes(), false)?;
//! # Ok::<(), Box<dyn std::error::Error>>(())
//! ```
#![warn(missing_docs)]

use std::error;
use std::fmt;

mod ffi;

/// A rule that is broken, and where.
#[derive(Clone, Copy, Debug, PartialEq, Eq, Hash)]
pub struct Fault {
    /// The number of the rule; [`fault_name`] has its name.
    pub code: u16,
    /// A byte of a file, a line of a listing from 1, or a class of a program from 0 (of 80 and 81 how many are needed, of 90 it is 0):
    /// docs/FORMAT.md says which by the number.
    pub place: u64,
}

/// Why a job has no answer.
#[derive(Clone, Copy, Debug, PartialEq, Eq, Hash)]
pub enum Error {
    /// The bytes are refused.
    Refused(Fault),
    /// Want of memory.
    Memory,
}

impl fmt::Display for Error {
    fn fmt(&self, f: &mut fmt::Formatter<'_>) -> fmt::Result {
        match self {
            Error::Refused(Fault { code, place }) => write!(f, "refused {code} {} at {place}", fault_name(*code)),
            Error::Memory => f.write_str("out of memory"),
        }
    }
}

impl error::Error for Error {}

/// Whether the bytes are a file that keeps every rule of the format.
///
/// # Errors
///
/// `Refused` with a rule that is broken, or `Memory`.
pub fn check(bytes: &[u8]) -> Result<(), Error> {
    match ffi::check(bytes) {
        (ffi::ANSWERED, _) => Ok(()),
        (status, fault) => Err(error(status, fault)),
    }
}

/// The listing of a file's program.
///
/// # Errors
///
/// `Refused` with a rule that is broken, or `Memory`.
pub fn list(bytes: &[u8]) -> Result<String, Error> {
    // (a listing of a real file is up to 5 times as long)
    let made = answer(5 * bytes.len() + 64, |out| ffi::list(bytes, out))?;
    Ok(String::from_utf8(made).expect("a listing is ASCII"))
}

/// The file of a listed program. With `align` a nop is put before each payload that would stand at an odd address.
///
/// # Errors
///
/// `Refused` with what is wrong in the listing or can't be written, or `Memory`.
pub fn assemble(text: &[u8], align: bool) -> Result<Vec<u8>, Error> {
    answer(text.len() + 4096, |out| ffi::assemble(text, align, out))
}

/// A file's program, written again without what it doesn't need.
///
/// # Errors
///
/// `Refused` with a rule that is broken, or `Memory`.
pub fn strip(bytes: &[u8]) -> Result<Vec<u8>, Error> {
    answer(bytes.len() + 64, |out| ffi::strip(bytes, out))
}

/// The name of a fault's number, `Unknown` for a number that has none.
#[must_use]
pub fn fault_name(code: u16) -> String {
    text(|out| ffi::fault_name(code, out))
}

/// The version of the library.
#[must_use]
pub fn version() -> String {
    text(ffi::version)
}

fn error(status: u32, fault: Fault) -> Error {
    match status {
        ffi::REFUSED => Error::Refused(fault),
        ffi::MEMORY => Error::Memory,
        _ => unreachable!("the library ended with {status}"),
    }
}

/// The answer that a call puts into a buffer; if it is longer than was guessed, the call is made again.
fn answer(guess: usize, call: impl Fn(&mut [u8]) -> ffi::Ended) -> Result<Vec<u8>, Error> {
    let mut out = Vec::new();
    let mut capacity = guess;
    loop {
        out.try_reserve_exact(capacity - out.len()).map_err(|_| Error::Memory)?;
        out.resize(capacity, 0);
        match call(&mut out) {
            (ffi::ANSWERED, needed, _) => {
                out.truncate(needed);
                return Ok(out);
            }
            (ffi::TOO_SMALL, needed, _) => capacity = needed,
            (status, _, fault) => return Err(error(status, fault)),
        }
    }
}

/// A short text that a call tells.
fn text(call: impl Fn(&mut [u8]) -> (u32, usize)) -> String {
    let mut out = [0; 64];
    let (_, needed) = call(&mut out);
    String::from_utf8_lossy(&out[..needed]).into_owned()
}
