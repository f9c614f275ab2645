//! The calls of dexasm.h. Nothing compares these declarations with the header: an edit there is made here too.
use crate::Fault;

pub(crate) const ANSWERED: u32 = 0;
pub(crate) const REFUSED: u32 = 1;
pub(crate) const MEMORY: u32 = 4;
pub(crate) const TOO_SMALL: u32 = 5;

/// The status, the length that is needed, and the fault.
pub(crate) type Ended = (u32, usize, Fault);

#[repr(C)]
struct CFault {
    code: u16,
    place: u64,
}

impl CFault {
    const NONE: CFault = CFault { code: 0, place: 0 };

    fn told(&self) -> Fault {
        Fault { code: self.code, place: self.place }
    }
}

extern "C" {
    fn dexasm_check(bytes: *const u8, length: usize, fault: *mut CFault) -> u32;
    fn dexasm_list(bytes: *const u8, length: usize, out: *mut u8, capacity: usize, needed: *mut usize, fault: *mut CFault) -> u32;
    fn dexasm_assemble(
        text: *const u8,
        length: usize,
        align: bool,
        out: *mut u8,
        capacity: usize,
        needed: *mut usize,
        fault: *mut CFault,
    ) -> u32;
    fn dexasm_strip(bytes: *const u8, length: usize, out: *mut u8, capacity: usize, needed: *mut usize, fault: *mut CFault) -> u32;
    fn dexasm_fault_name(code: u16, out: *mut u8, capacity: usize, needed: *mut usize) -> u32;
    fn dexasm_version(out: *mut u8, capacity: usize, needed: *mut usize) -> u32;
}

// SAFETY, of each call below: a slice gives a pointer that isn't null and its length, two slices and two variables don't overlap where
// one may be written, all are borrowed for the call, and the library keeps no pointer.

pub(crate) fn check(bytes: &[u8]) -> (u32, Fault) {
    let mut fault = CFault::NONE;
    let status = unsafe { dexasm_check(bytes.as_ptr(), bytes.len(), &mut fault) };
    (status, fault.told())
}

pub(crate) fn list(bytes: &[u8], out: &mut [u8]) -> Ended {
    let (mut needed, mut fault) = (0, CFault::NONE);
    let status = unsafe { dexasm_list(bytes.as_ptr(), bytes.len(), out.as_mut_ptr(), out.len(), &mut needed, &mut fault) };
    (status, needed, fault.told())
}

pub(crate) fn assemble(text: &[u8], align: bool, out: &mut [u8]) -> Ended {
    let (mut needed, mut fault) = (0, CFault::NONE);
    let status =
        unsafe { dexasm_assemble(text.as_ptr(), text.len(), align, out.as_mut_ptr(), out.len(), &mut needed, &mut fault) };
    (status, needed, fault.told())
}

pub(crate) fn strip(bytes: &[u8], out: &mut [u8]) -> Ended {
    let (mut needed, mut fault) = (0, CFault::NONE);
    let status = unsafe { dexasm_strip(bytes.as_ptr(), bytes.len(), out.as_mut_ptr(), out.len(), &mut needed, &mut fault) };
    (status, needed, fault.told())
}

pub(crate) fn fault_name(code: u16, out: &mut [u8]) -> (u32, usize) {
    let mut needed = 0;
    let status = unsafe { dexasm_fault_name(code, out.as_mut_ptr(), out.len(), &mut needed) };
    (status, needed)
}

pub(crate) fn version(out: &mut [u8]) -> (u32, usize) {
    let mut needed = 0;
    let status = unsafe { dexasm_version(out.as_mut_ptr(), out.len(), &mut needed) };
    (status, needed)
}
