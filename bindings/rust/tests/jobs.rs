//! The jobs over a small program, and over what is refused.
use dexasm::{assemble, check, fault_name, list, strip, version, Error, Fault};

const LISTING: &str = "dex 035 listing 2
class LA; 0x1
super Ljava/lang/Object;
direct m ()V 0x9
code 1 0 0
return-void
end code
end class
";

// A payload at an odd address.
const ODD: &[u8] = b"dex 035
class LA; 0x1
direct m ()V 0x9
code 1 0 0
0: packed-switch v0 @1
1: packed-switch-payload 0 @0
end code
end class
";

fn refused(code: u16, place: u64) -> Error {
    Error::Refused(Fault { code, place })
}

#[test]
fn a_listing_is_assembled_and_listed_again() {
    let file = assemble(LISTING.as_bytes(), false).unwrap();
    assert_eq!(file.len(), 376);
    assert_eq!(check(&file), Ok(()));
    assert_eq!(list(&file).unwrap(), LISTING);
    assert_eq!(strip(&file).unwrap(), file);
}

#[test]
fn what_is_refused_is_told() {
    assert_eq!(check(&[]), Err(refused(1, 0)));
    assert_eq!(assemble(&[], false), Err(refused(106, 0)));
    let mut file = assemble(LISTING.as_bytes(), false).unwrap();
    file[200] ^= 1;
    let error = refused(8, 8);
    assert_eq!(check(&file), Err(error));
    assert_eq!(list(&file), Err(error));
    assert_eq!(strip(&file), Err(error));
    assert_eq!(error.to_string(), "refused 8 Checksum at 8");
}

#[test]
fn payloads_are_aligned_where_it_is_asked_for() {
    assert_eq!(assemble(ODD, false), Err(refused(86, 0)));
    assert_eq!(check(&assemble(ODD, true).unwrap()), Ok(()));
}

#[test]
fn an_answer_that_is_longer_than_the_guess_is_whole() {
    let line = format!("const-string v0 \"{}\"\n", "long".repeat(500));
    let text = LISTING.replace("return-void\n", &format!("{}return-void\n", line.repeat(40)));
    let file = assemble(text.as_bytes(), false).unwrap();
    assert_eq!(list(&file).unwrap(), text);
}

#[test]
fn faults_and_the_library_have_names() {
    assert_eq!(fault_name(8), "Checksum");
    assert_eq!(fault_name(999), "Unknown");
    assert_eq!(version(), env!("CARGO_PKG_VERSION"));
}
