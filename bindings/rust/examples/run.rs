//! check, list, assemble and strip: `run JOB FILE`, with the lines and the status of the command dexasm; `align` is `assemble --align`.
use dexasm::Error;
use std::io::Write;
use std::process::ExitCode;
use std::{env, fs, io};

fn answer(job: &str, given: &[u8]) -> Result<Vec<u8>, Error> {
    match job {
        "list" => Ok(dexasm::list(given)?.into_bytes()),
        "assemble" | "align" => dexasm::assemble(given, job == "align"),
        "strip" => dexasm::strip(given),
        _ => dexasm::check(given).map(|()| b"ok\n".to_vec()),
    }
}

fn serve(job: &str, path: &str) -> Result<(), (u8, String)> {
    let given = fs::read(path).map_err(|_| (3, "cannot read".into()))?;
    let made = answer(job, &given).map_err(|error| (if error == Error::Memory { 4 } else { 1 }, error.to_string()))?;
    io::stdout().write_all(&made).map_err(|_| (3, "cannot write".into()))
}

fn main() -> ExitCode {
    let words: Vec<String> = env::args().skip(1).collect();
    let done = match &words[..] {
        [job, path] => serve(job, path),
        _ => Err((2, "usage: run check|list|assemble|align|strip FILE".into())),
    };
    match done {
        Ok(()) => ExitCode::SUCCESS,
        Err((status, line)) => {
            eprintln!("dexasm: {line}");
            ExitCode::from(status)
        }
    }
}
