//! Runs the commands in the lines of a file or of standard input.
use cedar_store::program::{RunError, run_and_leave};
use std::env;
use std::ffi::OsString;
use std::fs::File;
use std::io::{self, Read};
use std::process::ExitCode;

fn main() -> ExitCode {
    let arguments: Vec<OsString> = env::args_os().skip(1).collect();
    if arguments.len() > 1 {
        eprintln!("usage: cedar-store [FILE]");
        return ExitCode::from(64);
    }
    match answered(arguments.first()) {
        Ok(status) => ExitCode::from(status),
        Err(error) => {
            eprintln!("{error}");
            ExitCode::FAILURE
        }
    }
}

fn answered(file: Option<&OsString>) -> Result<u8, RunError> {
    let mut input: Box<dyn Read> = match file {
        Some(path) => Box::new(File::open(path).map_err(|_| RunError::Read)?),
        None => Box::new(io::stdin().lock()),
    };
    run_and_leave(&mut input, &mut io::stdout().lock())
}
