//! Runs commands interactively: reads a line, runs it and writes the answer, at a terminal or between two pipes.
use cedar_store::KeyedState;
use cedar_store::program::{ErrorMode, help_texts, talk};
use std::env;
use std::io::{self, Write};
use std::process::ExitCode;

fn main() -> ExitCode {
    let arguments: Vec<_> = env::args_os().skip(1).collect();
    match arguments.as_slice() {
        [] => converse(ErrorMode::Lenient),
        [argument] if argument == "--strict" => converse(ErrorMode::Strict),
        [argument] if argument == "--help" => print_help(),
        _ => {
            eprintln!("usage: repl [--strict | --help]");
            ExitCode::from(2)
        }
    }
}

fn print_help() -> ExitCode {
    let (store, policies, fields) = help_texts();
    match write!(io::stdout(), "{store}{policies}{fields}") {
        Ok(()) => ExitCode::SUCCESS,
        Err(_) => fail("write fault"),
    }
}

fn converse(mode: ErrorMode) -> ExitCode {
    let hasher = KeyedState::default();
    match talk(hasher, mode, &mut io::stdin().lock(), &mut io::stdout().lock()) {
        Ok(status) => ExitCode::from(status),
        Err(error) => fail(&error.to_string()),
    }
}

fn fail(text: &str) -> ExitCode {
    eprintln!("{text}");
    ExitCode::FAILURE
}
