//! An interpreter of the SH-2 written from the manual, to compare others with.
//! Build: mkdir -p target && rustc -O --edition 2021 tests/reference/main.rs -o target/reference

mod arithmetic;
mod branch;
mod codes;
mod corpus;
mod data_transfer;
mod decode;
mod draw;
mod exceptions;
mod logic;
mod machine;
mod memory;
mod operation;
mod random;
mod report;
mod shift;
mod step;
mod system;

#[cfg(test)]
mod checks;

use decode::Decoder;
use std::io::{self, Read, Write};
use std::process::ExitCode;

const USAGE: &str = "reference              report of the image on standard input
reference corpus       reports of the corpus on standard input
reference random SEED N    a corpus of N random images";

fn main() -> ExitCode {
    let words: Vec<String> = std::env::args().skip(1).collect();
    let words: Vec<&str> = words.iter().map(String::as_str).collect();
    match answer(&words) {
        Ok(bytes) => io::stdout().write_all(&bytes).map_or(ExitCode::FAILURE, |_| ExitCode::SUCCESS),
        Err(message) => {
            eprintln!("{message}");
            ExitCode::FAILURE
        }
    }
}

fn answer(words: &[&str]) -> Result<Vec<u8>, String> {
    match words {
        [] => Ok(report::report(&Decoder::new(), &standard_input()?).into_bytes()),
        ["corpus"] => Ok(corpus::reports(&Decoder::new(), &standard_input()?)?.into_bytes()),
        ["random", seed, count] => Ok(corpus::write(&random::images(number(seed)?, number(count)?))),
        _ => Err(USAGE.to_string()),
    }
}

fn number(text: &str) -> Result<u64, String> {
    text.parse().map_err(|_| format!("not a number: {text}"))
}

fn standard_input() -> Result<Vec<u8>, String> {
    let mut bytes = Vec::new();
    io::stdin().read_to_end(&mut bytes).map_err(|error| error.to_string())?;
    Ok(bytes)
}
