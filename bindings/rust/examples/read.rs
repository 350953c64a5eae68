//! Reads a file by a reader: `cargo run --example read -- Type FILE`.

use std::process::ExitCode;
use std::{env, fs};

fn main() -> ExitCode {
    let words: Vec<String> = env::args().collect();
    let [_, reader, path] = words.as_slice() else {
        eprintln!("usage: read READER FILE");
        return ExitCode::from(2);
    };
    let text = match fs::read_to_string(path) {
        Ok(text) => text,
        Err(error) => {
            eprintln!("{path}: {error}");
            return ExitCode::FAILURE;
        }
    };
    match kulojenta::read(reader, &text) {
        Ok(shown) => {
            println!("{shown}");
            ExitCode::SUCCESS
        }
        Err(refusal) => {
            eprintln!("{}", refusal.note(path, &text));
            ExitCode::FAILURE
        }
    }
}
