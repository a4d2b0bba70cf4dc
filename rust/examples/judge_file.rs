//! Judges the record in a file and prints the finding in plain words:
//!
//!     cargo run --example judge_file ../records/s2.bin
//!
//! Ends with 0 for a valid execution, 1 for a refused record, 2 where there is nothing to judge.

use reefmitten::{check, Evidence};
use std::process::ExitCode;

fn main() -> ExitCode {
    let Some(name) = std::env::args_os().nth(1) else {
        eprintln!("usage: judge_file FILE");
        return ExitCode::from(2);
    };
    match std::fs::read(&name) {
        Ok(record) => judge(&record),
        Err(error) => {
            eprintln!("judge_file: {}: {error}", name.to_string_lossy());
            ExitCode::from(2)
        }
    }
}

fn judge(record: &[u8]) -> ExitCode {
    match check(record, &mut Evidence::new()) {
        Ok(()) => {
            println!("valid: no rule of x86-CC is broken");
            ExitCode::SUCCESS
        }
        Err(refusal) => {
            println!("refused by rule {}: {refusal}", refusal.rule().number());
            ExitCode::FAILURE
        }
    }
}
