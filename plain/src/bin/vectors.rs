//! The vectors: `vectors cases` writes the file of records, questions and what
//! is to be said to them, `vectors expected` how often each answer is given.

use plain::vectors::{expected, file, groups};
use std::io::Write;

fn main() {
    match std::env::args().nth(1).as_deref() {
        Some("cases") => {
            std::io::stdout().write_all(&file(&groups())).expect("the cases are written");
        }
        Some("expected") => print!("{}", expected(&groups())),
        _ => eprintln!("vectors cases|expected"),
    }
}
