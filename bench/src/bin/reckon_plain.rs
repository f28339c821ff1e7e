//! `reckon` in plain Rust.
use std::process::ExitCode;

#[path = "../files.rs"]
mod files;

fn main() -> ExitCode {
    files::answer_all(plain::reckon_text)
}
