//! Files named on the command line, and their answers.
use std::io::{self, Read, Write};
use std::process::ExitCode;

/// No name: standard input. One name: the answer for this file. More: a line `NAME: ANSWER` for each file, with `\n`
/// written for each end of a line in the answer.
pub fn answer_all(answer: fn(&[u8]) -> String) -> ExitCode {
    match answers(answer) {
        Ok(()) => ExitCode::SUCCESS,
        Err(error) => {
            eprintln!("{error}");
            ExitCode::FAILURE
        }
    }
}

fn answers(answer: fn(&[u8]) -> String) -> io::Result<()> {
    let names: Vec<String> = std::env::args().skip(1).collect();
    let mut out = io::BufWriter::new(io::stdout().lock());
    match &names[..] {
        [] => {
            let mut bytes = Vec::new();
            io::stdin().read_to_end(&mut bytes)?;
            out.write_all(answer(&bytes).as_bytes())?;
        }
        [name] => out.write_all(answer(&read(name)?).as_bytes())?,
        _ => {
            for name in &names {
                writeln!(out, "{name}: {}", answer(&read(name)?).replace('\n', "\\n"))?;
            }
        }
    }
    out.flush()
}

fn read(name: &str) -> io::Result<Vec<u8>> {
    std::fs::read(name).map_err(|error| io::Error::new(error.kind(), format!("{name}: {error}")))
}
