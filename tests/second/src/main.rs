//! `second emulate`, `second card` and `second batch`.

use second::{batch, card, lines};
use std::env;
use std::io::{self, BufReader, BufWriter, Read, Write};
use std::process::ExitCode;

const USAGE: &str = "\
usage: second emulate                       code on standard input, lines out
       second card KERNEL [name=value ..]   a kernel over memory and state from files
       second batch                         cases on standard input, replies out
";

fn main() -> ExitCode {
    let arguments: Vec<String> = env::args().skip(1).collect();
    let done = match arguments.split_first() {
        Some((form, [])) if form == "emulate" => emulate(),
        Some((form, [])) if form == "batch" => serve(),
        Some((form, rest)) if form == "card" => card::card(rest).and_then(|text| print(&text)),
        _ => Err(USAGE.to_string()),
    };
    match done {
        Ok(()) => ExitCode::SUCCESS,
        Err(text) => {
            eprintln!("{}", text.trim_end());
            ExitCode::FAILURE
        }
    }
}

fn emulate() -> Result<(), String> {
    let mut input = Vec::new();
    io::stdin()
        .take(lines::MOST_INPUT as u64 + 1)
        .read_to_end(&mut input)
        .map_err(|error| format!("standard input: {error}"))?;
    print(&lines::emulate(&input))
}

fn serve() -> Result<(), String> {
    let mut input = BufReader::new(io::stdin().lock());
    let mut out = BufWriter::new(io::stdout().lock());
    batch::serve(&mut input, &mut out).map_err(|error| format!("batch: {error}"))
}

fn print(text: &str) -> Result<(), String> {
    io::stdout()
        .write_all(text.as_bytes())
        .map_err(|error| format!("standard output: {error}"))
}
