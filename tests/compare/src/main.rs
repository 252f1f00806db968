//! Compares another emulator with the second program on seeded cases (docs/TESTING.md).

mod catalogue;
mod coverage;
mod generate;
mod ours;
mod random;
mod report;
mod shrink;
mod values;

use catalogue::Catalogue;
use coverage::Coverage;
use generate::Generator;
use ours::Ours;
use second::batch::{Case, Reply};
use std::fs::File;
use std::io::{self, BufWriter, Write};
use std::process::ExitCode;

const USAGE: &str = "\
usage: compare [--ours COMMAND] [--write FILE] [--seed N] [--cases N]
  --ours COMMAND   the program to compare, with its arguments, speaking the batch form
  --write FILE     write the cases in the batch form
  --seed N         which cases (default 1)
  --cases N        how many (default 40000)
";

struct Settings {
    ours: Option<String>,
    write: Option<String>,
    seed: u64,
    cases: u32,
}

fn main() -> ExitCode {
    let settings = match settings(std::env::args().skip(1)) {
        Ok(settings) => settings,
        Err(wrong) => {
            eprint!("compare: {wrong}\n{USAGE}");
            return ExitCode::FAILURE;
        }
    };
    match compare(&settings) {
        Ok(true) => ExitCode::SUCCESS,
        Ok(false) => ExitCode::FAILURE,
        Err(error) => {
            eprintln!("compare: {error}");
            ExitCode::FAILURE
        }
    }
}

fn settings(mut arguments: impl Iterator<Item = String>) -> Result<Settings, String> {
    let mut settings = Settings {
        ours: None,
        write: None,
        seed: 1,
        cases: 40_000,
    };
    while let Some(name) = arguments.next() {
        let mut value = || arguments.next().ok_or(format!("{name} has no value"));
        match name.as_str() {
            "--ours" => settings.ours = Some(value()?),
            "--write" => settings.write = Some(value()?),
            "--seed" => settings.seed = number(&name, &value()?)?,
            "--cases" => settings.cases = number(&name, &value()?)?,
            _ => return Err(format!("{name} is no option")),
        }
    }
    Ok(settings)
}

fn number<T: std::str::FromStr>(name: &str, value: &str) -> Result<T, String> {
    value
        .parse()
        .map_err(|_| format!("{name}: {value} is no number, or too large"))
}

/// Runs the cases; false where a case differs or a count is short.
fn compare(settings: &Settings) -> io::Result<bool> {
    let catalogue = Catalogue::new();
    let mut generator = Generator::new(&catalogue, settings.seed);
    let mut coverage = Coverage::new(&catalogue);
    let mut ours = settings.ours.as_deref().map(Ours::new);
    let mut file = match &settings.write {
        Some(path) => Some(BufWriter::new(File::create(path)?)),
        None => None,
    };
    for number in 0..settings.cases {
        let case = generator.case();
        let expected = case.reply();
        coverage.observe(&case, &expected);
        if let Some(file) = &mut file {
            case.write(file)?;
        }
        if let Some(ours) = &mut ours {
            let reply = ours.ask(&case);
            if !agrees(&expected, &reply) {
                println!("case {number} of seed {} differs", settings.seed);
                show(&catalogue, ours, case, reply);
                return Ok(false);
            }
        }
    }
    if let Some(file) = &mut file {
        file.flush()?;
    }
    if let Some(ours) = &mut ours {
        ours.finish()?;
    }
    let (text, short) = coverage.report();
    print!("seed {}\n{text}", settings.seed);
    for line in &short {
        println!("short: {line}");
    }
    match (ours, short.is_empty()) {
        (Some(_), true) => println!("no difference, nothing short"),
        (None, true) => println!("nothing compared, nothing short"),
        (_, false) => println!("{} counts are short", short.len()),
    }
    Ok(short.is_empty())
}

fn agrees(expected: &Reply, reply: &io::Result<Reply>) -> bool {
    matches!(reply, Ok(reply) if reply == expected)
}

/// Prints the smallest case that differs when it is asked alone, or else the case itself.
fn show(catalogue: &Catalogue, ours: &Ours, case: Case, reply: io::Result<Reply>) {
    let differs = |case: &Case| !agrees(&case.reply(), &ours.ask_alone(case));
    let (shown, reply) = if differs(&case) {
        let small = shrink::shrink(case, differs);
        let reply = ours.ask_alone(&small);
        (small, reply)
    } else {
        println!("asked alone it does not differ: the cases before it matter");
        (case, reply)
    };
    print!("{}", report::case(catalogue, &shown));
    print!("{}", report::difference(&shown, &shown.reply(), reply));
}
