//! A second program for the hourly reconstruction: arguments only.

mod allocations;
mod checks;
mod course;
mod cover;
mod deck;
mod draw;
mod faults;
mod file;
mod frames;
mod generate;
mod group;
mod hour;
mod label;
mod lines;
mod report;
mod sequence;
mod shrink;
mod situations;
mod stats;
mod telltale;
mod units;
mod write;

use std::io::{self, Read, Write};
use std::process::ExitCode;

fn answer_all<'a>(
    held: frames::Held,
    answer: impl Fn(&[u8]) -> (&'a str, Vec<u8>),
) -> io::Result<bool> {
    let mut output = io::BufWriter::new(io::stdout().lock());
    let whole = frames::answer_all(&mut io::stdin().lock(), &mut output, held, answer)?;
    output.flush()?;
    Ok(whole)
}

fn batch(name: &str, answer: fn(&[u8]) -> Vec<u8>) -> io::Result<bool> {
    answer_all(frames::DECK, |deck| (name, answer(deck)))
}

fn one_report() -> io::Result<bool> {
    let mut deck = Vec::new();
    let most = hour::MOST_BYTES as u64 + 1;
    io::stdin().lock().take(most).read_to_end(&mut deck)?;
    io::stdout().write_all(&report::right_report(&deck))?;
    Ok(true)
}

fn generate(seed: u64, count: u64) -> io::Result<bool> {
    let mut output = io::BufWriter::new(io::stdout().lock());
    for index in 0..count {
        frames::put(&mut output, "deck", &generate::deck(seed, index).deck)?;
    }
    output.flush()?;
    Ok(true)
}

fn files(seed: u64, count: u64) -> io::Result<bool> {
    let mut output = io::BufWriter::new(io::stdout().lock());
    for index in 0..count {
        let made = generate::files::file(seed, index);
        frames::put(&mut output, "file", &made.file)?;
    }
    output.flush()?;
    Ok(true)
}

fn faults(all: bool) -> io::Result<bool> {
    let mut output = io::BufWriter::new(io::stdout().lock());
    let every = stats::faults(&mut io::stdin().lock(), &mut output, all)?;
    output.flush()?;
    Ok(every)
}

fn cover() -> io::Result<bool> {
    let (mut output, mut beside) = (io::stdout().lock(), io::stderr().lock());
    cover::cover(&mut io::stdin().lock(), &mut output, &mut beside)
}

/// The two numbers of `generate` and `files`, where both are numbers.
fn with_numbers(
    seed: &str,
    count: &str,
    command: fn(u64, u64) -> io::Result<bool>,
) -> io::Result<bool> {
    match (seed.parse(), count.parse()) {
        (Ok(seed), Ok(count)) => command(seed, count),
        _ => Ok(false),
    }
}

const USAGE: &str = "second report | batch | rewrite | cells | short | cover | test\n\
                     second spreadsheet | lines\n\
                     second generate [--stats] SEED COUNT\n\
                     second files [--stats] SEED COUNT\nsecond telltale FAULT\n\
                     second faults [--all]";

fn run(words: &[&str]) -> io::Result<bool> {
    match words {
        ["report"] => one_report(),
        ["batch"] => batch("report", report::right_report),
        ["rewrite"] => batch("rewritten", report::rewritten),
        ["cells"] => batch("cells", report::cells_text),
        ["short"] => batch("short", report::short),
        ["spreadsheet"] => answer_all(frames::DECK, file::spreadsheet),
        ["lines"] => answer_all(frames::FILE, file::lines),
        ["test"] => checks::run(),
        ["faults"] => faults(false),
        ["faults", "--all"] => faults(true),
        ["cover"] => cover(),
        ["telltale", name] => telltale::print(name),
        ["generate", "--stats", seed, count] => with_numbers(seed, count, stats::stats),
        ["generate", seed, count] => with_numbers(seed, count, generate),
        ["files", "--stats", seed, count] => with_numbers(seed, count, file::stats::stats),
        ["files", seed, count] => with_numbers(seed, count, files),
        _ => {
            eprintln!("{USAGE}");
            Ok(false)
        }
    }
}

fn main() -> ExitCode {
    let words: Vec<_> = std::env::args_os().skip(1).collect();
    let words: Vec<&str> = words
        .iter()
        .map(|word| word.to_str().unwrap_or(""))
        .collect();
    match run(&words) {
        Ok(true) => ExitCode::SUCCESS,
        _ => ExitCode::FAILURE,
    }
}
