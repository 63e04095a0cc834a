//! What holds of every generated file, and of every file near a good one.

use super::super::examples::DECK;
use super::examples::RECORDS;
use super::{with_header, Checks};
use crate::allocations::Allocations;
use crate::draw::Draw;
use crate::file::faults::FileFault;
use crate::file::{lines, lines_of_deck, read, spreadsheet, write};
use crate::generate::deck;
use crate::generate::files::{damages, file, lists, MadeFile, Outcome};
use crate::hour::Refusal;
use crate::report::right_report;

const SEED: u64 = 7;
const LISTS: u64 = 5_000;
const FILES: u64 = 2_000;
const HOURS: u64 = 1_000;

pub fn run(checks: &mut Checks) {
    streams(checks);
    lists_read_back(checks);
    hours_read_back(checks);
    files(checks);
    every_byte(checks);
}

fn read_file(file: &[u8]) -> Result<Allocations, Refusal> {
    read::file(file, FileFault::None)
}

fn written(lines: &Allocations) -> Vec<u8> {
    write::file(lines, FileFault::None)
}

fn streams(checks: &mut Checks) {
    let files = |seed| (0..890).map(move |index| file(seed, index).file);
    checks.check(
        "a file depends on seed and number alone",
        files(3).eq(files(3)),
    );
    checks.check("seeds give different files", !files(3).eq(files(4)));
    let good = files(3).filter(|file| read_file(file).is_ok()).count();
    checks.check("about half are good", (400..=490).contains(&good));
}

fn lists_read_back(checks: &mut Checks) {
    let broken = (0..LISTS).filter(|&index| {
        let mut draw = Draw::new(SEED, index, index);
        let lines = lists::list(&mut draw, (0, 9), (0, 9));
        read_file(&written(&lines)) != Ok(lines)
    });
    checks.equal("reading gives the written lines again", broken.count(), 0);
}

fn hours_read_back(checks: &mut Checks) {
    let decks = (0..).map(|index| deck(SEED, index).deck);
    let accepted = decks.filter(|deck| lines_of_deck(deck).is_ok());
    let broken = accepted.take(HOURS as usize).filter(|deck| {
        let (_, file) = spreadsheet(deck);
        let (_, text) = lines(&file);
        text != right_report(deck)
    });
    checks.equal("files are read back to the report", broken.count(), 0);
    let refused = (0..HOURS).map(|index| deck(SEED, index).deck);
    let mut refused = refused.filter(|deck| lines_of_deck(deck).is_err());
    checks.check(
        "a deck without a file has its refusal",
        refused.all(|deck| spreadsheet(&deck) == ("report", right_report(&deck))),
    );
}

/// Counts of what broke, by property.
#[derive(Default)]
struct Broken {
    outcomes: u64,
    writings: u64,
    numbers: u64,
    places: u64,
}

fn files(checks: &mut Checks) {
    let outcomes = damages();
    let mut broken = Broken::default();
    for index in 0..FILES {
        examine(&file(SEED, index), &outcomes, &mut broken);
    }
    checks.equal("damage does what it is to do", broken.outcomes, 0);
    checks.equal("what is read is the writing of it", broken.writings, 0);
    checks.equal("what is not read is refused by 16", broken.numbers, 0);
    checks.equal("at the first record not due", broken.places, 0);
}

fn examine(made: &MadeFile, outcomes: &[(&str, Outcome)], broken: &mut Broken) {
    let read = read_file(&made.file);
    let outcome = outcomes.iter().find(|(tag, _)| made.tag == Some(tag));
    broken.outcomes += u64::from(match outcome {
        Some((_, Outcome::Refused)) => read.is_ok(),
        Some((_, Outcome::Either)) => false,
        Some((_, Outcome::OtherLines)) | None => read.is_err(),
    });
    match read {
        Ok(lines) => broken.writings += u64::from(written(&lines) != made.file),
        Err(Refusal { number, place }) => {
            broken.numbers += u64::from(number != 16);
            broken.places += u64::from(!is_first_not_due(&made.file, place as usize));
        }
    }
}

/// Whether the records before a place begin a good file, and those up to it
/// begin none.
fn is_first_not_due(file: &[u8], place: usize) -> bool {
    let records: Vec<&[u8]> = file.split_inclusive(|&byte| byte == b'\n').collect();
    let before = records[..place - 1].concat();
    let with = [&before, records.get(place - 1).copied().unwrap_or(b"")].concat();
    let cut = !with.ends_with(b"\r\n");
    begins_a_file(&before) && (before == with || cut || !begins_a_file(&with))
}

/// Whether some of the fewest records complete these to a good file.
fn begins_a_file(records: &[u8]) -> bool {
    let (hour, end) = ("hour,,,,0,0,0,0\r\n", "end,,,,,,,\r\n");
    let rests = [
        String::new(),
        end.to_string(),
        format!("{hour}{end}"),
        with_header("hour,,,,0,0,0,0\nend,,,,,,,\n"),
    ];
    let completes = |rest: &String| read_file(&[records, rest.as_bytes()].concat()).is_ok();
    rests.iter().any(completes)
}

/// Files at whose every place a byte is changed, removed and put in.
fn every_byte(checks: &mut Checks) {
    let odd = "hour,,,,-9223372036854775808,9223372036854775807,0,-1\n\
               delivery,\"\"\"\",-10,\",\"\",\\\",100,-7,10,\n\
               internal,,,\"ABCDEFGHIJKLMNOP\",9,99,,\n\
               end,,,,,,,\n";
    for (name, file) in [
        ("document 01", with_header(RECORDS)),
        ("odd labels and numbers", with_header(odd)),
        ("nothing", with_header("hour,,,,0,0,0,0\nend,,,,,,,\n")),
    ] {
        let file = file.into_bytes();
        let others = || changed(&file).filter(|other| *other != file);
        let read = others().filter_map(|other| Some((read_file(&other).ok()?, other)));
        let read: Vec<_> = read.collect();
        checks.check(
            &format!("{name}: some other bytes are read"),
            !read.is_empty(),
        );
        let own = read_file(&file);
        let mut exact = read
            .iter()
            .map(|(lines, other)| written(lines) == *other && own.as_ref() != Ok(lines));
        checks.check(
            &format!("{name}: other bytes are other lines"),
            exact.all(|holds| holds),
        );
        let mut refusals = others().step_by(7).filter_map(|other| {
            let place = read_file(&other).err()?.place as usize;
            Some(is_first_not_due(&other, place))
        });
        checks.check(
            &format!("{name}: or are refused at their record"),
            refusals.all(|holds| holds),
        );
    }
    let (_, file) = spreadsheet(DECK.as_bytes());
    checks.equal(
        "document 01's is among them",
        file,
        with_header(RECORDS).into(),
    );
}

/// The file with a byte changed, removed or put in, in every way.
fn changed(file: &[u8]) -> impl Iterator<Item = Vec<u8>> + '_ {
    let removed = (0..file.len()).map(|at| [&file[..at], &file[at + 1..]].concat());
    let changed = (0..file.len()).flat_map(move |at| {
        (0..=255).map(move |byte| [&file[..at], &[byte], &file[at + 1..]].concat())
    });
    let put_in = (0..=file.len()).flat_map(move |at| {
        (0..=255).map(move |byte| [&file[..at], &[byte], &file[at..]].concat())
    });
    removed.chain(changed).chain(put_in)
}
