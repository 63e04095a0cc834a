//! main DECK: how many sources and deliveries the deck in a file has, and what its first delivery takes from each source.
//! To build: tools/library, then rustc --edition 2021 -L target/library examples/rust/main.rs
//! What each call answers and writes is said in include/barleyhood.h.
use std::process::ExitCode;

#[link(name = "barleyhood", kind = "static")]
extern "C" {
    fn barleyhood_check(deck: *const u8, length: usize) -> u64;
    fn barleyhood_sources(deck: *const u8, length: usize) -> u64;
    fn barleyhood_deliveries(deck: *const u8, length: usize) -> u64;
    fn barleyhood_price(deck: *const u8, length: usize, cells: *mut i64, lent: usize) -> u64;
    fn barleyhood_source_label(deck: *const u8, length: usize, source: usize) -> u64;
    fn barleyhood_delivery_label(deck: *const u8, length: usize, delivery: usize) -> u64;
}

/// A refusal's number and place.
struct Refusal(u64, u64);

/// A count, or the refusal that the answer stands for.
fn count(answer: u64) -> Result<usize, Refusal> {
    match answer >> 32 {
        0 => Ok(answer as usize),
        number => Err(Refusal(number, answer as u32 as u64)),
    }
}

/// A label as it stands in the deck, quotes and all.
fn quoted(deck: &[u8], label: u64) -> String {
    let (offset, length) = ((label >> 32) as usize, label as u32 as usize);
    format!("\"{}\"", String::from_utf8_lossy(&deck[offset..offset + length]))
}

fn show(deck: &[u8]) -> Result<(), Refusal> {
    let (at, length) = (deck.as_ptr(), deck.len());
    let mut cells = [0i64; 4160];
    // SAFETY: each pointer is a slice's own, handed over with that slice's length.
    unsafe {
        count(barleyhood_check(at, length))?;
        let sources = count(barleyhood_sources(at, length))?;
        let deliveries = count(barleyhood_deliveries(at, length))?;
        println!("sources {sources}, deliveries {deliveries}");
        count(barleyhood_price(at, length, cells.as_mut_ptr(), cells.len()))?;
        if deliveries > 0 {
            println!("{} takes", quoted(deck, barleyhood_delivery_label(at, length, 0)));
        }
        for i in 0..sources {
            print!("{}", quoted(deck, barleyhood_source_label(at, length, i)));
            if deliveries > 0 {
                let pair = &cells[i * 4..][..4];
                print!(" direct {} MWh for {}, incremental {} MWh for {}", pair[0], pair[2], pair[1], pair[3]);
            }
            let open = &cells[sources * deliveries * 4 + i * 2..][..2];
            println!(" (left open: {} MWh for {})", open[0], open[1]);
        }
    }
    Ok(())
}

fn main() -> ExitCode {
    let Some(deck) = std::env::args_os().nth(1).and_then(|name| std::fs::read(name).ok()) else {
        eprintln!("usage: main DECK");
        return ExitCode::from(2);
    };
    if let Err(Refusal(number, place)) = show(&deck) {
        println!("refused {number} {place}");
        return ExitCode::FAILURE;
    }
    ExitCode::SUCCESS
}
