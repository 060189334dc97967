//! Compares this library with the Rust crate `influxdb-line-protocol` over texts that it makes from a seed, and over
//! calls of the builder.
//!
//!     lp_differential [COUNT [SEED]]

mod calls;
mod compare;
mod ours;
mod texts;

use compare::{around, Counts, Outcome, Reports};
use ours::Report;
use std::process::ExitCode;
use texts::Seeded;

// The bytes that both write for a few calls.
fn compare_calls(seeded: &mut Seeded, built: &mut Report) -> Outcome<()> {
    let calls = calls::calls(seeded, texts::name);
    let built = built.build(&calls.program);
    let theirs = String::from_utf8_lossy(&calls.built);
    if built.count() == 1 && built.entry(0) == theirs {
        return Ok(());
    }
    let ours = if built.count() == 1 {
        built.entry(0)
    } else {
        "nothing"
    };
    Err(format!(
        "what is built:\n  here {ours:?}\n  there {theirs:?}"
    ))
}

fn number(word: Option<String>, otherwise: u64) -> u64 {
    word.map_or(otherwise, |word| {
        word.parse().expect("COUNT and SEED are numbers")
    })
}

fn main() -> ExitCode {
    let mut words = std::env::args().skip(1);
    let count = number(words.next(), 100_000);
    let seed = number(words.next(), 1);
    let (mut reports, mut built) = (Reports::new(), Report::new());
    let mut seeded = Seeded::new(seed);
    let mut counts = Counts::default();
    for made in 0..count {
        let text = texts::text(&mut seeded);
        match reports.compare(&text) {
            Ok(more) => counts.add(more),
            Err(fault) => {
                let text = around(&text, 0);
                eprintln!("differential: text {made} of seed {seed}, {text:?}, differs in {fault}");
                return ExitCode::FAILURE;
            }
        }
        if let Err(fault) = compare_calls(&mut seeded, &mut built) {
            eprintln!("differential: the calls after text {made} of seed {seed} differ in {fault}");
            return ExitCode::FAILURE;
        }
    }
    let Counts { items, written } = counts;
    println!("{count} texts of seed {seed} with {items} items, {written} of them lines as the builder writes them, and as many runs of calls, without a difference");
    ExitCode::SUCCESS
}
