//! Prints cases made from a seed with the reference's answers, or hostile ones, or those about `?` and its message, about assignment lines, about assignments
//! in arithmetic, about insertion and deletion, about `$'...'`, about the cost of patterns or about the switch alone, or how often each number and each edge comes up in the cases of one seed or more.

use std::io::{stdout, BufWriter, Write};
use std::ops::RangeInclusive;
use std::process::ExitCode;

use reference::case::{case, Call};
use reference::generate::{
    assignments, call, costs, counting, demands, escapes, hostile, shouting, tally::Tally, updates,
};

fn main() -> ExitCode {
    let words: Vec<String> = std::env::args().skip(1).collect();
    let words: Vec<&str> = words.iter().map(String::as_str).collect();
    let (option, seeds, count) = match words[..] {
        [option, seeds, count] => (option, range(seeds), count.parse()),
        [seeds, count] => ("", range(seeds), count.parse()),
        _ => return usage(),
    };
    let (Some(seeds), Ok(count)) = (seeds, count) else {
        return usage();
    };
    let printed = match (option, made(option)) {
        ("--tally", _) => {
            print!("{}", Tally::of(seeds, count));
            Ok(())
        }
        (_, Some(call)) => print_cases(call, seeds, count),
        (_, None) => return usage(),
    };
    match printed {
        Ok(()) => ExitCode::SUCCESS,
        Err(error) => {
            eprintln!("cases: {error}");
            ExitCode::FAILURE
        }
    }
}

/// What makes the cases of an option.
fn made(option: &str) -> Option<fn(u64, u64) -> Call> {
    match option {
        "" => Some(call),
        "--hostile" => Some(hostile::call),
        "--messages" => Some(demands::call),
        "--assignments" => Some(assignments::call),
        "--counting" => Some(counting::call),
        "--updates" => Some(updates::call),
        "--escapes" => Some(escapes::call),
        "--costs" => Some(costs::call),
        "--shouting" => Some(shouting::call),
        _ => None,
    }
}

fn usage() -> ExitCode {
    eprintln!(
        "usage: cases [--hostile|--messages|--assignments|--counting|--updates|--escapes|--costs|--shouting|--tally] SEED[-SEED] COUNT"
    );
    ExitCode::FAILURE
}

/// One seed, or all from the first to the last.
fn range(seeds: &str) -> Option<RangeInclusive<u64>> {
    let (first, last) = seeds.split_once('-').unwrap_or((seeds, seeds));
    Some(first.parse().ok()?..=last.parse().ok()?)
}

/// So many cases of each of the seeds.
fn print_cases(call: fn(u64, u64) -> Call, seeds: RangeInclusive<u64>, count: u64) -> std::io::Result<()> {
    let mut out = BufWriter::new(stdout().lock());
    for seed in seeds {
        for number in 0..count {
            let case = case(&call(seed, number)).map_err(std::io::Error::other)?;
            writeln!(out, "{case}")?;
        }
    }
    out.flush()
}
