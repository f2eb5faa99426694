//! Replays files of cases and says how many differ, or answers the calls of such files.

use std::fs::File;
use std::io::{BufRead, BufReader, Error, ErrorKind};
use std::process::ExitCode;

use reference::case::{case, replay, Call};

const USAGE: &str = "usage: replay-cases FILE... | replay-cases --answer FILE...";

fn main() -> ExitCode {
    let words: Vec<String> = std::env::args().skip(1).collect();
    let (files, work): (&[String], fn(&str) -> std::io::Result<usize>) = match words.split_first() {
        Some((option, files)) if option == "--answer" => (files, answer_file),
        _ => (&words, replay_file),
    };
    if files.is_empty() {
        eprintln!("{USAGE}");
        return ExitCode::FAILURE;
    }
    let mut differ = 0;
    for file in files {
        match work(file) {
            Ok(count) => differ += count,
            Err(error) => {
                eprintln!("{file}: {error}");
                return ExitCode::FAILURE;
            }
        }
    }
    ExitCode::from(u8::from(differ > 0))
}

fn replay_file(file: &str) -> std::io::Result<usize> {
    let (mut cases, mut differ) = (0, 0);
    for line in BufReader::new(File::open(file)?).lines() {
        cases += 1;
        if let Err(difference) = replay(&line?) {
            differ += 1;
            println!("{file}:{cases}: {difference}");
        }
    }
    println!("{cases} cases, {differ} differ");
    Ok(differ)
}

/// Prints each call, whose answer may be missing, with the answer that is given here.
fn answer_file(file: &str) -> std::io::Result<usize> {
    let wrong = |words: &str| Error::new(ErrorKind::InvalidData, words.to_string());
    for line in BufReader::new(File::open(file)?).lines() {
        let line = line?;
        let words = line.split_once(" = ").map_or(line.as_str(), |(words, _)| words);
        let call = Call::of_words(words).ok_or_else(|| wrong("a line that is no call"))?;
        println!("{}", case(&call).map_err(|fault| wrong(&fault))?);
    }
    Ok(0)
}
