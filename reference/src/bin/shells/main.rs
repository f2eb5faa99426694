//! Compares the reference with dash and bash on lines, arithmetic texts, demanded messages, assignment lines, lines that count, lines with the switch on and, with
//! bash alone, lines with `$'...'` where documents 01 and 02 and the shells agree.

mod lines;
mod texts;

use std::process::ExitCode;

use reference::shells::{differences, Folder, Given, Outcome, Shell, Table};

use self::lines::{compare, compare_assignments, compare_escapes, compare_shouting};
use self::texts::{compare_counting, compare_messages, compare_sums};

fn main() -> ExitCode {
    let words: Vec<String> = std::env::args().skip(1).collect();
    let words: Vec<&str> = words.iter().map(String::as_str).collect();
    let compared = match words[..] {
        ["--differences", ref names @ ..]
        | ["--parameters" | "--arithmetic" | "--messages" | "--assignments" | "--counting" | "--escapes"
        | "--shouting", _, _, ref names @ ..]
            if !names.is_empty() =>
        {
            names.iter().map(|name| Shell::named(name)).collect()
        }
        ["--escapes", ..] => Some(Shell::SERVING_ESCAPES.to_vec()),
        _ => Some(Shell::COMPARED.to_vec()),
    };
    let Some(compared) = compared else {
        return usage();
    };
    let missing: Vec<&str> = compared.iter().filter(|shell| !shell.is_installed()).map(|shell| shell.name()).collect();
    if !missing.is_empty() {
        let missing = missing.join(", ");
        eprintln!("not installed, so nothing is compared: {missing}");
        return ExitCode::FAILURE;
    }
    let Some(differ) = compared_by(&words, &compared) else {
        return usage();
    };
    match differ {
        Ok(0) => ExitCode::SUCCESS,
        Ok(_) => ExitCode::FAILURE,
        Err(error) => {
            eprintln!("shells: {error}");
            ExitCode::FAILURE
        }
    }
}

/// What the words ask for, with these shells: how many differ, or nothing if the words ask for nothing.
fn compared_by(words: &[&str], shells: &[Shell]) -> Option<std::io::Result<usize>> {
    let (seed, count) = match words[..] {
        ["--differences", ..] => return Some(show_differences(shells)),
        [seed, count] | [_, seed, count, ..] => (seed.parse().ok()?, count.parse().ok()?),
        _ => return None,
    };
    Some(match words[0] {
        "--parameters" => compare(seed, count, true, shells),
        "--arithmetic" => compare_sums(seed, count, shells),
        "--messages" => compare_messages(seed, count, shells),
        "--assignments" => compare_assignments(seed, count, shells),
        "--counting" => compare_counting(seed, count, shells),
        "--escapes" => compare_escapes(seed, count, shells),
        "--shouting" => compare_shouting(seed, count, shells),
        _ if words.len() == 2 => compare(seed, count, false, shells),
        _ => return None,
    })
}

/// Prints what docs/SHELLS.md lists, for these shells; how many of its lines show no difference.
fn show_differences(shells: &[Shell]) -> std::io::Result<usize> {
    let (text, alike) = differences::measured(&Folder::new()?, shells)?;
    print!("{text}");
    Ok(alike)
}

fn usage() -> ExitCode {
    eprintln!(
        "usage: shells SEED COUNT, shells --parameters|--arithmetic|--messages|--assignments|--counting|--escapes|--shouting SEED COUNT [SHELL...], or shells --differences [SHELL...]"
    );
    ExitCode::FAILURE
}

/// Says what a line gives in the reference and in a shell; what is refused or fails gives nothing.
fn report(shell: Shell, line: &[u8], before: &Given, wanted: Option<&Outcome>, given: Option<&Outcome>) {
    let gives = |outcome: Option<&Outcome>| match outcome {
        Some(outcome) => format!("{} {}", fields(&outcome.fields), shown(&outcome.variables)),
        None => "fails".to_string(),
    };
    println!("{}: {}", shell.name(), line.escape_ascii());
    println!("  variables {}", shown(&before.variables));
    println!("  parameters {}", fields(&before.parameters));
    println!("  reference {}", gives(wanted));
    println!("  shell     {}", gives(given));
}

fn fields(texts: &[Vec<u8>]) -> String {
    texts.iter().map(|text| format!("<{}>", text.escape_ascii())).collect()
}

fn shown(table: &Table) -> String {
    let pair = |(name, value): (&Vec<u8>, &Vec<u8>)| format!("{}={} ", name.escape_ascii(), value.escape_ascii());
    table.iter().map(pair).collect()
}
