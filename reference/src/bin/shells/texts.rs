//! Arithmetic texts, lines that count and demanded messages beside the shells, for each shell those that it takes alike.

use reference::generate::random::Random;
use reference::shells::script::is_harmless;
use reference::shells::sums::{self, Sum, Sums};
use reference::shells::{counting, lines, messages, reference, Folder, Given, Shell, Taken, NAMES};

use crate::{report, shown};

/// Compares the messages of so many lines that are refused with 13, for each shell those that it takes alike, and says how many differ.
pub fn compare_messages(seed: u64, count: usize, shells: &[Shell]) -> std::io::Result<usize> {
    let folder = Folder::new()?;
    let (mut compared, mut differ, mut left_out) = (vec![0; shells.len()], 0, 0);
    for case in 0.. {
        if compared.iter().all(|compared| *compared == count) {
            break;
        }
        let random = &mut Random::new(seed, case);
        let given = Given { variables: lines::variables(random), ..Given::default() };
        let line = messages::line(random);
        let Some(message) = messages::demanded(&line, &given).filter(|message| !message.is_empty()) else {
            left_out += 1;
            continue;
        };
        for (shell, compared) in shells.iter().zip(&mut compared) {
            if *compared == count || !is_harmless(&line) || !shell.demands_alike(&line) {
                continue;
            }
            *compared += 1;
            let said = shell.complaint(&folder, &line, &given)?.unwrap_or_default();
            if !said.ends_with(&[b": ", message.as_slice(), b"\n"].concat()) {
                differ += 1;
                println!("{}: {}\n  variables {}", shell.name(), line.escape_ascii(), shown(&given.variables));
                println!("  reference {}\n  shell     {}", message.escape_ascii(), said.escape_ascii());
            }
        }
    }
    println!("not compared: {left_out} lines without a message");
    println!("{count} messages of each shell, {differ} differ");
    Ok(differ)
}

/// Compares so many accepted lines with assignments in arithmetic, for each shell those that it takes alike, and says how many differ.
pub fn compare_counting(seed: u64, count: usize, shells: &[Shell]) -> std::io::Result<usize> {
    let folder = Folder::new()?;
    let (mut compared, mut differ, mut refused, mut left_out) = (vec![0; shells.len()], 0, 0, 0);
    for case in 0.. {
        if compared.iter().all(|compared| *compared == count) {
            break;
        }
        let random = &mut Random::new(seed, case);
        let given = counting::given(random);
        let line = counting::line(random);
        let Ok(wanted) = reference(&line, &given, Taken::Fields) else {
            refused += 1;
            continue;
        };
        let known = |name: &Vec<u8>| NAMES.iter().any(|known| known.as_bytes() == name);
        if !is_harmless(&line) || wanted.variables == given.variables || !wanted.variables.keys().all(known) {
            left_out += 1;
            continue;
        }
        for (shell, compared) in shells.iter().zip(&mut compared) {
            if *compared == count || !shell.is_alike(&line, &given) || !shell.counts_alike(&line, &given) {
                continue;
            }
            *compared += 1;
            let said = shell.outcome(&folder, &line, &given, Taken::Fields)?;
            if said.as_ref() != Some(&wanted) {
                differ += 1;
                report(*shell, &line, &given, Some(&wanted), said.as_ref());
            }
        }
    }
    println!("not compared: {refused} lines refused by the reference, {left_out} left out for all shells");
    println!("{count} lines of each shell, {differ} differ");
    Ok(differ)
}

/// Compares so many different arithmetic texts that are accepted, and says how many differ, and how many more were made but not compared.
pub fn compare_sums(seed: u64, count: usize, shells: &[Shell]) -> std::io::Result<usize> {
    let folder = Folder::new()?;
    let Sums { sums, refused, left_out } = Sums::of(seed, count);
    let mut differ = 0;
    for shell in shells {
        let alike: Vec<&Sum> = sums.iter().filter(|sum| shell.assigns_alike(&sum.text)).collect();
        let results = sums::results(*shell, &folder, &alike)?;
        for (sum, said) in alike.iter().zip(results) {
            if said.as_ref() != Some(&sum.said()) {
                differ += 1;
                let said = said.map_or("fails".to_string(), |said| said.escape_ascii().to_string());
                println!("{}: {}", shell.name(), sum.text.escape_ascii());
                println!("  variables {}", shown(&sum.variables));
                println!("  reference {}\n  shell     {said}", sum.said().escape_ascii());
            }
        }
        println!("{}: {} texts", shell.name(), alike.len());
    }
    let stored = sums.iter().filter(|sum| sum.after != sum.variables).count();
    println!("not compared: {refused} texts refused by the reference, {left_out} left out");
    println!("{} texts, {stored} that change a variable, {differ} differ", sums.len());
    Ok(differ)
}
