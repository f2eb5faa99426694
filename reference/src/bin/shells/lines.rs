//! Lines and assignment lines beside the shells, by their fields and the variables that they leave.

use reference::generate::random::Random;
use reference::shells::script::is_harmless;
use reference::shells::{
    assignments, escapes, lines, positional, reference, shouting, Folder, Given, Outcome, Shell, Taken,
};

use crate::report;

/// How many of the shells give something else than is wanted of a line; each is reported.
fn differing(
    shells: &[Shell],
    folder: &Folder,
    line: &[u8],
    given: &Given,
    taken: Taken,
    wanted: &Outcome,
) -> std::io::Result<usize> {
    let mut differ = 0;
    for shell in shells {
        let said = shell.outcome(folder, line, given, taken)?;
        if said.as_ref() != Some(wanted) {
            differ += 1;
            report(*shell, line, given, Some(wanted), said.as_ref());
        }
    }
    Ok(differ)
}

/// Compares so many accepted lines, with positional parameters if they are wanted, and says how many have a class or a list and how many differ, and how many
/// more were made but not compared.
pub fn compare(seed: u64, count: usize, parameters: bool, shells: &[Shell]) -> std::io::Result<usize> {
    let folder = Folder::new()?;
    let (mut compared, mut classes, mut lists, mut differ, mut refused, mut left_out) = (0, 0, 0, 0, 0, 0);
    for case in 0.. {
        if compared == count {
            break;
        }
        let random = &mut Random::new(seed, case);
        let mut given = Given { variables: lines::variables(random), ..Given::default() };
        if parameters {
            given.parameters = positional::parameters(random);
        }
        let line = lines::line(random, parameters);
        let Ok(wanted) = reference(&line, &given, Taken::Fields) else {
            refused += 1;
            continue;
        };
        let alike = shells.iter().all(|shell| shell.is_alike(&line, &given));
        if !is_harmless(&line) || !alike || !lines::stays_in_table(&wanted) {
            left_out += 1;
            continue;
        }
        compared += 1;
        classes += usize::from(lines::has_class(&line));
        lists += usize::from(positional::has_list(&line));
        differ += differing(shells, &folder, &line, &given, Taken::Fields, &wanted)?;
    }
    println!("not compared: {refused} lines refused by the reference, {left_out} left out");
    println!("{compared} lines, {classes} with a class, {lists} with a list, {differ} differ");
    Ok(differ)
}

/// Compares so many accepted assignment lines by the variables that they leave, and says how many have a tilde and how many differ.
pub fn compare_assignments(seed: u64, count: usize, shells: &[Shell]) -> std::io::Result<usize> {
    let folder = Folder::new()?;
    let (mut compared, mut tildes, mut differ, mut refused, mut left_out) = (0, 0, 0, 0, 0);
    for case in 0.. {
        if compared == count {
            break;
        }
        let random = &mut Random::new(seed, case);
        let (variables, parameters) = (lines::variables(random), positional::parameters(random));
        let given = Given { variables, parameters, shout: false };
        let numbered = random.once_in(2);
        let line = assignments::line(random, numbered);
        let Ok(wanted) = reference(&line, &given, Taken::Assignments) else {
            refused += 1;
            continue;
        };
        if !is_harmless(&line) {
            left_out += 1;
            continue;
        }
        compared += 1;
        tildes += usize::from(line.contains(&b'~'));
        differ += differing(shells, &folder, &line, &given, Taken::Assignments, &wanted)?;
    }
    println!("not compared: {refused} lines refused by the reference, {left_out} left out");
    println!("{compared} assignment lines, {tildes} with a tilde, {differ} differ");
    Ok(differ)
}

/// Compares so many accepted lines with `$'...'`, and says how many differ.
pub fn compare_escapes(seed: u64, count: usize, shells: &[Shell]) -> std::io::Result<usize> {
    let folder = Folder::new()?;
    let (mut compared, mut differ, mut refused, mut left_out) = (0, 0, 0, 0);
    for case in 0.. {
        if compared == count {
            break;
        }
        let random = &mut Random::new(seed, case);
        let given = Given { variables: lines::variables(random), ..Given::default() };
        let line = escapes::line(random);
        let Ok(wanted) = reference(&line, &given, Taken::Fields) else {
            refused += 1;
            continue;
        };
        let alike = shells.iter().all(|shell| shell.is_alike(&line, &given));
        if !is_harmless(&line) || !alike || !lines::stays_in_table(&wanted) {
            left_out += 1;
            continue;
        }
        compared += 1;
        differ += differing(shells, &folder, &line, &given, Taken::Fields, &wanted)?;
    }
    println!("not compared: {refused} lines refused by the reference, {left_out} left out");
    println!("{compared} lines, {differ} differ");
    Ok(differ)
}

/// Compares so many lines with the switch on, for each shell those that it takes alike, and says how many of them are refused with 25 and how many differ.
pub fn compare_shouting(seed: u64, count: usize, shells: &[Shell]) -> std::io::Result<usize> {
    let folder = Folder::new()?;
    let (mut compared, mut shouted, mut differ) = (vec![0; shells.len()], 0, 0);
    for case in 0.. {
        if compared.iter().all(|compared| *compared == count) {
            break;
        }
        let random = &mut Random::new(seed, case);
        let (variables, parameters) = (lines::variables(random), positional::parameters(random));
        let given = Given { variables, parameters, shout: true };
        let line = lines::line(random, true);
        let wanted = reference(&line, &given, Taken::Fields).ok();
        let refused = shouting::is_refused(&line, &given);
        let stays = wanted.as_ref().map_or(refused, lines::stays_in_table);
        for (shell, compared) in shells.iter().zip(&mut compared) {
            let alike = shell.is_alike(&line, &given) && shell.shouts_alike(&line, &given);
            if *compared == count || !is_harmless(&line) || !stays || !alike {
                continue;
            }
            *compared += 1;
            shouted += usize::from(refused);
            let said = shell.outcome(&folder, &line, &given, Taken::Fields)?;
            let complaint = shell.complaint(&folder, &line, &given)?;
            let complains = complaint.is_some_and(|complaint| shouting::is_of_unset(&complaint));
            if said != wanted || complains != refused {
                differ += 1;
                report(*shell, &line, &given, wanted.as_ref(), said.as_ref());
            }
        }
    }
    println!("{count} lines of each shell, {shouted} refused with 25, {differ} differ");
    Ok(differ)
}
