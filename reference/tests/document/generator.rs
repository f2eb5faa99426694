//! The generator: the same cases for the same seed, every number, every limit, and a replay that agrees.

use std::collections::BTreeSet;
use std::sync::OnceLock;

use reference::case::{case, replay, Call, Job};
use reference::generate::random::Random;
use reference::generate::{
    assigned, assignments, brackets::KINDS, call, classes::BORDERS, costly, costs, counted, counting, demands, escaped,
    escapes, hostile, messages, operands::SIGNS, ordinary, positional, quoting, season::Season, shouted, shouting,
    steps::steps, sums, tally::Tally, updated, updates, MOST_STEPS,
};
use reference::{image, limits};

const SEED: u64 = 2_001;
const CASES: u64 = 54_000;

fn tally() -> &'static Tally {
    static TALLY: OnceLock<Tally> = OnceLock::new();
    TALLY.get_or_init(|| Tally::of(SEED..=SEED, CASES))
}

/// The cases of the three jobs of document 01.
fn lines() -> usize {
    let Tally { expand, normalise, quote, .. } = tally();
    expand + normalise + quote
}

#[test]
fn every_number_comes_up() {
    let tally = tally();
    for (number, count) in tally.numbers.iter().enumerate() {
        assert!(*count >= 20, "{number} comes up {count} times");
    }
    assert!(tally.expand.min(tally.normalise).min(tally.quote).min(tally.assign) > 500);
    assert!(tally.insert.min(tally.delete) > 500);
    assert!(tally.bytes < 2_200 * CASES as usize);
    assert!(tally.sums >= 1_000 && tally.different_sums.len() >= 500);
    assert!(tally.full_lines >= 20 && tally.rows.iter().all(|count| *count >= 20));
}

/// Operands that begin with a tilde: in a tenth of the cases, in every form and every text, and their directories about the limit.
#[test]
fn tildes_come_up() {
    let tildes = &tally().tildes;
    assert!(tildes.lines >= lines() / 10, "{tildes}");
    for sign in SIGNS {
        let [bare, double, arithmetic] = tildes.forms[sign];
        assert!(bare >= 100 && double >= 20 && arithmetic >= 10, "{sign}: {tildes}");
    }
    assert!(tildes.found >= 500 && tildes.not_found >= 500 && tildes.literal >= 500, "{tildes}");
    assert!(tildes.long.iter().all(|count| *count >= 10), "{tildes}");
}

/// Fields about the border of what stands bare, lines of both kinds, and quoted lines about their limit.
#[test]
fn quoted_lines_come_up() {
    let quoting = &tally().quoting;
    assert!(quoting.bare >= 1_000 && quoting.empty >= 1_000, "{quoting}");
    assert!(quoting.one_byte >= 1_000 && quoting.other >= 1_000, "{quoting}");
    assert!(quoting.mixed >= 1_000, "{quoting}");
    assert!(quoting.lengths.iter().all(|count| *count >= 20), "{quoting}");
}

/// Classes in patterns: in a tenth of the cases, each of the twelve and each kind of bracket in removals and in paths, and every class decides about every
/// byte at which one of them begins or ends.
#[test]
fn classes_come_up() {
    let brackets = &tally().brackets;
    assert!(brackets.lines >= lines() / 10 && brackets.served >= lines() / 12, "{brackets}");
    assert_eq!(brackets.classes.len(), 12, "{brackets}");
    assert!(brackets.classes.values().flatten().all(|count| *count >= 100), "{brackets}");
    for kind in KINDS {
        let [removals, paths] = brackets.kinds[kind];
        assert!(paths >= 20 && (removals >= 10 || kind == "ended by a slash"), "{kind}: {brackets}");
    }
    for bytes in brackets.decided.values() {
        assert!(BORDERS.iter().all(|byte| bytes.contains(byte)), "{brackets}");
    }
}

/// Patterns of several stars, of unclosed brackets and of many brackets, over long lists and from long values; hostile ones are answered too.
#[test]
fn stars_come_up() {
    let patterns = &tally().patterns;
    assert!(patterns.stars >= lines() / 25 && patterns.long_list >= 40, "{patterns}");
    assert!(patterns.unclosed >= lines() / 25 && patterns.many_unclosed >= 50, "{patterns}");
    assert!(patterns.many_closed >= 100 && patterns.crowds >= 20, "{patterns}");
    assert!(patterns.removal >= lines() / 25 && patterns.long_value >= 20, "{patterns}");
    let answers = (0..100).map(|case| hostile::call(SEED, case).answer().expect("buffers kept as promised").0.number);
    assert!(answers.filter(|number| *number == 0).count() >= 20);
}

/// Lists in half of the cases, every kind of positional parameter, quotes that give back their mark, and rows with break marks about their limit.
#[test]
fn positional_parameters_come_up() {
    let positional = &tally().positional;
    assert!(positional.lists >= lines() / 2 && positional.lists_read >= lines() / 5 * 2, "{positional}");
    assert!(positional.lists_refused >= 200 && positional.numbers >= lines() / 10, "{positional}");
    for kind in positional::KINDS {
        assert!(positional.kinds[kind] >= 100, "{kind}: {positional}");
    }
    assert!(positional.given_back >= 200 && positional.breaks >= lines() / 10, "{positional}");
    assert!(positional.rows.iter().all(|count| *count >= 10), "{positional}");
    assert!(positional.lengths.iter().all(|count| *count >= 1_000) && positional.with_empty >= 1_000, "{positional}");
}

/// Every operator of E6, and every kind of side that is not needed, of shift and of chain.
#[test]
fn operators_come_up() {
    let found = &tally().kinds_of_sums;
    assert!(found.texts >= lines() / 20, "{found}");
    for kind in sums::KINDS {
        assert!(found.kinds[kind] >= 5, "{kind}: {found}");
    }
}

/// Messages: about one case in five is answered with 13, with buffers of every length beside the message, and every refusal of an operand comes up in place
/// of it.
#[test]
fn messages_come_up() {
    let tally = tally();
    let found = &tally.messages;
    assert!((lines() / 6..lines() / 4).contains(&found.demanded), "{found}");
    for room in messages::ROOMS {
        assert!(found.rooms[room] >= 200, "{room}: {found}");
    }
    for kind in messages::KINDS {
        assert!(found.kinds[kind] >= 20, "{kind}: {found}");
    }
    assert!(found.kept >= 5_000, "{found}");
    let answers = (0..1_000).map(|case| demands::call(SEED, case).answer().expect("buffers kept as promised").0.number);
    assert!(answers.filter(|number| *number == 13).count() >= 600);
}

/// Assignment lines: a fifth of the cases, a third of them accepted, and every way in which a used length moves, a tilde is found or a line is refused.
#[test]
fn assignment_lines_come_up() {
    let tally = tally();
    let found = &tally.assigned;
    assert!(tally.assign >= CASES as usize / 6 && found.accepted >= tally.assign / 3, "{found}");
    for kind in assigned::KINDS {
        assert!(found.kinds[kind] >= 20, "{kind}: {found}");
    }
    for case in 0..1_000 {
        assert!(matches!(assignments::call(SEED, case), Call::Lines(Job::Assign, _)));
    }
}

/// Assignments in arithmetic: stores that are accepted, each sign, each wrong left side, the number of each step, and every way in which a used length moves.
#[test]
fn counting_comes_up() {
    let found = &tally().counted;
    assert!(found.accepted >= CASES as usize / 60, "{found}");
    for kind in counted::KINDS {
        assert!(found.kinds[kind] >= 5, "{kind}: {found}");
    }
    let answers =
        (0..1_000).map(|case| counting::call(SEED, case).answer().expect("buffers kept as promised").0.number);
    assert!(answers.filter(|number| *number == 0).count() >= 250);
}

/// Insertion and deletion: at every place of a list, with every room, and each number of each cause.
#[test]
fn updates_come_up() {
    let tally = tally();
    let found = &tally.updated;
    assert!(tally.insert + tally.delete >= CASES as usize / 15, "{found}");
    for kind in updated::KINDS {
        assert!(found.kinds.get(kind).is_some_and(|count| *count >= 5), "{kind}: {found}");
    }
    for case in 0..1_000 {
        assert!(matches!(updates::call(SEED, case), Call::Paths(..)));
    }
}

/// Texts of `$'...'`: each escape, each way in which digits end, each place, and each number of each cause; and fields that are written so.
#[test]
fn escapes_come_up() {
    let tally = tally();
    let found = &tally.escaped;
    assert!(found.lines >= CASES as usize / 20 && found.read >= found.lines / 2, "{found}");
    for kind in escaped::KINDS {
        assert!(found.kinds.get(kind).is_some_and(|count| *count >= 5), "{kind}: {found}");
    }
    let quoting = &tally.quoting;
    assert!(quoting.control >= 1_000 && quoting.controls >= 200 && quoting.three_ways >= 200, "{quoting}");
    assert!(quoting.control_and_quote >= 100 && quoting.control_and_digit >= 50, "{quoting}");
    let answers = (0..1_000).map(|case| escapes::call(SEED, case).answer().expect("buffers kept as promised").0.number);
    assert!(answers.filter(|number| *number == 0).count() >= 400);
}

/// The cost of patterns: few pairs and all, patterns and texts about their limits, and each number of each cause.
#[test]
fn costs_come_up() {
    let tally = tally();
    let found = &tally.costly;
    assert!(tally.cost >= CASES as usize / 20, "{found}");
    for kind in costly::KINDS {
        assert!(found.kinds.get(kind).is_some_and(|count| *count >= 5), "{kind}: {found}");
    }
    for case in 0..1_000 {
        assert!(matches!(costs::call(SEED, case), Call::Cost(_)));
    }
}

/// The switch: on in a tenth of the lines, 25 of each form, beside each other number, and all that is exempt.
#[test]
fn shouts_come_up() {
    let found = &tally().shouted;
    assert!(found.on >= CASES as usize / 12 && found.accepted >= 1_000 && found.shouted >= 1_000, "{found}");
    for kind in shouted::KINDS {
        assert!(found.kinds.get(kind).is_some_and(|count| *count >= 5), "{kind}: {found}");
    }
    let answers =
        (0..1_000).map(|case| shouting::call(SEED, case).answer().expect("buffers kept as promised").0.number);
    assert!(answers.filter(|number| *number == 25).count() >= 200);
}

/// Demand 3 on made fields: their quoted line gives them again and is its own quoted line, under tables that were not asked for.
#[test]
fn quoted_lines_come_back() {
    for case in 0..3_000 {
        let random = &mut Random::new(SEED, case);
        let fields = image::of_texts(&quoting::fields(random));
        let mut line = vec![0; limits::LINE];
        let length = reference::quote(&fields, &mut line).length;
        let mut lent = ordinary(random);
        lent.line = line[..length].to_vec();
        for (job, wanted) in [(Job::Expand, &fields), (Job::Normalise, &lent.line)] {
            let (answer, words) = Call::Lines(job, lent.clone()).answer().expect("buffers kept as promised");
            assert_eq!((answer.number, answer.length), (0, wanted.len()), "{}", lent.line.escape_ascii());
            let hexadecimal: String = wanted.iter().map(|byte| format!("{byte:02x}")).collect();
            let out = words.split(' ').nth(3).map(|word| word.trim_start_matches('-'));
            assert_eq!(out, Some(hexadecimal.as_str()), "{}", lent.line.escape_ascii());
        }
    }
}

#[test]
fn limits_come_up() {
    let [mut lines, mut variables, mut homes, mut paths, mut parameters, mut fields] =
        <[BTreeSet<usize>; 6]>::default();
    for number in 0..CASES {
        match call(SEED, number) {
            Call::Lines(job, lent) => {
                assert!(lent.variables.len() <= lent.variables_buffer);
                assert!(steps(job, &lent) <= MOST_STEPS, "{}", lent.line.escape_ascii());
                lines.insert(lent.line.len());
                variables.insert(lent.used);
                homes.insert(lent.homes.len());
                paths.insert(lent.paths.len());
                parameters.insert(lent.parameters.len());
            }
            Call::Quote { fields: image, .. } => drop(fields.insert(image.len())),
            Call::Paths(_, lent) => assert!(lent.paths.len() <= lent.paths_buffer),
            Call::Cost(_) => (),
        }
    }
    for about in 0..3 {
        assert!(lines.contains(&(limits::LINE - 1 + about)));
        for lengths in [&variables, &homes, &parameters, &fields] {
            assert!(lengths.contains(&(limits::IMAGE - 1 + about)));
        }
    }
    assert!(paths.contains(&limits::PATHS_IMAGE) && paths.contains(&(limits::PATHS_IMAGE + 1)));
}

#[test]
fn cases_replay() {
    for number in 0..2_000 {
        let text = case(&call(SEED, number)).expect("buffers kept as promised");
        assert_eq!(Ok(text.clone()), case(&call(SEED, number)));
        assert_eq!(replay(&text), Ok(()));
    }
    assert!(replay("quote 01 0 = 0 0 1 01").is_err());
    assert!(replay("quote 01 0").is_err());
}

#[test]
fn a_season_is_the_same_again() {
    let season = Season::of(SEED, 300);
    assert_eq!(season.lines, Season::of(SEED, 300).lines);
    assert_ne!(season.lines, Season::of(SEED + 1, 300).lines);
    assert_eq!(season.lines.len(), 300);
    assert!(season.lines.iter().all(|line| !line.contains(&b'\n')));
    assert!(image::variables(&season.variables).is_some());
    assert!(image::homes(&season.homes).is_some() && image::paths(&season.paths).is_some());
}
