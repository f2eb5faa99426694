//! E14, what stays the same in both positions of the switch: all that is accepted with it on, and demand 3.

use reference::case::{Call, Job, Lent};
use reference::generate::random::Random;
use reference::generate::{call, ordinary, quoting, shouting};
use reference::image;
use reference::limits;
use reference::number::Number::Unset;
use reference::number::ACCEPTED;

/// The call with the switch in this position, and its answer as words.
fn answered(job: Job, lent: &Lent, shout: bool) -> (u8, String) {
    let call = Call::Lines(job, Lent { shout, ..lent.clone() });
    let (answer, words) = call.answer().expect("buffers kept as promised");
    (answer.number, words)
}

/// "A line accepted with the switch on has the same fields and variables with it off." One that is refused with another number than 25 has that too.
#[test]
fn what_is_accepted_stays() {
    let (mut accepted, mut shouted) = (0, 0);
    for case in 0..4_000 {
        for made in [shouting::call(14, case), call(14, case)] {
            let Call::Lines(job, lent) = made else {
                continue;
            };
            let (number, words) = answered(job, &lent, true);
            if number == Unset as u8 {
                shouted += 1;
                continue;
            }
            accepted += usize::from(number == ACCEPTED);
            assert_eq!(words, answered(job, &lent, false).1, "{}", lent.line.escape_ascii());
        }
    }
    assert!(accepted >= 2_000 && shouted >= 1_500, "{accepted} {shouted}");
}

/// "Demand 3 holds with the switch in either position on either controller": a quoted line comes back whatever the two positions are, and never shouts.
#[test]
fn demand_3() {
    for case in 0..2_000 {
        let random = &mut Random::new(15, case);
        let fields = image::of_texts(&quoting::fields(random));
        let mut line = vec![0; limits::LINE];
        let length = reference::quote(&fields, &mut line).length;
        let mut lent = ordinary(random);
        lent.line = line[..length].to_vec();
        for shout in [false, true] {
            let (number, words) = answered(Job::Normalise, &lent, shout);
            assert_eq!(number, ACCEPTED, "{}", lent.line.escape_ascii());
            assert_eq!(words, answered(Job::Normalise, &lent, !shout).1);
            assert_eq!(answered(Job::Expand, &lent, shout), answered(Job::Expand, &lent, !shout));
        }
    }
}

/// With the switch on, the line that the normaliser gives is accepted with it on as well, and by one that has it off.
#[test]
fn normalised_lines_come_back() {
    let mut compared = 0;
    for case in 0..3_000 {
        let Call::Lines(Job::Expand | Job::Normalise, mut lent) = shouting::call(16, case) else {
            continue;
        };
        lent.out = limits::IMAGE;
        let world = |shout: bool| Call::Lines(Job::Normalise, Lent { shout, ..lent.clone() });
        let (answer, words) = world(true).answer().expect("buffers kept as promised");
        if answer.number != ACCEPTED {
            continue;
        }
        let out = words.split(' ').nth(3).expect("an output").to_string();
        let bytes = if out == "-" { Vec::new() } else { unhex(&out) };
        for shout in [false, true] {
            let again = Lent { line: bytes.clone(), shout, ..lent.clone() };
            let (_, words) = answered(Job::Normalise, &again, shout);
            assert_eq!(words.split(' ').nth(3), Some(out.as_str()), "{}", lent.line.escape_ascii());
        }
        compared += 1;
    }
    assert!(compared >= 500, "{compared}");
}

fn unhex(text: &str) -> Vec<u8> {
    let digit = |at: usize| u8::from_str_radix(&text[at..at + 2], 16).expect("two digits");
    (0..text.len()).step_by(2).map(digit).collect()
}
