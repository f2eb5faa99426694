//! The calls of tests/vectors/calls.txt through the wrapper.

use std::fs;
use std::path::Path;

use drunquill::{Number, Refusal};

use crate::buffers::{differs, quote_differs, update_differs, Given, Job, Lent, Update, Wanted};

fn bytes(word: &str) -> Vec<u8> {
    let digits = word.trim_end_matches('-');
    (0..digits.len()).step_by(2).map(|at| u8::from_str_radix(&digits[at..at + 2], 16).expect("two digits")).collect()
}

fn count(word: &str) -> usize {
    word.parse().expect("a length")
}

/// Bytes behind their length.
fn sized(words: &[&str]) -> Vec<u8> {
    let found = bytes(words[1]);
    assert_eq!(found.len(), count(words[0]));
    found
}

/// What stands behind the `=`: number and place, then what is given on acceptance; on a refusal the message.
fn outcome<T>(words: &[&str], given: T, message: Vec<u8>) -> Result<T, Refusal> {
    match words[0] {
        "0" => Ok(given),
        number => {
            let number = Number::of(number.parse().expect("a number")).expect("a refusal");
            Err(Refusal { number, place: count(words[1]), message })
        }
    }
}

/// A case of a job that takes a line. Assignments have neither paths nor output: no byte is given for either.
fn line_case(job: Job, call: &[&str], answer: &[&str]) -> Option<String> {
    let (paths, out_len, rest) = match job {
        Job::Assign => ("-", 0, [call[6], call[7], call[8], call[9]]),
        _ => (call[6], count(call[8]), [call[7], call[9], call[10], call[11]]),
    };
    let [work_len, params, message_len, shouts] = rest;
    let given = Given {
        line: bytes(call[1]),
        vars: bytes(call[2]),
        used: count(call[3]),
        vars_len: count(call[4]),
        homes: bytes(call[5]),
        paths: bytes(paths),
        shouts: count(shouts) == 1,
        work_len: count(work_len),
        out_len,
        params: bytes(params),
        message_len: count(message_len),
        fill: [|_| 0x5a, |_| 0xa5],
    };
    let (out, after) = match job {
        Job::Assign => (Vec::new(), &answer[2..]),
        _ => (sized(&answer[2..]), &answer[4..]),
    };
    let wanted: Wanted = outcome(answer, (out, bytes(after[1])), sized(&after[2..]));
    differs(job, &given, &wanted)
}

/// A case of the insertion or the deletion of a path.
fn update_case(update: Update, call: &[&str], answer: &[&str]) -> Option<String> {
    let lent = Lent { paths: bytes(call[1]), used: count(call[2]), length: count(call[3]), fill: |_| 0x3c };
    let wanted = outcome(answer, bytes(answer[3]), Vec::new());
    update_differs(update, &lent, &bytes(call[4]), &wanted)
}

/// What differs in a case of the coster, if anything.
fn cost_case(call: &[&str], answer: &[&str]) -> Option<String> {
    let mut work = vec![0xc3; count(call[3])];
    let given = match drunquill::cost(&bytes(call[1]), &bytes(call[2]), &mut work) {
        Ok(pairs) => (0, 0, pairs),
        Err(refusal) => (refusal.number as usize, refusal.place, 0),
    };
    let wanted = (count(answer[0]), count(answer[1]), count(answer[2]));
    if given != wanted {
        return Some(format!("{given:?}, not {wanted:?}"));
    }
    work.iter().any(|byte| *byte != 0).then(|| "work area".to_owned())
}

/// What differs in a case, if anything.
fn case(line: &str) -> Option<String> {
    let (call, answer) = line.split_once(" = ").expect("an answer");
    let call: Vec<&str> = call.split(' ').collect();
    let answer: Vec<&str> = answer.split(' ').collect();
    match call[0] {
        "quote" => {
            let wanted = outcome(&answer, sized(&answer[2..]), Vec::new());
            quote_differs(&bytes(call[1]), count(call[2]), |_| 0xa5, &wanted)
        }
        "expand" => line_case(Job::Expand, &call, &answer),
        "assign" => line_case(Job::Assign, &call, &answer),
        "insert" => update_case(Update::Insert, &call, &answer),
        "delete" => update_case(Update::Delete, &call, &answer),
        "cost" => cost_case(&call, &answer),
        _ => line_case(Job::Normalise, &call, &answer),
    }
}

#[test]
fn vectors_hold() {
    let path = Path::new(env!("CARGO_MANIFEST_DIR")).join("../tests/vectors/calls.txt");
    let text = fs::read_to_string(path).expect("the vectors");
    let mut cases = 0;
    for (number, line) in (1..).zip(text.lines()) {
        assert_eq!(case(line), None, "line {number}");
        cases += 1;
    }
    assert!(cases > 1_200);
}
