//! Each function on good and bad input. What is expected is written out from docs/01-scope.md and
//! docs/02-change-requests.md.

use std::collections::BTreeMap;
use std::thread;

use drunquill::{quote, Number, Refusal, IMAGE_MAX, LINE_MAX, MESSAGE_MAX, WORK_LEAST};

use crate::buffers::{differs, image, quote_differs, Given, Job};

pub const VARIABLES: [&[u8]; 6] = [b"HOME", b"/home/crew", b"job", b"north field", b"note", b""];

/// The variables and paths of the spoiled recipes, no parameters, and a line.
pub fn given(line: &[u8]) -> Given {
    let vars = image(&VARIABLES);
    Given {
        line: line.to_vec(),
        used: vars.len(),
        vars,
        vars_len: 300,
        homes: image(&[]),
        params: image(&[]),
        paths: image(&[b".hid.raw", b"a b.raw", b"n/p1.raw", b"p1.raw", b"p2.raw"]),
        shouts: false,
        work_len: WORK_LEAST,
        out_len: 200,
        message_len: MESSAGE_MAX + 1,
        fill: [|at| (at * 31 % 251 + 5) as u8, |at| (at * 17 % 241 + 9) as u8],
    }
}

pub fn accepted(job: Job, given: &Given, out: &[u8], vars: &[u8]) {
    assert_eq!(
        differs(job, given, &Ok((out.to_vec(), vars.to_vec()))),
        None,
        "{:?}",
        given.line.escape_ascii().to_string()
    );
}

fn refused_as(job: Job, given: &Given, refusal: Refusal) {
    assert_eq!(differs(job, given, &Err(refusal)), None, "{:?}", given.line.escape_ascii().to_string());
}

pub fn refused_by(job: Job, given: &Given, number: Number, place: usize) {
    refused_as(job, given, Refusal { number, place, message: Vec::new() });
}

pub fn demands(given: &Given, place: usize, message: &[u8]) {
    let refusal = Refusal { number: Number::Demanded, place, message: message.to_vec() };
    refused_as(Job::Expand, given, refusal.clone());
    refused_as(Job::Normalise, given, refusal);
}

pub fn refused(given: &Given, number: Number, place: usize) {
    refused_by(Job::Expand, given, number, place);
    refused_by(Job::Normalise, given, number, place);
}

#[test]
fn lines_are_accepted() {
    let vars = image(&VARIABLES);
    let c1 = given(b"cp \"$job\" $job");
    let fields = image(&[b"cp", b"north field", b"north", b"field"]);
    accepted(Job::Expand, &c1, &fields, &vars);
    accepted(Job::Expand, &Given { out_len: fields.len(), ..c1.clone() }, &fields, &vars);
    accepted(Job::Expand, &Given { work_len: WORK_LEAST + 1_000, ..c1.clone() }, &fields, &vars);
    accepted(Job::Normalise, &c1, b"cp 'north field' north field", &vars);
    let c2 = given(b"*.raw ~/out $((7/-2))");
    accepted(Job::Expand, &c2, &image(&[b"a b.raw", b"p1.raw", b"p2.raw", b"/home/crew/out", b"-3"]), &vars);
    let home = Given { homes: image(&[b"kit", b"/k"]), ..given(b"~kit") };
    accepted(Job::Expand, &home, &image(&[b"/k"]), &vars);
}

#[test]
fn a_store_is_kept() {
    let stored = image(&[VARIABLES.as_slice(), &[b"tilt", b"a b"]].concat());
    let c6 = given(b"${tilt:=\"a b\"}");
    accepted(Job::Expand, &c6, &image(&[b"a", b"b"]), &stored);
    accepted(Job::Normalise, &c6, b"a b", &stored);
    accepted(Job::Normalise, &Given { vars_len: stored.len(), ..c6.clone() }, b"a b", &stored);
    refused(&Given { vars_len: stored.len() - 1, ..c6 }, Number::VariableRoom, 0);
}

#[test]
fn parameters_are_taken() {
    let (params, vars) = (image(&[b"a b", b"", b"c"]), image(&VARIABLES));
    let apart = Given { params: params.clone(), ..given(b"\"x$@y\" $#") };
    accepted(Job::Expand, &apart, &image(&[b"xa b", b"", b"cy", b"3"]), &vars);
    accepted(Job::Normalise, &apart, b"'xa b' '' cy 3", &vars);
    let numbered = Given { params: params.clone(), ..given(b"$1 \"$*\" ${2:-none} ${4-unset} ${#1}") };
    accepted(Job::Expand, &numbered, &image(&[b"a", b"b", b"a b  c", b"none", b"unset", b"3"]), &vars);
    accepted(Job::Expand, &given(b"\"$@\" a"), &image(&[b"a"]), &vars);
    refused(&Given { params: params[..params.len() - 1].to_vec(), ..given(b"a\"") }, Number::BadParameters, 0);
    refused(&given(b"a ${u=$@}"), Number::Unserved, 2);
}

#[test]
fn empty_slices_are_taken() {
    let (none, vars) = (given(b""), image(&VARIABLES));
    accepted(Job::Expand, &none, &image(&[]), &vars);
    accepted(Job::Normalise, &none, b"", &vars);
    let no_output = Given { out_len: 0, ..none };
    refused_by(Job::Expand, &no_output, Number::OutputRoom, 0);
    accepted(Job::Normalise, &no_output, b"", &vars);
    refused(&Given { work_len: 0, ..given(b"a") }, Number::WorkTooSmall, 0);
    refused(&Given { used: 0, ..given(b"a") }, Number::BadVariables, 0);
    refused(&Given { used: 0, vars_len: 0, ..given(b"a") }, Number::BadVariables, 0);
    refused(&Given { homes: Vec::new(), ..given(b"a") }, Number::BadHomes, 0);
    refused(&Given { paths: Vec::new(), ..given(b"a") }, Number::BadPaths, 0);
    refused(&Given { params: Vec::new(), ..given(b"a") }, Number::BadParameters, 0);
}

#[test]
fn tables_are_refused() {
    refused(&Given { work_len: WORK_LEAST - 1, ..given(b"a") }, Number::WorkTooSmall, 0);
    refused(&Given { used: 301, ..given(b"a") }, Number::BadVariables, 0);
    refused(&Given { used: usize::MAX, ..given(b"a") }, Number::BadVariables, 0);
    refused(&Given { used: image(&VARIABLES).len() - 1, ..given(b"a") }, Number::BadVariables, 0);
    refused(&Given { homes: image(&[b"b", b"/b", b"a", b"/a"]), ..given(b"a") }, Number::BadHomes, 0);
    refused(&Given { paths: image(&[b""]), ..given(b"a") }, Number::BadPaths, 0);
}

#[test]
fn lines_are_refused() {
    refused(&given(&vec![b'a'; LINE_MAX + 1]), Number::LineTooLong, 0);
    let lines: [(&[u8], Number, usize); 16] = [
        (b"a\0b", Number::ZeroByte, 0),
        (b"a \"b", Number::Unended, 2),
        (b"a | b", Number::BareOperator, 2),
        (b"a `b`", Number::Substitution, 2),
        (b"a b$?", Number::Unserved, 2),
        (b"a ${job!}", Number::BadSyntax, 2),
        (b"a ${u-${u-${u-${u-${u-${u-${u-${u-${u-x}}}}}}}}}", Number::TooDeep, 2),
        (b"${note:?}", Number::Demanded, 0),
        (b"${tilt=x} ${note:?}", Number::Demanded, 10),
        (b"a $((08))", Number::NotNumber, 2),
        (b"a $(())", Number::ArithmeticSyntax, 2),
        (b"a $((9223372036854775807+1))", Number::Overflow, 2),
        (b"a $((1/0))", Number::ZeroDivisor, 2),
        (b"a [[:alph:]]", Number::BracketClass, 2),
        (b"${tilt=x} $(", Number::Substitution, 10),
        (b"a\\", Number::Unended, 0),
    ];
    for (line, number, place) in lines {
        refused(&given(line), number, place);
    }
}

#[test]
fn messages_are_given() {
    let lines: [(&[u8], usize, &[u8]); 8] = [
        (b"load ${base:?no base file chosen}", 5, b"no base file chosen"),
        (b"${note:?}", 0, b""),
        (b"${base?'a' \"$job\" $((1+2))}", 0, b"a north field 3"),
        (b"${base?~/b *}", 0, b"/home/crew/b *"),
        (b"\"${base?~/b 'c'}\"", 0, b"~/b 'c'"),
        (b"${base?a${rover?inner}}", 0, b"inner"),
        (b"${tilt=x} ${base?${height=y}$tilt$height}", 10, b"yxy"),
        (b"${base?\xc3\xbc\xff\n}", 0, b"\xc3\xbc\xff\n"),
    ];
    for (line, place, message) in lines {
        demands(&given(line), place, message);
    }
    refused(&given(b"a ${base?$((1/0))}"), Number::ZeroDivisor, 2);
    accepted(Job::Normalise, &given(b"${job?$((1/0))}"), b"north field", &image(&VARIABLES));
    let longest = vec![b'x'; MESSAGE_MAX];
    let vars = image(&[b"v", &longest]);
    let edge = Given { used: vars.len(), vars, vars_len: IMAGE_MAX, ..given(b"a${u?$v}") };
    demands(&edge, 0, &longest);
    refused(&Given { line: b"${u?''$v}".to_vec(), ..edge }, Number::TooManyUnits, 0);
}

/// The variables with these in place of those of the same name, in order.
pub fn changed(records: &[(&[u8], &[u8])]) -> Vec<u8> {
    let mut table: BTreeMap<&[u8], &[u8]> = VARIABLES.chunks(2).map(|record| (record[0], record[1])).collect();
    table.extend(records.iter().copied());
    let texts: Vec<&[u8]> = table.into_iter().flat_map(|(name, value)| [name, value]).collect();
    image(&texts)
}

fn assigns(given: &Given, records: &[(&[u8], &[u8])]) {
    accepted(Job::Assign, given, b"", &changed(records));
}

#[test]
fn assignments_are_made() {
    assigns(&given(b"out=~/jobs:$job"), &[(b"out", b"/home/crew/jobs:north field")]);
    assigns(&given(b"tilt=1 height=$((tilt+1))"), &[(b"tilt", b"1"), (b"height", b"2")]);
    assigns(&given(b"tilt='a  b'$note raw=*.raw"), &[(b"tilt", b"a  b"), (b"raw", b"*.raw")]);
    assigns(&given(b""), &[]);
    let home = Given { homes: image(&[b"kit", b"/k"]), params: image(&[b"p q"]), ..given(b"a=:~kit:~no b=$1$#") };
    assigns(&home, &[(b"a", b":/k:~no"), (b"b", b"p q1")]);
}

#[test]
fn a_shorter_value_leaves_zeros() {
    assigns(&given(b"job="), &[(b"job", b"")]);
    assigns(&given(b"job=s HOME=/h tilt=new"), &[(b"job", b"s"), (b"HOME", b"/h"), (b"tilt", b"new")]);
    assigns(&given(b"job= job='north fields'"), &[(b"job", b"north fields")]);
    assigns(&given(b"tilt=longer tilt="), &[(b"tilt", b"")]);
    let full = given(b"job=s");
    assigns(&Given { vars_len: full.used, ..full }, &[(b"job", b"s")]);
}

fn counts(given: &Given, field: &[u8], records: &[(&[u8], &[u8])]) {
    accepted(Job::Expand, given, &image(&[field]), &changed(records));
    accepted(Job::Normalise, given, field, &changed(records));
}

#[test]
fn arithmetic_counts() {
    counts(&given(b"P$((n=n+1))-$((n+=1))-$n"), b"P1-2-2", &[(b"n", b"2")]);
    counts(&given(b"$((job=note=3))"), b"3", &[(b"job", b"3"), (b"note", b"3")]);
    counts(&given(b"$((job=7))$((job*=12345678901))"), b"786419752307", &[(b"job", b"86419752307")]);
    let full = given(b"$((job=3))");
    counts(&Given { vars_len: full.used, ..full }, b"3", &[(b"job", b"3")]);
    assigns(&given(b"job=$((n=12)) n=$((n/=5))"), &[(b"job", b"12"), (b"n", b"2")]);
    refused(&given(b"a $((job=3))$((1/0))"), Number::ZeroDivisor, 2);
    refused(&given(b"$((job+=1))"), Number::NotNumber, 0);
    refused(&given(b"$(((note)=1))"), Number::ArithmeticSyntax, 0);
    let longer = given(b"a $((n=1))");
    refused(&Given { vars_len: longer.used + 5, ..longer }, Number::VariableRoom, 2);
}

#[test]
fn assignments_are_refused() {
    let lines: [(&[u8], Number, usize); 12] = [
        (b"a=1 b", Number::BadSyntax, 4),
        (b"a=1 2b=3", Number::BadSyntax, 4),
        (b"a=1 b`=", Number::BadSyntax, 4),
        (b"a=1 | b=2", Number::BareOperator, 4),
        (b"a=1 b=2|", Number::BareOperator, 4),
        (b"a=1 b=\"", Number::Unended, 4),
        (b"a=$@", Number::Unserved, 0),
        (b"a=1 b=$((a/0))", Number::ZeroDivisor, 4),
        (b"job= b=${job%[[.a.]]}", Number::BracketClass, 5),
        (b"a=\0", Number::ZeroByte, 0),
        (b"a=${b=2} c=${d?}", Number::Demanded, 9),
        (b"a=$((1+))", Number::ArithmeticSyntax, 0),
    ];
    for (line, number, place) in lines {
        refused_by(Job::Assign, &given(line), number, place);
    }
    let message = Refusal { number: Number::Demanded, place: 4, message: b"no 1 in ~".to_vec() };
    refused_as(Job::Assign, &given(b"a=1 b=${c?no $a in ~}"), message);
    let longer = given(b"a=1 tilt=x");
    let room = longer.used + 6;
    refused_by(Job::Assign, &Given { vars_len: room, ..longer.clone() }, Number::VariableRoom, 4);
    refused_by(Job::Assign, &Given { work_len: WORK_LEAST - 1, ..longer.clone() }, Number::WorkTooSmall, 0);
    refused_by(Job::Assign, &Given { used: 0, ..longer.clone() }, Number::BadVariables, 0);
    refused_by(Job::Assign, &Given { homes: Vec::new(), params: Vec::new(), ..longer.clone() }, Number::BadHomes, 0);
    refused_by(Job::Assign, &Given { params: Vec::new(), ..longer.clone() }, Number::BadParameters, 0);
    assigns(&Given { paths: Vec::new(), out_len: 0, ..longer }, &[(b"a", b"1"), (b"tilt", b"x")]);
}

#[test]
fn edges_are_kept() {
    for (bytes, good) in [(2_047, true), (2_048, false)] {
        let value = vec![b'x'; bytes];
        let vars = image(&[b"v", &value]);
        let edge = Given {
            used: vars.len(),
            vars: vars.clone(),
            vars_len: IMAGE_MAX + 100,
            out_len: IMAGE_MAX,
            ..given(b"\"$v\"")
        };
        if good {
            accepted(Job::Expand, &edge, &image(&[&value]), &vars);
            accepted(Job::Normalise, &edge, &value, &vars);
        } else {
            refused(&edge, Number::TooManyUnits, 0);
        }
    }
    let short = Given { out_len: 10, ..given(b"a ${tilt:=x} bc") };
    refused_by(Job::Expand, &short, Number::OutputRoom, 13);
    refused_by(Job::Normalise, &Given { out_len: 5, ..short }, Number::OutputRoom, 0);
}

#[test]
fn fields_are_quoted() {
    let fill: fn(usize) -> u8 = |at| (at * 29 % 253 + 2) as u8;
    let fields = image(&[b"it's", b"", b"a b"]);
    let line = b"'it'\\''s' '' 'a b'".to_vec();
    let refusal = |number| Err(Refusal { number, place: 0, message: Vec::new() });
    assert_eq!(quote_differs(&fields, 60, fill, &Ok(line.clone())), None);
    assert_eq!(quote_differs(&fields, line.len(), fill, &Ok(line.clone())), None);
    assert_eq!(quote_differs(&fields, line.len() - 1, fill, &refusal(Number::OutputRoom)), None);
    assert_eq!(quote_differs(&fields[..fields.len() - 1], 60, fill, &refusal(Number::BadFields)), None);
    assert_eq!(quote_differs(&[], 60, fill, &refusal(Number::BadFields)), None);
    assert_eq!(quote_differs(&[2], 60, fill, &refusal(Number::BadFields)), None);
    assert_eq!(quote_differs(&[1], 0, fill, &Ok(Vec::new())), None);
    let fields = image(&[b"cp", b"a b", b"/n/P_1-2.raw", b"", b"~a", b"-r"]);
    let line = b"cp 'a b' /n/P_1-2.raw '' '~a' -r".to_vec();
    assert_eq!(quote_differs(&fields, 60, fill, &Ok(line.clone())), None);
    assert_eq!(quote_differs(&fields, line.len(), fill, &Ok(line.clone())), None);
    assert_eq!(quote_differs(&fields, line.len() - 1, fill, &refusal(Number::OutputRoom)), None);
}

#[test]
fn threads_call_at_once() {
    let calls =
        || (0..200).for_each(|_| accepted(Job::Normalise, &given(b"\"$job\""), b"'north field'", &image(&VARIABLES)));
    thread::scope(|scope| (0..4).for_each(|_| drop(scope.spawn(calls))));
}

#[test]
fn a_refusal_says_itself() {
    let refusal = quote(&[], &mut []).unwrap_err();
    assert_eq!(refusal.to_string(), "refused at place 0: the image of fields is malformed or too long (22)");
    assert_eq!(format!("{refusal:?}"), "Refusal { number: BadFields, place: 0, message: b\"\" }");
    let message = b"no \"b\xc3\xa4se\"\n".to_vec();
    let refusal = Refusal { number: Number::Demanded, place: 5, message };
    let told = "refused at place 5: a value that the line demands is missing (13): no \"b\u{e4}se\"\n";
    assert_eq!(refusal.to_string(), told);
    let shown = r#"Refusal { number: Demanded, place: 5, message: b"no \"b\xc3\xa4se\"\n" }"#;
    assert_eq!(format!("{refusal:?}"), shown);
    assert_eq!(Number::of(0), None);
    assert_eq!(Number::of(26), None);
}
