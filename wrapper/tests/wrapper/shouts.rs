//! The switch by which unset names shout. What is expected is written out from E14 of docs/02-change-requests.md.

use drunquill::{expand, Number, Tables, Variables, IMAGE_MAX, WORK_LEAST};

use crate::buffers::{image, Given, Job};
use crate::calls::{accepted, changed, demands, given, refused, refused_by, VARIABLES};

/// The call with the switch on.
fn shouting(given: &Given) -> Given {
    Given { shouts: true, ..given.clone() }
}

#[test]
fn unset_names_shout() {
    let (vars, none) = (image(&VARIABLES), image(&[]));
    let lines: [(&[u8], usize, &[&[u8]]); 9] = [
        (b"load $bsae", 5, &[b"load"]),
        (b"load \"${bsae}\"", 5, &[b"load", b""]),
        (b"${#bsae}", 0, &[b"0"]),
        (b"${bsae%.raw}", 0, &[]),
        (b"${bsae##*/}", 0, &[]),
        (b"a $((1+bsae))", 2, &[b"a", b"1"]),
        (b"$1", 0, &[]),
        (b"${job%$bsae}", 0, &[b"north", b"field"]),
        (b"${job+${#1}}", 0, &[b"0"]),
    ];
    for (line, place, fields) in lines {
        accepted(Job::Expand, &given(line), &image(fields), &vars);
        refused(&shouting(&given(line)), Number::UnsetName, place);
    }
    let removal = given(b"${bsae%${bsae=1}}");
    accepted(Job::Expand, &removal, &none, &changed(&[(b"bsae", b"1")]));
    refused(&shouting(&removal), Number::UnsetName, 0);
    refused(&given(b"${bsae%$((1/0))}"), Number::ZeroDivisor, 0);
    refused(&shouting(&given(b"${bsae%$((1/0))}")), Number::UnsetName, 0);
    accepted(Job::Assign, &given(b"a=1 tilt=$bsae"), b"", &changed(&[(b"a", b"1"), (b"tilt", b"")]));
    refused_by(Job::Assign, &shouting(&given(b"a=1 tilt=$bsae")), Number::UnsetName, 4);
    demands(&given(b"${base?no $bsae}"), 0, b"no ");
    refused(&shouting(&given(b"${base?no $bsae}")), Number::UnsetName, 0);
}

#[test]
fn other_lines_are_as_they_were() {
    let lines: [&[u8]; 9] = [
        b"load \"$job\" $job ${#job} ${job% *} $note\"$note\" $#",
        b"${bsae-x}${bsae:-y}${bsae+z}${1-p}",
        b"${bsae=x}${bsae:=y}$bsae",
        b"\"$@\" $* ~ ~/a ~nobody",
        b"$((bsae=1))$((bsae+=1))",
        b"$((0&&bsae))$((1||bsae))$((1?2:bsae))",
        b"${job-$bsae}${job?$bsae}${bsae+$bsae}",
        b"'$bsae' '${#bsae}' '$((bsae))'",
        b"*.raw [!p]*.raw",
    ];
    for line in lines {
        let off = given(line);
        let mut out = [0; IMAGE_MAX];
        let mut work = vec![0; WORK_LEAST];
        let mut buffer = [0; 300];
        buffer[..off.vars.len()].copy_from_slice(&off.vars);
        let mut variables = Variables { buffer: &mut buffer, used: off.used };
        let tables = Tables { homes: &off.homes, params: &off.params, paths: &off.paths, shouts: false };
        let fields = expand(line, &mut variables, tables, &mut work, &mut out).expect("a good line").to_vec();
        let after = variables.buffer[..variables.used].to_vec();
        accepted(Job::Expand, &shouting(&off), &fields, &after);
    }
    refused(&shouting(&given(b"$bsae\"")), Number::Unended, 0);
    refused(&shouting(&given(b"$((bsae+=1/0))")), Number::ZeroDivisor, 0);
    demands(&shouting(&given(b"${base:?no base file chosen}")), 0, b"no base file chosen");
}
