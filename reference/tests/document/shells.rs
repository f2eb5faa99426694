//! The guard before the shells: no line that could run something passes it.

use reference::generate::random::Random;
use reference::shells::script::{is_harmless, script};
use reference::shells::sums::Sums;
use reference::shells::{
    assignments, counting, escapes, lines, messages, positional, reference, shouting, Given, Shell, Taken,
};

#[test]
fn lines_that_could_run_something() {
    for line in [
        "`a`", "\"`a`\"", "$(a)", "$((1)", "$((1)+1)", "$((1);a)", "a|b", "a;b", "a&", "a\nb", "<a", ">a", "(a)",
        "\\$((a))", "$$((a))", "'\\'|a", "$'\\'|a'", "$'\\\\'|a", "$'`a`'", "$'$(a)'", "\\\\|a", "$(($(a)))",
        "$((a[1]))", "$((`a`))", "${u-$(a)}", "$((1)) ;",
    ] {
        assert!(!is_harmless(line.as_bytes()), "{line}");
    }
}

#[test]
fn lines_that_run_nothing() {
    for line in ["", "a b", "$((1))", "$(((1)<(2)))", "$(($((1))>u))", "${u-a b}", "\\|", "\"$((1))\"", "a\\\nb"] {
        assert!(is_harmless(line.as_bytes()), "{line}");
    }
}

/// The texts for the shells run nothing, differ from each other, and each has its result.
#[test]
fn arithmetic_texts_run_nothing() {
    let made = Sums::of(2_001, 1_000);
    let texts: std::collections::BTreeSet<_> = made.sums.iter().map(|sum| &sum.text).collect();
    assert_eq!(texts.len(), 1_000);
    for sum in &made.sums {
        let line = [b"$((".as_slice(), &sum.text, b"))"].concat();
        assert!(is_harmless(&line), "{}", line.escape_ascii());
        let result = std::str::from_utf8(&sum.result).expect("digits");
        assert_eq!(result.parse::<i64>().expect("a number").to_string(), result);
    }
}

/// Bash reads the name of an assignment before its right side, and `++` as one token; dash does neither.
#[test]
fn assignments_that_a_shell_takes_otherwise() {
    for (text, alike) in [
        ("n+=1", true),
        ("n=n=5", true),
        ("n=n+=5", true),
        ("n+=x=5", true),
        ("n+=n+1", true),
        ("n+=n=5", false),
        ("x=n-=x+(n=1)", false),
        ("0&&(n*=n/=2)", false),
        ("1?n%=n=2:3", false),
    ] {
        assert_eq!(Shell::Bash.assigns_alike(text.as_bytes()), alike, "{text}");
        assert!(Shell::Dash.assigns_alike(text.as_bytes()), "{text}");
        let line = format!("$(({text}))");
        assert_eq!(Shell::Bash.counts_alike(line.as_bytes(), &Given::default()), alike, "{text}");
    }
    assert!(!Shell::Bash.counts_alike(b"$((n=1++1))", &Given::default()));
    assert!(Shell::Dash.counts_alike(b"$((n=1++1))", &Given::default()));
}

/// Of the lines that store from arithmetic, about a third is accepted, and they run nothing.
#[test]
fn counting_lines_run_nothing() {
    let mut stored = 0;
    for case in 0..1_000 {
        let random = &mut Random::new(2_001, case);
        let given = counting::given(random);
        let line = counting::line(random);
        let accepted = reference(&line, &given, Taken::Fields);
        let stores = accepted.is_ok_and(|outcome| outcome.variables != given.variables);
        assert!(!stores || is_harmless(&line), "{}", line.escape_ascii());
        stored += usize::from(stores);
    }
    assert!(stored >= 250, "{stored} stored");
}

fn given(random: &mut Random) -> Given {
    Given { variables: lines::variables(random), parameters: positional::parameters(random), shout: false }
}

/// Of the lines with `$'...'` for bash nearly all are accepted and run nothing.
#[test]
fn lines_with_escapes_run_nothing() {
    let mut accepted = 0;
    for case in 0..1_000 {
        let random = &mut Random::new(2_001, case);
        let given = given(random);
        let line = escapes::line(random);
        assert!(line.windows(2).any(|two| two == b"$'"), "{}", line.escape_ascii());
        accepted += usize::from(is_harmless(&line) && reference(&line, &given, Taken::Fields).is_ok());
    }
    assert!(accepted >= 800, "{accepted} accepted");
}

/// Of the lines with the switch on some are accepted and some refused with 25, and the script has the shell's own switch before the line.
#[test]
fn lines_with_the_switch_on() {
    let (mut accepted, mut refused) = (0, 0);
    for case in 0..1_000 {
        let random = &mut Random::new(2_001, case);
        let given = Given { shout: true, ..given(random) };
        let line = lines::line(random, true);
        accepted += usize::from(reference(&line, &given, Taken::Fields).is_ok());
        refused += usize::from(shouting::is_refused(&line, &given));
        let script = script(&line, &given, &[], Taken::Fields);
        let before = [b"\nset -u\nset -- ", line.as_slice()].concat();
        assert!(script.windows(before.len()).any(|here| here == before));
    }
    assert!(accepted >= 200 && refused >= 200, "{accepted} accepted, {refused} refused");
    assert!(shouting::is_of_unset(b"sh: 1: u: parameter not set\n") && !shouting::is_of_unset(b"sh: 1: gone\n"));
    let unset = Given { shout: true, ..Given::default() };
    assert!(Shell::Dash.shouts_alike(b"$u", &unset) && !Shell::Dash.shouts_alike(b"$((u))", &unset));
    assert!(Shell::Bash.shouts_alike(b"$((u))", &unset));
}

/// Of the assignment lines for the shells nearly all are accepted and run nothing, and should a shell see a command in one, it would find none.
#[test]
fn assignment_lines_run_nothing() {
    let mut accepted = 0;
    for case in 0..1_000 {
        let random = &mut Random::new(2_001, case);
        let given = given(random);
        let line = assignments::line(random, true);
        accepted += usize::from(is_harmless(&line) && reference(&line, &given, Taken::Assignments).is_ok());
        let script = script(&line, &given, &[], Taken::Assignments);
        let around = [b"\nPATH=/none\n", line.as_slice(), b"\nPATH="].concat();
        assert!(script.windows(around.len()).any(|here| here == around));
    }
    assert!(accepted >= 800, "{accepted} accepted");
}

/// The lines for the shells whose message is compared are refused with 13, and most of them have one.
#[test]
fn messages_are_demanded() {
    let mut messages = 0;
    for case in 0..1_000 {
        let random = &mut Random::new(2_001, case);
        let given = given(random);
        let line = messages::line(random);
        let message = messages::demanded(&line, &given);
        assert!(message.is_none() || reference(&line, &given, Taken::Fields) == Err(13), "{}", line.escape_ascii());
        messages += usize::from(is_harmless(&line) && message.is_some_and(|message| !message.is_empty()));
    }
    assert!(messages >= 400, "{messages} messages");
}
