//! The lines of docs/SHELLS.md: for each rule of documents 01 and 02 on which a shell parts from it, one that shows it.

use std::io;

use super::script::is_harmless;
use super::{reference, Folder, Given, Outcome, Shell, Table, Taken};

/// A phrase of document 01 or 02, a line, and the variables it is expanded with.
type Difference = (&'static str, &'static str, &'static [(&'static str, &'static str)]);

const READING: &[Difference] = &[
    ("Bare `|&;<>()` [...] are 8", "a|b", &[]),
    ("`#` at a word's start [is] 8", "a #b", &[]),
    ("A backquote outside single quotes [...] is 9", "`a`", &[]),
    ("`$(` otherwise is 9", "$(a)", &[]),
    ("before a newline it is 11, also in double quotes", "a\\\nb \"c\\\nd\"", &[]),
    ("`$` before a digit or one of `@*#?-$!` is 10", "a$?", &[]),
    ("Serve `$'...'` where 10 was given", "$'a\\tb'", &[]),
    ("A zero byte [...] is 11", "$'a\\0b'c", &[]),
    ("an octal value above 255 [...] is 11", "$'\\501'", &[]),
    ("or another escape is 11", "$'\\?\\cA\\u0041'", &[]),
    ("or another escape is 11", "$'\\z'", &[]),
    ("or another escape is 11", "$'a\\xg'", &[]),
    ("inside double quotes [...] the operands of `-=?+` are read as double-quoted text", "\"${u-$'{'}\"", &[]),
    ("Any other `$` is literal", "$\"a\"", &[]),
    ("Any other `$` is literal", "$x$%", &[("x", "a b")]),
    ("a byte that cannot begin the name is 10", "a${?}", &[]),
    ("a byte that cannot begin the name is 10", "${!x}", &[("x", "y"), ("y", "z")]),
    ("anything else is 11", "${x:1}", &[("x", "abc")]),
    ("anything else is 11", "${x/b/c}", &[("x", "abc")]),
    ("a plain `\"` is 11", "\"${u-\"a b\"}\"", &[]),
    ("Within `\"...\"` a backslash quotes only `$`, backquote, `\"`, `\\`", "${u-\"\\}\"}", &[]),
    ("which counts as outside the quotes or arithmetic around it", "\"${x#${u-'}'}}\"", &[("x", "}a")]),
    ("a quote or backslash anywhere in the text outside operands, is 11", "$((\"1\"+1))", &[]),
    ("an outer `)` followed by another byte [...] is 11", "$((1)+1)", &[]),
    ("the ninth is 12", "${u-${u-${u-${u-${u-${u-${u-${u-${u-a}}}}}}}}}", &[]),
];

const EXPANDING: &[Difference] = &[
    ("its login ending at the first `/` or the operand's end", "${u-~:a}", &[("HOME", "/h")]),
    ("otherwise the homes table", "~root", &[("HOME", "/h")]),
    ("Empty login means HOME", "~/x", &[]),
    ("Empty login means HOME (even if empty)", "~ ~/x", &[("HOME", "")]),
    ("The operand is always expanded", "${u%${w=a}}", &[]),
    ("The operand is always expanded, then the value is read", "${n#$((n=77))}b", &[("n", "7")]),
    ("An unused operand is not expanded", "${x-~${u-a}}b", &[("x", "c")]),
    (
        "holds at most 2,048 units",
        "$((0$v$v$v$v$v$v$v$v$v$v$v$v$v$v$v$v$v$v$v$v$v$v$v$v$v$v$v$v$v$v$v$v))",
        &[("v", "                                                                ")],
    ),
    ("the length in bytes", "${#x}", &[("LC_ALL", "C.UTF-8"), ("x", "\u{e9}")]),
];

const ARITHMETIC: &[Difference] = &[
    ("Signs are single tokens", "$((--x))", &[("x", "5")]),
    ("its value must be an optional sign and a constant", "$((x))", &[("x", "1+1")]),
    ("its value must be an optional sign and a constant", "$((x))", &[("x", "y"), ("y", "3")]),
    ("nothing more, else 15", "$((x))", &[("x", " 1")]),
    ("Results out of range are 17", "$((9223372036854775807+1))", &[]),
    ("above 9223372036854775807 it is 17", "$((9223372036854775808))", &[]),
    ("17 if out of range with its sign", "$((x))", &[("x", "9223372036854775808")]),
    ("as is the smallest number `/` or `%` -1", "$((x%-1))", &[("x", "-9223372036854775808")]),
    ("Empty text is 16", "$(( ))", &[]),
    ("A constant is the longest run of letters, digits, `_`", "$((2#11))", &[]),
    ("`0x` or `0X` and a digit or more hexadecimal, else 15", "$((0x))", &[]),
    ("Add `! ~`, `<< >>`, `& ^ |`, `&& ||` and `?:`", "$((2**3))", &[]),
    ("Add `=`, `+=`, `-=`, `*=`, `/=`, `%=`", "$((n<<=1))", &[("n", "7")]),
    ("Add `=`, `+=`, `-=`, `*=`, `/=`, `%=`", "$((n++))", &[("n", "7")]),
    ("lowest in precedence", "$((n=1,n+1))", &[]),
    ("The right side is worked out first, then the name is read", "$((n+=n=5))", &[("n", "7")]),
    ("Results out of range are 17", "$((n+=1))", &[("n", "9223372036854775807")]),
    ("A shift count outside 0 to 63 [...] is 17", "$((1<<64))", &[]),
    ("A shift count outside 0 to 63 [...] is 17", "$((1>>-1))", &[]),
    ("a left shift whose exact product leaves the 64-bit signed range, is 17", "$((1<<63))", &[]),
    ("A constant that is bad or too large is still refused in reading", "$((0&&9223372036854775808))", &[]),
    ("`!` and `~` count toward the 32", "$((!!!!!!!!!!!!!!!!!!!!!!!!!!!!!!!!!1))", &[]),
    (
        "More than 32 open parentheses and unary signs, together, is 12",
        "$((- - - - - - - - - - - - - - - - - - - - - - - - - - - - - - - - - 1))",
        &[],
    ),
];

const FIELDS: &[Difference] = &[
    ("A delimiter is an E unit", "[a-]$u[a-c]", &[("IFS", "a-")]),
    ("A delimiter is an E unit", "a:b${IFS=:}", &[]),
    ("IFS as it stands after the word's own stores", "$x${IFS:= }", &[("IFS", ""), ("x", "a b")]),
    ("then drop white ones, at most one hard one", "$x$y", &[("IFS", " :"), ("x", "a "), ("y", ":b")]),
    ("Text is bytes", "${x#?}", &[("LC_ALL", "C.UTF-8"), ("x", "\u{e9}a")]),
    ("A backslash from an expansion is a plain byte", "${x#$y}", &[("x", "\\abc"), ("y", "\\*")]),
    ("A backslash from an expansion is a plain byte", "$y", &[("y", "\\a*")]),
    ("optional active `!` for all others", "${x#[^a]}", &[("x", "bcd")]),
    ("is 19, closed or not, whatever the text", "[[:digit]", &[]),
    ("bytes from 128 are in none", "${x#[[:alpha:]]}", &[("LC_ALL", "C.UTF-8"), ("x", "\u{e9}a")]),
    ("all its bytes active", "${x#[[:\"alpha\":]]}", &[("x", "bcd")]),
    ("An unknown name, or `[.` or `[=`, stays 19", "${x#[[:word:]]}", &[("x", "bcd")]),
    ("An unknown name, or `[.` or `[=`, stays 19", "${x#[[::]]}", &[("x", ":]b")]),
    ("An unknown name, or `[.` or `[=`, stays 19", "[[.a.]]", &[]),
    ("An unknown name, or `[.` or `[=`, stays 19", "[[=a=]]", &[]),
    ("A class as an end of a range is 19", "${x#[[:digit:]-a]}", &[("x", "-bc")]),
    ("A class as an end of a range is 19", "[a-[:digit:]]", &[]),
    ("becomes all matching paths in order", ".*", &[]),
    ("becomes all matching paths in order", "*/ d//b*", &[]),
];

/// The same, and the positional parameters.
type Listed = (&'static str, &'static str, &'static [(&'static str, &'static str)], &'static [&'static str]);

const POSITIONAL: &[Listed] = &[
    ("a leading zero stays 10", "${01}", &[], &["a"]),
    ("`=` on one stays 10", "${1=b}", &[], &["a"]),
    ("if there are none and nothing else came of those quotes, they give no field", "\"$e$@\"", &[("e", "")], &[]),
    ("if there are none and nothing else came of those quotes, they give no field", "\"${u-$@}\"", &[], &[]),
    ("if there are none and nothing else came of those quotes", "\"${#2}$@\"", &[("IFS", "0")], &[]),
    ("text before joined to the first and text after to the last", "1\"$@\"${e%%}", &[("e", "")], &["b", ""]),
    ("Bare `$@` and `$*` break between parameters", "$@${IFS=^}", &[], &["a", "b c"]),
    ("Bare `$@` and `$*` break between parameters", "${u-x$@}", &[("IFS", ",")], &["a", "b"]),
    ("Bare `$@` and `$*` break between parameters", "x${y+$*'a'\"$@\"}", &[("y", "1")], &["", "b"]),
    ("each part is split by itself", "x$@", &[("IFS", ":")], &[":", "a"]),
    ("each part is split by itself", "$@", &[("IFS", ":")], &["a", ":b"]),
    ("each part is split by itself", "\"$@\"$1", &[], &["c  d", "b"]),
    ("each part is split by itself", "$x\"$@\"", &[("IFS", " :"), ("x", " :a")], &["b", "c"]),
    ("each part is split by itself", "a${u-$@\"$@\"}", &[], &[" b"]),
    ("and an empty one gives nothing", "x$*", &[("IFS", ":")], &["a", "", "b"]),
    ("`$@` and `$*` stay 10", "${u=$@}", &[], &["a", "b c"]),
    ("`$@` and `$*` stay 10", "${x?$@}", &[("x", "a")], &["b"]),
    ("`$@` and `$*` stay 10", "${x%\"$*\"}", &[("x", "ab")], &["b"]),
    ("and in arithmetic, `$@` and `$*` stay 10", "$(($*))", &[], &["1"]),
    ("so do length and operators on them and on `#`", "${#@}", &[], &["a", "bc"]),
    ("so do length and operators on them and on `#`", "${*-x}", &[], &["a", "b"]),
    ("so do length and operators on them and on `#`", "${@%b}", &[], &["ab", "bb"]),
    ("so do length and operators on them and on `#`", "${##}", &[], &["a"]),
];

/// Assignment lines. Those that are 11 or 10 run nothing in a shell either.
const ASSIGNMENTS: &[Listed] = &[
    ("a name, a bare `=` and a value, perhaps empty, else 11", "x=a x+=b", &[], &[]),
    ("after each bare literal `:` outside operands", "x=${u-a:~}", &[("HOME", "/h")], &[]),
    ("its login ending at the first `/` or the operand's end", "x=${u-~:a}", &[("HOME", "/h")], &[]),
    ("Text is bytes", "y=${x#c}", &[("IFS", "\x7f"), ("x", "a\x7fb")], &[]),
    ("`$@` and `$*` in values are 10", "x=$@", &[("IFS", ":")], &["a", "b  c"]),
    ("`$@` and `$*` in values are 10", "x=\"$*\"", &[], &["a", "b  c"]),
];

/// With the switch on, which is `set -u` in a shell.
const SHOUTING: &[Listed] = &[
    ("and a name read in arithmetic are refused on an unset parameter", "$((u+1))", &[], &[]),
    ("and a name read in arithmetic are refused on an unset parameter", "$((u+=1))", &[], &[]),
    ("The operand is always expanded", "a${e%$u}", &[("e", "")], &[]),
];

/// Every difference as docs/SHELLS.md lists it, and how many lines show none.
pub fn measured(folder: &Folder, shells: &[Shell]) -> io::Result<(String, usize)> {
    let (mut text, mut alike) = (String::new(), 0);
    for (title, list) in [
        ("Reading", READING),
        ("Expansion", EXPANDING),
        ("Arithmetic", ARITHMETIC),
        ("Splitting, patterns, paths", FIELDS),
    ] {
        text.push_str(&format!("## {title}\n\n"));
        for (phrase, line, pairs) in list {
            let (shown, parts) = measure(folder, shells, &(phrase, line, pairs, &[]), Taken::Fields, false)?;
            text.push_str(&shown);
            alike += usize::from(!parts);
        }
    }
    for (title, list, taken, shout) in [
        ("Positional parameters", POSITIONAL, Taken::Fields, false),
        ("Assignment lines", ASSIGNMENTS, Taken::Assignments, false),
        ("The switch, `set -u` in a shell", SHOUTING, Taken::Fields, true),
    ] {
        text.push_str(&format!("## {title}\n\n"));
        for listed in list {
            let (shown, parts) = measure(folder, shells, listed, taken, shout)?;
            text.push_str(&shown);
            alike += usize::from(!parts);
        }
    }
    Ok((text, alike))
}

/// One difference as text, and whether a shell does part there, as it does from any line it must not run.
fn measure(
    folder: &Folder,
    shells: &[Shell],
    (phrase, line, pairs, parameters): &Listed,
    taken: Taken,
    shout: bool,
) -> io::Result<(String, bool)> {
    let before: Table = pairs.iter().map(|(name, value)| ((*name).into(), (*value).into())).collect();
    let parameters = parameters.iter().map(|text| text.as_bytes().to_vec()).collect();
    let lent = Given { variables: before.clone(), parameters, shout };
    let line = line.as_bytes();
    let wanted = reference(line, &lent, taken);
    let mut text = format!("- {phrase}\n\n      line         {}", printable(line));
    for (name, value) in &before {
        text.push_str(&format!("   {}='{}'", printable(name), printable(value)));
    }
    for (number, parameter) in (1..).zip(&lent.parameters) {
        text.push_str(&format!("   {number}='{}'", printable(parameter)));
    }
    let given = match &wanted {
        Ok(outcome) => shown(outcome, &before, taken),
        Err(number) => format!("refused with {number}"),
    };
    text.push_str(&format!("\n      documents    {given}\n"));
    let harmless = is_harmless(line);
    let mut parts = !harmless;
    for shell in shells {
        let given = match harmless {
            true => shell.outcome(folder, line, &lent, taken)?,
            false => None,
        };
        parts |= given.as_ref() != wanted.as_ref().ok();
        let given = match &given {
            Some(outcome) => shown(outcome, &before, taken),
            None if harmless => "fails".to_string(),
            None => "not run".to_string(),
        };
        text.push_str(&format!("      {:11}  {given}\n", shell.name()));
    }
    Ok((text + "\n", parts))
}

/// The fields, which assignments have not, and the variables that have changed.
fn shown(outcome: &Outcome, before: &Table, taken: Taken) -> String {
    let fields = outcome.fields.iter();
    let mut words: Vec<String> = fields.map(|field| format!("<{}>", printable(field))).collect();
    if words.is_empty() && taken == Taken::Fields {
        words.push("no fields".to_string());
    }
    for (name, value) in &outcome.variables {
        if before.get(name) != Some(value) {
            words.push(format!("{}='{}'", printable(name), printable(value)));
        }
    }
    if words.is_empty() {
        words.push("no change".to_string());
    }
    words.join(" ")
}

/// The bytes as they are, but those that do not print as `\xNN`.
fn printable(bytes: &[u8]) -> String {
    let byte = |&byte: &u8| match byte {
        b' '..=b'~' => char::from(byte).to_string(),
        _ => format!("\\x{byte:02x}"),
    };
    bytes.iter().map(byte).collect()
}
