//! Reading a line: words, quotes, `$` and its refusals, operands, arithmetic texts, depth.

use reference::number::Number::{self, CommandSubstitution, LineEnds, NotServed, Operator, Syntax, TooDeep};

use crate::support::{gives, refuses, World};

fn refused(table: &[(&str, Number, usize)]) {
    for (line, number, place) in table {
        refuses(&World::empty(), line, *number, *place);
    }
}

fn given(table: &[(&str, &[&str])]) {
    for (line, fields) in table {
        gives(&World::empty(), line, fields);
    }
}

#[test]
fn words_and_separators() {
    given(&[
        ("", &[]),
        (" \t\n", &[]),
        ("a\tb\nc  d ", &["a", "b", "c", "d"]),
        ("''#", &["#"]),
        ("$e#", &["#"]),
        ("a#b }{!^=", &["a#b", "}{!^="]),
    ]);
}

#[test]
fn operators() {
    for operator in ["|", "&", ";", "<", ">", "(", ")"] {
        refuses(&World::empty(), operator, Operator, 0);
        refuses(&World::empty(), format!("ab{operator}c"), Operator, 0);
        refuses(&World::empty(), format!("a {operator}"), Operator, 2);
        gives(
            &World::empty(),
            format!("\\{operator}\"{operator}\"${{u-{operator}#}}"),
            &[&format!("{operator}{operator}{operator}#")],
        );
    }
    refused(&[("#", Operator, 0), ("a #b", Operator, 2), ("a|'", Operator, 0)]);
}

#[test]
fn quotes_and_backslashes() {
    given(&[
        (r"'a\b`$x'", &[r"a\b`$x"]),
        (r"\a\ \'\`\$x", &["a '`$x"]),
        (r#""\a\$x\`\"\\'""#, &[r#"\a$x`"\'"#]),
        (r#""\}"${u-"\}"}"#, &[r"\}\}"]),
        ("\"a\nb\"", &["a\nb"]),
    ]);
    refused(&[
        ("'", LineEnds, 0),
        ("a 'b c", LineEnds, 2),
        ("\"", LineEnds, 0),
        ("\\", LineEnds, 0),
        ("\"\\", LineEnds, 0),
        ("a \\\n", Syntax, 2),
        ("\"\\\n\"", Syntax, 0),
    ]);
}

#[test]
fn command_substitutions() {
    refused(&[
        ("`", CommandSubstitution, 0),
        ("\"`", CommandSubstitution, 0),
        ("a ${u-`", CommandSubstitution, 2),
        ("$((`", CommandSubstitution, 0),
        ("$(", CommandSubstitution, 0),
        ("\"$(a)\"", CommandSubstitution, 0),
        ("$((1)`", CommandSubstitution, 0),
        ("${`", CommandSubstitution, 0),
        ("${#`", CommandSubstitution, 0),
        ("${x`", CommandSubstitution, 0),
        ("${x:`", CommandSubstitution, 0),
        ("${#x`", CommandSubstitution, 0),
        (r"${x\`", Syntax, 0),
        (r"$((\`", Syntax, 0),
        ("| `", Operator, 0),
    ]);
}

#[test]
fn parameters_not_served() {
    for byte in "0?-$!".chars() {
        refuses(&World::empty(), format!("a ${byte}"), NotServed, 2);
        refuses(&World::empty(), format!("\"${byte}\""), NotServed, 0);
    }
    refused(&[
        ("${}", NotServed, 0),
        ("${0}", NotServed, 0),
        (r"${\", NotServed, 0),
        ("${##}", NotServed, 0),
        ("${#-a}", NotServed, 0),
        ("${#0}", NotServed, 0),
        ("$(('", Syntax, 0),
        ("$(($'", Syntax, 0),
    ]);
}

#[test]
fn literal_dollars() {
    given(&[
        ("$", &["$"]),
        ("$\u{e9}", &["$\u{e9}"]),
        ("a$ $%", &["a$", "$%"]),
        (r#""$'$""#, &["$'$"]),
        (r#"$"a""#, &["$a"]),
        ("\"${u-$'}\"", &["$'"]),
        ("${u-$}", &["$"]),
        (r"$\a", &["$a"]),
    ]);
}

#[test]
fn braces() {
    refused(&[
        ("${", LineEnds, 0),
        ("${#", LineEnds, 0),
        ("${x", LineEnds, 0),
        ("${x:", LineEnds, 0),
        ("${#x", LineEnds, 0),
        ("${x-", LineEnds, 0),
        ("${x-\\", LineEnds, 0),
        ("a ${x%", LineEnds, 2),
        ("${#x-}", Syntax, 0),
        ("${x.}", Syntax, 0),
        ("${x }", Syntax, 0),
        ("${x:%}", Syntax, 0),
        ("${x::-}", Syntax, 0),
        (r"${x\", Syntax, 0),
    ]);
    let world = World::empty().set("x", "a%").set("long_9", "v");
    gives(&world, "${x%%%} $long_9. ${long_9}9 ${#x}", &["a", "v.", "v9", "2"]);
    gives(&world, "${#u}", &["0"]);
}

#[test]
fn operands() {
    given(&[
        ("${u-a\"}\"b\\}c'}'}", &["a}b}c}"]),
        ("${u-${v-}}}", &["}"]),
        ("\"${u-'a' b}\"", &["'a' b"]),
        (r#""${u-\}\a\\}""#, &[r"}\a\"]),
        ("\"${u-${v-'\\}}}\"", &["'}"]),
    ]);
    refused(&[
        ("\"${u-\"", Syntax, 0),
        ("\"${u-\"a\"}\"", Syntax, 0),
        ("\"${u-\\\n}\"", Syntax, 0),
        ("${u-\\\n}", Syntax, 0),
        ("$((${u-\"1\"}))", Syntax, 0),
        ("${x+'", LineEnds, 0),
        ("${x?`}", CommandSubstitution, 0),
        ("$((${u-1\\}))", LineEnds, 0),
        ("${x?${y?$0}}", NotServed, 0),
    ]);
}

#[test]
fn removals_are_read_bare_anywhere() {
    let world = World::empty().set("x", "a*b}c").set("u_", "");
    gives(&world, "\"${x%'}c'}\" \"${x#\"a*\"}\"", &["a*b", "b}c"]);
    gives(&world, "\"${x%${u-\"}\"}c}\"", &["a*b"]);
    gives(&world, "$((${x%%\\**}1))", &["0"]);
    gives(&world, "\"${x%$'}c'}\"", &["a*b"]);
    gives(&world, "\"${x%${u-'}c'}}\"", &["a*b"]);
}

#[test]
fn arithmetic_texts() {
    given(&[("$(( (1+2)*(3) ))", &["9"]), ("$(((1)))", &["1"])]);
    refused(&[
        ("$((", LineEnds, 0),
        ("$((1", LineEnds, 0),
        ("a $(((1)", LineEnds, 2),
        ("$((1)", Syntax, 0),
        ("$((1)+1)", Syntax, 0),
        ("$((\\", Syntax, 0),
        ("$((\"1\"))", Syntax, 0),
        ("$((1'", Syntax, 0),
        ("$((}))", Number::ArithmeticSyntax, 0),
        ("$(($))", Number::ArithmeticSyntax, 0),
        ("$((${u-)}1))", Number::ArithmeticSyntax, 0),
    ]);
}

#[test]
fn depth() {
    let nested = |depth: usize| format!("{}a{}", "${u-".repeat(depth), "}".repeat(depth));
    gives(&World::empty(), nested(8), &["a"]);
    refuses(&World::empty(), nested(9), TooDeep, 0);
    let open = "${u-".repeat(8);
    refuses(&World::empty(), format!("a {open}${{`"), TooDeep, 2);
    refuses(&World::empty(), format!("{open}$(("), TooDeep, 0);
    refuses(&World::empty(), format!("{open}$(`"), CommandSubstitution, 0);
    refuses(&World::empty(), format!("{open}$u"), LineEnds, 0);
    let mixed = format!("{}{}1{}{}", "${u-".repeat(4), "$((".repeat(4), "))".repeat(4), "}".repeat(4));
    gives(&World::empty(), &mixed, &["1"]);
    refuses(&World::empty().set("x", "1"), format!("${{x-{mixed}${{u?{}}}}}", nested(7)), TooDeep, 0);
    gives(&World::empty(), format!("{0}{0}", nested(8)), &["aa"]);
}
