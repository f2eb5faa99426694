//! E12, names with control bytes: how `$'...'` is read, sentence by sentence, and the readings its open points were given.

use reference::number::Number::{
    ArithmeticSyntax, CommandSubstitution, LineEnds, NotServed, Syntax, TooDeep, TooManyUnits, ZeroByte,
};

use crate::support::{assigns, demands, gives, leaves, refuses, refuses_to_assign, World};

/// The line is accepted, and its one field has these bytes.
#[track_caller]
fn is(line: impl AsRef<[u8]>, bytes: &[u8]) {
    let line = line.as_ref();
    let fields = World::empty().expand(line).map(|outcome| outcome.fields);
    assert_eq!(fields, Ok(vec![bytes.to_vec()]), "{}", line.escape_ascii());
}

/// The line is refused in its first word, and in a later one.
#[track_caller]
fn refused(line: impl AsRef<[u8]>, number: reference::number::Number) {
    let line = line.as_ref();
    refuses(&World::empty(), line, number, 0);
    refuses(&World::empty(), [b"a  ", line].concat(), number, 3);
}

/// "`\"`, `\'`, `\\`, `\a`, `\b`, `\e`, `\f`, `\n`, `\r`, `\t`, `\v`".
#[test]
fn each_letter() {
    for (escape, byte) in [
        ("\\\"", 34),
        ("\\'", 39),
        ("\\\\", 92),
        ("\\a", 7),
        ("\\b", 8),
        ("\\e", 27),
        ("\\f", 12),
        ("\\n", 10),
        ("\\r", 13),
        ("\\t", 9),
        ("\\v", 11),
    ] {
        is(format!("$'{escape}'"), &[byte]);
        is(format!("$'a{escape}b{escape}'"), &[b'a', byte, b'b', byte]);
    }
    is("base$'\\r'.dat", b"base\r.dat");
}

/// "`\x` with one or two hexadecimal digits", each value of a byte but 0 in each way of writing it.
#[test]
fn hexadecimal_digits() {
    for byte in 1..=255u8 {
        is(format!("$'\\x{byte:02x}'"), &[byte]);
        is(format!("$'\\x{byte:02X}g'"), &[byte, b'g']);
        if byte < 16 {
            is(format!("$'\\x{byte:x}'"), &[byte]);
            is(format!("$'\\x{byte:X}g'"), &[byte, b'g']);
        }
    }
    is("$'\\xaF\\xFa'", b"\xaf\xfa");
}

/// "and one to three octal digits".
#[test]
fn octal_digits() {
    for byte in 1..=255u8 {
        is(format!("$'\\{byte:03o}'"), &[byte]);
        is(format!("$'\\{byte:o}8'"), &[byte, b'8']);
        is(format!("$'\\{byte:o}a'"), &[byte, b'a']);
    }
}

/// "Digits run as long as they may."
#[test]
fn digits_run_on() {
    is("$'\\x411'", b"A1");
    is("$'\\x4g'", b"\x04g");
    is("$'\\1011'", b"A1");
    is("$'\\0101'", b"\x081");
    is("$'\\18'", b"\x018");
    is("$'\\1\\1'", b"\x01\x01");
    is("$'\\x4\\x4'", b"\x04\x04");
    is("$'\\12'3", b"\n3");
    is("$'\\x4'1", b"\x041");
    is("$'\\3777'", b"\xff7");
}

/// "The text is quoted": neither split nor a pattern, and no quote of it stays.
#[test]
fn the_text_is_quoted() {
    let world = World::empty().set("IFS", "a \n").path("b").path("*").path("a b");
    gives(&world, "$'a b\\n'", &["a b\n"]);
    gives(&world, "$'*' $'?' $'[b]' *$''", &["*", "?", "[b]", "*", "a b", "b"]);
    gives(&world, "${u-$'a b'}", &["a b"]);
    gives(&world, "${u-a $'*'}", &["", "*"]);
    gives(&world, "$'~' ~$'' $'~'/a", &["~", "~", "~/a"]);
    gives(&World::recipes(), "~$'' ~/$'a' $'~'/a", &["~", "/home/crew/a", "~/a"]);
    gives(&World::empty(), "a$'b'\"c\"'d'", &["abcd"]);
    gives(&World::empty(), "$'a'#b $''#", &["a#b", "#"]);
}

/// "begins with an empty mark": so an empty one is a field.
#[test]
fn an_empty_text_is_a_field() {
    gives(&World::empty(), "$''", &[""]);
    gives(&World::empty(), "$u$''", &[""]);
    gives(&World::empty(), "a $'' b", &["a", "", "b"]);
    gives(&World::empty(), "${u-$''}", &[""]);
    gives(&World::empty(), "\"$@\"$''", &[""]);
    let value = |length: usize| World::empty().set("v", "x".repeat(length));
    gives(&value(2_047), "$v$''", &[&"x".repeat(2_047)]);
    refuses(&value(2_048), "$v$''", TooManyUnits, 0);
    gives(&value(2_046), "$v$'\\n'", &[&("x".repeat(2_046) + "\n")]);
    gives(&value(2_046), "$v$'\\x41'", &[&("x".repeat(2_046) + "A")]);
    refuses(&value(2_047), "$v$'\\n'", TooManyUnits, 0);
    refuses(&value(2_046), "$v$'\\101\\x41'", TooManyUnits, 0);
}

/// "any other byte in it, a backquote too, is itself".
#[test]
fn other_bytes_are_themselves() {
    for byte in (1..=255).filter(|byte| !b"'\\".contains(byte)) {
        is([b"$'", [byte].as_slice(), b"'"].concat(), &[byte]);
        is([b"$'a", [byte].as_slice(), b"b'c"].concat(), &[b'a', byte, b'b', b'c']);
    }
    for text in ["`", "`a`", "$x", "${", "$(a)", "$((", "a b", "|&;<>()", "#", "}", "\"", "\n", "${u-", "~", "$@"] {
        is(format!("$'{text}'"), text.as_bytes());
    }
}

/// "A zero byte, an octal value above 255 or another escape is 11."
#[test]
fn escapes_that_are_refused() {
    for escape in ["0", "00", "000", "0000", "x0", "x00", "x000", "08", "x0g", "09"] {
        refused(format!("$'\\{escape}'"), Syntax);
        refused(format!("$'a\\{escape} "), Syntax);
    }
    for value in 256..512 {
        refused(format!("$'\\{value:o}'"), Syntax);
    }
    refused("$'\\400", Syntax);
    refused("$'\\4000'", Syntax);
    let served = b"\"'\\abefnrtvx01234567";
    for byte in (1..=255).filter(|byte| !served.contains(byte)) {
        refused([b"$'\\", [byte].as_slice(), b"'"].concat(), Syntax);
        refused([b"$'a\\", [byte].as_slice()].concat(), Syntax);
    }
    for behind in ["'", "g'", " ", "\\", "x41'", "`"] {
        refused(format!("$'\\x{behind}"), Syntax);
    }
    refused("$'\\`'", Syntax);
    refused("$'\\\n'", Syntax);
    refuses(&World::empty(), b"$'\0'", ZeroByte, 0);
}

/// "`\'` does not end the text."
#[test]
fn an_escaped_quote_does_not_end_the_text() {
    is("$'a\\'b'", b"a'b");
    is("$'\\''", b"'");
    is("$'\\\\'", b"\\");
    is("$'\\\\\\''", b"\\'");
    is("$'\\\\''a'", b"\\a");
    refused("$'\\'", LineEnds);
    refused("$'\\\\\\'", LineEnds);
}

/// The line's end in a text, behind its backslash, behind `\x` and behind digits is 7; a value of 0 or above 255 is met before it.
#[test]
fn lines_that_end_in_a_text() {
    for line in
        ["$'", "$'a", "$'\\", "$'a\\", "$'\\x", "$'\\x4", "$'\\x41", "$'\\4", "$'\\40", "$'\\101", "$'\\n", "$'a b"]
    {
        refused(line, LineEnds);
        refused(format!("${{u-{line}"), LineEnds);
    }
    for line in ["$'\\0", "$'\\00", "$'\\000", "$'\\x0", "$'\\x00", "$'\\400", "$'\\8", "$'\\z", "$'\\x "] {
        refused(line, Syntax);
        refused(format!("${{u-{line}"), Syntax);
    }
}

/// In bare text and in operands read as bare text, at any depth.
#[test]
fn operands_read_as_bare_text() {
    let world = World::empty().set("x", "a\rb\r").set("e", "").set("n", "17").path("a\rz");
    gives(&world, "${u-$'\\r'} ${u:-a$'\\n'b} ${x+$'}'}", &["\r", "a\nb", "}"]);
    leaves(&world, "${u=$'\\r'a}", &["\ra"], &[("u", "\ra")]);
    leaves(&world, "${e:=$'\\x41'}", &["A"], &[("e", "A")]);
    demands(&world, "${u?no $'\\x62'ase}", 0, "no base");
    gives(&world, "\"${x%$'\\r'}\" \"${x#*$'\\r'}\" ${x%%$'\\r'*} ${x##*$'\\r'}", &["a\rb", "b\r", "a"]);
    gives(&world, "${x%$'*'} a$'\\r'* ${x#[$'a']}", &["a\rb\r", "a\rz", "\rb\r"]);
    gives(&world, "$((${n%$'7'}))", &["1"]);
    gives(&world, "${u-${w-${e:-$'\\t'}}}", &["\t"]);
    gives(&world, "${u-$'}'}", &["}"]);
    gives(&world, "\"${x%${u-$'\\r'}}\"", &["a\rb"]);
    refuses(&world, "${u-${u-${u-${u-${u-${u-${u-${u-${u-$'a'", TooDeep, 0);
}

/// In double-quoted text it is a `$` and a quote, in arithmetic the quote is 11.
#[test]
fn other_texts() {
    let world = World::empty().set("x", "a");
    gives(&world, "\"$'a'\" \"${u-$'a'}\" \"$'\\n\"", &["$'a'", "$'a'", "$'\\n"]);
    gives(&world, "${u-\"$'a'\"} \"${x+$'}'\"", &["$'a'", "$''"]);
    refuses(&world, "$(($'1'))", Syntax, 0);
    refuses(&world, "\"$((1+$'1'))\"", Syntax, 0);
    refuses(&world, "$((${u-$'1'}))", ArithmeticSyntax, 0);
    refuses(&world, "\"$'`a`'\"", CommandSubstitution, 0);
    gives(&world, "\\$'a' '$'\\'a", &["$a", "$'a"]);
}

/// In values too; in the name part a `$` is 11 as ever.
#[test]
fn assignment_lines() {
    let world = World::empty().set("HOME", "/h");
    assigns(&world, "a=$'\\r' b=c$'d e'f", &[("a", "\r"), ("b", "cd ef")]);
    assigns(&world, "a=$'~':$'~':~ b=$':~'", &[("a", "~:~:/h"), ("b", ":~")]);
    assigns(&world, "a=$''", &[("a", "")]);
    refuses_to_assign(&world, "b=c a=$'\\z'", Syntax, 4);
    refuses_to_assign(&world, "b=c a=$'", LineEnds, 4);
    refuses_to_assign(&world, "b=c $'a'=b", Syntax, 4);
    refuses_to_assign(&world, "a=$'b'$@", NotServed, 0);
}
