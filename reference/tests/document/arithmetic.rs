//! Arithmetic: constants, names, precedence, the order of faults, the limits of 64 bits.

use reference::number::Number::{self, ArithmeticSyntax, NotANumber, Overflow, TooDeep, ZeroDivisor};

use crate::support::{gives, refuses, World};

const LEAST: &str = "-9223372036854775807-1";

fn is(text: &str, result: &str) {
    gives(&World::empty(), format!("$(({text}))"), &[result]);
}

/// The texts come from a variable, so that their parentheses need not balance.
fn faults(number: Number, texts: &[&str]) {
    for text in texts {
        refuses(&World::empty().set("t", text), "$(($t))", number, 0);
    }
}

#[test]
fn results() {
    for (text, result) in [
        ("1--1", "2"),
        ("1-+-+1", "2"),
        ("2+3*4", "14"),
        ("(2+3)*4", "20"),
        ("7-2-1", "4"),
        ("100/7/2", "7"),
        ("-7/2", "-3"),
        ("-7%3", "-1"),
        ("7%-3", "1"),
        ("1<2==1", "1"),
        ("3>2>1", "0"),
        ("1==1!=0", "1"),
        ("2<=2", "1"),
        ("2>=3", "0"),
        ("1+1<2+1", "1"),
        ("-0", "0"),
        (" \t\n1 \n", "1"),
        ("- - 1", "1"),
        (LEAST, "-9223372036854775808"),
    ] {
        is(text, result);
    }
}

#[test]
fn constants() {
    is("0x7fffFFFFffffFFFF", "9223372036854775807");
    is("0777777777777777777777", "9223372036854775807");
    is("0X1f+010+00", "39");
    faults(NotANumber, &["08", "0x", "0xg", "1a", "1_", "0X", "0b1", "9z9", "99999999999999999999a"]);
    faults(
        Overflow,
        &[
            "9223372036854775808", "-9223372036854775808", "0x8000000000000000", "01000000000000000000000",
            "99999999999999999999999999",
        ],
    );
}

#[test]
fn reading_faults_in_order() {
    faults(NotANumber, &["1 08", "1/0+08", "(08", "1 08 )"]);
    faults(ArithmeticSyntax, &["", " ", "1 1 08", "* 08", "1+", "()", "(1", "1=2", "1!", "a b"]);
    faults(ArithmeticSyntax, &["1**2", "1,2", "é", "1===1", "1@2", "1#2", "$"]);
    faults(Overflow, &["1 9223372036854775808"]);
}

#[test]
fn open_parentheses_and_signs() {
    let nested = |count: usize| format!("{}1{}", "(".repeat(count), ")".repeat(count));
    is(&nested(32), "1");
    faults(TooDeep, &[&nested(33), &format!("{}08", "-".repeat(33))]);
    is(&format!("{}1", "-".repeat(32)), "1");
    is(&format!("{}+{}", nested(32), nested(32)), "2");
    is(&vec!["-1"; 40].join("+"), "-40");
    faults(TooDeep, &[&format!("{}{}", "-".repeat(20), nested(13))]);
    faults(NotANumber, &[&format!("{}08", "-".repeat(32))]);
}

#[test]
fn names() {
    let world = World::empty()
        .set("e", "")
        .set("n", "-0x10")
        .set("p", "+7")
        .set("least", "-9223372036854775808")
        .set("hex", "-0x8000000000000000")
        .set("over", "9223372036854775808")
        .set("under", "-9223372036854775809")
        .set("text", "1+1")
        .set("blank", " 1")
        .set("two", "--1")
        .set("sign", "-");
    gives(&world, "$((u+e+n+p))", &["-9"]);
    gives(
        &world,
        "$((least)) $((hex)) $(($text*2)) $((1-$n))",
        &["-9223372036854775808", "-9223372036854775808", "3", "17"],
    );
    for name in ["text", "blank", "two", "sign"] {
        refuses(&world, format!("$(({name}))"), NotANumber, 0);
    }
    for name in ["over", "under"] {
        refuses(&world, format!("$(({name}))"), Overflow, 0);
    }
    refuses(&world, "$(($least))", Overflow, 0);
    refuses(&world, "$((-least))", Overflow, 0);
    refuses(&world, "$((text+08))", NotANumber, 0);
    refuses(&world, "$((over+))", ArithmeticSyntax, 0);
    refuses(&world, "$((1/0+text))", ZeroDivisor, 0);
    refuses(&world, "$((text+1/0))", NotANumber, 0);
}

#[test]
fn working_out_faults() {
    faults(ZeroDivisor, &["1/0", "0%0", &format!("({LEAST})/0")]);
    faults(
        Overflow,
        &[
            &format!("({LEAST})/-1"),
            &format!("({LEAST})%-1"),
            &format!("-({LEAST})"),
            &format!("{LEAST}-1"),
            "9223372036854775807+1",
            "4611686018427387904*2",
        ],
    );
    is("4611686018427387904*-2", "-9223372036854775808");
}

#[test]
fn results_are_expansions() {
    gives(&World::empty().set("IFS", "0"), "$((101)) \"$((101))\"", &["1", "1", "101"]);
    gives(&World::empty().set("IFS", "-"), "$((0-1))", &["", "1"]);
    gives(&World::empty(), "$((${u-1}${v=2} + $((3)) + ${#v}))", &["16"]);
}
