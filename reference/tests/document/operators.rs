//! E6: the rest of the arithmetic, sentence by sentence.

use reference::number::Number::{self, ArithmeticSyntax, Missing, NotANumber, Overflow, TooDeep, ZeroDivisor};

use crate::support::{gives, refuses, stores, World};

/// A world whose names are numbers at the edges, and others that are none or too large.
fn world() -> World {
    World::empty()
        .set("least", "-9223372036854775808")
        .set("most", "9223372036854775807")
        .set("over", "9223372036854775808")
        .set("bad", "12x")
        .set("e", "")
        .set("n", "-7")
}

/// The texts come from a variable, so that their parentheses need not balance.
#[track_caller]
fn is(cases: &[(&str, &str)]) {
    for (text, result) in cases {
        gives(&world().set("t", text), "$(($t))", &[result]);
    }
}

#[track_caller]
fn faults(number: Number, texts: &[&str]) {
    for text in texts {
        refuses(&world().set("t", text), "$(($t))", number, 0);
    }
}

/// "Add `! ~`, `<< >>`, `& ^ |`, `&& ||` and `?:`".
#[test]
fn each_operator() {
    is(&[("!0", "1"), ("!7", "0"), ("!-1", "0"), ("!!7", "1"), ("!e", "1"), ("!u", "1"), ("! 0", "1")]);
    is(&[("~0", "-1"), ("~-1", "0"), ("~5", "-6"), ("~~5", "5"), ("~least", "9223372036854775807"), ("-~0", "1")]);
    is(&[("1<<4", "16"), ("5<<0", "5"), ("-3<<2", "-12"), ("256>>4", "16"), ("7>>1", "3"), ("7>>63", "0")]);
    is(&[("12&10", "8"), ("12^10", "6"), ("12|10", "14"), ("-1&255", "255"), ("-1^255", "-256"), ("-4|3", "-1")]);
    is(&[("least&most", "0"), ("least|most", "-1"), ("least^most", "-1"), ("least^least", "0")]);
    is(&[("2&&3", "1"), ("2&&0", "0"), ("0&&2", "0"), ("0||0", "0"), ("0||9", "1"), ("-1||0", "1")]);
    is(&[("1?2:3", "2"), ("0?2:3", "3"), ("-1?2:3", "2"), ("e?2:3", "3"), ("1 ? 2\t:\n3", "2")]);
}

/// "with C's precedence": of each level and the next, and each level from the left.
#[test]
fn precedence() {
    is(&[("1||0?2:3", "2"), ("1?2:0||3", "2"), ("0?1:0||3", "1"), ("1||1&&0", "1"), ("(1||1)&&0", "0")]);
    is(&[("0&&0|1", "0"), ("(0&&0)|1", "1"), ("1|2^2", "1"), ("(1|2)^2", "1"), ("2|2^2", "2"), ("(2|2)^2", "0")]);
    is(&[("3^1&0", "3"), ("(3^1)&0", "0"), ("1&2==2", "1"), ("(1&2)==2", "0"), ("2==1<2", "0"), ("0==3<2", "1")]);
    is(&[("1<1<<2", "1"), ("(1<1)<<2", "0"), ("1<<1+1", "4"), ("(1<<1)+1", "3"), ("16>>1*2", "4")]);
    is(&[("!1+1", "1"), ("!(1+1)", "0"), ("~1*2", "-4"), ("~(1*2)", "-3"), ("-1<<2", "-4"), ("!2==0", "1")]);
    is(&[("1<<2<<3", "32"), ("256>>2>>1", "32"), ("1<<8>>4", "16"), ("64>>4<<1", "8"), ("8^4^8", "4")]);
    is(&[("2<1&1", "0"), ("5&6&4", "4"), ("0&&0||1", "1"), ("1||0&&0", "1"), ("1!=!1", "1"), ("1<2&2<1", "0")]);
}

/// C's grammar: a whole expression between `?` and `:`, a conditional behind the `:`.
#[test]
fn conditionals() {
    is(&[("1?2:0?3:4", "2"), ("0?1:0?2:3", "3"), ("0?1:1?2:3", "2"), ("1?0?4:5:6", "5"), ("0?1?2:3:4?5:6", "5")]);
    is(&[("1?1?1?7:2:3:4", "7"), ("(1?0:1)?2:3", "3"), ("1?2:3+1", "2"), ("0?2:3+1", "4"), ("1?0||2:3", "1")]);
    is(&[("0?(1?2:3):4", "4"), ("-(1?2:3)", "-2"), ("1+(0?1:2)", "3"), ("1+0?5:6", "5")]);
    faults(
        ArithmeticSyntax,
        &[
            "1?2", "1?", "?1:2", "1?:2", "1?2:", "1:2", "1?2:3:4", "1??2:3", "1?2,3:4", "(1?2):3", "1?(2:3)",
            "1?2:3?4", "1?2 3:4",
        ],
    );
}

/// Tokens are the longest of the list; what is not on it is 16.
#[test]
fn tokens() {
    is(&[("1<<1", "2"), ("!!1", "1"), ("1!=!0", "0"), ("1&~0", "1"), ("1|!0", "1"), ("2>>!0", "1"), ("1&&!1", "0")]);
    faults(
        ArithmeticSyntax,
        &[
            "1<<=1", "1>>=1", "1&=1", "1|=1", "1^=1", "1&&&1", "1|||1", "1<<<1", "1< <1", "1> >1", "1& &1", "1| |1",
            "1! =1", "!=1", "!==1", "1===1", "1^^1", "2**3", "!", "~", "1!", "1~", "1 ! 2", "1~2", "&1", "|1", "^1",
            "<<1", "1<<", "1>>", "1&", "1^", "1|", "1&&", "1||", "&&1", "||", "1,2",
        ],
    );
}

/// "Right shift of a negative number rounds down."
#[test]
fn right_shifts_round_down() {
    is(&[("-1>>1", "-1"), ("-7>>1", "-4"), ("-8>>1", "-4"), ("-9>>3", "-2"), ("-1>>63", "-1"), ("n>>2", "-2")]);
    is(&[("least>>63", "-1"), ("least>>62", "-2"), ("least>>1", "-4611686018427387904"), ("most>>62", "1")]);
    is(&[("n>>0", "-7"), ("n/4", "-1"), ("most>>63", "0"), ("7>>2", "1")]);
}

/// "A shift count outside 0 to 63, or a left shift whose exact product leaves the 64-bit signed range, is 17."
#[test]
fn shifts_that_are_refused() {
    faults(Overflow, &["1<<64", "1>>64", "0<<64", "0>>64", "1<<-1", "1>>-1", "0<<-1", "0>>least", "0<<most"]);
    faults(Overflow, &["1<<4294967296", "1>>4294967297", "-1<<64", "-1>>128"]);
    is(&[("1<<62", "4611686018427387904"), ("-1<<63", "-9223372036854775808"), ("0<<63", "0"), ("0>>63", "0")]);
    is(&[("4611686018427387903<<1", "9223372036854775806"), ("-4611686018427387904<<1", "-9223372036854775808")]);
    is(&[("-2<<62", "-9223372036854775808"), ("most<<0", "9223372036854775807"), ("3<<61", "6917529027641081856")]);
    faults(Overflow, &["1<<63", "2<<62", "4611686018427387904<<1", "-4611686018427387905<<1", "-3<<62", "-1<<63<<1"]);
    faults(Overflow, &["most<<1", "least<<1", "1<<63>>63", "5<<61", "-5<<61"]);
    faults(NotANumber, &["bad<<64", "1<<bad"]);
    faults(ZeroDivisor, &["1/0<<64"]);
}

/// "The side of `&&`, `||` and `?:` that is not needed is read for syntax but not evaluated, so a 15, 17 or 18 of its evaluation does not arise."
#[test]
fn sides_that_are_not_needed() {
    for (fault, number) in [
        ("bad", NotANumber),
        ("over", Overflow),
        ("most+1", Overflow),
        ("-least", Overflow),
        ("least/-1", Overflow),
        ("1<<64", Overflow),
        ("1<<63", Overflow),
        ("1/0", ZeroDivisor),
        ("1%e", ZeroDivisor),
        ("(1?1/0:2)", ZeroDivisor),
    ] {
        for (sides, result) in [
            ("0&&F", "0"),
            ("1||F", "1"),
            ("1?2:F", "2"),
            ("0?F:3", "3"),
            ("0&&F||4", "1"),
            ("1||F&&F", "1"),
            ("0&&F&&F", "0"),
            ("0||2||F", "1"),
            ("0&&(1?F:F)", "0"),
            ("1?0?F:5:F", "5"),
            ("0?F:1?6:F", "6"),
            ("1||0?7:F", "7"),
            ("!(0&&F)", "1"),
            ("(1||F)+1", "2"),
            ("e&&F", "0"),
            ("n||F", "1"),
        ] {
            is(&[(&sides.replace('F', fault), result)]);
        }
        for sides in ["1&&F", "0||F", "1?F:2", "0?2:F", "F&&0", "F||1", "F?1:2", "0&F", "1|F", "0^F", "!F", "0<F"] {
            faults(number, &[&sides.replace('F', &format!("({fault})"))]);
        }
    }
}

/// "is read for syntax": the faults of reading stay, and the text's own expansions are made before any of it is read.
#[test]
fn sides_are_read() {
    faults(ArithmeticSyntax, &["1||", "0&&(1", "0&&1)", "1?2:3 4", "0?+:1", "1?2:", "0&&1 1/0", "1||=", "0&&n=1"]);
    let deep = "~".repeat(33);
    for side in ["0&&", "1||", "1?2:"] {
        faults(TooDeep, &[&format!("{side}{deep}1")]);
    }
    refuses(&world(), "$((0&&$((1/0))))", ZeroDivisor, 0);
    refuses(&world(), "a $((1||${u:?}))", Missing, 2);
    stores(&world(), "$((1||${u=5}))", "u", "5");
}

/// "A constant that is bad or too large is still refused in reading."
#[test]
fn constants_are_judged_in_reading() {
    for side in ["0&&", "1||", "1?2:", "1/0||", "0&&bad+", "0?1:1?2:"] {
        for bad in ["08", "0x", "1a", "9_", "99999999999999999999a"] {
            faults(NotANumber, &[&format!("{side}{bad}")]);
        }
        for large in ["9223372036854775808", "0x8000000000000000", "01000000000000000000000"] {
            faults(Overflow, &[&format!("{side}{large}"), &format!("{side}-{large}")]);
        }
    }
    faults(NotANumber, &["0?08:1", "1||2 08", "1 08||1"]);
    faults(ArithmeticSyntax, &["1||2 3 08", "1||* 08", "1?2 3:08"]);
}

/// "`!` and `~` count toward the 32."
#[test]
fn signs_count() {
    for sign in ["!", "~", "-", "+", "!~", "~-", "+!"] {
        let signs = |count: usize| sign.repeat(count).chars().take(count).collect::<String>();
        let result = signs(32).chars().rev().fold(7, |number: i64, sign| match sign {
            '!' => i64::from(number == 0),
            '~' => -number - 1,
            '-' => -number,
            _ => number,
        });
        is(&[(&format!("{}7", signs(32)), &result.to_string())]);
        faults(TooDeep, &[&format!("{}7", signs(33)), &format!("{}08", signs(33)), &signs(33)]);
        faults(NotANumber, &[&format!("{}08", signs(32))]);
        let (open, close) = ("(".repeat(16), ")".repeat(16));
        faults(TooDeep, &[&format!("{open}{}7{close}", signs(17))]);
        assert!(world().set("t", format!("{open}{}7{close}", signs(16))).expand("$(($t))").is_ok());
    }
    is(&[(&format!("{}0", "!0||".repeat(40)), "1"), (&format!("{}0", "~0&".repeat(40)), "0")]);
}

/// Conditionals and binary operators count toward nothing: as many as a row holds.
#[test]
fn long_texts() {
    let full = |part: &str, last: &str, close: &str| {
        let count = (2_048 - last.len()) / (part.len() + close.len());
        format!("{}{last}{}", part.repeat(count), close.repeat(count))
    };
    is(&[(&full("1||", "1/0", ""), "1"), (&full("0||", "0", ""), "0"), (&full("1&&", "2", ""), "1")]);
    is(&[(&full("0&&", "1/0", ""), "0"), (&full("1?2:", "bad", ""), "2"), (&full("0?1:", "3", ""), "3")]);
    is(&[(&full("1?", "5", ":0"), "5"), (&full("0?", "1/0", ":4"), "4"), (&full("0?1/0:", "6", ""), "6")]);
    is(&[(&full("1|", "2", ""), "3"), (&full("0<<1>>", "0", ""), "0"), (&full("1^", "0", ""), "1")]);
    faults(ArithmeticSyntax, &[&full("0?", "0", ""), &full("1?", "1:2", "")]);
}
