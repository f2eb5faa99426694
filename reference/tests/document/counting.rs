//! E10, counting in recipes: how assignments in arithmetic are read and worked out, sentence by sentence, and the readings its open points were given.

use reference::number::Number::{self, ArithmeticSyntax, NotANumber, Overflow, TooDeep, ZeroDivisor};

use crate::support::{leaves, undoes, World};

/// A world whose names are numbers in every way of writing them, and others that are none or too large.
fn world() -> World {
    World::empty()
        .set("bad", "12x")
        .set("e", "")
        .set("hex", "0x1F")
        .set("least", "-9223372036854775808")
        .set("long", "00000000000000000000000000012")
        .set("m", "-7")
        .set("most", "9223372036854775807")
        .set("n", "7")
        .set("oct", "-010")
        .set("over", "9223372036854775808")
        .set("plus", "+3")
}

/// The texts come from a variable, so that their parentheses need not balance: their results, and the variables that change.
#[track_caller]
fn is(cases: &[(&str, &str, &[(&str, &str)])]) {
    for (text, result, changed) in cases {
        leaves(&world().set("t", text), "$(($t))", &[result], changed);
    }
}

#[track_caller]
fn faults(number: Number, texts: &[&str]) {
    for text in texts {
        undoes(&world().set("t", text), "$(($t))", number, 0);
        undoes(&world().set("t", text), "a $(($t))", number, 2);
    }
}

/// "`$((n=n+1))` numbers the setups."
#[test]
fn setups_are_numbered() {
    leaves(&World::empty(), "$((n=n+1))", &["1"], &[("n", "1")]);
    leaves(&World::empty(), "$((n=n+1)) $((n=n+1)) \"$((n=n+1))\"", &["1", "2", "3"], &[("n", "3")]);
    leaves(&world(), "$((n=n+1)).raw", &["8.raw"], &[("n", "8")]);
    leaves(&World::empty().set("n", "9"), "p$((n+=1))", &["p10"], &[("n", "10")]);
    leaves(&World::empty().set("n", "10"), "$((n-=1))", &["9"], &[("n", "9")]);
}

/// "Add `=`, `+=`, `-=`, `*=`, `/=`, `%=` in arithmetic".
#[test]
fn each_sign() {
    is(&[("n=5", "5", &[("n", "5")]), ("n+=5", "12", &[("n", "12")]), ("n-=5", "2", &[("n", "2")])]);
    is(&[("n*=5", "35", &[("n", "35")]), ("n/=5", "1", &[("n", "1")]), ("n%=5", "2", &[("n", "2")])]);
    is(&[("m/=2", "-3", &[("m", "-3")]), ("m%=2", "-1", &[("m", "-1")]), ("n/=-2", "-3", &[("n", "-3")])]);
    is(&[("n%=-4", "3", &[("n", "3")]), ("n-=-5", "12", &[("n", "12")]), ("m*=-1", "7", &[("m", "7")])]);
    is(&[("u=5", "5", &[("u", "5")]), ("u+=5", "5", &[("u", "5")]), ("u-=5", "-5", &[("u", "-5")])]);
    is(&[("u*=5", "0", &[("u", "0")]), ("u/=5", "0", &[("u", "0")]), ("u%=5", "0", &[("u", "0")])]);
    is(&[("e+=5", "5", &[("e", "5")]), ("e%=5", "0", &[("e", "0")]), ("n=n", "7", &[]), ("_9=1", "1", &[("_9", "1")])]);
    is(&[(" n \t+=\n 5 ", "12", &[("n", "12")]), ("n =5", "5", &[("n", "5")]), ("n= 5", "5", &[("n", "5")])]);
}

/// "grouping from the right".
#[test]
fn chains() {
    is(&[("a=b=3", "3", &[("a", "3"), ("b", "3")]), ("a=b+=n", "7", &[("a", "7"), ("b", "7")])]);
    is(&[("n-=n-=2", "0", &[("n", "0")]), ("a=n*=n=3", "9", &[("a", "9"), ("n", "9")])]);
    is(&[("n+=n+=n", "28", &[("n", "28")]), ("n/=u=2", "3", &[("n", "3"), ("u", "2")])]);
    is(&[("a-=b-=1", "1", &[("a", "1"), ("b", "-1")]), ("n=m=e=0", "0", &[("e", "0"), ("m", "0"), ("n", "0")])]);
    is(&[("n%=m%=4", "1", &[("m", "-3"), ("n", "1")]), ("n=m=n", "7", &[("m", "7")])]);
}

/// "lowest in precedence": the right side is a whole expression.
#[test]
fn precedence() {
    is(&[("a=1+2*3", "7", &[("a", "7")]), ("a=1||0", "1", &[("a", "1")]), ("a=0?2:3", "3", &[("a", "3")])]);
    is(&[("a=1<2", "1", &[("a", "1")]), ("a=1|2", "3", &[("a", "3")]), ("a=n==7", "1", &[("a", "1")])]);
    is(&[("n*=2+3", "35", &[("n", "35")]), ("n-=2-3", "8", &[("n", "8")]), ("n/=4/2", "3", &[("n", "3")])]);
    is(&[("n%=n&4", "3", &[("n", "3")]), ("a=1<<3>>1", "4", &[("a", "4")]), ("a=2&&3", "1", &[("a", "1")])]);
    is(&[("a=1?b=2:3", "2", &[("a", "2"), ("b", "2")]), ("a=0?b=2:3", "3", &[("a", "3")])]);
    is(&[("(a=3)+(b=4)", "7", &[("a", "3"), ("b", "4")]), ("-(a=3)", "-3", &[("a", "3")])]);
    is(&[
        ("!(a=0)", "1", &[("a", "0")]),
        ("((a=2))", "2", &[("a", "2")]),
        ("a=(b=2)+1", "3", &[("a", "3"), ("b", "2")]),
    ]);
    is(&[("(a=b=2)*a", "4", &[("a", "2"), ("b", "2")]), ("1?a=b=4:5", "4", &[("a", "4"), ("b", "4")])]);
    is(&[
        ("1?n=2:3", "2", &[("n", "2")]),
        ("0?1:(n=2)", "2", &[("n", "2")]),
        ("(n=2)?a=3:4", "3", &[("a", "3"), ("n", "2")]),
    ]);
}

/// Signs are the longest of the list; `==` and its like stay as they are, and a sign before an operand is one of its own.
#[test]
fn tokens() {
    is(&[("n==7", "1", &[]), ("n!=7", "0", &[]), ("n<=7", "1", &[]), ("n>=8", "0", &[]), ("n==n==1", "1", &[])]);
    is(&[("n=-1", "-1", &[("n", "-1")]), ("n=+1", "1", &[("n", "1")]), ("n=!0", "1", &[("n", "1")])]);
    is(&[("n=~0", "-1", &[("n", "-1")]), ("n=(1)", "1", &[("n", "1")]), ("n=--1", "1", &[("n", "1")])]);
    is(&[("n=++1", "1", &[("n", "1")]), ("n+=-+1", "6", &[("n", "6")]), ("n=n++1", "8", &[("n", "8")])]);
    is(&[("n-=-n", "14", &[("n", "14")]), ("n*=-n", "-49", &[("n", "-49")]), ("n=n==7", "1", &[("n", "1")])]);
    faults(
        ArithmeticSyntax,
        &[
            "n<<=1", "n>>=1", "n&=1", "n^=1", "n|=1", "n&&=1", "n||=1", "n**=2", "n===1", "n!==1", "n<==1", "n+==1",
            "n%==1", "n= =1", "n+ =1", "n- = 1", "n=!=1", "n=<1", "n=*1", "n=>1", "n++=1", "n--=1", "n+++=1", "n~=1",
            "n!= =1", "n:=1", "n?=1:2", "n=,1", "n=1,2", "n@=1",
        ],
    );
}

/// "with a bare name on the left, else 16", met at the sign, before a bad constant behind it.
#[test]
fn left_sides_that_are_no_bare_name() {
    for left in [
        "", "(n)", "((n))", "-n", "+n", "!n", "~n", "- n", "1+n", "n+n", "2*n", "n-m", "n<<n", "n==n", "n<n", "n|n",
        "a&&n", "0&&n", "0||n", "1?n:m", "0?1:n", "1?2:n", "5", "0x1F", "(1)", "n=1", "n=m+1", "n=(m)", "n=-m",
        "n=2*m", "(n=1)", "a=b=0?1:n", "-(n)", "(n)+m", "1?(n)", "0?1:0?2:n", "1?-n",
    ] {
        for sign in ["=", "+=", "-=", "*=", "/=", "%="] {
            for right in ["1", "08", "9223372036854775808", "(n)", "1/0", "", " 0x"] {
                let text = format!("{left}{sign}{right}");
                faults(ArithmeticSyntax, &[&text]);
            }
        }
    }
    faults(
        ArithmeticSyntax,
        &["n m=1", "n(m)=1", "n 1=1", "1 n=1", "(n m)=1", "n=", "n+=", "n=)", "(n=", "(n=1", "n=1)", "n=m="],
    );
    faults(ArithmeticSyntax, &["1?n=1", "1?n=:2", "1?n=1:", "n=1?2", "n=()", "=", "+=", "n=m=1=2", "1=2=n"]);
}

/// A constant is judged in reading, on the right side too, and comes before all working out.
#[test]
fn constants_on_the_right() {
    faults(NotANumber, &["n=08", "n+=0x", "n=m=1a", "n=1 08", "n 08=1", "08=1", "n=1/0+08", "bad+=9_", "1?n=08:2"]);
    faults(
        Overflow,
        &["n=9223372036854775808", "n=-9223372036854775808", "n=m=0x8000000000000000", "over+=9223372036854775808"],
    );
    faults(ArithmeticSyntax, &["n=1 1 08", "n=* 08", "n=1/0 1"]);
}

/// The name may come from an expansion, or in part.
#[test]
fn names_from_expansions() {
    let world = world().set("p", "u").set("t", "a=b=3").parameters(&["k", "n"]);
    leaves(&world, "$(($p=5))", &["5"], &[("u", "5")]);
    leaves(&world, "$((${p}+=2)) $((${p} +=2))", &["2", "4"], &[("u", "4")]);
    leaves(&world, "$((a$n=1))", &["1"], &[("a7", "1")]);
    leaves(&world, "$((a$e=1))", &["1"], &[("a", "1")]);
    leaves(&world, "$((n$p=1))", &["1"], &[("nu", "1")]);
    leaves(&world, "$(($1=4)) $(($2$1-=1))", &["4", "-1"], &[("k", "4"), ("nk", "-1")]);
    leaves(&world, "$((${u-w}=3))", &["3"], &[("w", "3")]);
    leaves(&world, "$(($t+1))", &["4"], &[("a", "4"), ("b", "4")]);
    undoes(&world, "$(($n=3))", ArithmeticSyntax, 0);
    undoes(&world, "$((${n}+=3))", ArithmeticSyntax, 0);
    undoes(&world, "$(($e=3))", ArithmeticSyntax, 0);
    undoes(&world, "$(($((n))=3))", ArithmeticSyntax, 0);
}

/// "The right side is worked out first, then the name is read if the operator needs it".
#[test]
fn the_right_side_comes_first() {
    is(&[("n+=n=5", "10", &[("n", "10")]), ("bad+=bad=3", "6", &[("bad", "6")]), ("n+=(n=2)", "4", &[("n", "4")])]);
    is(&[
        ("n=n+(n=2)", "9", &[("n", "9")]),
        ("n-=n+(n=1)", "-7", &[("n", "-7")]),
        ("over*=over=-2", "4", &[("over", "4")]),
    ]);
    is(&[("bad=1", "1", &[("bad", "1")]), ("over=2", "2", &[("over", "2")]), ("bad=n", "7", &[("bad", "7")])]);
    faults(ZeroDivisor, &["bad+=1/0", "over-=1%0", "bad=1/0", "n=1/0", "bad/=1/e", "bad+=bad=1/0"]);
    faults(Overflow, &["bad+=most+1", "bad+=over", "n=most+1", "bad=-least"]);
    faults(NotANumber, &["over+=bad", "bad=bad", "n=bad", "bad=bad+1"]);
}

/// Left operand, right operand, operation, as ever; each sees what was stored before it.
#[test]
fn operands_in_order() {
    is(&[("n+(n=5)", "12", &[("n", "5")]), ("(n=5)+n", "10", &[("n", "5")]), ("n*(n=n+1)+n", "64", &[("n", "8")])]);
    is(&[("(n=n+1)*(n=n+1)", "72", &[("n", "9")]), ("(bad=1)+bad", "2", &[("bad", "1")])]);
    is(&[("(n=1)==n", "1", &[("n", "1")]), ("n==(n=1)", "0", &[("n", "1")]), ("(n=3)-(n=1)", "2", &[("n", "1")])]);
    faults(NotANumber, &["bad+(bad=1)", "(n=5)+bad", "bad+(1/0)"]);
    faults(ZeroDivisor, &["(n=5)+1/0", "1/0+(n=5)", "1/(n=0)", "(n=5)/(n=0)"]);
}

/// After the right side the name's 15 or 17, then the operation's 17 or 18.
#[test]
fn faults_of_the_name_and_of_the_operation() {
    faults(NotANumber, &["bad+=1", "bad-=1", "bad*=0", "bad/=0", "bad%=0", "n=bad+=1"]);
    faults(Overflow, &["over+=1", "over/=0", "over%=0", "over*=0", "over-=1"]);
    faults(ZeroDivisor, &["n/=0", "n%=0", "n/=e", "n%=u", "u/=0", "n/=n-n", "n/=m=0"]);
    faults(
        Overflow,
        &["most+=1", "least-=1", "most*=2", "least/=-1", "least%=-1", "least*=-1", "n-=least", "m+=least"],
    );
    is(&[
        ("most+=0", "9223372036854775807", &[]),
        ("least+=1", "-9223372036854775807", &[("least", "-9223372036854775807")]),
    ]);
    is(&[
        ("most-=most", "0", &[("most", "0")]),
        ("least/=1", "-9223372036854775808", &[]),
        ("least%=2", "0", &[("least", "0")]),
    ]);
}

/// "stored as its shortest decimal text; it is the value of the assignment".
#[test]
fn the_shortest_decimal_text_is_stored() {
    is(&[("hex+=0", "31", &[("hex", "31")]), ("oct*=1", "-8", &[("oct", "-8")]), ("plus=plus", "3", &[("plus", "3")])]);
    is(&[("long=long", "10", &[("long", "10")]), ("e=e", "0", &[("e", "0")]), ("u=u", "0", &[("u", "0")])]);
    is(&[
        ("n=007", "7", &[]),
        ("n=-0", "0", &[("n", "0")]),
        ("n=010", "8", &[("n", "8")]),
        ("n=0xfF", "255", &[("n", "255")]),
    ]);
    is(&[
        ("n=least", "-9223372036854775808", &[("n", "-9223372036854775808")]),
        ("n=-most", "-9223372036854775807", &[("n", "-9223372036854775807")]),
    ]);
    is(&[("hex", "31", &[]), ("(n=hex)+1", "32", &[("n", "31")])]);
}

/// "The unneeded sides of E6 store nothing", and no number of theirs arises.
#[test]
fn sides_that_are_not_needed() {
    for side in [
        "n=5", "n+=1", "u=1", "bad+=1", "bad=1", "over-=1", "n/=0", "n%=e", "most+=1", "u=1/0", "n=m=u=1", "n=bad",
        "(n=5)+(m=6)", "n=n+1",
    ] {
        for (sides, result) in [
            ("0&&(A)", "0"),
            ("1||(A)", "1"),
            ("1?2:(A)", "2"),
            ("0?A:3", "3"),
            ("0?(A):3", "3"),
            ("0&&(A)||4", "1"),
            ("1||(A)&&(A)", "1"),
            ("0&&(1?A:(A))", "0"),
            ("1?0?A:5:(A)", "5"),
            ("0?A:1?6:(A)", "6"),
            ("!(0&&(A))", "1"),
            ("(1||(A))+1", "2"),
            ("e&&(A)", "0"),
            ("n||(A)", "1"),
        ] {
            is(&[(&sides.replace('A', side), result, &[])]);
        }
    }
    is(&[("1&&(n=5)", "1", &[("n", "5")]), ("0||(n=0)", "0", &[("n", "0")]), ("1?n=5:(n=6)", "5", &[("n", "5")])]);
    is(&[
        ("0?n=5:(n=6)", "6", &[("n", "6")]),
        ("(n=0)&&(n=5)", "0", &[("n", "0")]),
        ("(n=0)||(n=5)", "1", &[("n", "5")]),
    ]);
    is(&[
        ("0?n=1:0?n=2:(n=3)", "3", &[("n", "3")]),
        ("(n=1)?n:(n=2)", "1", &[("n", "1")]),
        ("0&&1||(n=5)", "1", &[("n", "5")]),
    ]);
    is(&[("a=0&&(n=5)", "0", &[("a", "0")]), ("n=n<7?n+1:0", "0", &[("n", "0")]), ("n=n>6?n=1:2", "1", &[("n", "1")])]);
    faults(ArithmeticSyntax, &["0&&n=1", "1||n=1", "1?2:n=1", "0&&(n=)", "1||((n)=1)", "1?2:(1=n)", "0?n=1", "0?:n=1"]);
    faults(NotANumber, &["0&&(n=08)", "1||(n+=0x)", "0?n=1a:2"]);
    faults(Overflow, &["0&&(n=9223372036854775808)"]);
}

/// Assignments count toward nothing: as many as a row holds, with as many signs and parentheses behind them as ever.
#[test]
fn long_texts() {
    let signs = |count: usize| format!("n={}1", "-".repeat(count));
    is(&[(&signs(32), "1", &[("n", "1")])]);
    faults(TooDeep, &[&signs(33), &format!("{}n=1{}", "(".repeat(33), ")".repeat(33))]);
    let nested = |count: usize| format!("{}1{}", "n=(".repeat(count), ")".repeat(count));
    is(&[(&nested(32), "1", &[("n", "1")])]);
    faults(TooDeep, &[&nested(33)]);
    is(&[(&format!("{}12", "n=".repeat(1_023)), "12", &[("n", "12")])]);
    is(&[(&format!("{}1", "u+=".repeat(63)), "4611686018427387904", &[("u", "4611686018427387904")])]);
    faults(Overflow, &[&format!("{}1", "u+=".repeat(64))]);
    is(&[(&format!("{}n=1{}", "1?".repeat(511), ":0".repeat(511)), "1", &[("n", "1")])]);
}
