//! Units and expansion: marks, the row's limit, tilde, the forms, stores.

use reference::number::Number::{self, BracketClass, Missing, NoRoomForVariable, TooManyUnits};

use crate::support::{gives, refuses, stores, World};

fn world() -> World {
    World::empty()
        .set("HOME", "/h *")
        .set("e", "")
        .set("v", "a b")
        .home("crew", "/c d")
        .home("none", "")
        .path("a")
        .path("ab")
}

#[test]
fn tilde() {
    for (line, fields) in [
        ("~ ~/x ~crew/y ~none", &["/h *", "/h */x", "/c d/y", ""][..]),
        ("~nobody/x a~ ~~ x=~", &["~nobody/x", "a~", "~~", "x=~"]),
        (r"~c'rew' ~\crew ~$e/ ~crew: ''~", &["~crew", "~crew", "~/", "~crew:", "~"]),
        ("\"~\" \\~ \"${u-~}\"", &["~", "~", "~"]),
    ] {
        gives(&world(), line, fields);
    }
    gives(&World::empty(), "~ ~/a", &["~", "~/a"]);
    gives(&World::empty().set("HOME", ""), "~ ~/a", &["", "/a"]);
    gives(&World::empty(), "${HOME=/n} ~", &["/n", "/n"]);
    gives(&World::empty().set("HOME", "x".repeat(2_047)), "~", &[&"x".repeat(2_047)]);
    refuses(&World::empty().set("HOME", "x".repeat(2_048)), "a ~", TooManyUnits, 2);
}

#[test]
fn missing_values() {
    for (line, fields) in [
        ("${u-x} ${e-x} ${v-x}", &["x", "a", "b"][..]),
        ("${u:-x} ${e:-x} ${v:-x}", &["x", "x", "a", "b"]),
        ("${u+x} ${e+x} ${v+x}", &["x", "x"]),
        ("${u:+x} ${e:+x} ${v:+x}", &["x"]),
        ("${e?x} ${v?x} ${v:?}", &["a", "b", "a", "b"]),
        ("${u=x y} $u ${e:=z}$e", &["x", "y", "x", "y", "zz"]),
    ] {
        gives(&world(), line, fields);
    }
    refuses(&world(), "a ${u?x}", Missing, 2);
    refuses(&world(), "${e:?}", Missing, 0);
    gives(&world(), "${v-$((1/0))}${u+$((1/0))}${v=$((1/0))}", &["a", "ba", "b"]);
}

#[test]
fn stores_drop_quotes_and_are_made_whatever_the_operand_stored() {
    stores(&world(), r#"${u="a" '*'\}}"#, "u", "a *}");
    gives(&world(), r#"${u="a" '*'}"#, &["a", "a", "ab"]);
    gives(&world(), r#""${u=*}""#, &["*"]);
    stores(&world(), "${u=${u=x}y}", "u", "xy");
    stores(&world(), "${u:=${u:=}}", "u", "");
    gives(&world(), "${u=${u=x}y}$u", &["xyxy"]);
}

#[test]
fn marks_of_operands() {
    for (line, fields) in [
        ("${u-a b*}", &["a", "b*"][..]),
        ("${u-\"a b\"' c'}", &["a b c"]),
        ("${u-''} ${v+\"\"}", &["", ""]),
        ("\"${u-a  *}\"", &["a  *"]),
        ("\"$v\"$v", &["a ba", "b"]),
        ("${u-\\ a\\ }", &[" a "]),
        ("a*${u-\\*}", &["a**"]),
        ("\"$u\"\"$e\"", &[""]),
    ] {
        gives(&world(), line, fields);
    }
    gives(&World::empty().set("IFS", "$~"), "${u-$a~$~b}", &["", "", "", "b"]);
}

#[test]
fn the_row_is_full() {
    let full = World::empty().set("x", "y".repeat(2_048)).set("e", "");
    for line in ["$x$e", "$x${u+$x}", "${u-$x}$e", "${x%}${e#}", "$x${x##*}"] {
        assert!(full.expand(line).is_ok(), "{line}");
    }
    for line in ["$x.", "$x''", "$x\"\"", "$x$((1))", "\"$x\"", "${u-$x.}", "${u-''$x}", "${#x}$x"] {
        refuses(&full, line, TooManyUnits, 0);
    }
    refuses(&full, "$x$((1/0))", Number::ZeroDivisor, 0);
    refuses(&full, "$x${u?}", Missing, 0);
    refuses(&full, "$((x$x))", TooManyUnits, 0);
    refuses(&full, "$x${u=$x.}", TooManyUnits, 0);
}

#[test]
fn what_counts_as_a_unit() {
    let world = World::empty().set("x", "y".repeat(2_047));
    for line in ["$x\\a", "$x''", "$x\"\"", "\"$x\"", "${u-\"$x\"}", "$x\\\\"] {
        assert!(world.expand(line).is_ok(), "{line}");
    }
    for line in ["$x'a'", "$x\\aa", "\"$x\\$\"", "${u-\"$x\"a}", "$x\"\"''"] {
        refuses(&world, line, TooManyUnits, 0);
    }
    gives(&world, "\"${u-a}${u-\\}}\"", &["a}"]);
}

#[test]
fn the_order_of_a_store_on_a_full_row() {
    let tight = World::empty().set("x", "y".repeat(2_048)).variables_buffer(2_100);
    refuses(&tight, "$x${u=$x}", NoRoomForVariable, 0);
    refuses(&tight, "$x${u=$x.}", TooManyUnits, 0);
    refuses(&tight, "$x${u=z}", TooManyUnits, 0);
    gives(&tight, "${u=}$x", &[&"y".repeat(2_048)]);
}

#[test]
fn removals() {
    let world = World::empty().set("x", "a.b.c").set("p", "*.").set("l", "z".repeat(5_000));
    for (line, fields) in [
        ("${x%.*} ${x%%.*} ${x#*.} ${x##*.}", &["a.b", "a", "b.c", "c"][..]),
        ("${x#$p} ${x#\"$p\"} ${x%q} ${x%}", &["b.c", "a.b.c", "a.b.c", "a.b.c"]),
        ("${x##*} \"${x%%*}\" ${x%*}", &["", "a.b.c"]),
        ("${u%a}${u##*} ${l%%z*}${#l}", &["5000"]),
        ("${x%${u=c}}$u ${n#${n=ab}}", &["a.b.c"]),
    ] {
        gives(&world, line, fields);
    }
    stores(&world, "${n#${n=ab}}", "n", "ab");
    refuses(&world, "${l%z}", TooManyUnits, 0);
    refuses(&world, "${u%[[:a]}", BracketClass, 0);
    refuses(&world, "a ${x#[[.a]}", BracketClass, 2);
    refuses(&world, "${u%[[:$((1/0))}", Number::ZeroDivisor, 0);
}

#[test]
fn names_are_exact_bytes() {
    let world = World::empty().set("home", "/x").set("Ifs", "b").set("v", "abc");
    gives(&world, "~ $v", &["~", "abc"]);
}
