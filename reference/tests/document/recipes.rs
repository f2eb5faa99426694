//! The spoiled recipes C1 to C12, the edges beside them and the mistakes seen before.

use reference::image::of_texts;
use reference::limits;
use reference::number::{Number, ACCEPTED};
use reference::Tables;

use crate::support::{gives, refuses, stores, World};

#[test]
fn c1_to_c12() {
    let world = World::recipes();
    let table: [(&str, &[&str]); 10] = [
        (r#"cp "$job" $job"#, &["cp", "north field", "north", "field"]),
        ("*.raw", &["a b.raw", "p1.raw", "p2.raw"]),
        (r#""*".raw"#, &["*.raw"]),
        (r#"$tilt "$tilt""#, &[""]),
        (r#"${tilt:-"a b" c}"#, &["a b", "c"]),
        (r#"${tilt:="a b"}"#, &["a", "b"]),
        ("${job%% *} ${job##*o}", &["north", "rth", "field"]),
        ("$((7/-2)) $((-7%3))", &["-3", "-1"]),
        ("~/out '~'/out ~nobody", &["/home/crew/out", "~/out", "~nobody"]),
        ("''", &[""]),
    ];
    for (line, fields) in table {
        gives(&world, line, fields);
    }
    stores(&world, r#"${tilt:="a b"}"#, "tilt", "a b");
    let c7 = world.clone().set("IFS", ":").set("x", ":a::b:");
    gives(&c7, "$x", &["", "a", "", "b"]);
    refuses(&world, "${note:?}", Number::Missing, 0);
}

#[test]
fn c1_is_the_image_document_01_writes_out() {
    let image = World::recipes();
    let mut variables = image.variables_image();
    let used = variables.len();
    let mut out = vec![0xa5; 40];
    let empty = of_texts::<&str>(&[]);
    let answer = reference::expand(
        br#"cp "$job" $job"#,
        &mut variables,
        used,
        Tables { homes: &empty, paths: &empty, parameters: &empty, shout: false },
        &mut vec![1; limits::WORK_AREA],
        &mut out,
        &mut [],
    );
    assert_eq!((answer.number, answer.length), (ACCEPTED, 32));
    let mut wanted = b"\x01\x00\x02cp\x00\x0bnorth field\x00\x05north\x00\x05field".to_vec();
    wanted.extend([0xa5; 8]);
    assert_eq!(out, wanted);
}

#[test]
fn quoting_example() {
    let mut out = [0; 40];
    let answer = reference::quote(&of_texts(&["it's", "", "a b"]), &mut out);
    assert_eq!(&out[..answer.length], br"'it'\''s' '' 'a b'");
}

#[test]
fn edges() {
    let value = |length| World::empty().set("v", "x".repeat(length));
    gives(&value(2_047), r#""$v""#, &[&"x".repeat(2_047)]);
    refuses(&value(2_048), r#""$v""#, Number::TooManyUnits, 0);
    let world = World::empty();
    gives(&world, "$((9223372036854775807))", &["9223372036854775807"]);
    refuses(&world, "$((9223372036854775807+1))", Number::Overflow, 0);
}
