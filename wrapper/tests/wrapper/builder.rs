//! Calls that are built from texts, and tables made from pairs and read again. What is expected is written out from docs/01-scope.md and
//! docs/02-change-requests.md; that what is malformed is refused shows that nothing is lost in packing.

use drunquill::{pairs, texts, Call, Number, Table, IMAGE_MAX, PATHS_MAX};

type Pair<'a> = (&'a [u8], &'a [u8]);

fn refused(call: &mut Call, number: Number) {
    assert_eq!(call.expand("a").unwrap_err().number, number);
    assert_eq!(call.normalise("a").unwrap_err().number, number);
}

#[test]
fn tables_are_packed_and_read() {
    let table = Table::from_pairs([("b", "x"), ("a_1", ""), ("a", "1"), ("b", "y")]);
    assert_eq!(table.image(), b"\x01\0\x01a\0\x011\0\x03a_1\0\0\0\x01b\0\x01y");
    let read: Vec<Pair> = table.pairs().collect();
    assert_eq!(read, [(b"a".as_slice(), b"1".as_slice()), (b"a_1", b""), (b"b", b"y")]);
    assert_eq!(Table::from_texts(["b", "", "a", "b"]).image(), b"\x01\0\x01b\0\0\0\x01a\0\x01b");
    assert_eq!(Table::from_paths(["b", "a", "b"]).image(), b"\x01\0\x01a\0\x01b");
    assert_eq!(Table::default().image(), b"\x01");
    assert_eq!(Table::default().texts().next(), None);
    let long = vec![b'x'; 300];
    assert_eq!(Table::from_texts([&long]).texts().collect::<Vec<_>>(), [long.as_slice()]);
}

#[test]
fn images_that_are_not_whole_end() {
    let whole = b"\x01\0\x01a\0\x02bc";
    assert_eq!(texts(whole).collect::<Vec<_>>(), [b"a".as_slice(), b"bc"]);
    assert_eq!(pairs(whole).collect::<Vec<_>>(), [(b"a".as_slice(), b"bc".as_slice())]);
    for cut in 4..whole.len() {
        assert_eq!(texts(&whole[..cut]).collect::<Vec<_>>(), [b"a".as_slice()], "{cut}");
        assert_eq!(pairs(&whole[..cut]).next(), None, "{cut}");
    }
    for cut in 0..4 {
        assert_eq!(texts(&whole[..cut]).next(), None, "{cut}");
    }
}

#[test]
fn calls_are_built() {
    let mut call = Call::new()
        .variables([("HOME", "/h"), ("job", "a b")])
        .homes([("crew", "/c")])
        .params(["p 1", ""])
        .paths(["y.raw", "x.raw"]);
    let fields = call.expand("$job \"$@\" ~/o ~crew *.raw $# ${n=5}").expect("a good line");
    let wanted = ["a", "b", "p 1", "", "/h/o", "/c", "x.raw", "y.raw", "2", "5"];
    assert_eq!(fields, wanted.map(|text| text.as_bytes().to_vec()));
    assert_eq!(call.variable("n"), Some(b"5".as_slice()));
    assert_eq!(call.normalise("\"$job\" $((n=n+1))").expect("a good line"), b"'a b' 6");
    call.assign("job= out=~crew:$n").expect("two assignments");
    let left: Vec<Pair> = call.current_variables().collect();
    let wanted: [Pair; 4] = [(b"HOME", b"/h"), (b"job", b""), (b"n", b"6"), (b"out", b"/c:6")];
    assert_eq!(left, wanted);
    assert_eq!(call.variable("none"), None);
}

#[test]
fn refusals_change_nothing() {
    let mut call = Call::new().variables([("n", "1")]);
    let refusal = call.expand("$((n=2)) ${u:?no $n}").unwrap_err();
    assert_eq!((refusal.number, refusal.place, refusal.message.as_slice()), (Number::Demanded, 9, b"no 2".as_slice()));
    assert_eq!(call.assign("n=3 m").unwrap_err().number, Number::BadSyntax);
    assert_eq!(call.current_variables().collect::<Vec<_>>(), [(b"n".as_slice(), b"1".as_slice())]);
    let mut shouting = call.clone().shouts(true);
    assert_eq!(shouting.expand("a $u").unwrap_err().number, Number::UnsetName);
    assert_eq!(shouting.assign("a=$u").unwrap_err().number, Number::UnsetName);
    assert_eq!(shouting.shouts(false).expand("a $u").expect("a good line").len(), 1);
}

#[test]
fn malformed_tables_are_refused() {
    let none: [&str; 0] = [];
    assert_eq!(Call::new().params(none).expand("$#").expect("a good line"), [b"0"]);
    refused(&mut Call::new().variables([("1a", "x")]), Number::BadVariables);
    refused(&mut Call::new().variables([("", "x")]), Number::BadVariables);
    refused(&mut Call::new().variables([("a", "x\0")]), Number::BadVariables);
    refused(&mut Call::new().homes([("a/b", "x")]), Number::BadHomes);
    refused(&mut Call::new().paths([""]), Number::BadPaths);
    refused(&mut Call::new().params(["\0"]), Number::BadParameters);
    for length in [IMAGE_MAX - 2, u16::MAX as usize, u16::MAX as usize + 1, 100_000] {
        let long = vec![b'x'; length];
        refused(&mut Call::new().variables([("a", &long)]), Number::BadVariables);
        refused(&mut Call::new().homes([("a", &long)]), Number::BadHomes);
        refused(&mut Call::new().params([&long]), Number::BadParameters);
        assert_eq!(Table::from_texts([&long]).quote().unwrap_err().number, Number::BadFields);
    }
    refused(&mut Call::new().paths([vec![b'x'; PATHS_MAX - 2]]), Number::BadPaths);
    let longest = vec![b'x'; IMAGE_MAX - 3];
    assert_eq!(Call::new().params([&longest]).expand("${#1}").expect("a good line"), [b"8189"]);
}

#[test]
fn paths_and_costs() {
    let mut call = Call::new().paths(["b"]);
    call.insert_path("a c").expect("a new path");
    assert_eq!(call.insert_path("b").unwrap_err().number, Number::BadPath);
    assert_eq!(call.expand("*").expect("a good line"), [b"a c".as_slice(), b"b"]);
    call.delete_path("b").expect("a path that is there");
    assert_eq!(call.current_paths().collect::<Vec<_>>(), [b"a c".as_slice()]);
    assert_eq!(call.cost("*a*", "aaa"), Ok(14));
    assert_eq!(call.cost("[[:number:]]", "").unwrap_err().number, Number::BracketClass);
    assert_eq!(Table::from_texts(["a", "b c", "d\n", ""]).quote().expect("a line"), b"a 'b c' $'d\\012' ''");
}
