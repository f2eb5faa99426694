//! Tables: what is an image of variables, homes, paths or fields, and what is not.

use reference::image::{self, of_texts};
use reference::limits;

#[test]
fn images_that_are_none() {
    let bad: [&[u8]; 7] =
        [b"", b"\x00", b"\x02", b"\x01\x00", b"\x01\x00\x02a", b"\x01\x00\x01\x00", b"\x01\x00\x01a\x00"];
    for image in bad {
        assert_eq!(image::fields(image), None);
        assert_eq!(image::paths(image), None);
        assert_eq!(image::variables(image), None);
        assert_eq!(image::homes(image), None);
    }
    assert_eq!(image::fields(b"\x01"), Some(vec![]));
}

#[test]
fn names_and_logins() {
    let variable = |name: &[u8]| image::variables(&of_texts(&[name, b""])).is_some();
    let home = |login: &[u8]| image::homes(&of_texts(&[login, b""])).is_some();
    for name in ["_", "a", "Z9_", "__"] {
        assert!(variable(name.as_bytes()), "{name}");
    }
    for name in ["", "1", "a-", "a.", "é", "a b"] {
        assert!(!variable(name.as_bytes()), "{name}");
    }
    for login in ["1", "-", ".", "_", "a-b.c_D9"] {
        assert!(home(login.as_bytes()), "{login}");
    }
    for login in ["", "a b", "~", "é", "a/"] {
        assert!(!home(login.as_bytes()), "{login}");
    }
}

#[test]
fn strictly_rising_order_by_unsigned_bytes_a_prefix_first() {
    let variables = |texts: &[&str]| image::variables(&of_texts(texts)).is_some();
    assert!(variables(&["A", "", "_", "", "a", "", "aa", ""]));
    assert!(!variables(&["a", "", "a", ""]));
    assert!(!variables(&["aa", "", "a", ""]));
    assert!(!variables(&["a", "", "b"]));
    let paths = |texts: &[&[u8]]| image::paths(&of_texts(texts)).is_some();
    assert!(paths(&[b"a", b"a/", b"b", b"\xff"]));
    assert!(!paths(&[b"\xff", b"a"]));
    assert!(!paths(&[b""]));
    assert!(image::fields(&of_texts(&["b", "a", "", "a"])).is_some());
}

#[test]
fn lengths_of_images() {
    let filled = |length: usize| of_texts(&[vec![b'x'; length - 3]]);
    assert!(image::fields(&filled(limits::IMAGE)).is_some());
    assert!(image::fields(&filled(limits::IMAGE + 1)).is_none());
    assert!(image::paths(&filled(limits::PATHS_IMAGE)).is_some());
    assert!(image::paths(&filled(limits::PATHS_IMAGE + 1)).is_none());
    let variable = |length: usize| of_texts(&[b"v".to_vec(), vec![b'x'; length - 6]]);
    assert!(image::variables(&variable(limits::IMAGE)).is_some());
    assert!(image::variables(&variable(limits::IMAGE + 1)).is_none());
    assert!(image::homes(&variable(limits::IMAGE)).is_some());
    assert!(image::homes(&variable(limits::IMAGE + 1)).is_none());
}
