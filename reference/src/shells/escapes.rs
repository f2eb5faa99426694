//! Lines with `$'...'`, which of the shells compared bash alone serves: its texts in words and in operands, beside whatever stands in words.

use super::lines::Lines;
use crate::generate::lists::Setting;
use crate::generate::random::Random;

/// What may stand in a text. No value is 0 or above 255, and no byte could run anything or end the line. A `{` in an operand in double quotes is listed.
const PIECES: [&str; 56] = [
    "\\\"", "\\'", "\\\\", "\\a", "\\b", "\\e", "\\f", "\\n", "\\r", "\\t", "\\v", "\\x1", "\\x0d", "\\x7f", "\\xFF",
    "\\x411", "\\xa1f", "\\x4g", "\\1", "\\15", "\\015", "\\101", "\\1011", "\\377", "\\3777", "\\18", "\\0101",
    "\\40", "\\x20", "\\x2a", "\\52", "\\x3f", "\\x7e", "\\44x", "a", "b", "1", " ", "  ", "*", "?", "[a]", "~", "#",
    ":", "/", "$x", "${x}", "$", "\"", "}", "=", "%", "\\\\n", "\\\\'", "\\'a",
];
/// Where a text `T` stands.
const PLACES: [&str; 30] = [
    "T", "T", "T", "T", "aT", "Tb", "TT", "T''", "\"$x\"T", "$xT", "T$x", "~/T", "T*", "*T", "${u-T}", "${u:-aT b}",
    "${e:-T$x}", "${x+T}", "${u=T}", "${w:=aT}$w", "${x%T}", "${x##*T}", "${x?T}", "\"T\"", "\"aT\"", "${u-${w-T}}",
    "\"${x%T}\"", "\"${x##*T}\"", "\"${u-T}\"", "[T]*",
];

/// A few words, one of them at least with such a text.
pub fn line(random: &mut Random) -> Vec<u8> {
    let mut words = vec![word(random)];
    for _ in 0..random.below(3) {
        words.push(match random.below(3) {
            0 => Lines::new(random, false, false).pieces(Setting::Word),
            _ => word(random),
        });
    }
    words.join(&b' ')
}

fn word(random: &mut Random) -> Vec<u8> {
    let mut word = Vec::new();
    for byte in random.text(&PLACES) {
        match byte {
            b'T' => word.extend(text(random)),
            _ => word.push(byte),
        }
    }
    word
}

fn text(random: &mut Random) -> Vec<u8> {
    let inside: Vec<u8> = (0..random.below(5)).flat_map(|_| random.text(&PIECES)).collect();
    [b"$'".as_slice(), &inside, b"'"].concat()
}
