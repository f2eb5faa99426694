//! Lines that are not made by the grammar: damaged ones, random bytes, and lines that store again and again.

use super::grammar;
use super::random::Random;

const TELLING: &[u8] = b"$${}{}()\"\"''\\`~#%:-=?+*[]!x1u \t\n|&;<>/.@^";

/// A line of the grammar with a few bytes dropped, doubled, changed, swapped or cut off.
pub fn damaged(random: &mut Random) -> Vec<u8> {
    let mut line = grammar::line(random);
    for _ in 0..random.between(1, 3) {
        if line.is_empty() {
            return line;
        }
        let at = random.below(line.len());
        match random.below(6) {
            0 => drop(line.remove(at)),
            1 => line.insert(at, line[at]),
            2 => line[at] = *random.pick(TELLING),
            3 => line.insert(at, *random.pick(TELLING)),
            4 => line.truncate(at),
            _ => line.swap(at, 0),
        }
    }
    line
}

pub fn random_bytes(random: &mut Random) -> Vec<u8> {
    let length = random.below(24);
    let telling = !random.once_in(3);
    let byte = |_| match telling {
        true => *random.pick(TELLING),
        false => random.byte().max(1),
    };
    (0..length).map(byte).collect()
}

/// Stores in which a value grows and shrinks within the call: an operand stores under the name that is being stored.
pub fn storing(random: &mut Random) -> Vec<u8> {
    let mut line = Vec::new();
    for _ in 0..random.between(1, 3) {
        let name = String::from_utf8(random.text(&["u", "w", "e", "B"])).expect("a name");
        let long = "l".repeat(random.below(30));
        let short = "s".repeat(random.below(6));
        line.extend(
            match random.below(6) {
                0 => format!("${{{name}:=${{e%${{{name}:={long}}}}}{short}}} "),
                1 => format!("${{{name}=$((${{{name}=100000000}}-99999999))}} "),
                2 => format!("${{{name}:=${{{name}:={long}}}{short}}} "),
                3 => format!("${{{name}:={long}}}${{#{name}}} "),
                4 => format!("${{{name}=}}${{{name}:={short} {long}}} "),
                _ => format!("\"${{{name}:={short}${{{name}:+{long}}}}}\" "),
            }
            .into_bytes(),
        );
    }
    if random.once_in(8) {
        line.extend(random.text(&["${u_:?}", "|", "$((1/0))", "${x"]));
    }
    line
}
