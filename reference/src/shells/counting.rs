//! Lines with assignments in arithmetic, on which the documents and the shells agree: in quotes, in operands, in other texts, with names from expansions, and
//! with what sees the stores beside them.

use super::sums::is_alike;
use super::{lines, Given, Shell, Table};
use crate::case::Job;
use crate::generate::random::Random;
use crate::generate::walk::walk;
use crate::generate::{counters, counting};

/// Where a text `T` stands. None is in a removal's operand, which the shells expand on a set name alone, and after they have read its value; none stores IFS
/// or HOME.
const PLACES: [&str; 36] = [
    "$((T))", "$((T))", "$((T))", "$((T))", "\"$((T))\"", "\"$((T))\"", "a$((T))b", "$((T))$n", "$n$((T))$n",
    "\"$n $((T)) $x\"", "${u-$((T))}", "\"${u-$((T))}\"", "${u=$((T))}", "${u=$((T))1}$u", "${e:=$((T))}$e",
    "${n+$((T))}", "${n-$((T))}", "${n-$((n=3))}$((T))", "${w+$((T))}", "$(($((T))+n))", "$((n+$((T))))",
    "$((n=$((T))+n))", "${#n}$((T))${#n}", "${n?$((T))}", "$((${u-n}=4))", "$((${u-n}+=${#x}))", "$((x$e=5))",
    "$((x$n=5))", "$(($1=6))", "$(($2-=n))", "${x%?}$((T))", "$((T))${x##*$n}", "~ $((T))", "$n ${#n} $((n))",
    "'$((T))'", "\\$n$((T))",
];
/// The names of the texts, most of which have numbers before.
const NUMBERED: [&str; 6] = ["n", "x", "y", "A1", "e", "name_9"];

/// The variables of any line with numbers among them, and two names as parameters.
pub fn given(random: &mut Random) -> Given {
    let numbered = |name: &[u8]| NUMBERED.iter().any(|numbered| numbered.as_bytes() == name);
    let (mut variables, mut numbers): (Table, Table) = (lines::variables(random), counting::variables(random));
    variables.retain(|name, _| !numbered(name));
    numbers.retain(|name, _| numbered(name));
    variables.extend(numbers);
    Given { variables, parameters: vec![b"n".to_vec(), b"A1".to_vec()], shout: false }
}

pub fn line(random: &mut Random) -> Vec<u8> {
    let mut line = Vec::new();
    for _ in 0..random.between(1, 3) {
        for byte in random.text(&PLACES) {
            match byte {
                b'T' => line.extend(counters::text(random)),
                _ => line.push(byte),
            }
        }
        line.extend(random.text(&[" ", " ", "  ", "\t", ""]));
    }
    line
}

impl Shell {
    /// Whether the shell reads all texts of an accepted line as the documents do, each as its expansions have made it, and works out their assignments so.
    pub fn counts_alike(self, line: &[u8], given: &Given) -> bool {
        let alike = |text: &[u8]| !matches!(self, Shell::Bash) || is_alike(text);
        walk(Job::Expand, &given.lent(line)).sums.iter().all(|sum| alike(&sum.text) && self.assigns_alike(&sum.text))
    }
}
