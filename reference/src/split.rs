//! Splitting a row into fields: each part between break marks by itself, by the paper's own loop, a field, then its delimiters, while units
//! remain.

use crate::row::{Mark, Unit};

const UNSET_IFS: &[u8] = b" \t\n";

/// How a unit counts in splitting.
#[derive(Clone, Copy, PartialEq, Eq)]
enum Kind {
    White,
    Hard,
    Other,
}

/// The fields of a row; no IFS means space, tab, newline.
pub fn split<'a>(units: &'a [Unit], ifs: Option<&[u8]>) -> Vec<&'a [Unit]> {
    let ifs = ifs.unwrap_or(UNSET_IFS);
    let parts = units.split(|unit| *unit == Unit::Break);
    parts.flat_map(|part| split_part(part, ifs)).collect()
}

/// The fields of a part without break marks; no units, no field.
fn split_part<'a>(units: &'a [Unit], ifs: &[u8]) -> Vec<&'a [Unit]> {
    let count = |units: &[Unit], wanted: Kind| {
        let wanted = |unit: &&Unit| kind(unit, ifs) == wanted;
        units.iter().take_while(wanted).count()
    };
    let mut fields = Vec::new();
    let mut rest = &units[count(units, Kind::White)..];
    while !rest.is_empty() {
        let (field, behind) = rest.split_at(count(rest, Kind::Other));
        fields.push(field);
        rest = &behind[count(behind, Kind::White)..];
        if count(rest, Kind::Hard) > 0 {
            rest = &rest[1..];
            rest = &rest[count(rest, Kind::White)..];
        }
    }
    fields
}

fn kind(unit: &Unit, ifs: &[u8]) -> Kind {
    match unit {
        Unit::Byte(byte, Mark::Expansion) if ifs.contains(byte) => {
            if UNSET_IFS.contains(byte) {
                Kind::White
            } else {
                Kind::Hard
            }
        }
        _ => Kind::Other,
    }
}
