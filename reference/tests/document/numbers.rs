//! E6 by a second way: each operation on edge numbers with 128 bits or bit by bit, and whole expressions whose value is known before they are written.

use reference::generate::random::Random;
use reference::number::Number::{self, Overflow, ZeroDivisor};

use crate::support::{gives, refuses, World};

const EDGES: [i64; 30] = [
    0,
    1,
    -1,
    2,
    -2,
    3,
    -3,
    7,
    -8,
    31,
    32,
    61,
    62,
    63,
    64,
    -63,
    -64,
    255,
    (1 << 31) - 1,
    1 << 32,
    -(1 << 32) - 1,
    (1 << 61) - 1,
    1 << 62,
    (1 << 62) - 1,
    -(1 << 62),
    -(1 << 62) - 1,
    i64::MAX,
    i64::MAX - 1,
    i64::MIN,
    i64::MIN + 1,
];

#[track_caller]
fn is(world: &World, text: &str, wanted: Result<i64, Number>) {
    let line = format!("$(({text}))");
    match wanted {
        Ok(number) => gives(world, line, &[&number.to_string()]),
        Err(number) => refuses(world, line, number, 0),
    }
}

fn within(number: i128) -> Result<i64, Number> {
    i64::try_from(number).map_err(|_| Overflow)
}

/// The 64 bits of a number, the lowest first: what is left of it is halved, rounded down, and a negative one ends in ones.
fn bits(number: i64) -> [bool; 64] {
    let mut rest = i128::from(number);
    [(); 64].map(|()| {
        let bit = rest.rem_euclid(2) == 1;
        rest = rest.div_euclid(2);
        bit
    })
}

/// The number of 64 bits, of which the last stands for the negative power.
fn number(bits: [bool; 64]) -> i64 {
    let power = |at: usize| (0..at).fold(1i128, |power, _| power * 2);
    let sizes = (0..64).map(|at| if at == 63 { -power(at) } else { power(at) });
    let sum: i128 = sizes.zip(bits).filter(|(_, bit)| *bit).map(|(size, _)| size).sum();
    i64::try_from(sum).expect("64 bits")
}

fn bit_by_bit(left: i64, right: i64, bit: fn(bool, bool) -> bool) -> i64 {
    let (left, right) = (bits(left), bits(right));
    number(std::array::from_fn(|at| bit(left[at], right[at])))
}

/// A product with a power of two, or that part of a number rounded down; a count outside 0 to 63 is refused.
fn shifted(left: i64, sign: &str, count: i64) -> Result<i64, Number> {
    let count = u32::try_from(count).ok().filter(|count| *count <= 63).ok_or(Overflow)?;
    let power = 2i128.pow(count);
    within(if sign == "<<" { i128::from(left) * power } else { i128::from(left).div_euclid(power) })
}

fn binary(sign: &str, left: i64, right: i64) -> Result<i64, Number> {
    let (long_left, long_right) = (i128::from(left), i128::from(right));
    match sign {
        "*" => within(long_left * long_right),
        "+" => within(long_left + long_right),
        "-" => within(long_left - long_right),
        "/" | "%" if right == 0 => Err(ZeroDivisor),
        "/" => within(long_left / long_right),
        "%" => within(long_left / long_right).map(|_| (long_left % long_right) as i64),
        "<<" | ">>" => shifted(left, sign, right),
        "&" => Ok(bit_by_bit(left, right, |left, right| left && right)),
        "|" => Ok(bit_by_bit(left, right, |left, right| left || right)),
        "^" => Ok(bit_by_bit(left, right, |left, right| left != right)),
        "<" => Ok(i64::from(long_left - long_right < 0)),
        "<=" => Ok(i64::from(long_left - long_right <= 0)),
        ">" => Ok(i64::from(long_left - long_right > 0)),
        ">=" => Ok(i64::from(long_left - long_right >= 0)),
        "==" => Ok(i64::from(bits(left) == bits(right))),
        "!=" => Ok(i64::from(bits(left) != bits(right))),
        _ => panic!("no operator: {sign}"),
    }
}

/// Every operation that works out both sides, and its level; the higher, the tighter.
const BINARY: [(&str, usize); 16] = [
    ("|", 3),
    ("^", 4),
    ("&", 5),
    ("==", 6),
    ("!=", 6),
    ("<", 7),
    ("<=", 7),
    (">", 7),
    (">=", 7),
    ("<<", 8),
    (">>", 8),
    ("+", 9),
    ("-", 9),
    ("*", 10),
    ("/", 10),
    ("%", 10),
];
const CONDITIONAL: usize = 0;
const OR: usize = 1;
const AND: usize = 2;
const UNARY: usize = 11;

#[test]
fn operations_on_edges() {
    for left in EDGES {
        let world = World::empty().set("x", left.to_string());
        is(&world, "~x", Ok(number(bits(left).map(|bit| !bit))));
        is(&world, "!x", Ok(i64::from(!bits(left).contains(&true))));
        is(&world, "-x", within(-i128::from(left)));
        for right in EDGES {
            let world = world.clone().set("y", right.to_string());
            for (sign, _) in BINARY {
                is(&world, &format!("x{sign}y"), binary(sign, left, right));
            }
            is(&world, "x&&y", Ok(i64::from(left != 0 && right != 0)));
            is(&world, "x||y", Ok(i64::from(left != 0 || right != 0)));
            is(&world, "x?y:x", Ok(if left == 0 { left } else { right }));
        }
    }
}

/// Every count by every power of two and its neighbours.
#[test]
fn every_shift() {
    for power in 0..63 {
        for about in -1..=1 {
            for size in [(1i64 << power) - 1 + about, -(1i64 << power) + about] {
                let world = World::empty().set("x", size.to_string());
                for count in [0, 1, 62 - power, 63 - power, 64 - power, 63] {
                    is(&world, &format!("x<<{count}"), shifted(size, "<<", count));
                    is(&world, &format!("x>>{count}"), shifted(size, ">>", count));
                }
            }
        }
    }
}

/// An expression with the parentheses it needs and with all of them, its level, and what it comes to.
struct Made {
    bare: String,
    full: String,
    level: usize,
    value: Result<i64, Number>,
}

impl Made {
    /// The text where this level or a tighter one may stand.
    fn at(&self, level: usize) -> String {
        if self.level >= level {
            self.bare.clone()
        } else {
            format!("({})", self.bare)
        }
    }

    fn of(level: usize, bare: String, full: String, value: Result<i64, Number>) -> Made {
        Made { bare, full: format!("({full})"), level, value }
    }
}

fn made(random: &mut Random, size: usize) -> Made {
    if size == 0 {
        let (text, value) = *random.pick(&[
            ("0", Ok(0)),
            ("1", Ok(1)),
            ("2", Ok(2)),
            ("5", Ok(5)),
            ("63", Ok(63)),
            ("u", Ok(0)),
            ("least", Ok(i64::MIN)),
            ("9223372036854775807", Ok(i64::MAX)),
            ("bad", Err(Number::NotANumber)),
        ]);
        return Made { bare: text.to_string(), full: text.to_string(), level: UNARY + 1, value };
    }
    let first = made(random, size - 1);
    match random.below(8) {
        0 => unary(random, &first),
        1 => conditional(&first, &made(random, size - 1), &made(random, size - 1)),
        2 => lazy("&&", AND, &first, &made(random, size - 1)),
        3 => lazy("||", OR, &first, &made(random, size - 1)),
        _ => {
            let (sign, level) = *random.pick(&BINARY);
            let second = made(random, size - 1);
            let value = first.value.and_then(|left| binary(sign, left, second.value?));
            join(sign, level, &first, &second, value)
        }
    }
}

fn join(sign: &str, level: usize, first: &Made, second: &Made, value: Result<i64, Number>) -> Made {
    let bare = format!("{}{sign}{}", first.at(level), second.at(level + 1));
    Made::of(level, bare, format!("{}{sign}{}", first.full, second.full), value)
}

fn lazy(sign: &str, level: usize, first: &Made, second: &Made) -> Made {
    let decides = |left: i64| (left == 0) == (sign == "&&");
    let value = match first.value {
        Err(number) => Err(number),
        Ok(left) if decides(left) => Ok(i64::from(left != 0)),
        Ok(_) => second.value.map(|right| i64::from(right != 0)),
    };
    join(sign, level, first, second, value)
}

fn conditional(first: &Made, second: &Made, third: &Made) -> Made {
    let value = match first.value {
        Err(number) => Err(number),
        Ok(0) => third.value,
        Ok(_) => second.value,
    };
    let bare = format!("{}?{}:{}", first.at(OR), second.at(CONDITIONAL), third.at(CONDITIONAL));
    Made::of(CONDITIONAL, bare, format!("{}?{}:{}", first.full, second.full, third.full), value)
}

fn unary(random: &mut Random, operand: &Made) -> Made {
    let sign = *random.pick(&["!", "~", "-", "+"]);
    let value = operand.value.and_then(|number| match sign {
        "!" => Ok(i64::from(number == 0)),
        "~" => within(-i128::from(number) - 1),
        "-" => within(-i128::from(number)),
        _ => Ok(number),
    });
    Made::of(UNARY, format!("{sign}{}", operand.at(UNARY)), format!("{sign}{}", operand.full), value)
}

/// With the parentheses that C's precedence needs and with all of them, every expression comes to what it was made for.
#[test]
fn expressions_that_are_known() {
    let world = World::empty().set("least", i64::MIN.to_string()).set("bad", "08");
    for case in 0..20_000 {
        let random = &mut Random::new(6, case);
        let size = random.between(1, 4);
        let made = made(random, size);
        is(&world, &made.bare, made.value);
        is(&world, &made.full, made.value);
    }
}
