//! Damage to the name, the gap and the end of one line.

use crate::random::Random;
use crate::sheet_parts::{Line, NAMES};

/// What becomes of a line.
#[derive(Clone, Copy)]
pub enum Flaw {
    /// Something else between name and value.
    Gap(&'static str),
    /// Something else at the end.
    End(&'static str),
    /// Something before the name.
    Before(&'static str),
    /// Something after the name.
    AfterName(&'static str),
    /// Another name.
    Name(fn(&mut Random, &str) -> String),
    /// The name alone, with this end.
    Alone(&'static str),
}

use Flaw::{AfterName, Alone, Before, End, Gap, Name};

pub const FLAWS: [Flaw; 56] = [
    Gap(""),
    Gap("  "),
    Gap("   "),
    Gap("\t"),
    Gap(" \t"),
    Gap("\t "),
    Gap("\n"),
    Gap("\r"),
    Gap("\0"),
    Gap("\u{A0}"),
    Gap("="),
    Gap(": "),
    Gap(" = "),
    Gap(","),
    Gap(", "),
    Gap("."),
    Gap(" ,"),
    Gap("_"),
    End("\r\n"),
    End("\r"),
    End("\n\r"),
    End("\n\n"),
    End("\r\r\n"),
    End(" \n"),
    End("\t\n"),
    End(",\n"),
    End(".\n"),
    End("\0\n"),
    End("\n\0"),
    End("\n "),
    End("\n,"),
    End("\u{B}"),
    End("\u{C}"),
    End("\u{85}"),
    End("\u{2028}"),
    End("\0"),
    End("\\n"),
    End(""),
    Before(" "),
    Before("\t"),
    Before("\n"),
    Before("\r\n"),
    Before(","),
    Before("."),
    Before("\0"),
    Before("\u{FEFF}"),
    Before("# "),
    AfterName(":"),
    AfterName(","),
    AfterName("s"),
    Name(|_, name| name.to_uppercase()),
    Name(one_capital),
    Name(other_name),
    Name(other_line),
    Alone("\n"),
    Alone(" \n"),
];

pub fn flawed(random: &mut Random, line: &mut Line, flaw: Flaw) {
    match flaw {
        Gap(gap) => line.gap = gap.into(),
        End(end) => line.end = end.into(),
        Before(before) => line.name.splice(0..0, before.bytes()).for_each(drop),
        AfterName(after) => line.name.extend(after.bytes()),
        Name(name) => {
            let old = String::from_utf8_lossy(&line.name).into_owned();
            line.name = name(random, &old).into_bytes();
        }
        Alone(end) => {
            line.gap.clear();
            line.value.clear();
            line.end = end.into();
        }
    }
}

/// One letter of the name is a capital.
fn one_capital(random: &mut Random, name: &str) -> String {
    let at = random.below(name.len());
    let letter = |(i, c): (usize, char)| if i == at { c.to_ascii_uppercase() } else { c };
    name.chars().enumerate().map(letter).collect()
}

/// A name that is none, or the right one cut short.
fn other_name(random: &mut Random, name: &str) -> String {
    let others = ["receive", "transmit", "volt", "baud", "warn", "error", "rating", "x", "", "17"];
    match random.below(3) {
        0 => name[1..].to_string(),
        1 => name[..name.len() - 1].to_string(),
        _ => random.pick(&others).to_string(),
    }
}

/// The name of another line.
fn other_line(random: &mut Random, name: &str) -> String {
    let others: Vec<&str> = NAMES.into_iter().filter(|&other| other != name).collect();
    random.pick(&others).to_string()
}
