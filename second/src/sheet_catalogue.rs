//! The catalogue of sheet cases: every kind of damage and every limit, and the
//! batches of the same kinds that follow it.

use crate::sheet_cases::MOST;
use crate::sheet_changes::{every_change, every_insertion, every_start};
use crate::sheet_inputs::Maker;
use crate::sheet_lines::{flawed, FLAWS};
use crate::sheet_parts::{
    any_values, ends, round_values, sheet_of, Parts, Values, DEFAULTS, LINES, SPEED,
};
use crate::sheet_shapes::{shapes, Shape, AFTER, AFTER_LINES};
use crate::sheet_values::{damaged, damages, limit_values, Damage};
use crate::sheet_writes::{
    any_right, end_writings, large_rooms, right_with_rooms, round_writings, several_wrong,
    wrong_writings,
};

/// So many sheets of the catalogue have every place changed.
const BASES: usize = 66;

pub fn catalogue(maker: &mut Maker) {
    bases(maker);
    right_sheets(maker);
    every_place(maker);
    for _ in 0..4 {
        limits(maker);
    }
    for _ in 0..2 {
        values(maker);
    }
    for _ in 0..3 {
        lines(maker);
    }
    for _ in 0..10 {
        wholes(maker);
        afters(maker);
    }
    for _ in 0..2 {
        orders(maker);
    }
    for _ in 0..200 {
        two_lines(maker);
    }
    longest(maker);
    writings(maker);
}

/// A sheet, and every place of it taken out, doubled and changed.
fn base(maker: &mut Maker, values: &Values) {
    let bytes = sheet_of(values);
    let all = every_change(&mut maker.random, &bytes, maker.bases);
    maker.bases += 1;
    maker.read(bytes);
    maker.read_all(all);
}

/// The defaults, all lowest, all highest, and any.
fn bases(maker: &mut Maker) {
    let lines = [0, 1, 2, 3, 4, 5];
    let [lowest, highest] = [0, 1].map(|end| lines.map(|line| ends(line)[end]));
    for values in [DEFAULTS, lowest, highest] {
        base(maker, &values);
    }
    while maker.bases < BASES {
        let values = any_values(&mut maker.random);
        base(maker, &values);
    }
}

/// Right sheets: all ends in all ways, each round value of each line, and any.
fn right_sheets(maker: &mut Maker) {
    for (values, _) in end_writings() {
        maker.read(sheet_of(&values));
    }
    for line in 0..LINES {
        for value in round_values(line) {
            let mut values = any_values(&mut maker.random);
            values[line] = value;
            maker.read(sheet_of(&values));
        }
    }
    for _ in 0..120 {
        let parts = maker.parts();
        maker.read(parts.bytes());
    }
}

/// Sheets cut off at every place, and with a comma or a dot at every place.
fn every_place(maker: &mut Maker) {
    for _ in 0..7 {
        let bytes = maker.parts().bytes();
        maker.read_all(every_start(&bytes));
    }
    for put_in in [b",", b".", b",", b"."] {
        let bytes = maker.parts().bytes();
        maker.read_all(every_insertion(&bytes, put_in));
        maker.read(bytes);
    }
}

/// Each value at a limit, in its line.
fn limits(maker: &mut Maker) {
    for line in 0..LINES {
        for value in limit_values(line) {
            let parts = maker.parts_with(line, value.as_bytes());
            maker.read(parts.bytes());
        }
    }
}

/// Each damage to a value, in each line.
fn values(maker: &mut Maker) {
    for damage in damages() {
        for line in 0..LINES {
            let mut parts = maker.parts();
            damage_value(maker, &mut parts, line, damage);
            maker.read(parts.bytes());
        }
    }
}

fn damage_value(maker: &mut Maker, parts: &mut Parts, line: usize, damage: Damage) {
    let value = &mut parts.lines[line].value;
    *value = damaged(&mut maker.random, value, damage);
}

/// Each damage to a name, a gap or an end, in each line.
fn lines(maker: &mut Maker) {
    for flaw in FLAWS {
        for line in 0..LINES {
            let mut parts = maker.parts();
            flawed(&mut maker.random, &mut parts.lines[line], flaw);
            maker.read(parts.bytes());
        }
    }
}

/// Each damage to the whole.
fn wholes(maker: &mut Maker) {
    for shape in shapes() {
        whole(maker, shape);
    }
}

fn whole(maker: &mut Maker, shape: Shape) {
    let parts = maker.parts();
    let bytes = shape(&mut maker.random, parts);
    maker.read(bytes);
}

/// Each line missing, each line twice, and each two of them swapped.
fn orders(maker: &mut Maker) {
    for line in 0..LINES {
        let mut parts = maker.parts();
        let missing = parts.lines.remove(line);
        maker.read(parts.bytes());
        parts.lines.insert(line, missing.clone());
        parts.lines.insert(line, missing);
        maker.read(parts.bytes());
        for other in line + 1..LINES {
            let mut parts = maker.parts();
            parts.lines.swap(line, other);
            maker.read(parts.bytes());
        }
    }
}

/// Anything after a sheet.
fn afters(maker: &mut Maker) {
    for after in AFTER {
        let bytes = maker.parts().bytes();
        maker.read([&bytes, after].concat());
    }
    for shape in AFTER_LINES {
        whole(maker, shape);
    }
}

/// Damage in two lines: the first of them is wrong, if it is.
fn two_lines(maker: &mut Maker) {
    let mut parts = maker.parts();
    let first = maker.random.below(LINES - 1);
    let second = first + 1 + maker.random.below(LINES - 1 - first);
    let all: Vec<Damage> = damages().collect();
    for line in [first, second] {
        if maker.random.one_in(3) {
            let flaw = maker.random.pick(&FLAWS);
            flawed(&mut maker.random, &mut parts.lines[line], flaw);
        } else {
            let damage = maker.random.pick(&all);
            damage_value(maker, &mut parts, line, damage);
        }
    }
    maker.read(parts.bytes());
}

/// The longest inputs there can be: digits to the end, and blanks after a sheet.
fn longest(maker: &mut Maker) {
    let line = maker.random.between(SPEED as u64, LINES as u64 - 1) as usize;
    let mut bytes = maker.parts_with(line, &[b'1'; MOST]).bytes();
    bytes.truncate(MOST);
    maker.read(bytes);
    let mut bytes = maker.parts().bytes();
    bytes.resize(MOST, b' ');
    maker.read(bytes);
}

fn writings(maker: &mut Maker) {
    for _ in 0..60 {
        let values = any_values(&mut maker.random);
        maker.write_all(right_with_rooms(&values));
    }
    let round = round_writings(&mut maker.random);
    maker.write_all(round);
    maker.write_all(end_writings());
    for _ in 0..2 {
        let wrong = wrong_writings(&mut maker.random);
        maker.write_all(wrong);
    }
    let large = large_rooms(&mut maker.random);
    maker.write_all(large);
    for _ in 0..80 {
        several_or_right(maker);
    }
}

fn several_or_right(maker: &mut Maker) {
    let several = several_wrong(&mut maker.random);
    maker.write(several);
    let right = any_right(&mut maker.random);
    maker.write(right);
}

/// A sheet with every place changed, and a few of every other kind.
pub fn batch(maker: &mut Maker) {
    let values = any_values(&mut maker.random);
    base(maker, &values);
    for _ in 0..8 {
        let parts = maker.parts();
        maker.read(parts.bytes());
        two_lines(maker);
        several_or_right(maker);
    }
    let all: Vec<Damage> = damages().collect();
    let wholes: Vec<Shape> = shapes().chain(AFTER_LINES).collect();
    for line in 0..LINES {
        for _ in 0..3 {
            let value = maker.random.pick(&limit_values(line));
            let parts = maker.parts_with(line, value.as_bytes());
            maker.read(parts.bytes());
            let mut parts = maker.parts();
            let damage = maker.random.pick(&all);
            damage_value(maker, &mut parts, line, damage);
            maker.read(parts.bytes());
            let mut parts = maker.parts();
            let flaw = maker.random.pick(&FLAWS);
            flawed(&mut maker.random, &mut parts.lines[line], flaw);
            maker.read(parts.bytes());
            let shape = maker.random.pick(&wholes);
            whole(maker, shape);
        }
    }
}
