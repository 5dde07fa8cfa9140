//! Wrong rules for edition 2, and whether a case tells them apart.

use crate::plain::Table;
use crate::plain_run::{added, call, Called, Cell, Rules, Steps, EDITION_1, EDITION_2, RIGHT};
use second::text::Case;

/// A rule's name, and the steps of marked tables by it.
const RULES: [(&str, Steps); 18] = [
    (
        "an int store keeps the old bounds",
        Steps {
            assign: EDITION_1.assign,
            ..EDITION_2
        },
    ),
    (
        "an int store without bounds keeps the old ones",
        Steps {
            assign: |typ, [_, base, end], value| match (typ, value) {
                (0, [v, _, 0]) => [v, base, end],
                _ => value,
            },
            ..EDITION_2
        },
    ),
    (
        "an int read drops the bounds",
        Steps {
            read: EDITION_1.read,
            ..EDITION_2
        },
    ),
    (
        "a cast to or from int drops the bounds",
        Steps {
            cast: EDITION_1.cast,
            ..EDITION_2
        },
    ),
    (
        "a cast to int drops the bounds",
        Steps {
            cast: |[_, to], cell| if to == 0 { without(cell) } else { cell },
            ..EDITION_2
        },
    ),
    (
        "a cast from int drops the bounds",
        Steps {
            cast: |[from, _], cell| if from == 0 { without(cell) } else { cell },
            ..EDITION_2
        },
    ),
    (
        "a sum always takes the left bounds",
        Steps {
            sum: EDITION_1.sum,
            ..EDITION_2
        },
    ),
    (
        "a sum always takes the right bounds",
        Steps {
            sum: |_, left, right, step| bounded(left, right, step, right),
            ..EDITION_2
        },
    ),
    (
        "a sum takes the right bounds where both have some",
        Steps {
            sum: |_, left, right, step| {
                let from = if right[2] != 0 { right } else { left };
                bounded(left, right, step, from)
            },
            ..EDITION_2
        },
    ),
    (
        "a pointer takes no right bounds",
        Steps {
            sum: |typ, left, right, step| match typ {
                0 => (EDITION_2.sum)(typ, left, right, step),
                _ => bounded(left, right, step, left),
            },
            ..EDITION_2
        },
    ),
    (
        "two ints take no right bounds",
        Steps {
            sum: |typ, left, right, step| match typ {
                0 => bounded(left, right, step, left),
                _ => (EDITION_2.sum)(typ, left, right, step),
            },
            ..EDITION_2
        },
    ),
    (
        "a sum of two ints has no bounds",
        Steps {
            sum: |typ, left, right, step| match typ {
                0 => [added(left[0], right[0], step), 0, 0],
                _ => (EDITION_2.sum)(typ, left, right, step),
            },
            ..EDITION_2
        },
    ),
    (
        "a sum with right bounds steps by words",
        Steps {
            sum: |typ, left, right, step| {
                let step = if left[2] != 0 { step } else { 1 };
                (EDITION_2.sum)(typ, left, right, step)
            },
            ..EDITION_2
        },
    ),
    (
        "a constant has the bounds of the value before",
        Steps {
            number: |kind, number, latest| as_latest(kind == 4, number, latest),
            ..EDITION_2
        },
    ),
    (
        "a size has the bounds of the value before",
        Steps {
            number: |kind, number, latest| as_latest(kind == 9, number, latest),
            ..EDITION_2
        },
    ),
    (
        "a copy's result has the bounds of its pointer",
        Steps {
            number: |kind, number, latest| as_latest(kind == 11, number, latest),
            ..EDITION_2
        },
    ),
    (
        "malloc(0) has the bounds of its 0",
        Steps {
            number: |kind, number, latest| as_latest(kind == 10, number, latest),
            ..EDITION_2
        },
    ),
    ("marked tables run by edition 1", EDITION_1),
];

fn without([v, ..]: Cell) -> Cell {
    [v, 0, 0]
}

/// A sum with the bounds of one of its sides.
fn bounded([left, ..]: Cell, [right, ..]: Cell, step: u64, [_, base, end]: Cell) -> Cell {
    [added(left, right, step), base, end]
}

fn as_latest(wrong: bool, number: u64, [_, base, end]: Cell) -> Cell {
    match wrong {
        true => [number, base, end],
        false => [number, 0, 0],
    }
}

/// Wrong rules by which a begun run would have another answer, each with
/// whether it would end otherwise and not only leave other words.
pub fn told_apart(case: &Case, marked: bool, right: &Called) -> Vec<(&'static str, bool)> {
    let wrong = match marked {
        true => RULES
            .map(|(name, steps)| (name, [EDITION_1, steps]))
            .to_vec(),
        false => vec![("all tables run by edition 2", [EDITION_2; 2])],
    };
    let mut names = Vec::new();
    for (name, steps) in wrong {
        let other = call(case, &Rules { steps, ..RIGHT });
        let ending = other.ends_apart(right);
        if ending || other.cells != right.cells {
            names.push((name, ending));
        }
    }
    names
}

/// Whether refusal 16 would be another one if all others came before it.
pub fn sixteen_hides_another(table: &[u32]) -> bool {
    let mut right = table.to_vec();
    right[1] = 2;
    let (_, found) = Table::read(&right);
    found.is_err()
}
