//! Random records, fields, pointers and variables that pass the check.

use super::random::Random;

pub const INT: u32 = 0;
pub const VOID_POINTER: u32 = 1;
pub const RECORD: u32 = 65_536;

#[derive(Clone, Default)]
pub struct Types {
    /// Each record as its fields: a type and a count of words.
    pub records: Vec<Vec<[u32; 2]>>,
    pub pointers: Vec<u32>,
    pub variables: Vec<u32>,
}

/// A way from a pointer to a place: a follow, or a field.
#[derive(Clone, Copy)]
pub struct Way {
    /// The pointer's type.
    pub pointer: u32,
    pub field: Option<u32>,
    /// The place's type.
    pub typ: u32,
    pub offset: u32,
    pub words: u32,
}

impl Types {
    /// Few of each, and many ways from one type to another.
    pub fn small(random: &mut Random) -> Types {
        let records = random.weighted(&[20, 35, 25, 12, 8]);
        let pointers = random.between(1, 7) as usize;
        let variables = match random.percent(6) {
            // Enough to name in as many registers as there can be.
            true => random.between(12, 28) as usize,
            false => random.weighted(&[2, 14, 22, 22, 18, 12, 10]),
        };
        Types::with(random, [records, pointers, variables], 4)
    }

    /// Small records, of which several fit into a block, and variables that
    /// point to them: entries are pointers to int, to the first record, to
    /// such a pointer, and to the second record if there is one.
    pub fn rows(random: &mut Random) -> Types {
        const ROW: u32 = 3;
        let records = random.between(1, 2);
        let mut made = Types {
            pointers: vec![INT, RECORD, ROW],
            variables: vec![ROW, INT],
            ..Types::default()
        };
        made.pointers.extend((1..records).map(|r| RECORD + r));
        let types = made.count();
        for _ in 0..records {
            let fields = fields(random, 3, types, |random| random.between(1, 3));
            made.records.push(fields);
        }
        let more = (0..random.between(1, 5)).map(|_| random.between(1, types - 1));
        made.variables.extend(more);
        made
    }

    /// Records of ints and pointers, of one word or some or thousands, and
    /// variables that point to them. Entries are pointers to int, to the first
    /// record, to each of these pointers, and to the second record if there is
    /// one.
    pub fn copied(random: &mut Random) -> Types {
        const INT_POINTER: u32 = 2;
        const ROW: u32 = 3;
        let records = random.between(1, 2);
        let mut made = Types {
            pointers: vec![INT, RECORD, INT_POINTER, ROW],
            variables: vec![ROW, INT],
            ..Types::default()
        };
        made.pointers.extend((1..records).map(|r| RECORD + r));
        let types = made.count();
        for _ in 0..records {
            let fields = match random.weighted(&[10, 82, 8]) {
                0 => fields(random, 1, types, |_| 1),
                1 => fields(random, 4, types, |random| random.between(1, 3)),
                _ => fields(random, 3, types, |random| random.pick(&[100, 1_000, 4_096])),
            };
            made.records.push(fields);
        }
        let more = (0..random.between(1, 4)).map(|_| random.between(1, types - 1));
        made.variables.extend(more);
        made
    }

    /// The same with more ints to keep bounds in.
    pub fn carrying(random: &mut Random) -> Types {
        let mut made = Types::copied(random);
        made.variables.extend([INT, INT]);
        made
    }

    /// As many as the limits allow, or nearly.
    pub fn large(random: &mut Random) -> Types {
        let mut near = |limit: u32| match random.below(3) {
            0 => limit as usize,
            _ => random.between(limit / 2, limit) as usize,
        };
        let counts = [near(32), near(64), near(64)];
        let fields = (128 / counts[0].max(1)) as u32;
        Types::with(random, counts, fields.max(1))
    }

    /// As many as the limits allow, with an int to assign to.
    pub fn full(random: &mut Random) -> Types {
        let mut made = Types::with(random, [32, 64, 64], 4);
        for fields in &mut made.records {
            fields.resize(4, [INT, 1]);
        }
        made.variables[0] = INT;
        made
    }

    fn with(random: &mut Random, counts: [usize; 3], most_fields: u32) -> Types {
        let [records, pointers, variables] = counts;
        let types = 2 + pointers as u32;
        let mut made = Types::default();
        for _ in 0..records {
            let fields = fields(random, most_fields, types, words);
            made.records.push(fields);
        }
        made.pointers = targets(random, pointers, records as u32);
        made.variables = (0..variables).map(|_| any_type(random, types)).collect();
        made
    }

    /// How many types there are.
    pub fn count(&self) -> u32 {
        2 + self.pointers.len() as u32
    }

    /// What a pointer type points to; int and pointer to void have nothing.
    pub fn target(&self, typ: u32) -> Option<u32> {
        let entry = typ.checked_sub(2)?;
        self.pointers.get(entry as usize).copied()
    }

    /// The type of pointers to `target`.
    pub fn pointer_to(&self, target: u32) -> Option<u32> {
        let entry = self.pointers.iter().position(|&t| t == target)?;
        Some(2 + entry as u32)
    }

    /// The record that a pointer type points to.
    pub fn record(&self, typ: u32) -> Option<usize> {
        let record = self.target(typ)?.checked_sub(RECORD)?;
        Some(record as usize)
    }

    /// How many words a record has.
    pub fn size(&self, record: usize) -> u32 {
        self.records[record].iter().map(|&[_, words]| words).sum()
    }

    /// The offset of a field of a record.
    pub fn offset(&self, record: usize, b: usize) -> u32 {
        let before = &self.records[record][..b];
        before.iter().map(|&[_, words]| words).sum()
    }

    /// How many words each 1 added to a value of this type moves it by.
    pub fn step(&self, typ: u32) -> u32 {
        self.record(typ).map_or(1, |record| self.size(record))
    }

    /// Variables of a type.
    pub fn variables_of(&self, typ: u32) -> Vec<u32> {
        let numbers = 0..self.variables.len() as u32;
        numbers
            .filter(|&n| self.variables[n as usize] == typ)
            .collect()
    }

    /// All ways from pointers to places.
    pub fn ways(&self) -> Vec<Way> {
        let mut ways = Vec::new();
        for (pointer, &target) in (2..).zip(&self.pointers) {
            match target.checked_sub(RECORD) {
                Some(record) => ways.extend(self.fields_by(pointer, record as usize)),
                None => ways.push(Way {
                    pointer,
                    field: None,
                    typ: target,
                    offset: 0,
                    words: 1,
                }),
            }
        }
        ways
    }

    /// The ways to a record's fields.
    fn fields_by(&self, pointer: u32, record: usize) -> impl Iterator<Item = Way> + '_ {
        let fields = self.records[record].iter().enumerate();
        fields.map(move |(b, &[typ, words])| Way {
            pointer,
            field: Some(b as u32),
            typ,
            offset: self.offset(record, b),
            words,
        })
    }

    /// Ways to a field of type `typ`: a pointer type and a field number.
    pub fn fields_of(&self, typ: u32) -> Vec<[u32; 2]> {
        let ways = self.ways().into_iter().filter(|way| way.typ == typ);
        let fields = ways.filter_map(|way| Some([way.pointer, way.field?]));
        fields.collect()
    }
}

/// The fields of a record, each of as many words as `words` says.
fn fields(
    random: &mut Random,
    most: u32,
    types: u32,
    words: fn(&mut Random) -> u32,
) -> Vec<[u32; 2]> {
    let count = random.between(1, most);
    let fields = (0..count).map(|_| [any_type(random, types), words(random)]);
    fields.collect()
}

fn any_type(random: &mut Random, types: u32) -> u32 {
    match random.weighted(&[25, 8, 67]) {
        0 => INT,
        1 => VOID_POINTER,
        _ => random.below(types),
    }
}

fn words(random: &mut Random) -> u32 {
    match random.weighted(&[55, 35, 8, 2]) {
        0 => 1,
        1 => random.between(1, 4),
        2 => random.between(1, 20),
        _ => random.pick(&[4_095, 4_096, 100]),
    }
}

/// Different targets: int almost always, records gladly, then other pointers.
fn targets(random: &mut Random, count: usize, records: u32) -> Vec<u32> {
    let types = 2 + count as u32;
    let mut left: Vec<u32> = (0..types).chain((0..records).map(|r| RECORD + r)).collect();
    let mut chosen = Vec::new();
    while chosen.len() < count {
        let at = match random.weighted(&[40, 30, 30]) {
            0 => 0,
            1 => left.len() - 1,
            _ => random.index(left.len()),
        };
        chosen.push(left.remove(at));
    }
    for i in (1..chosen.len()).rev() {
        let other = random.index(i + 1);
        chosen.swap(i, other);
    }
    chosen
}
