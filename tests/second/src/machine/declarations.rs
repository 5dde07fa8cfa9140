//! Sections 1 to 4: records, fields, pointers and variables.

use super::layout::{Layout, MAX_FIELDS, MAX_POINTERS, MAX_RECORDS};
use super::{Refusal, RECORD};

/// Int, pointer to void, and one type for each pointer entry.
const MAX_TYPES: usize = 2 + MAX_POINTERS;
/// In `Declarations::target`: this and more is a record; the last is nothing.
const RECORD_MARK: u8 = 128;
const NOTHING: u8 = 255;
/// The most words a field has.
const MAX_WORDS: u32 = 4_096;

/// What sections 1 to 4 say, ready to be looked up.
pub struct Declarations {
    types: u32,
    /// Type to what it points to: a type, or RECORD_MARK + record. Int and
    /// pointer to void point to nothing, and their entries never change.
    target: [u8; MAX_TYPES],
    /// Type to the type that points to it, or 0, which never does.
    pointer_to: [u8; MAX_TYPES],
    /// Type to how many words each 1 added to it moves by. Those of int and
    /// pointer to void never change either.
    step: [u32; MAX_TYPES],
    first_field: [u8; MAX_RECORDS],
    record_size: [u32; MAX_RECORDS],
    /// Field to its offset in its record.
    offset: [u32; MAX_FIELDS],
}

impl Declarations {
    pub const fn new() -> Declarations {
        Declarations {
            types: 0,
            target: [NOTHING; MAX_TYPES],
            pointer_to: [0; MAX_TYPES],
            step: [1; MAX_TYPES],
            first_field: [0; MAX_RECORDS],
            record_size: [0; MAX_RECORDS],
            offset: [0; MAX_FIELDS],
        }
    }

    /// "the contents word by word in table order"
    #[inline(always)]
    pub fn check(&mut self, layout: &Layout) -> Result<(), Refusal> {
        // Pointer entries are known by their number even before section 3.
        self.types = 2 + layout.pointers.len() as u32;
        records(layout)?;
        self.fields(layout)?;
        self.pointers(layout)?;
        self.variables(layout)
    }

    fn fields(&mut self, layout: &Layout) -> Result<(), Refusal> {
        let mut fields = layout.fields.iter().enumerate();
        let mut first = 0;
        for (record, &count) in layout.records.iter().enumerate() {
            let mut offset = 0;
            for (field, &[typ, words]) in fields.by_ref().take(count as usize) {
                let place = layout.fields_at() + 1 + 2 * field;
                if typ >= self.types {
                    return Err(Refusal::new(5, place));
                }
                if !(1..=MAX_WORDS).contains(&words) {
                    return Err(Refusal::new(4, place + 1));
                }
                self.offset[field] = offset;
                offset += words;
            }
            self.record_size[record] = offset;
            self.first_field[record] = first;
            first += count as u8;
        }
        Ok(())
    }

    fn pointers(&mut self, layout: &Layout) -> Result<(), Refusal> {
        self.pointer_to = [0; MAX_TYPES];
        let mut records_seen = 0u32;
        for (i, &target) in layout.pointers.iter().enumerate() {
            let place = layout.pointers_at() + 1 + i;
            if target < self.types {
                if self.pointer_to[target as usize] != 0 {
                    return Err(Refusal::new(6, place));
                }
                self.pointer_to[target as usize] = 2 + i as u8;
                self.target[2 + i] = target as u8;
                self.step[2 + i] = 1;
                continue;
            }
            let record = target.wrapping_sub(RECORD);
            if record as usize >= layout.records.len() {
                return Err(Refusal::new(5, place));
            }
            if records_seen & (1 << record) != 0 {
                return Err(Refusal::new(6, place));
            }
            records_seen |= 1 << record;
            self.target[2 + i] = RECORD_MARK + record as u8;
            self.step[2 + i] = self.record_size[record as usize];
        }
        Ok(())
    }

    fn variables(&self, layout: &Layout) -> Result<(), Refusal> {
        for (i, &typ) in layout.variables.iter().enumerate() {
            if typ >= self.types {
                return Err(Refusal::new(5, layout.variables_at() + 1 + i));
            }
        }
        Ok(())
    }

    /// Whether there is such a type.
    #[inline(always)]
    pub fn known(&self, typ: u32) -> bool {
        typ < self.types
    }

    /// The type that `pointer` points to, where it points to one.
    #[inline(always)]
    pub fn target_type(&self, pointer: u8) -> Option<u8> {
        let target = self.target[pointer as usize];
        (target < RECORD_MARK).then_some(target)
    }

    /// The type that points to `typ`, where there is one.
    #[inline(always)]
    pub fn pointer_to(&self, typ: u8) -> Option<u8> {
        let pointer = self.pointer_to[typ as usize];
        (pointer != 0).then_some(pointer)
    }

    /// Whether a type is that of pointers to a record.
    #[inline(always)]
    pub fn points_to_record(&self, typ: u8) -> bool {
        (RECORD_MARK..NOTHING).contains(&self.target[typ as usize])
    }

    /// How many words each 1 added to a value of this type moves it by. Of a
    /// pointer to a record, that is the record's size.
    #[inline(always)]
    pub fn step(&self, typ: u8) -> u32 {
        self.step[typ as usize]
    }

    /// The field with number `b` of the record that `pointer` points to, as
    /// its number in section 2.
    #[inline(always)]
    pub fn field(&self, layout: &Layout, pointer: u8, b: u32) -> Option<usize> {
        let record = self.target[pointer as usize].wrapping_sub(RECORD_MARK);
        let fields = *layout.records.get(record as usize)?;
        (b < fields).then(|| self.first_field[record as usize] as usize + b as usize)
    }

    /// The offset of a field in its record.
    #[inline(always)]
    pub fn offset(&self, field: usize) -> u32 {
        self.offset[field]
    }

    /// The size of a type or of 65,536 + record, where there is such a one.
    #[inline(always)]
    pub fn size(&self, layout: &Layout, target: u32) -> Option<u32> {
        if self.known(target) {
            return Some(1); // "Every type is one word in size"
        }
        let record = target.wrapping_sub(RECORD) as usize;
        (record < layout.records.len()).then(|| self.record_size[record])
    }
}

/// "a wrong sum of fields is placed at section 2's count, after all records'
/// own words". The sum is exact, however large the words are.
fn records(layout: &Layout) -> Result<(), Refusal> {
    let mut sum = 0u64;
    for (i, &fields) in layout.records.iter().enumerate() {
        if fields == 0 {
            return Err(Refusal::new(4, layout.records_at() + 1 + i));
        }
        sum += u64::from(fields);
    }
    if sum != layout.fields.len() as u64 {
        return Err(Refusal::new(4, layout.fields_at()));
    }
    Ok(())
}
