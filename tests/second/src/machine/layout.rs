//! Where the six sections of a table lie.

use super::Refusal;

pub const MAX_RECORDS: usize = 32;
pub const MAX_FIELDS: usize = 128;
pub const MAX_POINTERS: usize = 64;
pub const MAX_VARIABLES: usize = 64;
pub const MAX_NODES: usize = 512;
pub const MAX_COMMANDS: usize = 256;

/// The first word of a table of edition 2; the edition follows it.
const MARK: u32 = u32::MAX;
const EDITION: u32 = 2;

/// The words of each section, without its count.
pub struct Layout<'t> {
    /// Whether the table is of edition 2: the sections come after the mark and
    /// its edition.
    pub marked: bool,
    pub records: &'t [u32],
    /// A type and a count of words each.
    pub fields: &'t [[u32; 2]],
    pub pointers: &'t [u32],
    pub variables: &'t [u32],
    /// Kind, a, b.
    pub nodes: &'t [[u32; 3]],
    /// A place and a value each.
    pub commands: &'t [[u32; 2]],
}

impl<'t> Layout<'t> {
    /// "The sections in turn, each its count (1, then 3) and then its extent
    /// (1); then 2": nothing of the contents is looked at before all of this.
    pub fn of(table: &'t [u32]) -> Result<Layout<'t>, Refusal> {
        let marked = marked(table)?;
        let at = sections_at(marked);
        let mut rest = Rest { table, at };
        let layout = Layout {
            marked,
            records: rest.section::<1>(MAX_RECORDS)?.as_flattened(),
            fields: rest.section::<2>(MAX_FIELDS)?,
            pointers: rest.section::<1>(MAX_POINTERS)?.as_flattened(),
            variables: rest.section::<1>(MAX_VARIABLES)?.as_flattened(),
            nodes: rest.section::<3>(MAX_NODES)?,
            commands: rest.section::<2>(MAX_COMMANDS)?,
        };
        if rest.at < table.len() {
            return Err(Refusal::new(2, rest.at));
        }
        Ok(layout)
    }

    // Places of the sections' counts. Only a refusal needs them, so they are
    // told from the lengths then and kept nowhere.

    pub fn records_at(&self) -> usize {
        sections_at(self.marked)
    }

    pub fn fields_at(&self) -> usize {
        self.records_at() + 1 + self.records.len()
    }

    pub fn pointers_at(&self) -> usize {
        self.fields_at() + 1 + 2 * self.fields.len()
    }

    pub fn variables_at(&self) -> usize {
        self.pointers_at() + 1 + self.pointers.len()
    }

    pub fn nodes_at(&self) -> usize {
        self.variables_at() + 1 + self.variables.len()
    }

    pub fn commands_at(&self) -> usize {
        self.nodes_at() + 1 + 3 * self.nodes.len()
    }
}

/// "16 when another edition follows the mark, place 1, before all others; 1 at
/// place 1 if the table ends with the mark".
#[inline(always)]
fn marked(table: &[u32]) -> Result<bool, Refusal> {
    match table {
        [MARK] => Err(Refusal::new(1, 1)),
        [MARK, EDITION, ..] => Ok(true),
        [MARK, ..] => Err(Refusal::new(16, 1)),
        _ => Ok(false),
    }
}

/// "Places count the mark and the 2".
fn sections_at(marked: bool) -> usize {
    match marked {
        true => 2,
        false => 0,
    }
}

/// The table and how much of it is divided already.
struct Rest<'t> {
    table: &'t [u32],
    at: usize,
}

impl<'t> Rest<'t> {
    /// The next section, of entries of `W` words each.
    #[inline(always)]
    fn section<const W: usize>(&mut self, maximum: usize) -> Result<&'t [[u32; W]], Refusal> {
        // "For a cut table the place is its length."
        let length = self.table.len();
        let Some(&count) = self.table.get(self.at) else {
            return Err(Refusal::new(1, length));
        };
        if count as usize > maximum {
            return Err(Refusal::new(3, self.at));
        }
        let first = self.at + 1;
        let end = first + W * count as usize;
        let Some(words) = self.table.get(first..end) else {
            return Err(Refusal::new(1, length));
        };
        self.at = end;
        Ok(words.as_chunks::<W>().0)
    }
}
