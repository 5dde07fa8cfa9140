//! Sections 5 and 6: nodes and commands.

use super::declarations::Declarations;
use super::layout::{Layout, MAX_NODES};
use super::{kind, Refusal, INT, VOID_POINTER};

/// Added to the type of a node that is a place. Types are far smaller.
pub const PLACE: u8 = 128;

/// A fault in a node or command: the refusal's number, and which of its words
/// is at fault.
struct Fault(u32, usize);

struct Check<'c, 't> {
    layout: &'c Layout<'t>,
    declarations: &'c Declarations,
    notes: &'c mut [u8; MAX_NODES],
    used: &'c mut [u8; MAX_NODES],
    /// How many uses there are in all.
    uses: usize,
}

/// The nodes, then the commands, then refusal 9.
#[inline(always)]
pub fn nodes_and_commands(
    layout: &Layout,
    declarations: &Declarations,
    notes: &mut [u8; MAX_NODES],
    used: &mut [u8; MAX_NODES],
) -> Result<(), Refusal> {
    used[..layout.nodes.len()].fill(0);
    let mut check = Check {
        layout,
        declarations,
        notes,
        used,
        uses: 0,
    };
    check.nodes()?;
    check.commands()?;
    check.each_used_once()
}

impl Check<'_, '_> {
    #[inline(always)]
    fn nodes(&mut self) -> Result<(), Refusal> {
        let nodes = self.layout.nodes;
        // Said once and with the loop over numbers, this spares a test of the
        // bounds of `notes` and `used` at each child.
        assert!(nodes.len() <= MAX_NODES);
        #[allow(clippy::needless_range_loop)]
        for i in 0..nodes.len() {
            match self.node(i, nodes[i]) {
                Ok(note) => self.notes[i] = note,
                Err(Fault(number, word)) => {
                    let place = self.layout.nodes_at() + 1 + 3 * i + word;
                    return Err(Refusal::new(number, place));
                }
            }
        }
        Ok(())
    }

    /// The note of node `i`. "In a node kind, a, b (7 or 5), then 8".
    #[inline(always)]
    fn node(&mut self, i: usize, [kind, a, b]: [u32; 3]) -> Result<u8, Fault> {
        match kind {
            kind::VARIABLE => self.variable(a, b),
            kind::DEREF => self.deref(i, a, b),
            kind::FIELD => self.field(i, a, b),
            kind::CONSTANT => unused(b).map(|()| INT),
            kind::SUM => self.sum(i, a, b),
            kind::READ => self.read(i, a, b),
            kind::ADDRESS => self.address(i, a, b),
            kind::CAST => self.cast(i, a, b),
            kind::SIZE => self.size(a, b),
            kind::MALLOC => self.malloc(i, a, b),
            kind::COPY => self.copy(i, a, b),
            _ => Err(Fault(7, 0)),
        }
    }

    #[inline(always)]
    fn variable(&self, a: u32, b: u32) -> Result<u8, Fault> {
        let variables = self.layout.variables;
        let &typ = variables.get(a as usize).ok_or(Fault(7, 1))?;
        unused(b)?;
        Ok(PLACE | typ as u8)
    }

    #[inline(always)]
    fn deref(&mut self, i: usize, a: u32, b: u32) -> Result<u8, Fault> {
        let pointer = self.value(i, a, 1)?;
        unused(b)?;
        let target = self.declarations.target_type(pointer);
        Ok(PLACE | target.ok_or(Fault(8, 0))?)
    }

    /// A b that is too large is "no such field in the record", an 8: it takes
    /// the type of a to tell.
    #[inline(always)]
    fn field(&mut self, i: usize, a: u32, b: u32) -> Result<u8, Fault> {
        let pointer = self.value(i, a, 1)?;
        let field = self.declarations.field(self.layout, pointer, b);
        let [typ, _] = self.layout.fields[field.ok_or(Fault(8, 0))?];
        Ok(PLACE | typ as u8)
    }

    #[inline(always)]
    fn sum(&mut self, i: usize, a: u32, b: u32) -> Result<u8, Fault> {
        let left = self.value(i, a, 1)?;
        let right = self.value(i, b, 2)?;
        fit(right == INT)?;
        Ok(left)
    }

    #[inline(always)]
    fn read(&mut self, i: usize, a: u32, b: u32) -> Result<u8, Fault> {
        let typ = self.place(i, a, 1)?;
        unused(b)?;
        Ok(typ)
    }

    #[inline(always)]
    fn address(&mut self, i: usize, a: u32, b: u32) -> Result<u8, Fault> {
        let typ = self.place(i, a, 1)?;
        unused(b)?;
        self.declarations.pointer_to(typ).ok_or(Fault(8, 0))
    }

    #[inline(always)]
    fn cast(&mut self, i: usize, a: u32, b: u32) -> Result<u8, Fault> {
        self.value(i, a, 1)?;
        if !self.declarations.known(b) {
            return Err(Fault(5, 2));
        }
        Ok(b as u8)
    }

    #[inline(always)]
    fn size(&self, a: u32, b: u32) -> Result<u8, Fault> {
        self.declarations.size(self.layout, a).ok_or(Fault(5, 1))?;
        unused(b)?;
        Ok(INT)
    }

    #[inline(always)]
    fn malloc(&mut self, i: usize, a: u32, b: u32) -> Result<u8, Fault> {
        let words = self.value(i, a, 1)?;
        unused(b)?;
        fit(words == INT)?;
        Ok(VOID_POINTER)
    }

    /// Two pointers of one type, which points to a record. Apart, so that the
    /// other kinds keep a short way through `node`.
    #[inline(never)]
    fn copy(&mut self, i: usize, a: u32, b: u32) -> Result<u8, Fault> {
        let to = self.value(i, a, 1)?;
        let from = self.value(i, b, 2)?;
        fit(to == from && self.declarations.points_to_record(to))?;
        Ok(INT)
    }

    /// The type of a child that has to be a value with a number below `i`.
    #[inline(always)]
    fn value(&mut self, i: usize, child: u32, word: usize) -> Result<u8, Fault> {
        let child = child as usize;
        if child < i && self.notes[child] < PLACE {
            self.used[child] = 1;
            self.uses += 1;
            Ok(self.notes[child])
        } else {
            Err(Fault(7, word))
        }
    }

    /// The type of a child that has to be a place with a number below `i`.
    #[inline(always)]
    fn place(&mut self, i: usize, child: u32, word: usize) -> Result<u8, Fault> {
        let child = child as usize;
        if child < i && self.notes[child] >= PLACE {
            self.used[child] = 1;
            self.uses += 1;
            Ok(self.notes[child] - PLACE)
        } else {
            Err(Fault(7, word))
        }
    }

    #[inline(always)]
    fn commands(&mut self) -> Result<(), Refusal> {
        for (i, &[place, value]) in self.layout.commands.iter().enumerate() {
            if let Err(Fault(number, word)) = self.command(place, value) {
                let place = self.layout.commands_at() + 1 + 2 * i + word;
                return Err(Refusal::new(number, place));
            }
        }
        Ok(())
    }

    /// "in a command its two words (7), then 8"
    #[inline(always)]
    fn command(&mut self, place: u32, value: u32) -> Result<(), Fault> {
        let nodes = self.layout.nodes.len();
        let left = self.place(nodes, place, 0)?;
        let right = self.value(nodes, value, 1)?;
        fit(left == right)
    }

    /// As many uses as nodes, and none of the nodes unused: then none is used
    /// twice either.
    #[inline(always)]
    fn each_used_once(&self) -> Result<(), Refusal> {
        let nodes = self.layout.nodes.len();
        let used: usize = self.used[..nodes].iter().map(|&u| u as usize).sum();
        if used == nodes && self.uses == nodes {
            Ok(())
        } else {
            Err(self.lowest_misused())
        }
    }

    /// Refusal 9, with the uses counted anew: the fast way above only tells
    /// that there is such a node.
    #[cold]
    fn lowest_misused(&self) -> Refusal {
        let mut counts = [0u32; MAX_NODES];
        for &[kind, a, b] in self.layout.nodes {
            if !matches!(kind, kind::VARIABLE | kind::CONSTANT | kind::SIZE) {
                counts[a as usize] += 1;
            }
            if matches!(kind, kind::SUM | kind::COPY) {
                counts[b as usize] += 1;
            }
        }
        for &child in self.layout.commands.as_flattened() {
            counts[child as usize] += 1;
        }
        let node = counts.iter().take_while(|&&count| count == 1).count();
        Refusal::new(9, self.layout.nodes_at() + 1 + 3 * node)
    }
}

#[inline(always)]
fn unused(b: u32) -> Result<(), Fault> {
    if b == 0 {
        Ok(())
    } else {
        Err(Fault(7, 2))
    }
}

#[inline(always)]
fn fit(types_fit: bool) -> Result<(), Fault> {
    if types_fit {
        Ok(())
    } else {
        Err(Fault(8, 0))
    }
}
