//! Cases as they were before request 2: pointers to records step by words.

use crate::plain::Table;
use second::text::Case;

/// The most nodes of a table.
const MAX_NODES: usize = 512;

/// The line of the case with each step by records taken by way of a pointer to
/// void, which goes word by word. None where that makes too many nodes.
pub fn by_words(case: &Case) -> Option<Vec<u8>> {
    let mut changed = case.clone();
    if let Ok(table) = Table::check(&case.table) {
        changed.table = words(&table)?;
    }
    let mut line = Vec::new();
    changed.write(&mut line);
    line.pop();
    Some(line)
}

/// The words of the changed table.
fn words(table: &Table) -> Option<Vec<u32>> {
    let (nodes, new) = nodes(table);
    if nodes.len() > MAX_NODES {
        return None;
    }
    let declarations = table.place(4, 0, 0) - 1;
    let commands = &table.words[table.place(5, 0, 0)..];
    let mut words = table.words[..declarations].to_vec();
    words.push(nodes.len() as u32);
    words.extend(nodes.as_flattened());
    words.push(table.counts[5] as u32);
    words.extend(commands.iter().map(|&node| new[node as usize]));
    Some(words)
}

/// The nodes with two casts for each sum of a pointer to a record, and for
/// each old node its new number.
fn nodes(table: &Table) -> (Vec<[u32; 3]>, Vec<u32>) {
    let mut nodes = Vec::new();
    let mut numbers: Vec<u32> = Vec::new();
    for (i, &(_, typ)) in table.nodes.iter().enumerate() {
        let [kind, a, b] = table.node(i);
        let new = |child: u32| numbers[child as usize];
        match kind {
            1 | 4 | 9 => nodes.push([kind, a, b]),
            5 if table.step(typ) > 1 => {
                let at = nodes.len() as u32;
                nodes.extend([[8, new(a), 1], [5, at, new(b)], [8, at + 1, typ]]);
            }
            5 | 11 => nodes.push([kind, new(a), new(b)]),
            _ => nodes.push([kind, new(a), b]),
        }
        numbers.push(nodes.len() as u32 - 1);
    }
    (nodes, numbers)
}
