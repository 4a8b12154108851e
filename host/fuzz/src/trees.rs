//! The trees of a table as ranges of its bytes, so that one can be put in
//! another's place.

use foq_reference::read_table;
use std::ops::Range;

/// A record with all its children.
#[derive(Clone, Debug)]
pub struct Tree {
    /// Its bytes.
    pub range: Range<usize>,
    /// The kind of the record.
    pub kind: u8,
    /// Where the record's numbers begin, removals among them.
    pub numbers: Vec<usize>,
}

impl Tree {
    /// Whether it is a statement; otherwise it is a condition.
    #[must_use]
    pub fn is_statement(&self) -> bool {
        self.kind < 6
    }

    /// Where the procedure byte of a call stands.
    #[must_use]
    pub fn procedure(&self) -> Option<usize> {
        (self.kind == 5).then(|| self.range.end - 1)
    }
}

/// Every tree of a table, a tree before its children; none where the table is
/// not read.
#[must_use]
pub fn trees(table: &[u8]) -> Vec<Tree> {
    let mut trees = Vec::new();
    if read_table(table).is_ok() {
        let mut at = 2;
        while at < table.len() {
            at = add_trees(table, at, &mut trees);
        }
    }
    trees
}

/// Adds the tree that begins here, and gives the place behind it.
fn add_trees(table: &[u8], start: usize, trees: &mut Vec<Tree>) -> usize {
    let (map, kind) = (table[start], table[start + 1]);
    let mut at = start + 2;
    let mut count = 0;
    if map & 1 != 0 {
        count += usize::from(table[at]);
        at += 1;
    }
    count += (map & 6).count_ones() as usize;
    let numbers = (0..count).map(|number| at + 3 * number).collect();
    at += 3 * count + usize::from(map & 8 != 0);
    let place = trees.len();
    trees.push(Tree {
        range: start..at,
        kind,
        numbers,
    });
    let children = match kind {
        2 | 4 | 9 | 10 => 2,
        3 => 3,
        11 => 1,
        _ => 0,
    };
    for _ in 0..children {
        at = add_trees(table, at, trees);
    }
    trees[place].range.end = at;
    at
}

/// The bytes with others in the place of a range.
#[must_use]
pub fn replaced(bytes: &[u8], range: &Range<usize>, with: &[u8]) -> Vec<u8> {
    [&bytes[..range.start], with, &bytes[range.end..]].concat()
}
