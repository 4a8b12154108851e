//! What kinds of calls an emission comes through.

use crate::counts::{count, Counts};
use foq_reference::Tally;

/// Counts the classes of the calls of an emission.
pub fn count_steps(tally: &Tally, counts: &mut Counts) {
    let nested = tally.nested_left + tally.nested_right;
    count(counts, "calls", tally.chains > 0);
    count(counts, "mutual recursion", tally.mutual > 0);
    count(counts, "bodies of one length", tally.most_of_one_length > 1);
    count(counts, "not in the order called", tally.reordered > 0);
    count(counts, "branches that meet", tally.entries > 0);
    count(counts, "swaps", tally.swaps > 0);
    count(counts, "calls inside calls", nested > 0);
}
