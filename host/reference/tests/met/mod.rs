//! The classes that random inputs are meant to reach, counted so that no test
//! can run empty.

use std::collections::BTreeMap;

/// How often each class was met.
pub type Counts = BTreeMap<&'static str, usize>;

/// Adds the classes that one input shows.
pub fn add(counts: &mut Counts, shown: impl IntoIterator<Item = &'static str>) {
    for class in shown {
        *counts.entry(class).or_default() += 1;
    }
}

/// Asserts that each class was met at least so often.
pub fn assert_met(counts: &Counts, least: &[(&str, usize)]) {
    println!("{counts:#?}");
    for (class, least) in least {
        let count = counts.get(class).copied().unwrap_or(0);
        assert!(count >= *least, "{class}: {count} of {least}");
    }
}
