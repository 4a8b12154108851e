//! Counts of the inputs of each class that a test is meant to reach.

// Each test uses a part of this.
#![allow(dead_code)]

use std::collections::BTreeMap;
use std::fmt::Debug;
use std::thread;

/// How many inputs show each class.
pub type Counts<Class = &'static str> = BTreeMap<Class, usize>;

/// Counts an input where it shows the class.
pub fn count<Class: Ord>(counts: &mut Counts<Class>, class: Class, shown: bool) {
    *counts.entry(class).or_default() += usize::from(shown);
}

/// Adds the counts of other inputs.
pub fn add<Class: Ord>(counts: &mut Counts<Class>, others: Counts<Class>) {
    for (class, inputs) in others {
        *counts.entry(class).or_default() += inputs;
    }
}

/// Asserts that each class has at least so many inputs.
pub fn assert_reached<Class: Ord + Debug>(counts: &Counts<Class>, least: &[(Class, usize)]) {
    println!("{counts:#?}");
    for (class, least) in least {
        let count = counts.get(class).copied().unwrap_or(0);
        assert!(count >= *least, "{class:?}: {count} of {least}");
    }
}

/// What two threads see, each from a seed of its own.
pub fn halves<Seen: Send>(seeds: [u64; 2], see: impl Fn(u64) -> Seen + Sync) -> [Seen; 2] {
    let see = &see;
    thread::scope(|scope| {
        seeds
            .map(|seed| scope.spawn(move || see(seed)))
            .map(|half| half.join().unwrap())
    })
}
