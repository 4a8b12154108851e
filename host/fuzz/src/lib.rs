//! A long random comparison of the product with the second interpreter, not
//! part of the gate.
//!
//! Inputs are made out of nothing by `foq_generator`, or out of old inputs by a
//! change. Those that reach a class of answers which was not seen before (its
//! numbers, the size of the circuit, its ancillas and swaps, bodies of one list
//! length) are kept to be changed further. One seed always gives the same row of
//! inputs.

pub mod input;
pub mod operations;
pub mod trees;

mod comparison;
mod corpus;
mod invention;
mod shrinking;

use comparison::{compare, compare_listing, Class, Difference};
use corpus::Corpus;
use foq_generator::Random;
use foq_reference::refusal;
use input::Input;
use operations::Operations;

/// What was tried.
#[derive(Clone, Debug, Default)]
pub struct Tried {
    /// Tables.
    pub tables: u64,
    /// Tables that are accepted: each has an inverse.
    pub inverted: u64,
    /// Tables that gave a circuit.
    pub compiled: u64,
    /// Those of them with two procedures at one list length.
    pub meeting: u64,
    /// Those of these whose bodies do not go in the order called.
    pub reordered: u64,
    /// Circuits.
    pub circuits: u64,
    /// Circuits that are well formed, those of tables too: each has a listing
    /// and a page.
    pub drawn: u64,
    /// Tables that the listing program listed too.
    pub listed: u64,
    /// Classes of answers, of which each has an input that is kept.
    pub classes: usize,
}

impl Tried {
    /// Counts an input of this class.
    fn count(&mut self, class: Class) {
        if class.is_table {
            self.tables += 1;
            self.inverted += u64::from(class.inverse == 0);
            self.compiled += u64::from(class.compile == 0);
            self.meeting += u64::from(class.meets);
            self.reordered += u64::from(class.reordered);
            self.drawn += u64::from(class.compile == 0);
        } else {
            self.circuits += 1;
            self.drawn += u64::from(class.run != refusal::CIRCUIT);
        }
    }
}

/// An input on which the two sides differ, made as small as it went.
#[derive(Debug)]
pub struct Mismatch {
    /// The input.
    pub input: Input,
    /// What differs, in words.
    pub difference: String,
}

/// Compares inputs for as long as this says to go on, or up to a mismatch.
pub fn fuzz(
    product: &impl Operations,
    seed: u64,
    goes_on: impl FnMut(&Tried) -> bool,
) -> (Tried, Option<Mismatch>) {
    let mut tried = Tried::default();
    let searched = search(product, seed, goes_on, &mut tried);
    (tried, searched.err())
}

/// Counts the inputs that are compared.
fn search(
    product: &impl Operations,
    seed: u64,
    mut goes_on: impl FnMut(&Tried) -> bool,
    tried: &mut Tried,
) -> Result<(), Mismatch> {
    let mut random = Random::from_seed(seed);
    let mut corpus = Corpus::default();
    while goes_on(tried) {
        let input = corpus.next(&mut random);
        let differs = |input: &Input| compare(product, input).err();
        let class = compare(product, &input).map_err(|_| smallest(input.clone(), differs))?;
        tried.count(class);
        if corpus.keep(&input, class) {
            tried.classes += 1;
            tried.listed += u64::from(list(product, input)?);
        }
    }
    Ok(())
}

/// The smallest input that differs, starting from this one. It may differ
/// elsewhere than at first.
fn smallest(input: Input, differs: impl Fn(&Input) -> Option<Difference>) -> Mismatch {
    let input = shrinking::shrunk(input, |input| differs(input).is_some());
    let difference = differs(&input).unwrap_or_default();
    Mismatch { input, difference }
}

/// Lists a table, where there is a listing program; says whether it does. That
/// takes a process for each, so only tables that are kept come here.
fn list(product: &impl Operations, input: Input) -> Result<bool, Mismatch> {
    let list = |input: &Input| match input {
        Input::Table(table) => compare_listing(product, table),
        Input::Circuit(_) => Ok(false),
    };
    list(&input).map_err(|_| smallest(input, |input| list(input).err()))
}
