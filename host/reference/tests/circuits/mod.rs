//! Random circuits, some of them damaged, and the classes that they show.

use crate::met::{add, Counts};
use foq_generator::circuits::{circuit, crowded_circuit, sizes};
use foq_generator::damage::damaged;
use foq_generator::Random;

/// Mostly a circuit of a few gates, now and then one of `many`, or one whose
/// gates name every wire.
fn random_circuit(random: &mut Random, many: usize) -> Vec<u8> {
    let (n, ancillas) = sizes(random);
    match random.below(8) {
        0 => {
            let gates = random.below(25);
            crowded_circuit(random, n, ancillas, gates)
        }
        1 => circuit(random, n, ancillas, many),
        _ => {
            let gates = random.below(58);
            circuit(random, n, ancillas, gates)
        }
    }
}

/// Checks so many circuits, every third of them damaged, and counts the classes
/// that the check gives.
pub fn check_random(
    seed: u64,
    count: usize,
    many: usize,
    check: fn(&[u8]) -> Vec<&'static str>,
) -> Counts {
    let mut random = Random::from_seed(seed);
    let mut counts = Counts::new();
    for turn in 0..count {
        let mut input = random_circuit(&mut random, many);
        if turn % 3 == 0 {
            input = damaged(&mut random, &input);
        }
        add(&mut counts, check(&input));
    }
    counts
}
