//! Damage to bytes, of tables and circuits alike.

use crate::Random;

/// Every proper beginning of the bytes, the shortest first.
pub fn truncations(bytes: &[u8]) -> impl Iterator<Item = Vec<u8>> + '_ {
    (0..bytes.len()).map(|length| bytes[..length].to_vec())
}

/// The bytes with one of them changed, for every place and every other value.
pub fn single_changes(bytes: &[u8]) -> impl Iterator<Item = Vec<u8>> + '_ {
    (0..bytes.len()).flat_map(move |place| {
        (1..=255).map(move |change: u8| {
            let mut changed = bytes.to_vec();
            changed[place] ^= change;
            changed
        })
    })
}

/// The bytes after one to three random blows: mostly a byte changed, else one
/// put in or taken out, the end cut off, or a piece written twice.
pub fn damaged(random: &mut Random, bytes: &[u8]) -> Vec<u8> {
    let mut damaged = bytes.to_vec();
    let blows = random.pick(&[1, 1, 1, 2, 3]).unwrap_or(1);
    for _ in 0..blows {
        blow(random, &mut damaged);
    }
    damaged
}

/// One blow; bytes that are empty are left as they are or get a byte.
fn blow(random: &mut Random, bytes: &mut Vec<u8>) {
    let place = random.below(bytes.len());
    let byte = telling_byte(random);
    match random.below(10) {
        0 => bytes.insert(place, byte),
        1 if !bytes.is_empty() => {
            bytes.remove(place);
        }
        2 => bytes.truncate(place),
        3 => {
            let end = (place + random.below(12)).min(bytes.len());
            let piece = bytes[place..end].to_vec();
            bytes.splice(place..place, piece);
        }
        _ => {
            if let Some(changed) = bytes.get_mut(place) {
                *changed = byte;
            }
        }
    }
}

/// A byte: mostly small, since small bytes are maps, kinds and counts.
fn telling_byte(random: &mut Random) -> u8 {
    let byte = random.byte();
    match random.below(4) {
        0 => byte,
        _ => byte % 16,
    }
}
